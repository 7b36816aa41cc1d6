#!/usr/bin/env python3
"""Writes crates/packing_main/stdin and stdout: batches, and what packing and unpacking them must give.

It is made from docs/SCOPE.md's layout alone, bit by bit, and runs none of our code: byte n of a block is row n mod 4,
column n div 4; bit p of the byte at row r, column c, slot b is bit (row width)*r + (quarter row)*c + b of word p.
"""
import hashlib, os

ROW = {32: 8, 64: 16}  # row width; a quarter row is a fourth of it


def places(bits):
    """(byte of the batch, bit of the byte, word, bit of the word), for each bit of a batch."""
    row = ROW[bits]
    for b in range(bits // 16):
        for n in range(16):
            r, c = n % 4, n // 4
            for p in range(8):
                yield 16 * b + n, p, p, row * r + row // 4 * c + b


def pack(bits, batch):
    words = [0] * 8
    for byte, p, word, bit in places(bits):
        words[word] |= (batch[byte] >> p & 1) << bit
    return words


def unpack(bits, words):
    batch = bytearray(bits)
    for byte, p, word, bit in places(bits):
        batch[byte] |= (words[word] >> bit & 1) << p
    return bytes(batch)


def one_byte(bits, block, n, value):
    return bytes(value if i == 16 * block + n else 0 for i in range(bits))


# name, word width, batch: the cases P1 to P4 of docs/SCOPE.md with the one word that they give, a counting batch, a mixed one
CASES = [
    ("P1", 32, one_byte(32, 0, 0, 0x01), (0, 0x00000001)),
    ("P2", 32, one_byte(32, 1, 15, 0x80), (7, 0x80000000)),
    ("count32", 32, bytes(range(32)), None),
    ("mixed32", 32, hashlib.sha256(b"batch").digest(), None),
    ("P3", 64, one_byte(64, 2, 6, 0x04), (2, 0x0000004000000000)),
    ("P4", 64, one_byte(64, 3, 15, 0x80), (7, 0x8000000000000000)),
    ("count64", 64, bytes(range(64)), None),
    ("mixed64", 64, hashlib.sha512(b"batch").digest(), None),
]


def main():
    given, expected = [], []
    for name, bits, batch, told in CASES:
        digits = bits // 4
        spelled = lambda words: " ".join(f"{word:0{digits}x}" for word in words)
        packed = pack(bits, batch)
        if told:
            assert packed == [told[1] if p == told[0] else 0 for p in range(8)], name
        words = [int(batch.hex()[digits * p:digits * (p + 1)], 16) for p in range(8)]
        unpacked = unpack(bits, words)
        given.append(f"{name} {batch.hex()}")
        expected += [given[-1], spelled(packed), unpack(bits, packed).hex(), unpacked.hex(), spelled(pack(bits, unpacked))]
    folder = os.path.join(os.path.dirname(os.path.abspath(__file__)), "../crates/packing_main")
    for name, lines in (("stdin", given), ("stdout", expected)):
        with open(os.path.join(folder, name), "w") as file:
            file.writelines(line + "\n" for line in lines)
    print(f"ok packing: {len(CASES)} batches in crates/packing_main/stdin, what they give in its stdout")


main()
