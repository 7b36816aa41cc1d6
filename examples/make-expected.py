#!/usr/bin/env python3
"""Writes examples/door.expected and examples/many.expected, what those programs must write. Every block is sealed by Python's `cryptography` (OpenSSL);
none of our code is run. (check.expected has values of the list that tools/check_values.py makes.)
"""
import os
from cryptography.hazmat.primitives.ciphers import Cipher, algorithms, modes


def sealed(key, blocks):
    return Cipher(algorithms.AES(key), modes.ECB()).encryptor().update(blocks)


def door():
    twice = b"ten till twelve."
    blocks = sealed(bytes(range(32)), bytes(0x11 * i for i in range(16)) + twice + b"one till two...." + twice + b"six till seven..")
    for at in range(0, len(blocks), 16):
        yield blocks[at:at + 16].hex(" ")
    yield "blocks 1 and 3 are equal, as their plaintexts are"
    yield "opened: the blocks that were sealed"


def many():
    key = bytes((17 * i + 3) % 256 for i in range(32))
    headers = [b"\x07\xe9" + bytes([1 + i % 12, 3, 0, 7]) + b"parcel%04d" % i for i in range(9999)]
    for i in (0, 4095, 4096, 9998):
        yield f"{sealed(key, headers[i]).hex()} is 2025-{1 + i % 12:02}-03 {headers[i][6:].decode()}"
    yield f"{sum(header[:4] < bytes([0x07, 0xe9, 6, 1]) for header in headers)} of {len(headers)} headers are due"


def main():
    folder = os.path.dirname(os.path.abspath(__file__))
    for name, lines in (("door", door()), ("many", many())):
        with open(os.path.join(folder, f"{name}.expected"), "w") as file:
            file.writelines(f"{line}\n" for line in lines)
    print("ok examples: door.expected and many.expected")


main()
