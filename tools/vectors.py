#!/usr/bin/env python3
"""Writes crates/vectors_main/stdin, the input of that program, and stdout, what it must say of it. The input is the published
AES known answers for 128- and 256-bit keys, one block a line:

    KEY PLAINTEXT CIPHERTEXT

lowercase hex, 32 or 64, 32 and 32 digits, single spaces, no comments. Both directions are run from one record.

How it was made: first the examples of FIPS-197's Appendix B, C.1 and C.3 (from the standard, typed in below); then
NIST's files ECBGFSbox, ECBKeySbox, ECBVarKey, ECBVarTxt and ECBMMT (AESVS), for 128- and then for 256-bit keys, as
Debian's package python3-cryptography-vectors carries them, fetched by `apt-get download` into a temporary folder.
A message of several blocks gives a record for each block (ECB). A file has an [ENCRYPT] and a [DECRYPT] part; most
repeat the same answers, and a record that has stood before is not written again.

Each record is checked in both directions by Python's `cryptography` (OpenSSL) where that is installed.
"""
import os, re, subprocess, tempfile

FIPS_197 = [
    ("2b7e151628aed2a6abf7158809cf4f3c", "3243f6a8885a308d313198a2e0370734", "3925841d02dc09fbdc118597196a0b32"),
    ("000102030405060708090a0b0c0d0e0f", "00112233445566778899aabbccddeeff", "69c4e0d86a7b0430d8cdb78070b4c55a"),
    ("000102030405060708090a0b0c0d0e0f101112131415161718191a1b1c1d1e1f", "00112233445566778899aabbccddeeff",
     "8ea2b7ca516745bfeafc49904b496089"),
]
PACKAGE = "python3-cryptography-vectors"
FOLDER = "usr/lib/python3/dist-packages/cryptography_vectors/ciphers/AES/ECB"
NAMES = [f"ECB{kind}{bits}" for bits in (128, 256) for kind in ("GFSbox", "KeySbox", "VarKey", "VarTxt", "MMT")]


def published():
    """(name, the file's text) of each of NIST's files."""
    with tempfile.TemporaryDirectory() as folder:
        if subprocess.run(["apt-get", "download", PACKAGE], cwd=folder, capture_output=True).returncode:
            subprocess.run(["apt-get", "update"], check=True, capture_output=True)
            subprocess.run(["apt-get", "download", PACKAGE], cwd=folder, check=True, capture_output=True)
        package = os.path.join(folder, os.listdir(folder)[0])
        subprocess.run(["dpkg-deb", "-x", package, folder], check=True)
        for name in NAMES:
            with open(os.path.join(folder, FOLDER, name + ".rsp")) as file:
                yield name, file.read()


def blocks(text):
    """The records of one of NIST's files, a block each."""
    values = lambda field: re.findall(rf"^{field} = ([0-9a-f]+)\s*$", text, re.M)
    keys, plains, ciphers = values("KEY"), values("PLAINTEXT"), values("CIPHERTEXT")
    assert len(keys) == len(plains) == len(ciphers) == text.count("COUNT"), "a field is missing"
    for key, plain, cipher in zip(keys, plains, ciphers):
        assert len(plain) == len(cipher) and len(plain) % 32 == 0
        for at in range(0, len(plain), 32):
            yield key, plain[at:at + 32], cipher[at:at + 32]


def checked(records):
    """How many records OpenSSL agrees with, or None where it is not there."""
    try:
        from cryptography.hazmat.primitives.ciphers import Cipher, algorithms, modes
    except ImportError:
        return None
    for key, plain, cipher in (map(bytes.fromhex, record) for record in records):
        aes = Cipher(algorithms.AES(key), modes.ECB())
        assert aes.encryptor().update(plain) == cipher and aes.decryptor().update(cipher) == plain, key.hex()
    return len(records)


def main():
    records = dict.fromkeys(FIPS_197)  # keeps the order, drops what stood before
    print(f"{'FIPS-197':14} {len(records)}")
    for name, text in published():
        before = len(records)
        records.update(dict.fromkeys(blocks(text)))
        print(f"{name:14} {len(records) - before}")
    agreed = checked(list(records))
    folder = os.path.join(os.path.dirname(os.path.abspath(__file__)), "../crates/vectors_main")
    with open(os.path.join(folder, "stdin"), "w") as file:
        file.writelines(" ".join(record) + "\n" for record in records)
    zeros = sum(not any(bytes.fromhex(key)) for key, plain, cipher in records)  # the public call refuses these keys
    with open(os.path.join(folder, "stdout"), "w") as file:
        file.write(f"records {len(records)}\nchecks {4 * len(records)}\npassed {4 * len(records)}\n")
        file.write(f"keys of zeros, refused by the public call {zeros}\n")
    if agreed is None:
        print("skipped: the check by OpenSSL, since Python's `cryptography` is not installed")
    print(f"ok vectors: {len(records)} records in crates/vectors_main/stdin, {agreed or 0} agreed by OpenSSL in both directions")


main()
