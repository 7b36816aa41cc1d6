#!/usr/bin/env python3
"""Writes crates/check_values_main/stdin, the input of that program, and stdout, what it must say of it. The input is keys and their
key check values, the first three bytes of the CMAC (NIST SP 800-38B) of sixteen zero bytes, one key a line:

    KEY VALUE

lowercase hex, 32 or 64, and 6 digits, a single space. Every value is by Python's `cryptography` (OpenSSL); none of our code is run.

The keys: those of FIPS-197's Appendix A.1, A.3, C.1 and C.3, on which crates/appendices/proofs/Cmac.antt computes the whole tags; C.3's with
its last bit turned, which examples/check.c has; every key of one bit, at both lengths; and the SHA-256 of 0, 1, 2, .., whole and its first half.
A key of zeros is refused, so there is none.
"""
import hashlib, os
from cryptography.hazmat.primitives.ciphers import Cipher, algorithms, modes
from cryptography.hazmat.primitives.cmac import CMAC

FIPS_197 = [
    "2b7e151628aed2a6abf7158809cf4f3c",
    "603deb1015ca71be2b73aef0857d77811f352c073b6108d72d9810a30914dff4",
    "000102030405060708090a0b0c0d0e0f",
    "000102030405060708090a0b0c0d0e0f101112131415161718191a1b1c1d1e1f",
]
TURNED = "000102030405060708090a0b0c0d0e0f101112131415161718191a1b1c1d1e1e"


def keys():
    yield from map(bytes.fromhex, FIPS_197 + [TURNED])
    for length in (16, 32):
        for bit in range(8 * length):
            yield (1 << bit).to_bytes(length, "big")
    for number in range(100):
        digest = hashlib.sha256(str(number).encode()).digest()
        yield digest
        yield digest[:16]


def tag(key):
    mac = CMAC(algorithms.AES(key))
    mac.update(bytes(16))
    return mac.finalize()


def carries(key):
    """Whether the first bit of the encrypted zero block is set, so that 87 hex comes in."""
    return Cipher(algorithms.AES(key), modes.ECB()).encryptor().update(bytes(16))[0] >> 7


def main():
    every = list(keys())
    folder = os.path.join(os.path.dirname(os.path.abspath(__file__)), "../crates/check_values_main")
    with open(os.path.join(folder, "stdin"), "w") as file:
        file.writelines(f"{key.hex()} {tag(key)[:3].hex()}\n" for key in every)
    with open(os.path.join(folder, "stdout"), "w") as file:
        file.write(f"keys {len(every)}\nvalues that agreed, two of a key {2 * len(every)}\n")
    for key in every[:len(FIPS_197) + 1]:
        print(f"{key.hex()} {tag(key).hex()}")
    print(f"ok check values: {len(every)} keys in crates/check_values_main/stdin, of which {sum(map(carries, every))} carry")


main()
