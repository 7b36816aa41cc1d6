#!/usr/bin/env python3
"""Writes demo/headers.sealed, 37 sealed record headers for demo/purge.c, and demo/purge.expected, what that program must say of them. Every
block is sealed by Python's `cryptography` (OpenSSL), and every verdict is made here from the dates; none of our code is run. No chance is in
it: it writes the same bytes each time.

A header, before it is sealed: hold-until date (year in two bytes, big-endian; month; day), key number in two bytes, ten bytes of text. A record
is due where its date is before the day; one under dispute is kept whatever its date. Two headers are sealed under another month's key: under this
one they open to other bytes, and what they hold cannot be known.
"""
import datetime, os
from cryptography.hazmat.primitives.ciphers import Cipher, algorithms, modes

NUMBER = 7
KEY = bytes((17 * i + 3) % 256 for i in range(32))
OTHERS = bytes(255 - byte for byte in KEY)
DAYS = ["2025-06-01", "2026-01-01"]  # as in demo/run.sh
COUNT = 37  # nine batches of four, and one header more

# Those at both sides of each day, and where a year, a month or a byte of the year ends; the rest are 23 days apart.
AROUND = """2025-04-03 2026-12-31 2024-02-29 2099-12-31 2025-05-31 2025-06-01 2025-06-02 2024-12-31
            2025-12-31 2026-01-01 2026-01-02 2047-12-31 2048-01-01 2000-01-01 2025-05-01 2025-07-01""".split()
DISPUTED = {3, 12, 20, 37}
UNDER_OTHERS = {18, 31}


def held_until(n):
    if n <= len(AROUND):
        return datetime.date.fromisoformat(AROUND[n - 1])
    return datetime.date(2024, 12, 1) + datetime.timedelta(days=23 * (n - len(AROUND)))


def text(n):
    return f"disputed{n:02}" if n in DISPUTED else f"parcel A{n:02}"


def sealed(n):
    date, key = held_until(n), OTHERS if n in UNDER_OTHERS else KEY
    header = date.year.to_bytes(2, "big") + bytes([date.month, date.day]) + NUMBER.to_bytes(2, "big") + text(n).encode()
    return Cipher(algorithms.AES(key), modes.ECB()).encryptor().update(header)


def verdict(n, day):
    if n in UNDER_OTHERS:
        return "kept, not a header under this key"
    said = "kept, under dispute" if n in DISPUTED else "due" if held_until(n) < day else "kept"
    return f"held until {held_until(n)}  {text(n)}  {said}"


def said(day):
    lines = [f"{n:4}  {verdict(n, day)}" for n in range(1, COUNT + 1)]
    due = sum(line.endswith("due") for line in lines)
    yield from lines
    yield f"{day}: of {COUNT} records {due} are due and {COUNT - due} are kept"
    yield "a 23-byte key: answer 1, output left as it was"
    yield "the key destroyed: answer 6, output left as it was"


def main():
    folder = os.path.dirname(os.path.abspath(__file__))
    with open(os.path.join(folder, "headers.sealed"), "wb") as file:
        file.writelines(sealed(n) for n in range(1, COUNT + 1))
    with open(os.path.join(folder, "purge.expected"), "w") as file:
        file.writelines(f"{line}\n" for day in DAYS for line in said(datetime.date.fromisoformat(day)))
    print(f"ok demo: {COUNT} headers in demo/headers.sealed, and what is due on {' and '.join(DAYS)} in demo/purge.expected")


main()
