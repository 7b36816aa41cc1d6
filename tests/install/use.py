"""FIPS-197's Appendix C.1 through the door of the shared library, by ctypes: use.py LIBRARY"""
import ctypes
import sys

door = ctypes.CDLL(sys.argv[1]).locker_aes
size, text = ctypes.c_size_t, ctypes.c_char_p
door.argtypes = [ctypes.c_uint32, text, size, text, size, ctypes.c_void_p, size]
door.restype = ctypes.c_uint32

key = bytes(range(16))
for blocks in 1, 5, 4096:  # less than a batch, no multiple of one, the most
    plain = bytes(0x11 * i for i in range(16)) * blocks
    cipher = bytes.fromhex("69c4e0d86a7b0430d8cdb78070b4c55a") * blocks
    n = len(plain)
    out = ctypes.create_string_buffer(n)
    assert door(0, key, 16, plain, n, out, n) == 0 and out.raw == cipher, out.raw.hex()
    assert door(1, key, 16, cipher, n, out, n) == 0 and out.raw == plain, out.raw.hex()
    assert door(2, key, 16, cipher, n, out, n) == 5 and out.raw == plain, out.raw.hex()
    assert door(0, bytes(16), 16, cipher, n, out, n) == 6 and out.raw == plain, out.raw.hex()
longer = bytes(n + 16)
for length in 0, 15, 17, n + 16:
    assert door(0, key, 16, longer, length, out, n) == 3 and out.raw == plain, length
