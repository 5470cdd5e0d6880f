#!/usr/bin/env python3
"""What the program `vectors` must print, by other implementations: zlib's CRC-32, binascii's CRC-16/CCITT, and CRC-16/MODBUS and a
frame made here.

tests/vectors.py > crates/vectors/stdout    makes the stored output anew.
"""
import binascii
import zlib

message = bytes(i * 7 % 251 for i in range(3100))


def reflected(x, width):
    return int(f"{x:0{width}b}"[::-1], 2)


def modbus(s):
    """8005 bit by bit with the highest bit first, each byte and the result turned round; the functions tested move the other way."""
    register = 0xFFFF
    for byte in s:
        register ^= reflected(byte, 8) << 8
        for _ in range(8):
            register = (register << 1 ^ (0x8005 if register & 0x8000 else 0)) & 0xFFFF
    return reflected(register, 16)


def sums(label, s):
    crc32 = zlib.crc32(s)
    print(f"{label} {modbus(s):04x} {binascii.crc_hqx(s, 0xFFFF):04x} {crc32:08x} {crc32:08x}")


def frame(n, size):
    data, room = message[:n], bytes([0xEE]) * size
    written = 0
    if n <= 519 and 7 + n <= size:
        body = bytes([0x55, 0xAA, 0x10, 0xFD, n >> 8, n & 255]) + data
        room = body + bytes([sum(body) & 255]) + room[7 + n:]
        written = 7 + n
    read = data if written else b""
    print(f"frame {n} in {size}: {written} {zlib.crc32(room):08x} {'whole' if written else 'none'} {zlib.crc32(read):08x}")


for n in [*range(68), *range(126, 132), *range(510, 518), *range(1024, 1032), *range(2050, 2056), 3100]:
    sums(n, message[:n])
sums("123456789", b"123456789")
for n, size in [(0, 526), (1, 526), (256, 526), (519, 526), (519, 525), (520, 526)]:
    frame(n, size)
