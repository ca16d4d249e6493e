#!/usr/bin/env python3
"""make_evt.py OUT: writes a clean EVT log of nearly 16 MiB, as the service lays it out, and prints how many records it has."""
import struct
import sys

MOST = 16_777_216
END_RECORD = 40
SOURCE = "Panel\0BRUECKE-11\0".encode("utf-16-le")


def record(number):
    """One record with three strings, padded to a multiple of 4 with 1 to 4 bytes, as the service does."""
    strings = "".join(f"{text}\0" for text in ("Brücke", f"carriage at {number * 37 % 65536} counts", "limit 32768 & <stop>"))
    at = 56 + len(SOURCE)
    body = SOURCE + strings.encode("utf-16-le")
    body += bytes(4 - len(body) % 4)
    length = 56 + len(body) + 4
    time = 1_455_000_000 + 60 * number
    front = struct.pack("<I4s4I4H6I", length, b"LfLe", number, time, time + 1, 0x4000_0000 | number % 5000, 4, 3, number % 7, 0, 0, at, 0, at,
                        0, 56 + len(body))
    return front + body + struct.pack("<I", length)


def main():
    records, size, number = [], 48, 1
    while True:
        made = record(number)
        if size + len(made) + END_RECORD > MOST:
            break
        records.append(made)
        size += len(made)
        number += 1
    numbers = (48, size, number, 1)
    front = struct.pack("<I4s2I4I4I", 0x30, b"LfLe", 1, 1, *numbers, size + END_RECORD, 0, 0, 0x30)
    end = struct.pack("<I4I4II", 0x28, 0x11111111, 0x22222222, 0x33333333, 0x44444444, *numbers, 0x28)
    with open(sys.argv[1], "wb") as out:
        out.write(front + b"".join(records) + end)
    print(len(records))


main()
