"""picture.py FILE: whether a PNG is whole, has more than a few colours, and is small enough to stand in the repository."""

import os
import struct
import sys
import zlib

MOST_BYTES = 200_000


def chunks(data):
    at = 8
    while at < len(data):
        (length,) = struct.unpack(">I", data[at : at + 4])
        yield data[at + 4 : at + 8], data[at + 8 : at + 8 + length]
        at += length + 12


def main():
    file = sys.argv[1]
    with open(file, "rb") as picture:
        data = picture.read()
    parts = list(chunks(data))
    width, height = struct.unpack(">II", parts[0][1][:8])
    pixels = zlib.decompress(b"".join(body for name, body in parts if name == b"IDAT"))
    print(f"{file}: {width} x {height}, {os.path.getsize(file)} bytes, {len(set(pixels))} values")
    whole = data.startswith(b"\x89PNG") and parts[-1][0] == b"IEND"
    return 0 if whole and len(set(pixels)) > 16 and len(data) < MOST_BYTES else 1


sys.exit(main())
