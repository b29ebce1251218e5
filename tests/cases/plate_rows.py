#!/usr/bin/env python3
"""plate_rows.py < CORNERS > PART: the part of `replay`'s stored input that has table 6, from what `oracle corners` prints: a plate a row, its
half sizes and its four corners in the order of the numbers that the Rust gives them."""
import struct
import sys

SIZE, TABLE = 65536, 6
plates = {}
for line in sys.stdin:
    number, half_x, half_y, x, y = line.split()
    plates.setdefault((half_x, half_y, len(plates) if number == "0" else len(plates) - 1), {})[int(number)] = (x, y)
part = struct.pack("<4I", TABLE, 0, 0, 0)
for (half_x, half_y, _), corners in plates.items():
    assert sorted(corners) == [0, 1, 2, 3], (half_x, half_y)
    words = [half_x, half_y] + [bits for k in range(4) for bits in corners[k]]
    part += struct.pack("<11I", 1, *(int(w, 16) for w in words))
assert len(part) <= SIZE
sys.stdout.buffer.write(part.ljust(SIZE, b"\0"))
