#!/usr/bin/env python3
"""random_moves.py SWINGS COUNT [SIZE [SLOP [SEED]]]: a batch of COUNT random moves of two plates on standard output, job numbers from 1.

Of 5,000 jobs some SWINGS are a square that turns a quarter beside a wall that its corners reach, which the sheet calls S; the others are plates of half
sizes up to SIZE (1), at places within three times that, every second one turning by up to 170 degrees, all of them where SWINGS is 0. `sheet` answers them;
docs/TURNS.md has what was counted by SIZE and SLOP (0.005) with 0 swings."""
import math
import random
import struct
import sys


def block(job, a, b, moves, slop):
    floats = [0.0, 0.0, 1.0, slop, *moves[0], *moves[1]]
    for points in (a, b):
        floats += [x for p in points for x in p] + [0.0] * (32 - 2 * len(points))
    data = struct.pack("<IBBH88f", job, len(a), len(b), 0, *floats) + bytes(148)
    return data + struct.pack("<I", (0xFFFFFFFF - sum(struct.unpack("<127I", data))) % 2**32)


def turned(degrees):
    return [math.cos(math.radians(degrees)), math.sin(math.radians(degrees))]


def plate(x, y):
    return [(x, y), (-x, y), (x, -y), (-x, -y)]


def swing(rng, job, size, slop):
    """A square of half size 5 turns a quarter beside a wall at 5.2 to 6.8, its corners at 7.07."""
    wall = rng.uniform(5.2, 6.8) * size
    turns = [0.0, 0.0, 0.0, 0.0, 0.0, 0.0, *turned(0), *turned(90)]
    stands = [0.0, 0.0, wall, 0.0, wall, 0.0, *turned(0), *turned(0)]
    tall = [(0.0, -20.0 * size), (4.0 * size, -20.0 * size), (4.0 * size, 20.0 * size), (0.0, 20.0 * size)]
    return block(job, plate(5 * size, 5 * size), tall, [turns, stands], slop)


def crossing(rng, job, size, slop, turning):
    u = rng.uniform
    moves = []
    for _ in range(2):
        places = [u(-3, 3) * size for _ in range(4)]
        first = u(-180, 180)
        moves.append([0.0, 0.0, *places, *turned(first), *turned(first + (u(-170, 170) if turning else 0.0))])
    return block(job, plate(u(0.1, 1) * size, u(0.1, 1) * size), plate(u(0.1, 1) * size, u(0.1, 1) * size), moves, slop)


def main(swings, count, size="1", slop="0.005", seed="1"):
    rng = random.Random(" ".join((swings, size, slop, seed)))
    size, slop = float(size), float(slop)
    for job in range(1, int(count) + 1):
        if rng.randrange(5000) < int(swings):
            data = swing(rng, job, size, slop)
        else:
            data = crossing(rng, job, size, slop, int(swings) == 0 or job % 2 == 0)
        sys.stdout.buffer.write(data)


if __name__ == "__main__":
    main(*sys.argv[1:])
