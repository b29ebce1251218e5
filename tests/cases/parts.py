#!/usr/bin/env python3
"""parts.py TABLE.. < PARTS: those parts of stored rows, on standard output, that are of one of these tables; docs/REPLAYS.md says what a part is."""
import sys

SIZE = 65536


def main():
    tables = {int(word) for word in sys.argv[1:]}
    while part := sys.stdin.buffer.read(SIZE):
        if int.from_bytes(part[:4], "little") in tables:
            sys.stdout.buffer.write(part)


if __name__ == "__main__":
    main()
