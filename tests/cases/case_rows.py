"""Rows of a program's cases for `replay_batches`, from bytes to bytes; docs/REPLAYS.md says what a row is like. For the scripts that name the cases."""
import struct
import sys

SIZE, PART = 10912, 65536


def row(kind, given, out=b"", err=b"", file=b""):
    """A case: what is read, and what goes to standard output, to standard error and to a second file."""
    texts = given + out + err + file
    assert 0 < kind < 32 and 24 + len(texts) <= SIZE, (kind, len(texts))
    return (struct.pack("<6I", kind, len(given), len(out), len(err), len(file), 1) + texts).ljust(SIZE, b"\0")


def write(table, rows):
    """The parts of a table on standard output, each with as many rows as fit."""
    each = (PART - 16) // SIZE
    for first in range(0, len(rows), each):
        part = struct.pack("<4I", table, first, 0, 0) + b"".join(rows[first : first + each])
        sys.stdout.buffer.write(part.ljust(PART, b"\0"))
