"""Blocks and their two forms, worked out by themselves: for the scripts that name cases."""
import pathlib
import struct

SIZE, ONES = 512, 0xFFFFFFFF
EXAMPLES = pathlib.Path(__file__).resolve().parents[2] / "examples"


def words(block):
    return list(struct.unpack("<128I", block))


def check(block):
    """The check that fits the words before it, in the form that byte 6 says."""
    return ONES - sum(w * (i + 1 if block[6] == 2 else 1) for i, w in enumerate(words(block)[:127])) % 2**32


def sealed(block):
    return block[:508] + struct.pack("<I", check(block))


def with_byte(block, place, value):
    return block[:place] + bytes([value]) + block[place + 1 :]


def in_form(block, byte):
    return sealed(with_byte(block, 6, byte))


def exchanged(block, place):
    """Two neighbouring words, from that place on, exchanged."""
    w = words(block)
    w[place : place + 2] = w[place + 1], w[place]
    return struct.pack("<128I", *w)


def refusal(block):
    """9, 13, 10 or 11, or 0."""
    if len(block) < SIZE:
        return 9
    if block[6] not in (0, 2):
        return 13
    if words(block)[127] != check(block):
        return 10
    a, b = block[4], block[5]
    unused = block[7:8] + block[104 + 8 * a : 232] + block[232 + 8 * b : 508]
    return 0 if words(block)[0] and 1 <= a <= 16 and 1 <= b <= 16 and not any(unused) else 11


def blocks(batch):
    return [batch[i : i + SIZE] for i in range(0, len(batch), SIZE)]


def converted(batch):
    """What `convert` prints, and what it writes."""
    cut = blocks(batch)
    told = "".join(f"{i}\n" for i, b in enumerate(cut, 1) if refusal(b))
    return told.encode(), b"".join(in_form(b, 2 - b[6]) for b in cut if not refusal(b))
