#!/usr/bin/env python3
"""What `pack` and `unpack` must write, worked out from the rules of the two forms alone, and the cases that both are tried on.

  job_lines.py pack|unpack FOLDER    write each case's input, standard output and standard error to FOLDER/NAME.{in,out,err}
  job_lines.py rows                  write the rows of `replay_batches`'s tables 8 and 9 to standard output
"""
import case_rows
import pathlib
import random
import re
import struct
import sys

LINE = re.compile(rb"([1-9][0-9]*) ([1-9][0-9]?) ([1-9][0-9]?)((?: [0-9A-F]{8})+)")
ONES = 0xFFFFFFFF


def with_check(words):
    """A block of 127 words and the check that makes all 128 add up to ones."""
    return struct.pack("<128I", *words, (ONES - sum(words)) & ONES)


def block_of(line):
    """The block of a line without its newline, or None where it is no job."""
    found = LINE.fullmatch(line)
    if not found:
        return None
    job, a, b = (int(found.group(k)) for k in (1, 2, 3))
    words = [int(w, 16) for w in found.group(4).split()]
    if job > ONES or a > 16 or b > 16 or len(words) != 24 + 2 * a + 2 * b:
        return None
    points = words[24 : 24 + 2 * a] + [0] * (32 - 2 * a) + words[24 + 2 * a :] + [0] * (32 - 2 * b)
    return with_check([job, a | b << 8] + words[:24] + points + [0] * 37)


def pack(text):
    lines = text.split(b"\n")
    out, err = b"", b""
    for n, line in enumerate(lines, 1):
        block = block_of(line) if n < len(lines) else None
        if block:
            out += block
        elif n < len(lines) or line:
            err += b"%d 14\n" % n
    return out, err


def refusal(block):
    """9, 10, 11 or 0, by form 1."""
    if len(block) < 512:
        return 9
    if sum(struct.unpack("<128I", block)) & ONES != ONES:
        return 10
    a, b = block[4], block[5]
    zeros = block[6:8] + block[104 + 8 * a : 232] + block[232 + 8 * b : 508]
    return 0 if block[:4] != bytes(4) and 1 <= a <= 16 and 1 <= b <= 16 and not any(zeros) else 11


def line_of(block):
    words = struct.unpack("<128I", block)
    a, b = block[4], block[5]
    fields = words[2:26] + words[26 : 26 + 2 * a] + words[58 : 58 + 2 * b]
    return b" ".join([b"%d" % words[0], b"%d" % a, b"%d" % b] + [b"%08X" % w for w in fields]) + b"\n"


def unpack(data):
    out, err = b"", b""
    for n, start in enumerate(range(0, len(data), 512), 1):
        block = data[start : start + 512]
        number = refusal(block)
        if number:
            err += b"%d %d\n" % (n, number)
        else:
            out += line_of(block)
    return out, err


# ---- cases
def job(number, a, b, words):
    """A line without its newline."""
    return b" ".join([b"%d" % number, b"%d" % a, b"%d" % b] + [b"%08X" % w for w in words])


def some_words(n, seed):
    chance = random.Random(seed)
    odd = [0x7FA00001, 0xFFC12345, 0x80000000, 0x00000001, 0x7F800000, 0xFF800000, 0]
    return [chance.choice(odd) if chance.random() < 0.3 else chance.getrandbits(32) for _ in range(n)]


def line(number=7, a=4, b=3, seed=1):
    return job(number, a, b, some_words(24 + 2 * a + 2 * b, seed))


GOOD = line()


def with_fields(change):
    fields = GOOD.split(b" ")
    change(fields)
    return b" ".join(fields)


def put(place, text):
    def change(fields):
        fields[place] = text

    return with_fields(change)


def pack_cases():
    """By kind: name and text."""
    alone = {
        1: {
            "a good line": GOOD,
            "the least job": line(1, 1, 1, 2),
            "the largest job": line(ONES, 16, 16, 3),
            "one point and sixteen": line(99, 1, 16, 4),
            "sixteen points and one": line(100, 16, 1, 5),
            "a NaN that signals": put(3, b"7F800001"),
            "a NaN with its sign and payload": put(26, b"FFBFFFFF"),
            "a zero with its sign": put(27, b"80000000"),
            "a negative slop": put(6, b"BF800000"),
        },
        2: {
            "job 0": put(0, b"0"),
            "a job with a leading zero": put(0, b"07"),
            "a job above the largest": put(0, b"4294967296"),
            "a job of twenty digits": put(0, b"18446744073709551623"),
            "a job with a sign": put(0, b"+7"),
            "a job in hexadecimal": put(0, b"A"),
            "a missing job": GOOD.split(b" ", 1)[1],
        },
        3: {
            "count A of 0": put(1, b"0"),
            "count B of 0": job(7, 4, 0, some_words(32, 6)),
            "17 points": job(7, 17, 3, some_words(24 + 34 + 6, 7)),
            "17 points of B": job(7, 3, 17, some_words(24 + 6 + 34, 8)),
            "a count of 256 more": put(1, b"260"),
            "a count with a leading zero": put(2, b"03"),
        },
        4: {
            "small letters": put(5, b"3f800000"),
            "one small letter": put(5, b"3F80000a"),
            "seven digits": put(5, b"3F80000"),
            "nine digits": put(5, b"03F800000"),
            "a letter past F": put(5, b"3F80000G"),
            "a byte between digits and letters": put(5, b"3F80000:"),
            "a byte past all": put(5, b"3F80000\xff"),
        },
        5: {
            "an empty line": b"",
            "a blank alone": b" ",
            "a leading blank": b" " + GOOD,
            "a blank at the end": GOOD + b" ",
            "a double blank": GOOD.replace(b" ", b"  ", 1),
            "a missing field": GOOD.rsplit(b" ", 1)[0],
            "an extra field": GOOD + b" 00000000",
        },
        6: {
            "a tab": GOOD.replace(b" ", b"\t", 1),
            "a comma": GOOD.replace(b" ", b",", 1),
            "CR before the newline": GOOD + b"\r",
            "a zero byte": GOOD + b"\0",
            "words only": b"no job at all",
        },
        7: {
            "the longest job and a byte": line(ONES, 16, 16, 9) + b"0",
            "a line as long as the buffer": b"8" * 854,
            "a line one byte longer": b"8" * 855,
            "a line of 5000 bytes": b"9" * 5000,
            "a job after a long line's start": b"7" * 900 + b" " + GOOD,
        },
    }
    cases = {kind: {name: text + b"\n" for name, text in texts.items()} for kind, texts in alone.items()}
    cases[8] = {
        "a last line without its newline": GOOD,
        "input cut in the middle": GOOD + b"\n" + GOOD[:200],
    }
    cases[9] = {
        "nothing": b"",
        "newlines alone": b"\n" * 150,
        "good lines": b"".join(line(n, 1 + n % 3, 1 + n % 4, n) + b"\n" for n in range(1, 6)),
        "a bad line between good ones": GOOD + b"\nnone\n" + line(8, 2, 2, 10) + b"\n",
        "a long line between good ones": GOOD + b"\n" + b"1 " * 1000 + b"\n" + GOOD + b"\n",
        "CR and newline after a good line": GOOD + b"\r\n" + GOOD + b"\n",
    }
    return cases


def spoiled(block, place, value, mend=True):
    """The block with another byte, its check made to fit again."""
    changed = bytearray(block)
    changed[place] = value
    return with_check(struct.unpack("<127I", changed[:508])) if mend else bytes(changed)


def unpack_cases():
    block = block_of(GOOD)
    return {
        1: {
            "a good block": block,
            "the least job": block_of(line(1, 1, 1, 2)),
            "the largest job": block_of(line(ONES, 16, 16, 3)),
            "NaNs and zeros with their signs": block_of(put(9, b"FFBFFFFF")),
        },
        2: {
            "refused by 8 alone": block_of(put(6, b"BF800000")),
            "refused by 3 alone": block_of(put(27, b"7F800000")),
            "refused by 5 alone": block_of(put(13, b"00000000")),
        },
        3: {
            "a short block": block[:511],
            "one byte": b"\x07",
            "a short block after a good one": block + block[:100],
        },
        4: {
            "a wrong check": spoiled(block, 20, 1 ^ block[20], mend=False),
            "zeros": bytes(1024),
        },
        5: {
            "job 0": with_check((0,) + struct.unpack("<126I", block[4:508])),
            "count A of 0": spoiled(block, 4, 0),
            "count A of 17": spoiled(block, 4, 17),
            "count B of 0": spoiled(block, 5, 0),
            "count B of 255": spoiled(block, 5, 255),
            "byte 7": spoiled(block, 7, 1),
            "an unused point of A": spoiled(block, 104 + 8 * 4, 1),
            "the last unused byte of A": spoiled(block, 231, 1),
            "an unused point of B": spoiled(block, 232 + 8 * 3, 1),
            "a byte before the check": spoiled(block, 507, 1),
        },
        6: {
            "byte 6 of 1": spoiled(block, 6, 1),
            "byte 6 of 2, its check by form 1": spoiled(block, 6, 2),
            "byte 6 of 2, its check wrong": spoiled(block, 6, 2, mend=False),
            "byte 6 of 2, its check by form 2": form_2(block),
        },
        7: {
            "nothing": b"",
            "refused ones between good ones": block + spoiled(block, 7, 1) + block + bytes(512) + block,
        },
    }


def form_2(block):
    """The block in the form whose check weighs each word by its place."""
    words = list(struct.unpack("<127I", block[:508]))
    words[1] |= 2 << 16
    return struct.pack("<128I", *words, (ONES - sum(w * (k + 1) for k, w in enumerate(words))) & ONES)


TABLES = {"pack": (8, pack, pack_cases), "unpack": (9, unpack, unpack_cases)}


def write_files(program, folder):
    table, work, cases = TABLES[program]
    for texts in cases().values():
        for name, text in texts.items():
            for part, ending in zip((text, *work(text)), ("in", "out", "err")):
                (folder / f"{name.replace(' ', '_')}.{ending}").write_bytes(part)


def write_rows():
    for table, work, cases in TABLES.values():
        case_rows.write(table, [case_rows.row(kind, text, *work(text)) for kind, texts in cases().items() for text in texts.values()])


if __name__ == "__main__":
    write_rows() if sys.argv[1:] == ["rows"] else write_files(sys.argv[1], pathlib.Path(sys.argv[2]))
