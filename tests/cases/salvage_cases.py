#!/usr/bin/env python3
"""The cases of `salvage`: the rows of `replay_batches`'s table 10 on standard output or, with a folder as argument, three files for each case, in larger cases
too: NAME.in, what is read; NAME.out, what is printed; NAME.file, what is written. With `gate` and a folder: what the program is run on there."""
import pathlib
import random
import struct
import sys

import case_rows
from forms import EXAMPLES, SIZE, blocks, check, in_form, refusal, sealed, with_byte

FAIR = [b for b in blocks((EXAMPLES / "every-answer.batch").read_bytes()) if not refusal(b) and b[6] == 0]
ONE, TWO, THREE = FAIR[0], in_form(FAIR[1], 2), FAIR[2]
WRONG = with_byte(ONE, 511, ONE[511] ^ 1)


def salvaged(data):
    """What `salvage` prints, and what it writes: the greedy walk, place by place."""
    runs, kept, at = [], [], 0
    while at < len(data):
        if refusal(data[at : at + SIZE]) == 0:
            kept.append(data[at : at + SIZE])
            at += SIZE
            continue
        if runs and sum(runs[-1]) == at:
            runs[-1][1] += 1
        else:
            runs.append([at, 1])
        at += 1
    lines = [f"{place} {length}" for place, length in runs] + [f"TOTAL {len(kept)} {sum(n for _, n in runs)}"]
    return "".join(line + "\n" for line in lines).encode(), b"".join(kept)


def without(data, place):
    return data[:place] + data[place + 1 :]


def inserted(data, place, value):
    return data[:place] + bytes([value]) + data[place:]


def overlapping(place):
    """A block of form 1, and one that starts at that place of it and passes where that can be: from 505 on. The first one's check is chosen, by its job
    number, so that it reads as the second one's first bytes."""
    wanted = bytes(max(FAIR[3][i], 1) if 0 <= i < 4 else FAIR[3][i] if i >= 0 else 1 for i in range(508 - place, 512 - place))
    job = (struct.unpack("<I", ONE[:4])[0] + check(ONE) - struct.unpack("<I", wanted)[0]) % 2**32
    first = sealed(struct.pack("<I", job) + ONE[4:])
    assert refusal(first) == 0 and first[508:] == wanted
    second = sealed(first[place:] + FAIR[3][SIZE - place :])
    assert (refusal(second) == 0) == (place > 504)
    return first[:place] + second


LOST, INSERTED, OVERLAP, FORMS, NO_INPUT, SHORT, REFUSED, REST = range(1, 9)
CASES = [
    ("lost-first", LOST, (ONE + TWO + THREE)[1:]),
    ("lost-middle", LOST, ONE + without(TWO, 200) + THREE),
    ("lost-last", LOST, (ONE + TWO + THREE)[:-1]),
    ("lost-among-zeros", LOST, ONE + without(TWO, 400) + THREE),
    ("lost-in-each", LOST, without(ONE, 9) + without(TWO, 99) + without(THREE, 509)),
    ("lost-511", LOST, ONE + TWO[:1] + THREE),
    ("lost-a-block", LOST, ONE + THREE),
    ("inserted-first", INSERTED, b"\7" + ONE + TWO),
    ("inserted-zero-first", INSERTED, b"\0" + ONE + TWO),
    ("inserted-middle", INSERTED, ONE + inserted(TWO, 300, 1) + THREE),
    ("inserted-between", INSERTED, ONE + b"\2" + TWO),
    ("inserted-last", INSERTED, ONE + TWO + b"\0"),
    ("overlap-from-505", OVERLAP, overlapping(505) + TWO),
    ("overlap-from-511", OVERLAP, overlapping(511) + TWO),
    ("overlap-from-505-first-damaged", OVERLAP, with_byte(overlapping(505), 300, 1) + TWO),
    ("overlap-from-508-first-damaged", OVERLAP, with_byte(overlapping(508), 300, 1) + TWO),
    ("overlap-from-511-first-damaged", OVERLAP, with_byte(overlapping(511), 300, 1) + TWO),
    ("none-from-504-first-damaged", OVERLAP, with_byte(overlapping(504), 300, 1) + TWO),
    ("none-from-360-first-damaged", OVERLAP, with_byte(overlapping(360), 300, 1) + TWO),
    ("both-forms", FORMS, ONE + TWO + TWO + ONE),
    ("no-damage", FORMS, b"".join(FAIR[:9])),
    ("no-input", NO_INPUT, b""),
    ("one-byte", SHORT, b"\1"),
    ("511-bytes", SHORT, ONE[:511]),
    ("511-zeros", SHORT, bytes(511)),
    ("wrong-check", REFUSED, ONE + WRONG + TWO),
    ("unknown-form", REFUSED, sealed(with_byte(ONE, 6, 1)) + TWO),
    ("wrong-field", REFUSED, ONE + sealed(with_byte(TWO, 7, 1)) + THREE),
    ("17-points", REFUSED, ONE + sealed(with_byte(TWO, 5, 17)) + THREE),
    ("0-points", REFUSED, ONE + sealed(with_byte(TWO, 4, 0)) + THREE),
    ("job-0", REFUSED, sealed(bytes(4) + ONE[4:]) + TWO),
    ("form-2-with-form-1-check", REFUSED, with_byte(ONE, 6, 2) + TWO),
    ("a-rest", REST, ONE + TWO + ONE[:100]),
    ("a-longest-rest", REST, TWO + ONE[:511]),
    ("zeros", REST, bytes(600) + ONE + bytes(600)),
]
NOISE = random.Random(11).randbytes(200_000)
LARGER = [
    ("a-whole-part", ONE * 128),
    ("a-part-and-a-rest", TWO * 128 + ONE[:1]),
    ("straddling", b"\1" + ONE * 200 + TWO * 200),
    ("straddling-by-511", ONE[1:] + THREE * 300),
    ("a-run-over-parts", ONE + bytes(70_000) + TWO + bytes(140_000) + THREE),
    ("a-run-to-the-end-of-a-part", bytes(65_536) + ONE),
    ("a-run-to-the-last-window", bytes(65_535) + ONE + bytes(65_025)),
    ("lost-in-every-hundred", b"".join(without(b"".join(FAIR[i % 9] for i in range(100)), 5003 * k) for k in range(1, 6))),
    ("lost-in-every-block", b"".join(without(FAIR[i % 9], i) + FAIR[i % 7] for i in range(300))),
    ("noise", NOISE),
    ("blocks-in-noise", b"".join(NOISE[997 * i : 997 * i + 7 * i] + FAIR[i % 9] for i in range(150))),
]


def write(folder, name, given, ends):
    out, file = salvaged(given)
    for end, data in zip(ends, (given, out, file)):
        (folder / (name + end)).write_bytes(data)


def main():
    if len(sys.argv) == 1:
        rows = []
        for _, kind, given in CASES:
            out, file = salvaged(given)
            rows.append(case_rows.row(kind, given, out, b"", file))
        case_rows.write(10, rows)
    elif len(sys.argv) == 2:
        for name, given in [(n, g) for n, _, g in CASES] + LARGER:
            write(pathlib.Path(sys.argv[1]), name, given, (".in", ".out", ".file"))
            print(name)
    elif len(sys.argv) == 3 and sys.argv[1] == "gate":
        given = b"\1" + ONE * 130 + without(TWO, 77) + overlapping(505) + b"".join(FAIR[:4]) + THREE[:500]
        write(pathlib.Path(sys.argv[2]), "std", given, ("in", "out"))
    else:
        sys.exit(__doc__)


if __name__ == "__main__":
    main()
