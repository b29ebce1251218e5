#!/usr/bin/env python3
"""The monthly report worked out from printed sheets alone, and the cases of `report`.

report_cases.py text SHEET..       the report of batches whose sheets those files hold, in order
report_cases.py rows SHEET         the rows of `replay_batches`'s table 11; SHEET is the program
report_cases.py files SHEET FOLDER the cases as files: NAME.1, NAME.2 .. the batches, NAME.out what is printed; and their names
"""
import pathlib
import struct
import subprocess
import sys

import case_rows
from forms import EXAMPLES, blocks, sealed, with_byte

REFUSALS = (3, 4, 5, 6, 7, 8, 9, 10, 11, 13)
LETTERS = {"S": "CLEAR", "O": "OVERLAPPED", "F": "FAILED", "H": "HIT"}
ROWS = (
    ["BATCHES", "BLOCKS", "CLEAR", "OVERLAPPED", "FAILED", "HIT"]
    + [f"HIT {k}/8" for k in range(8)]
    + ["HIT 1", "HIT BELOW", "HIT ABOVE", "HIT NAN", "REFUSED"]
    + [f"REFUSED {n}" for n in REFUSALS]
)


def where(bits):
    """The row of a hit's fraction, by its printed bits."""
    t = struct.unpack("<f", struct.pack("<I", bits))[0]
    if t != t:
        return "HIT NAN"
    if t < 0:
        return "HIT BELOW"
    if t > 1:
        return "HIT ABOVE"
    return "HIT 1" if t == 1 else f"HIT {int(t * 8)}/8"


def report(sheets):
    """The report of batches by the lines of their sheets."""
    rows, most = dict.fromkeys(ROWS, 0), {"CALLS": None, "SEARCHES": None, "STEPS": None}
    for batch, sheet in enumerate(sheets, 1):
        rows["BATCHES"] += 1
        *lines, total = sheet.splitlines()
        assert total.startswith("TOTAL "), total
        for line in lines:
            fields = line.split(" ")
            rows["BLOCKS"] += 1
            if fields[2] != "0":
                rows["REFUSED"] += 1
                rows["REFUSED " + fields[2]] += 1
                continue
            rows[LETTERS[fields[3]]] += 1
            if fields[3] == "H":
                rows[where(int(fields[4], 16))] += 1
            for name, count in zip(most, map(int, fields[9:12])):
                if most[name] is None or count > most[name][0]:
                    most[name] = (count, batch, int(fields[0]))
    told = [f"{name} {n}" for name, n in rows.items()]
    told += [f"{name} " + " ".join(map(str, m or (0, 0, 0))) for name, m in most.items()]
    return "".join(line + "\n" for line in told)


EVERY = (EXAMPLES / "every-answer.batch").read_bytes()
SHIFT = (EXAMPLES / "shift.batch").read_bytes()
# nine hits: one in each eighth, and one at 1
FRACTIONS = (EXAMPLES / "fractions.batch").read_bytes()
ALL = blocks(EVERY)
# of the blocks of every-answer.batch, by their sheet
WORKED, REFUSED = [ALL[i - 1] for i in (1, 2, 5, 12)], [ALL[i - 1] for i in (6, 14, 10)]
HIT, CLEAR, OVERLAP, FAILED = WORKED
UNKNOWN = sealed(with_byte(HIT, 6, 1))

ONE, TWO, THREE, EMPTY, NONE_WORKED, SHORT, NO_BATCH = range(1, 8)
CASES = [
    ("one-batch", ONE, [b"".join(WORKED)]),
    ("one-of-each", ONE, [b"".join(WORKED + REFUSED) + UNKNOWN + HIT[:7]]),
    ("each-eighth-and-1", ONE, [FRACTIONS]),
    ("two-batches", TWO, [CLEAR + HIT, HIT + FAILED + OVERLAP]),
    ("the-same-twice", TWO, [HIT + FAILED, HIT + FAILED]),
    ("the-larger-second", TWO, [OVERLAP + CLEAR, FAILED + HIT]),
    ("eighths-in-three", THREE, [FRACTIONS[512:3072], FRACTIONS[3072:], FRACTIONS[:512]]),
    ("three-batches", THREE, [CLEAR, HIT + UNKNOWN, b"".join(WORKED)]),
    ("three-with-an-empty-one", THREE, [OVERLAP, b"", FAILED + FAILED]),
    ("an-empty-batch", EMPTY, [b""]),
    ("two-empty-batches", EMPTY, [b"", b""]),
    ("none-worked-at-first", NONE_WORKED, [b"".join(REFUSED), HIT + CLEAR]),
    ("none-worked-at-all", NONE_WORKED, [b"".join(REFUSED), UNKNOWN + HIT[:511]]),
    ("short-blocks", SHORT, [HIT + CLEAR[:100], OVERLAP + HIT[:1], FAILED]),
    ("a-short-block-alone", SHORT, [HIT[:511], OVERLAP]),
    ("no-batch", NO_BATCH, []),
]
LARGER = [
    ("every-answer", [EVERY]),
    ("the-shift-and-every-answer", [SHIFT, EVERY, SHIFT]),
    ("a-whole-part", [CLEAR * 128, HIT]),
    ("a-part-and-a-rest", [CLEAR * 127 + FAILED + HIT[:9], HIT * 3]),
    ("two-parts-and-more", [OVERLAP * 256 + FAILED + HIT, CLEAR * 128 + FAILED]),
]


def sheet(program, batch):
    return subprocess.run([*program.split()], input=batch, capture_output=True, check=True).stdout.decode()


def main():
    words = sys.argv[1:]
    if words[:1] == ["text"]:
        sys.stdout.write(report([pathlib.Path(name).read_text() for name in words[1:]]))
    elif words[:1] == ["rows"] and len(words) == 2:
        rows = []
        for _, kind, batches in CASES:
            sizes = struct.pack(f"<I{len(batches)}I", len(batches), *map(len, batches))
            rows.append(case_rows.row(kind, sizes + b"".join(batches), report([sheet(words[1], b) for b in batches]).encode()))
        case_rows.write(11, rows)
    elif words[:1] == ["files"] and len(words) == 3:
        folder = pathlib.Path(words[2])
        for name, batches in [(n, b) for n, _, b in CASES if b] + LARGER:
            for i, batch in enumerate(batches, 1):
                (folder / f"{name}.{i}").write_bytes(batch)
            (folder / f"{name}.out").write_text(report([sheet(words[1], b) for b in batches]))
            print(name)
    else:
        sys.exit(__doc__)


if __name__ == "__main__":
    main()
