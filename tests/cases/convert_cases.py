#!/usr/bin/env python3
"""The cases of `convert`: the rows of `replay_batches`'s table 7 on standard output or, with a folder as argument, four files for each case, in larger cases
too: NAME.in, what is read; NAME.out, what is printed; NAME.file, what is written; NAME.kept, what two conversions leave."""
import pathlib
import sys

import case_rows
from forms import EXAMPLES, blocks, converted, exchanged, in_form, refusal, sealed, with_byte

EVERY = (EXAMPLES / "every-answer.batch").read_bytes()
FAIR = [b for b in blocks(EVERY) if not refusal(b) and b[6] == 0]
ONE, TWO = FAIR[0], in_form(FAIR[1], 2)
WRONG = with_byte(ONE, 511, ONE[511] ^ 1)
FIELD = sealed(with_byte(TWO, 7, 1))
UNKNOWN = sealed(with_byte(ONE, 6, 1))

TO_2, TO_1, MIXED, SHORT, CHECK, FIELDS, FORM, NOTHING, NO_INPUT, EXCHANGED = range(1, 11)
CASES = [
    ("form-1", TO_2, b"".join(FAIR[:9])),
    ("form-2", TO_1, b"".join(in_form(b, 2) for b in FAIR[:9])),
    ("both-forms", MIXED, ONE + TWO + TWO + ONE),
    ("a-rest", SHORT, ONE + TWO + ONE[:100]),
    ("a-rest-alone", SHORT, TWO[:511]),
    ("one-byte", SHORT, b"\1"),
    ("wrong-check", CHECK, ONE + WRONG + TWO),
    ("form-2-with-form-1-check", CHECK, with_byte(ONE, 6, 2) + TWO),
    ("form-1-with-form-2-check", CHECK, ONE + with_byte(TWO, 6, 0)),
    ("wrong-field", FIELDS, FIELD + TWO + ONE),
    ("job-0", FIELDS, TWO + sealed(bytes(4) + TWO[4:])),
    ("17-points", FIELDS, sealed(with_byte(ONE, 5, 17))),
    ("unknown-form", FORM, UNKNOWN + ONE + with_byte(UNKNOWN, 511, UNKNOWN[511] ^ 1) + TWO),
    ("form-255", FORM, sealed(with_byte(TWO, 6, 255)) + TWO),
    ("nothing-to-write", NOTHING, WRONG + FIELD + UNKNOWN + ONE[:9]),
    ("no-input", NO_INPUT, b""),
    ("exchanged-2-to-7", EXCHANGED, b"".join(exchanged(TWO, i) for i in range(2, 8)) + TWO),
    ("exchanged-0-and-1", EXCHANGED, exchanged(TWO, 0) + exchanged(TWO, 1) + TWO),
    ("exchanged-last", EXCHANGED, exchanged(TWO, 125) + exchanged(in_form(FAIR[2], 2), 25) + TWO),
    ("exchanged-in-form-1", EXCHANGED, exchanged(ONE, 4)),
    ("exchange-into-form-1", EXCHANGED, (EXAMPLES / "exchanged.batch").read_bytes()),
]
LARGER = [
    ("every-answer", EVERY),
    ("a-whole-part", ONE * 128),
    ("a-part-and-a-rest", TWO * 128 + ONE[:1]),
    ("two-parts-and-more", (ONE * 127 + WRONG) * 2 + TWO + UNKNOWN + ONE[:300]),
    ("refused-throughout", WRONG * 300),
]


def main():
    if len(sys.argv) == 1:
        rows = []
        for _, kind, given in CASES:
            out, file = converted(given)
            rows.append(case_rows.row(kind, given, out, b"", file))
        case_rows.write(7, rows)
    elif len(sys.argv) == 2:
        folder = pathlib.Path(sys.argv[1])
        for name, given in [(n, g) for n, _, g in CASES] + LARGER:
            out, file = converted(given)
            kept = b"".join(b for b in blocks(given) if not refusal(b))
            for end, data in ((".in", given), (".out", out), (".file", file), (".kept", kept)):
                (folder / (name + end)).write_bytes(data)
            print(name)
    else:
        sys.exit(__doc__)


if __name__ == "__main__":
    main()
