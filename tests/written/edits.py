#!/usr/bin/env python3
"""That each must-fail edit can be made: its files are there, and each `old` stands in its file once. Exit status 1 where one cannot.

`rt must-fail` says the same of an edit when its turn comes, which in the gate is late; whether an edit is refused only the prover can say.
"""
import pathlib
import re
import sys

ROOT = pathlib.Path(__file__).resolve().parents[2]


def fault(crate, edit):
    """What keeps an edit from being made, or None. Read as `rt` reads it: a `file` line holds for the `old` and `new` lines after it."""
    texts, file, old, made = {}, None, None, 0
    for line in edit.read_text(encoding="utf-8").split("\n"):
        if line.startswith("file: "):
            file = line[len("file: "):]
            if not re.match(r"(src|specs|proofs)/", file) or not (crate / file).is_file():
                return f"no file {file}"
            texts.setdefault(file, (crate / file).read_text(encoding="utf-8"))
        elif line.startswith("old: "):
            old = line[len("old: "):]
        elif line.startswith("new:"):
            if not file or not old:
                return "a `new` line without a `file` and an `old` line before it"
            times = texts[file].count(old)
            if times != 1:
                return f"`{old}` stands {times} times in {file}"
            texts[file], old, made = texts[file].replace(old, line[len("new:"):].removeprefix(" ")), None, made + 1
    return None if made else "it changes nothing"


def main():
    listed = set(re.findall(r"^(\w+)(?: staticlib)?:", (ROOT / "crates.txt").read_text(encoding="utf-8"), re.M))
    edits = sorted(ROOT.glob("crates/*/must-fail/*"))
    wrong = 0
    for edit in edits:
        crate = edit.parents[1]
        why = fault(crate, edit) if crate.name in listed and edit.suffix == ".edit" else "no crate of crates.txt tries it"
        if why:
            wrong += 1
            print(f"{edit.relative_to(ROOT)}: {why}")
    print(f"{len(edits)} must-fail edits" + (f", {wrong} cannot be made" if wrong else ", each can be made"))
    sys.exit(1 if wrong else 0)


if __name__ == "__main__":
    main()
