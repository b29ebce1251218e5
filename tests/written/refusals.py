#!/usr/bin/env python3
"""The texts of refusals stand in the header, in Rust and in Python: they are the same, of the same numbers. Exit status 1 where one is another, each told."""
import pathlib
import re
import sys

ROOT = pathlib.Path(__file__).resolve().parents[2]
FACES = {
    "include/foldflake.h": (r'case (\w+): return "(.*?)";', r'default: return "(.*?)";'),
    "rust/src/lib.rs": (r'^            (\d+) => "(.*?)",$', r'^            _ => "(.*?)",$'),
    "python/foldflake.py": (r'^    (\w+): "(.*?)",$', r'_TEXTS\.get\(number, "(.*?)"\)'),
}
NAMES = {"FOLDFLAKE_WRONG_LENGTH": 255, "_WRONG_LENGTH": 255}
NUMBERS = [*range(1, 18), 255]


def texts(file, case, other):
    text = (ROOT / file).read_text(encoding="utf-8")
    found = {NAMES.get(number) or int(number): said for number, said in re.findall(case, text, re.M)}
    return {**found, "else": re.search(other, text, re.M).group(1)}


def main():
    faces = {file: texts(file, *patterns) for file, patterns in FACES.items()}
    first, faults = next(iter(faces.values())), 0
    for file, found in faces.items():
        for number in [*NUMBERS, "else"]:
            if found.get(number) is None or found[number] != first.get(number):
                faults += 1
                print(f"{file}: {number}: {found.get(number)!r}, and the header has {first.get(number)!r}")
        for number in set(found) - {*NUMBERS, "else"}:
            faults += 1
            print(f"{file}: {number}: no refusal has this number")
    print(f"{len(faces)} files, {len(NUMBERS)} refusals each: " + (f"{faults} texts differ" if faults else "the same texts"))
    sys.exit(1 if faults else 0)


if __name__ == "__main__":
    main()
