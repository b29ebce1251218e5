#!/usr/bin/env python3
"""One version stands wherever a version stands: the header, both Cargo.toml files, the Python module, what `./foldflake --version` prints, the manual page, and
the newest entry of CHANGELOG.md. foldflake.pc has none of its own: `install` takes it from front/Cargo.toml. Exit status 1 where one is another, each told."""
import pathlib
import re
import sys

ROOT = pathlib.Path(__file__).resolve().parents[2]
PLACES = [
    ("CHANGELOG.md", r"^## (\d+\.\d+\.\d+)$"),
    ("include/foldflake.h", r'^#define FOLDFLAKE_VERSION "(.*)"$'),
    ("include/foldflake.h", r"^#define FOLDFLAKE_VERSION_MAJOR (\d+)\n#define FOLDFLAKE_VERSION_MINOR (\d+)\n#define FOLDFLAKE_VERSION_PATCH (\d+)$"),
    ("rust/Cargo.toml", r'^version = "(.*)"$'),
    ("front/Cargo.toml", r'^version = "(.*)"$'),
    ("front/src/verbs.rs", r'^const VERSION: &str = "(.*)";$'),
    ("python/foldflake.py", r'^__version__ = "(.*)"$'),
    ("docs/foldflake.1", r'^\.TH FOLDFLAKE 1 "" "foldflake (.*)"$'),
]
# how install gets what it writes into foldflake.pc
PC = """version=$(sed -n 's/^version = "\\(.*\\)"/\\1/p' front/Cargo.toml)"""


def main():
    told, faults = [], 0
    for file, pattern in PLACES:
        found = re.search(pattern, (ROOT / file).read_text(encoding="utf-8"), re.M)
        told.append(".".join(found.groups()) if found else None)
    for (file, _), version in zip(PLACES, told):
        if version is None or version != told[0]:
            faults += 1
            print(f"{file}: {'no version' if version is None else version}, and CHANGELOG.md has {told[0]}")
    if PC not in (ROOT / "front/install.sh").read_text(encoding="utf-8"):
        faults += 1
        print("front/install.sh: foldflake.pc does not have the version of front/Cargo.toml")
    print(f"{len(PLACES)} places and foldflake.pc: " + (f"{faults} have not the version" if faults else f"version {told[0]}"))
    sys.exit(1 if faults else 0)


if __name__ == "__main__":
    main()
