#!/usr/bin/env python3
"""Writes crates/headlines: one file that cites each statement and each theorem that docs/PROMISES.md names, in its order and under its headings, so that the
checker holds the page's names; and the crate's line in crates.txt. With --check nothing is written, and what differs is told, with exit status 1.

A row's names are looked for in the .antt files that the row names, as names.py does; a name that stands in several crates is cited with the crate's name behind it.
"""
import re
import sys

import names

OUT = "crates/headlines/proofs/Headlines.antt"
TOP = """-- Made by tests/written/headlines.py: what docs/PROMISES.md promises, name by name, in its order. A name that is not proved there does not pass the checker.

"""


def public(file):
    """The names that a file declares for other crates."""
    text = (names.ROOT / "crates" / file).read_text(encoding="utf-8")
    return set(re.findall(r"^ *(?:abbrev |unfoldable )?pub (?:record |data )?([^\W\d][\w'-]*)", text, re.M)) - {"mod"}


def rows():
    """The headings and, below each, what its tables promise: (words of the row, [(file, name)])."""
    declared = names.declared()
    by_file = {file: public(file) for file in declared}
    heading, head, files = "", None, []
    for line in names.prose(names.PROMISES).split("\n"):
        if line.startswith("#"):
            heading = line.lstrip("# ").strip()
            if heading == "The public functions":
                return
        if not line.startswith("|"):
            head, files = None, []
            continue
        row = names.cells(line)
        if head is None:
            head = row
        elif "name" in head:
            files = names.row_files(row[head.index("file")], files, by_file)
            found = []
            for word in names.words(row[head.index("name")]):
                of = sorted((f for f in files if word in by_file[f]), key=lambda f: word[0].islower() and "/proofs/" not in f)
                if of:
                    found.append((of[0], word))
                elif re.fullmatch(names.NAME, word) and word not in names.NO_NAMES and any(word in declared[f] for f in files):
                    sys.exit(f"docs/PROMISES.md: `{word}` is not declared for other crates: it lacks its `pub`")
            if found:
                demand = f"{head[0]} {row[0]}: " if head[0] == "demand" else ""
                yield heading, demand + row[head.index("what") if "what" in head else 1 if demand else 0], found


def module(file):
    """The crate of a file and the way to its module, which has to be public."""
    crate, kind, *rest = re.sub(r"\.antt$", "", file).split("/")
    if f"pub mod {rest[0]}\n" not in (names.ROOT / f"crates/{crate}/{kind}/Lib.antt").read_text(encoding="utf-8") + "\n":
        sys.exit(f"docs/PROMISES.md: crates/{file} is no public module of its crate: crates/{crate}/{kind}/Lib.antt lacks its `pub`")
    return crate, f"Rattle.{crate}.{kind}.{'.'.join(rest)}"


def written():
    text, crates, seen, last = [TOP], [], {}, None
    for heading, what, found in rows():
        if heading != last:
            text.append(f"-- ---- {heading}\n")
            last = heading
        plain = re.sub(r"\[([^]]*)\]\([^)]*\)", r"\1", what.split(";")[0].split(": ", 1)[-1] if what.startswith("demand") else what.split(";")[0])
        plain = plain.replace("`", "")
        text.append("-- " + (plain if len(plain) <= 150 else plain[:147].rsplit(" ", 1)[0] + " ..") + "\n")
        for file, name in found:
            crate, path = module(file)
            # names.py looks for those of `promises`: a crate above that one would be proved last of all, by itself
            if crate == "promises" or (path, name) in seen:
                continue
            shown = name if name not in seen.values() else f"{name} as {name}-{crate.replace('_', '-')}"
            seen[path, name] = name
            text.append(f"use {path}.{{{shown}}}\n")
            if crate not in crates:
                crates.append(crate)
    order = re.findall(r"^(\w+)(?: staticlib)?:", (names.ROOT / "crates.txt").read_text(encoding="utf-8"), re.M)
    line = "headlines: " + " ".join(c for c in order if c in crates)
    return "".join(text), line


def main():
    text, line = written()
    list_file, out = names.ROOT / "crates.txt", names.ROOT / OUT
    listed = list_file.read_text(encoding="utf-8")
    crates = re.sub(r"^headlines:.*$", lambda m: line, listed, flags=re.M)
    same = out.exists() and out.read_text(encoding="utf-8") == text and crates == listed
    if "--check" in sys.argv:
        print(f"{text.count(chr(10) + 'use ')} names cited" if same else f"{OUT} or its line in crates.txt is not what docs/PROMISES.md asks for: run headlines.py")
        sys.exit(0 if same else 1)
    out.parent.mkdir(parents=True, exist_ok=True)
    out.write_text(text, encoding="utf-8")
    list_file.write_text(crates, encoding="utf-8")
    print(f"{text.count(chr(10) + 'use ')} names cited")


if __name__ == "__main__":
    main()
