#!/usr/bin/env python3
"""Spells this repository's own definitions and lemmas in snake case, as the library's are: nearRoot becomes near_root, totalsFrom-below totals_from-below.

usage: tools/port_names.py [FOLDER]     the top of a checkout in which the kit's port.py has run; the current one if left out

A word of antt that begins with a small letter and has a capital inside is turned, everywhere alike: in the .antt files of crates/, and in the contracts, ghost
imports and comments of its .rt files (code and strings have no such word). It stops, and writes nothing, where two words would become one, or where a file has
a word and, in a place of its own, the spelling that it would get. A field, a path's part or a label may be spelled alike: it is told apart by its place.
"""
import pathlib
import re
import sys

WORD = re.compile(r"(?<![\w'′-])[a-z][\w'′]*(?:-[\w'′]+)*")
HUMP = re.compile(r"(?<=[a-z0-9])[A-Z]")
# lemmas that have the spelling which a definition beside them gets: their parts are joined by a dash, as in other lemmas
FIRST = {
    "crates/route_grammar/proofs/Kept.antt": {"kept_from": "kept-from"},
    "crates/toi_proxy/proofs/PointLaws.antt": {"second_from": "second-from"},
    "crates/toi_proxy64/proofs/PointLaws.antt": {"second_from": "second-from"},
}


def turned(word):
    return "-".join(re.sub(r"(?<=[a-z0-9])[A-Z]+", lambda m: "_" + m[0].lower(), part) if part[0].islower() else part for part in word.split("-"))


def bare(word, text):
    """Whether the word stands in text in a place of its own: no field, no path's part, no label, no comment."""
    return re.search(r"(?<![\w'.-])" + re.escape(word) + r"(?![\w'-]|\s*=[^=])", text)


def clauses(text):
    return " ".join(re.findall(r"(?:requires|ensures)[^{]*\{([^}]*)\}", text)) + " ".join(re.findall(r"ghost use.*", text))


def main():
    top = pathlib.Path(sys.argv[1] if len(sys.argv) > 1 else ".")
    files = sorted(p for p in (top / "crates").rglob("*") if p.suffix in (".rt", ".antt") and "out" not in p.parts)
    texts = {}
    for p in files:
        text = p.read_text(encoding="utf-8")
        first = FIRST.get(p.relative_to(top).as_posix(), {})
        texts[p] = WORD.sub(lambda m: first.get(m[0], m[0]), text)
    words = set().union(*(WORD.findall(text) for text in texts.values()))
    new = {w: turned(w) for w in words if HUMP.search(w) and turned(w) != w}
    backs, bad = {}, []
    for w, n in new.items():
        backs.setdefault(n, []).append(w)
    bad += [f"two words become {n}: {' '.join(sorted(ws))}" for n, ws in sorted(backs.items()) if len(ws) > 1]
    taken = {w: n for w, n in new.items() if n in words}
    for p, text in texts.items():
        plain = re.sub(r"--.*|//.*", "", text)
        inside = set(WORD.findall(plain)) & taken.keys()
        where = clauses(text) if p.suffix == ".rt" else plain
        bad += [f"falls together in {p}: {w} {taken[w]}" for w in sorted(inside) if bare(taken[w], where)]
    if bad:
        print("\n".join(bad))
        raise SystemExit(1)
    count = 0
    for p, text in texts.items():
        out = WORD.sub(lambda m: new.get(m[0], m[0]), text)
        if out != p.read_text(encoding="utf-8"):
            p.write_text(out, encoding="utf-8")
            count += 1
    print(f"{len(new)} words turned in {count} files")


main()
