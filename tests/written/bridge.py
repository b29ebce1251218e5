#!/usr/bin/env python3
"""That every definition of the f64 crates which a public contract names has its law: it is the one of the f32 crates, at every format.

  python3 tests/written/bridge.py           name each definition without a law, and exit with 1 if there is one
  python3 tests/written/bridge.py --list    each definition with its law besides

Looked for is what the contract of a public function of a crate NAME64 cites of `model64`, or of another such crate's specs where it rests on
`model64`; what the two widths share, and what a crate says of room for its digits, needs no law. A law is a `pub` declaration in the proofs of LAWS whose
type names the definition and the one of the same name in the f32 crate. That the law holds is the checker's matter.
"""
import re
import sys

import promises

ROOT = promises.ROOT
LAWS = ["bridge", "bridge_own"]
WORD = r"[^\W\d][\w«»'·-]*(?:\.[^\W\d][\w«»'·-]*)?"
DECLARED = re.compile(r"^ *(?:(?:abbrev |unfoldable )?(?:pub )?(\S+) :(?: |$)|pub (?:data|record) (\S+) )")


def plain(text):
    return re.sub(r"--.*", "", text)


def imports(text, crate):
    """What a name of a file stands for: alone, (crate, module, name); before a dot, (crate, module, None). And the names that it hands on."""
    known, handed_on = {}, {}
    use = r"^\s*(?:ghost )?(unfoldable pub |pub )?use Rattle\.(\w+)\.specs\.([\w.-]+?)(?:\.\{([^}]*)\}| as (\w+))?;?$"
    for public, owner, module, names, alias in re.findall(use, text, re.M):
        if names:
            for name in names.split(","):
                name, _, here = name.strip().partition(" as ")
                known[here or name] = (owner, module, name)
                if public:
                    handed_on[here or name] = (owner, module, name)
        else:
            known[alias or module.split(".")[-1]] = (owner, module, None)
    return known, handed_on


class Specs:
    """A file of specs: each definition with the words of its text and of the sections around it."""

    def __init__(self, crate, module):
        path = ROOT / f"crates/{crate}/specs" / (module.replace(".", "/") + ".antt")
        text = path.read_text() if path.exists() else ""
        self.known, self.handed_on = imports(text, crate)
        self.words = {}
        sections, here = [], None
        for line in plain(text).split("\n"):
            if not line.strip() or line.startswith("use "):
                continue
            indent = len(line) - len(line.lstrip())
            sections = [(depth, words) for depth, words in sections if depth < indent]
            if re.match(r" *module _ ", line):
                sections.append((indent, line))
                here = None
                continue
            found = DECLARED.match(line)
            if found and not (here and indent > here[0] and here[2]):
                here = (indent, found.group(1) or found.group(2), bool(found.group(2)))
                self.words[here[1]] = " ".join(words for _, words in sections)
            if here:
                self.words[here[1]] += " " + line


SPECS = {}


def specs(crate, module):
    if (crate, module) not in SPECS:
        SPECS[crate, module] = Specs(crate, module)
    return SPECS[crate, module]


def meant(word, known, own=None):
    """The definition that a word stands for, as (crate, module, name), or None."""
    first, _, second = word.partition(".")
    if second and first in known and known[first][2] is None:
        return known[first][:2] + (second,)
    if first in known and known[first][2]:
        return known[first]
    return own + (first,) if own and first in specs(*own).words else None


def origin(what):
    """Where a definition stands that another file hands on."""
    while what and what[2] in specs(*what[:2]).handed_on:
        what = specs(*what[:2]).handed_on[what[2]]
    return what


def wide(what, seen):
    """Whether a definition is one of model64 or rests on one, or on a record."""
    if what in seen:
        return False
    seen.add(what)
    crate, module, name = what
    if crate == "model64":
        return True
    file = specs(crate, module)
    words = (origin(meant(word, file.known, (crate, module))) for word in re.findall(WORD, file.words.get(name, "")))
    return any(wide(word, seen) for word in words if word)


def cited():
    """The definitions that public contracts of the f64 crates cite: each with a function that does."""
    found = {}
    for crate in re.findall(r"^(\w+64):", promises.CRATES.read_text(), re.M):
        library = ROOT / f"crates/{crate}/src/lib.rt"
        for way, header in promises.public(library) if library.exists() else ():
            # the file of the function, for what its names stand for
            files = [path for path in (ROOT / f"crates/{crate}/src").rglob("*.rt") if header in path.read_text()]
            known = imports(files[0].read_text(), crate)[0]
            clauses = "".join(header.partition("ensures")[1:])
            for word in re.findall(WORD, re.sub(r"//.*", "", clauses)):
                what = origin(meant(word, known))
                if what and what[0].endswith("64") and not what[1].startswith("declared.") and wide(what, set()):
                    found.setdefault(what, "::".join((crate,) + way))
    return found


def laws():
    """Each pub declaration of the proofs of LAWS with what its statement names: (crate::name, the definitions)."""
    for crate in LAWS:
        for path in sorted((ROOT / f"crates/{crate}/proofs").rglob("*.antt")):
            text = path.read_text()
            known = imports(text, crate)[0]
            sections, law = [], None
            for line in plain(text).split("\n") + ["end"]:
                indent = len(line) - len(line.lstrip())
                if law and (line.strip().split(" ")[0] in (law[0], "unfolding") or line.strip() and indent <= law[1]):
                    yield f"{crate}::{law[0]}", {origin(meant(word, known)) for word in re.findall(WORD, law[2])}
                    law = None
                if not line.strip():
                    continue
                sections = [(depth, words) for depth, words in sections if depth < indent] if not law else sections
                started = re.match(r" *pub (\S+) :", line)
                if re.match(r" *module _ ", line):
                    sections.append((indent, line))
                elif started:
                    law = (started.group(1), indent, line)
                elif law:
                    law = (*law[:2], law[2] + " " + line)


def main():
    found, wanted = list(laws()), cited()
    without = 0
    for (crate, module, name), by in sorted(wanted.items()):
        both = {(crate, module, name), (crate.removesuffix("64"), module, name)}
        law = [told for told, names in found if both <= names]
        without += not law
        if not law or "--list" in sys.argv:
            print(f"{crate} {module}.{name}, cited by {by}: {law[0] if law else 'no law'}")
    print(f"{len(wanted)} definitions of the f64 crates in public contracts: " + (f"{without} without a law" if without else "each has its law"))
    sys.exit(1 if without else 0)


if __name__ == "__main__":
    main()
