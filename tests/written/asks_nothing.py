#!/usr/bin/env python3
"""That no function which a library lets another crate call asks anything of its caller: a `requires`. Exit status 1 where one does.

Every library of crates.txt is looked at, those too of which `promises` says nothing since their answers are the system's. Which functions are public is
read as tests/written/promises.py reads it. A function that calls a closure of its caller's has to say that the closure can be called; that one clause asks
nothing of what is handed in besides, and is passed over.
"""
import re
import sys

import promises

CALLABLE = r"\brequires( \w+)? \{ \w+\.IsAlwaysCallable \w+ \}"


def main():
    looked_at, asking = 0, []
    for crate in re.findall(r"^(\w+)(?: staticlib)?:", promises.CRATES.read_text(), re.M):
        library = promises.ROOT / f"crates/{crate}/src/lib.rt"
        for way, header in promises.public(library) if library.exists() else ():
            looked_at += 1
            if re.search(r"\brequires\b", re.sub(CALLABLE, "", re.sub(r"//.*", "", header))):
                asking.append("::".join((crate,) + way))
    print("\n".join([f"{name} asks something of its caller" for name in sorted(asking)] + [f"{looked_at} public functions, {len(asking)} with a `requires`"]))
    sys.exit(1 if asking else 0)


if __name__ == "__main__":
    main()
