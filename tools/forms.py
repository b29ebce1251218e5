#!/usr/bin/env python3
"""Counts the places in src/ that an older form may stand in, by the points of docs/DESIGN-PASS.md.

    tools/forms.py [FOLDER]           the count of each kind, over the crates of FOLDER (else of this checkout)
    tools/forms.py [FOLDER] KIND..    each place of those kinds, a line each

What `tests/written/wide.py` writes (the f64 crates) is counted by kind 2a alone, since it changes with what it is written from.
"""
import collections
import pathlib
import re
import sys

ROOT = pathlib.Path(__file__).resolve().parents[1]


def without_comments(text):
    return re.sub(r"//[^\n]*", "", text)


def functions(text):
    """(line, header, clauses, body) of each function."""
    for m in re.finditer(r"^[ \t]*(?:pub(?:\([a-z]+\))? )?(?:unsafe )?(?:extern \"C\" )?fn (\w+)", text, re.M):
        depth, k = 0, m.end()
        # the parameters
        k = text.index("(", k)
        start = k
        while True:
            depth += {"(": 1, ")": -1}.get(text[k], 0)
            k += 1
            if depth == 0:
                break
        params = text[start + 1:k - 1]
        # result and clauses, up to the body's brace: a line that is `{` alone, or a brace at the end of the header
        rest = text[k:]
        b = re.search(r"\{\n|\n[ \t]*\{\n|\{ [^\n]* \}\n", rest)
        body_at = None
        for b in re.finditer(r"\{", rest):
            before = rest[:b.start()].rstrip()
            last = before.split("\n")[-1].strip()
            if re.match(r"^(requires|ensures)( \w+)?$", last) or re.search(r"(requires|ensures)( \w+)?$", before):
                # a clause: skip to its end
                continue
            opened = rest[:b.start()].count("{") - rest[:b.start()].count("}")
            if opened == 0:
                body_at = b.start()
                break
        if body_at is None:
            continue
        head = rest[:body_at]
        depth, e = 0, body_at
        while e < len(rest):
            depth += {"{": 1, "}": -1}.get(rest[e], 0)
            e += 1
            if depth == 0:
                break
        yield text[:m.start()].count("\n") + 1, m.group(1), params, head, rest[body_at:e]


def split_params(params):
    out, depth, last = [], 0, 0
    for i, c in enumerate(params):
        depth += {"(": 1, "<": 1, "[": 1, ")": -1, ">": -1, "]": -1}.get(c, 0)
        if c == "," and depth == 0:
            out.append(params[last:i].strip())
            last = i + 1
    out.append(params[last:].strip())
    return [p for p in out if p]


def main():
    args = sys.argv[1:]
    root = ROOT
    if args and pathlib.Path(args[0]).is_dir():
        root, args = pathlib.Path(args[0]), args[1:]
    places = collections.defaultdict(list)
    files = sorted(root.glob("crates/*/src/**/*.rt"))
    texts = {f: without_comments(f.read_text(encoding="utf-8")) for f in files}
    shapes, clauses = collections.defaultdict(list), collections.defaultdict(list)
    for f, text in texts.items():
        crate = f.relative_to(root / "crates").parts[0]
        wide = crate.endswith("64") and crate != "root64"
        where = str(f.relative_to(root / "crates"))

        def found(kind, line, what):
            if not wide or kind == "2a":
                places[kind].append(f"{where}:{line}: {what}")

        for m in re.finditer(r"enum (\w+)[^{]*\{(.*?)\n\}", text, re.S):
            cases = [c.strip() for c in re.findall(r"^    (\w+[^\n]*)", m.group(2), re.M)]
            line = text[:m.start()].count("\n") + 1
            if len(cases) == 2 and sum("(" in c or "{" in c for c in cases) >= 1 or [c for c in cases if re.match(r"(Passed|Nowhere|None)\b", c)]:
                found("1a", line, f"enum {m.group(1)} of two cases")
            elif len(cases) > 2 and any(c.startswith("Refused") for c in cases):
                found("1b", line, f"enum {m.group(1)} with a refusal among other cases")
        for m in re.finditer(r"struct (\w+)[^{;]*\{(.*?)\n\}", text, re.S):
            fields = re.findall(r"^    (?:pub )?(\w+): ([^\n]*?),?$", m.group(2), re.M)
            line = text[:m.start()].count("\n") + 1
            if len(fields) > 1 and any(t == "bool" for _, t in fields):
                found("1c", line, f"struct {m.group(1)} with a flag beside values")
            if any(re.match(r"(count|len|n)$", n) for n, _ in fields) and any(t.startswith("[") for _, t in fields):
                found("6a", line, f"struct {m.group(1)}: an array with its count beside")
        for line, name, params, head, body in functions(text):
            ps = split_params(params)
            if re.search(r"refus", name) and re.search(r"-> u32\b", head):
                found("1d", line, f"fn {name} gives a number of refusal, 0 for none")
            if len(ps) >= 8:
                found("5a", line, f"fn {name} has {len(ps)} parameters")
            if any(re.match(r"\w+: &mut \[u8\]$", p) for p in ps) and any(re.match(r"at: usize$", p) for p in ps):
                found("6b", line, f"fn {name}: a buffer with a place beside")
            if any(re.match(r"\w+: &(mut )?\[u8\]$", a) and re.match(r"[nm]: usize$", b) for a, b in zip(ps, ps[1:])):
                found("6c", line, f"fn {name}: a text with its length beside")
            if any(re.match(r"\w*xs: ", a) and re.match(r"\w*ys: ", b) for a, b in zip(ps, ps[1:])):
                found("6d", line, f"fn {name}: parallel lists")
            lines = body.count("\n")
            if lines >= 3:
                shape = re.sub(r"\b(0x[0-9a-f_]+|\d[\d_.]*(?:[ui]\d+|usize|f32|f64)?)\b", "0", re.sub(r"\s+", " ", params + "|" + body))
                shape = re.sub(r"\b(f32|f64|u8|u16|u32|u64|usize)\b", "T", shape)
                shape = re.sub(r"64\b", "", shape)
                shapes[name.removesuffix("64"), shape].append((crate, where, line, name))
            for c in re.findall(r"requires \{([^{}]*)\}", head):
                for part in re.split(r" × ", re.sub(r"\s+", " ", c)):
                    clauses[crate, part.strip(" ()")].append((where, line, name))
        for m in re.finditer(r"^[ \t]*(?:'\w+: )?(?:while|loop)\b[^\n]*", text, re.M):
            found("3a", text[:m.start()].count("\n") + 1, m.group(0).strip())
        for m in re.finditer(r"^[ \t]*for \w+ in 0\.\.u64::MAX", text, re.M):
            found("7a", text[:m.start()].count("\n") + 1, "a run's own loop over parts")
        for m in re.finditer(r"=> \{?\s*Ok\((\w*|\(\))\)", text):
            found("4a", text[:m.start()].count("\n") + 1, "a match that hands Ok on")
        for m in re.finditer(r"^[ \t]*(\w+)\[(\w+)\] = (\w+)\[(\w+)\];", text, re.M):
            found("4b", text[:m.start()].count("\n") + 1, "copied one by one: " + m.group(0).strip())
        for m in re.finditer(r"if (\w+) < (\w+) \{ (\w+) \} else \{ (\w+) \}", text):
            if {m.group(1), m.group(2)} == {m.group(3), m.group(4)}:
                found("4c", text[:m.start()].count("\n") + 1, "least or most by hand")
    for (name, _), at in sorted(shapes.items()):
        if len(at) > 1:
            pair = len(at) == 2 and at[0][0].removesuffix("64") == at[1][0].removesuffix("64")
            places["2a" if pair else "2b"].append(f"{name}: " + ", ".join(f"{w}:{line}" for _, w, line, _ in at))
    for (crate, c), at in sorted(clauses.items()):
        if len(at) >= 3 and not crate.endswith("64") and len(c) > 12:
            places["5b"].append(f"{crate}: {c} ({len(at)} functions)")
    answers = 0
    for f in sorted(root.glob("crates/*/proofs/**/Answers.antt")):
        crate = f.relative_to(root / "crates").parts[0]
        if not crate.endswith("64") or crate == "root64":
            answers += len(re.findall(r"^pub \S+ : goal\.", f.read_text(encoding="utf-8"), re.M))
    places["8a"] = [""] * answers
    if args:
        for kind in args:
            for p in places[kind]:
                print(f"{kind} {p}")
        return
    for kind in sorted(WORDS):
        print(f"{kind} {len(places[kind]):5}  {WORDS[kind]}")


WORDS = {
    "1a": "enums of two cases, one of them a refusal or nothing",
    "1b": "enums with a refusal among more than two cases",
    "1c": "records with a flag beside values",
    "1d": "functions that give a number of refusal, 0 for none",
    "2a": "functions that stand in a crate and in its f64 twin",
    "2b": "functions of one name and text but for types and numbers, otherwise",
    "3a": "`while` and `loop`",
    "4a": "a `match` that hands Ok on as it is",
    "4b": "parts copied one by one",
    "4c": "the least or the most of two by hand",
    "5a": "functions with eight parameters or more",
    "5b": "premises that stand at three functions or more of a crate",
    "6a": "an array with its count beside",
    "6b": "functions that write a buffer from a place on, the place beside it",
    "6c": "functions that take a text and a length",
    "6d": "functions that take two lists side by side",
    "7a": "a program's own copy of the loop over parts",
    "8a": "answers in proofs/, the f64 crates left out",
}

if __name__ == "__main__":
    main()
