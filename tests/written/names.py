#!/usr/bin/env python3
"""What README.md and docs/*.md point to is there: links, files and names. Exit status 1 where one is not, each told with its line.

- A link leads to a file of the repository, and what follows # to a heading of that page.
- A path in backticks is a file, a folder or a pattern of some. It may leave out `crates/`, or all but the file's name. CRATE/EDIT is a must-fail edit.
- A name in backticks, be it of a crate, a function, a must-fail edit or a definition, stands somewhere in the repository outside the pages.
- In docs/PROMISES.md and docs/SQUARED-PAPER.md: what a table has in its column `name` is declared in one of the .antt files that its row names; a function of
  the other table is one of its row's crate, and a definition there is declared in some file of specs or proofs.
- The list at the top of docs/ARCHITECTURE.md has each crate of crates.txt, and besides crates folders alone.
- The names of jobs and routes as text, which front/ takes, stand in docs/PLANNER.md and docs/ROUTES.md, and so does each verb in docs/PROGRAMS.md.
- README.md has at most 130 lines and links to every page of docs/.

The commands of the pages are run by tests/programs/commands.py.

docs/LANDINGS.md and docs/DESIGN-PASS.md tell what was: of them only the links are looked at.
"""
import fnmatch
import pathlib
import re
import shutil
import subprocess
import sys

ROOT = pathlib.Path(__file__).resolve().parents[2]
OWN = str(pathlib.Path(__file__).resolve().relative_to(ROOT))
HISTORY = ("docs/LANDINGS.md", "docs/DESIGN-PASS.md")
FRONT = "README.md"
FRONT_LINES = 130
PROMISES = "docs/PROMISES.md"
THEOREMS = (PROMISES, "docs/SQUARED-PAPER.md")
TOUR = "docs/ARCHITECTURE.md"
# what a path may start with that the repository does not hold, since a run makes it or the published text has it
ELSEWHERE = ("target/", "query/", "shape/", "/dev/")
# words in backticks that are no names of the repository: of the published text and of the kit, of the language, of files that a reader makes
NO_NAMES = {
    "from_cuboid_half_extents", "ofBits", "toBits", "rattle-kit-5b", "rattle-kit-13f", "dac8208d650f15bf", "logic",
    "requires", "definition",
    "SHEET.html", "PAGE.html", "may.batch", "found.batch", "./-x", "mine.html", "shift.html", "shift-2.batch",
}


def files():
    """The repository's files; where git does not tell them, all that are there but what runs make."""
    command = ["git", "ls-files", "--cached", "--others", "--exclude-standard"]
    told = shutil.which("git") and subprocess.run(command, cwd=ROOT, stdout=subprocess.PIPE, stderr=subprocess.DEVNULL, text=True)
    if told and told.returncode == 0:
        return [f for f in told.stdout.split("\n") if f and (ROOT / f).exists()]
    walked = (p.relative_to(ROOT) for p in ROOT.rglob("*") if p.is_file())
    return sorted(str(p) for p in walked if not {"target", ".git", "__pycache__"} & set(p.parts))


FILES = files()
PAGES = [f for f in FILES if f == "README.md" or re.fullmatch(r"docs/[^/]*\.md", f)]
FOLDERS = {str(p) for f in FILES for p in pathlib.PurePath(f).parents}
ENDS = {pathlib.PurePath(f).suffix for f in FILES} - {""} | {".html", ".rlib"}
NAME = r"[^\W\d][\w·'-]*"
KEYWORDS = {"pub", "abbrev", "unfoldable", "data", "record", "partial"}
STEMS = {pathlib.PurePath(f).stem for f in FILES}
# the functions of each source file that is no crate's first, by its name
MODULES = {}
for f in FILES:
    if f.endswith((".rt", ".rs")):
        MODULES.setdefault(pathlib.PurePath(f).stem, set()).update(re.findall(r"\bfn (\w+)", (ROOT / f).read_text(encoding="utf-8")))
# the repository's files and folders by their last parts
TAILS = {"/".join(parts[k:]) for parts in (pathlib.PurePath(p).parts for p in FILES + sorted(FOLDERS)) for k in range(len(parts))}


def words_of_tree():
    """Every word of the files that are no pages, of their names, and of the folders'."""
    found = set(STEMS)
    for f in FILES:
        found.update(pathlib.PurePath(f).parts)
        if f not in PAGES and f != OWN and not f.endswith((".batch", ".png", "/stdin")):
            try:
                text = (ROOT / f).read_text(encoding="utf-8")
            except UnicodeDecodeError:
                continue
            found.update(re.findall(r"[\w·'-]+", text))
            found.update(re.findall(r"\w+", text))
    return found


def declared():
    """The names that each .antt file of a crate's specs or proofs declares, by the file's path below crates/."""
    found = {}
    for f in FILES:
        if re.fullmatch(r"crates/\w+/(specs|proofs)/.*\.antt", f):
            names = found[f.removeprefix("crates/")] = set()
            for line in (ROOT / f).read_text(encoding="utf-8").split("\n"):
                before, colon, _ = line.partition(" :")
                words = [w for w in before.split() if w not in KEYWORDS]
                if colon and words and not line.startswith(("use ", "--")):
                    names.add(words[0])
                    if all(re.fullmatch(NAME, w) for w in words):
                        names.update(words)  # constructors of one line
    return found


def functions():
    """The functions of each crate's sources; to those of `foldflake` belongs what the Rust crate of that name has."""
    found = {}
    for f in FILES:
        m = re.fullmatch(r"crates/(\w+)/src/.*\.rt|rust/src/.*\.rs", f)
        if m:
            found.setdefault(m.group(1) or "foldflake", set()).update(re.findall(r"\b(?:fn|mod) (\w+)", (ROOT / f).read_text(encoding="utf-8")))
    return found


def slugs(page):
    """The anchors of a page's headings."""
    found = {}
    text = re.sub(r"^```.*?^```", "", (ROOT / page).read_text(encoding="utf-8"), flags=re.M | re.S)
    for heading in re.findall(r"^#+ (.*)$", text, re.M):
        plain = re.sub(r"\[([^]]*)\]\([^)]*\)", r"\1", heading).replace("`", "").strip().lower()
        slug = re.sub(r"[^\w\- ]", "", plain).replace(" ", "-")
        times = found[slug] = found.get(slug, -1) + 1
        if times:
            found[f"{slug}-{times}"] = 0
    return set(found)


def link_fault(page, target):
    if re.match(r"[a-z]+:", target):
        return None  # of another site
    path, _, anchor = target.partition("#")
    file = str((ROOT / page).parent.joinpath(path).resolve().relative_to(ROOT)) if path else page
    if file not in FILES and file not in FOLDERS:
        return f"no file {file}"
    if anchor and anchor not in slugs(file):
        return f"no heading #{anchor} in {file}"
    return None


def there(path):
    """Whether a path of a page is one of the repository, from its root, from crates/, or by its last parts."""
    path = path.rstrip("/").removeprefix("./")
    if path.startswith("../"):
        return True
    pattern = re.sub(r"\b[A-Z]{2,}\b(?!\.md)", "*", path)  # CRATE, NAME, SRC stand for anything
    edit = "/must-fail/".join(path.split("/")) + ".edit" if path.count("/") == 1 else None
    return path in TAILS or edit in TAILS or "*" in pattern and bool(fnmatch.filter(TAILS, pattern))


def looks_like_path(word):
    return "/" in word and not re.search(r"\d/\d", word) or pathlib.PurePath(word).suffix in ENDS and re.fullmatch(r"[\w*.-]+", word)


def name_fault(word, tree, by_crate):
    """A word in backticks: what is wrong with it, or None."""
    if word in NO_NAMES or word.startswith(ELSEWHERE) or re.fullmatch(r"[A-Z]+", word):
        return None  # capitals alone stand for something else, or are printed
    if looks_like_path(word):
        return None if there(word) else "no such file"
    if re.fullmatch(r"\w+(::\w+)+", word):
        crate, *_, last = word.split("::")
        if crate in by_crate:
            return None if last in by_crate[crate] else f"no function of {crate}"
        return None if last in MODULES.get(crate, ()) or crate[0].isupper() else "no such function of a crate or module"
    if re.fullmatch(r"[A-Z]\w*\.[\w']+", word):
        return None if word.split(".")[1] in tree else "nothing of this name"
    if re.fullmatch(NAME, word) and len(word) > 2:
        return None if word in tree else "nothing of this name"
    return None


def cells(line):
    return [c.strip() for c in line.strip().strip("|").split("|")]


def spans(text):
    """What stands in backticks, with the line that it starts on, counted from 0."""
    for m in re.finditer(r"``(.+?)``|`([^`]+)`", text, re.S):
        yield text.count("\n", 0, m.start()), m.group(1) or m.group(2)


def words(cell):
    return [word for _, span in spans(cell) for word in span.split()]


def row_files(cell, before, by_file):
    """The files that a row names: whole, by its name behind one of the same folder, as a folder, or as those of the row before."""
    found, folder = list(before) if "the same" in cell else [], ""
    for word in words(cell):
        if "/" in word:
            folder = word.rpartition("/")[0]
        place = word.removeprefix("crates/") if "/" in word else f"{folder}/{word}"
        found += [f for f in by_file if f == place.removeprefix("crates/") or word.endswith("/") and f.startswith(place)]
    return found


def promise_faults(lines, by_file, by_crate):
    """Of the tables that have theorems: names that nothing declares, or not where their row says."""
    everywhere, every_function = set().union(*by_file.values()), set().union(*by_crate.values())
    head, crates, files = None, [], []
    for number, line in lines:
        row = cells(line)
        if not line.startswith("|"):
            head, files = None, []
        elif head is None:
            head = row
        elif "name" in head:
            files = row_files(row[head.index("file")], files, by_file)
            for word in words(row[head.index("name")]):
                if not re.fullmatch(NAME, word) or word in NO_NAMES:
                    continue
                if word not in everywhere:
                    yield number, word, "no file of specs or proofs declares it"
                elif files and not any(word in by_file[f] for f in files):
                    yield number, word, "none of the files of its row declares it"
        elif "function" in head and len(row) == 3:
            crates = words(row[0]) or crates
            for word in words(row[1]):
                last = word.split("::")[-1]
                yield from ((number, word, f"no function of {c}") for c in crates if re.fullmatch(r"\w+", last) and last not in by_crate.get(c, ()))
            for word in words(row[2]):
                last = word.split(".")[-1]
                if re.fullmatch(NAME, last) and not looks_like_path(word) and word not in NO_NAMES and last not in everywhere | every_function | set(by_crate):
                    yield number, word, "no file of specs or proofs declares it"


def tour_faults(page):
    """The list of crates at the top of the tour against crates.txt."""
    crates = re.findall(r"^(\w+)(?: staticlib)?:", (ROOT / "crates.txt").read_text(encoding="utf-8"), re.M)
    text = (ROOT / page).read_text(encoding="utf-8")
    listed = re.search(r"^```\n(.*?)^```", text, re.M | re.S).group(1)
    for number, line in enumerate(listed.split("\n"), text[: text.index(listed)].count("\n") + 1):
        for word in re.match(r"(?:[\w/]+, )*[\w/]*", line).group(0).split(", "):
            if word and word not in crates and word.rstrip("/") not in FOLDERS:
                yield number, word, "no crate and no folder"
    yield from ((1, crate, "a crate that the list does not have") for crate in crates if not re.search(rf"\b{crate}\b", listed))


def listed_faults():
    """Names that the front end takes, verbs, and pages, which no page lists."""
    def text(page):
        return (ROOT / page).read_text(encoding="utf-8")
    for page, source in (("docs/PLANNER.md", "front/src/job_text.rs"), ("docs/ROUTES.md", "front/src/route_text.rs")):
        names = re.findall(r'"([^"]+)"', re.search(r"const NAMES: .*?= \[(.*?)\];", text(source), re.S).group(1))
        for name in names:
            named = name if name[0] != "b" or name == "b" else "a" + name[1:]  # what A has B has
            named = {"b": "a", "radius b": "radius a"}.get(named, named)
            if not re.search(rf"`{named}(?::[^`]*)?`", text(page)):
                yield page, 1, name, f"a name that {source} takes is not on the page"
    usage = re.search(r'const HELP: &str = "\\\n(.*?)\n";', text("front/src/verbs.rs"), re.S).group(1)
    verbs = re.findall(r"(?:^  |, )([a-z][a-z0-9-]*)(?= [A-Z[]|, )", usage.split("\n\n`foldflake")[0], re.M)
    for verb in verbs:
        if not re.search(rf"`{verb}`", text("docs/PROGRAMS.md")):
            yield "docs/PROGRAMS.md", 1, verb, "a verb that the page does not name"
    lines = text(FRONT).count("\n")
    if lines > FRONT_LINES:
        yield FRONT, lines, FRONT, f"{lines} lines: at most {FRONT_LINES}"
    for page in PAGES:
        if page != FRONT and f"]({page})" not in text(FRONT):
            yield FRONT, 1, page, "a page to which it does not link"


def prose(page):
    """A page without its blocks of code, of which empty lines are left."""
    text = (ROOT / page).read_text(encoding="utf-8")
    return re.sub(r"^```.*?^```", lambda m: "\n" * m.group(0).count("\n"), text, flags=re.M | re.S)


def main():
    tree, by_crate = words_of_tree(), functions()
    faults, links, names = [], 0, 0
    for page in PAGES:
        text = prose(page)
        for m in re.finditer(r"\]\(([^)\s]+)\)", re.sub(r"`[^`]*`", lambda m: re.sub(r"[^\n]", " ", m.group(0)), text)):
            links += 1
            faults.append((page, text.count("\n", 0, m.start()) + 1, m.group(1), link_fault(page, m.group(1))))
        if page in HISTORY:
            continue
        for line, span in spans(text):
            for word in (w.strip(",;:") for w in span.split()):
                names += 1
                faults.append((page, line + 1, word, name_fault(word, tree, by_crate)))
        if page in THEOREMS:
            faults += [(page, *fault) for fault in promise_faults(enumerate(text.split("\n"), 1), declared(), by_crate)]
        if page == TOUR:
            faults += [(page, *fault) for fault in tour_faults(page)]
    faults += listed_faults()
    wrong = sorted({fault for fault in faults if fault[3]})
    for page, number, word, fault in wrong:
        print(f"{page}:{number}: `{word}`: {fault}")
    print(f"{len(PAGES)} pages, {links} links, {names} words in backticks: " + (f"{len(wrong)} lead nowhere" if wrong else "each leads somewhere"))
    sys.exit(1 if wrong else 0)


if __name__ == "__main__":
    main()
