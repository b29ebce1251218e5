#!/usr/bin/env python3
"""commands.py [PAGE ..]: runs the commands of README.md and docs/*.md with the proved programs, and compares what they print with what stands there. Exit
status 1 where one differs, each told with its page and line.

A block of commands opens with ```sh and a word that says by whom it is run:

    run, run status=1   by this script, in bash: it has to end with 0, or that status. A block ```output, with no words between, is what it prints on
                        standard output; a line `..` there stands for any lines, or none.
    by-hand             by nobody here, since it proves everything anew, or needs the published text or a quiet machine: told by name
    by=SCRIPT           by another script of the repository, which also compares what stands behind it: told by name

A block of commands without such a word is a fault, and so is a page without an end of a block. The blocks of a page are run in their order in one folder, made
for it: ./foldflake, a copy of examples/, and in target/bin the proved programs, which the kit's emulator runs where the machine is not x86-64. `rt check`
stands for itself there: that the programs it names were proved before is all that is looked at, since the gate has just proved them.
"""
import os
import pathlib
import re
import shutil
import subprocess
import sys
import tempfile

ROOT = pathlib.Path(__file__).resolve().parents[2]
LIMIT = 300  # seconds, for one block

# what stands for tools/program.sh in the folder of a page: what it proves was proved by the gate
PROGRAM = """#!/bin/sh
for name; do [ -x "$PROGRAMS/$name" ] || { echo "$name is not among the proved programs" >&2; exit 1; }; done
"""


def blocks(page, text):
    """The blocks of code of a page: the line of its opening, the words behind it, its lines, and whether no words stand between it and the block before."""
    found, open_at, words, inside, follows = [], None, [], [], False
    for number, line in enumerate(text.split("\n"), 1):
        if not line.startswith("```") and open_at:
            inside.append(line)
        elif not line.startswith("```"):
            follows = follows and not line.strip()
        elif open_at:
            found.append((open_at, words, inside, follows))
            open_at, follows = None, True
        else:
            open_at, words, inside = number, line[3:].split(), []
    if open_at:
        raise ValueError(f"{page}:{open_at}: a block without its end")
    return found


def fits(printed, stands):
    """Whether the lines printed are those that stand there, a line `..` standing for any."""
    if not stands:
        return not printed
    if stands[0] == "..":
        return any(fits(printed[k:], stands[1:]) for k in range(len(printed) + 1))
    return bool(printed) and printed[0] == stands[0] and fits(printed[1:], stands[1:])


def first(lines):
    """A block's command, for a line that tells of it: the first that is a verb, or the first."""
    said = [re.sub(r"\s+#.*", "", line) for line in lines if line.strip() and not line.startswith("set ")]
    return next((line for line in said if "./foldflake" in line), said[0] if said else "")


def commands(page, text):
    """The blocks of commands of a page: line, word, status, lines, and what they are to print, or None. Faults are raised."""
    out, found = [], blocks(page, text)
    for i, (line, words, lines, _) in enumerate(found):
        if words[:1] == ["output"] and not (i and found[i][3] and re.match(r"sh (run|by=)", " ".join(found[i - 1][1]))):
            raise ValueError(f"{page}:{line}: what is printed stands behind no block that is run")
        if words[:1] != ["sh"]:
            continue
        who, rest = (words + [""])[1], words[2:]
        printed = next((b[2] for b in found[i + 1 : i + 2] if b[1][:1] == ["output"] and b[3]), None)
        status = re.fullmatch(r"(?:status=(\d+))?", " ".join(rest))
        script = re.fullmatch(r"by=([\w/.-]+)", who)
        if not (who in ("run", "by-hand") or script and (ROOT / script.group(1)).is_file()) or not status or rest and who != "run":
            raise ValueError(f"{page}:{line}: ```{' '.join(words)}: a block of commands is `sh run`, `sh by-hand`, or `sh by=` a script that is there")
        out.append((line, who, int(status.group(1) or 0), lines, printed))
    return out


def emulator():
    """What stands before a program so that this machine runs it, as tests/programs/with.sh says."""
    told = subprocess.run(["bash", "-c", '. tests/programs/with.sh && printf %s "$run"'], cwd=ROOT, stdout=subprocess.PIPE, text=True)
    if told.returncode:
        sys.exit(told.stdout.strip())
    return told.stdout


def proved():
    """The folder of the proved programs: PROGRAMS where it is set, else target/bin, once they are proved."""
    if os.environ.get("PROGRAMS"):
        return pathlib.Path(os.environ["PROGRAMS"]).resolve()
    named = re.search(r'^every="(.*)"$', (ROOT / "foldflake").read_text(encoding="utf-8"), re.M).group(1).split()
    if subprocess.run(["tools/program.sh", *named], cwd=ROOT, stdout=subprocess.DEVNULL, stderr=subprocess.DEVNULL).returncode:
        sys.exit(f"not proved: one of {' '.join(named)}")
    return ROOT / "target/bin"


def prepare(folder, programs, run):
    """The folder in which a page's commands are run."""
    (folder / "foldflake").symlink_to(ROOT / "foldflake")
    shutil.copytree(ROOT / "examples", folder / "examples")
    for place, name, text in [("tools", "program.sh", PROGRAM)] + [
        ("target/bin", program.name, f'#!/bin/sh\nexec {run} "{program}" "$@"\n') for program in sorted(programs.iterdir()) if program.is_file()
    ]:
        (folder / place).mkdir(parents=True, exist_ok=True)
        (folder / place / name).write_text(text, encoding="utf-8")
        (folder / place / name).chmod(0o755)


def run_page(page, found, programs, run):
    """Runs a page's blocks; yields a line for each, and whether it went as it stands there."""
    with tempfile.TemporaryDirectory() as made:
        folder = pathlib.Path(made)
        prepare(folder, programs, run)
        env = dict(os.environ, PROGRAMS=str(programs))
        for line, who, status, lines, stands in found:
            place = f"{page}:{line}: {first(lines)}"
            if who != "run":
                yield True, f"not run: {place}: {'by hand' if who == 'by-hand' else who.replace('by=', 'by ')}"
                continue
            try:
                ended = subprocess.run(["bash", "-e", "-c", "\n".join(lines)], cwd=folder, env=env, stdin=subprocess.DEVNULL, capture_output=True, timeout=LIMIT)
            except subprocess.TimeoutExpired:
                yield False, f"{place}: not ended after {LIMIT} s"
                continue
            printed = ended.stdout.decode("utf-8", "replace").split("\n")[:-1]
            told = ended.stderr.decode("utf-8", "replace").strip().split("\n")[-1]
            if ended.returncode != status:
                yield False, f"{place}: exit status {ended.returncode}, not {status}: {told}"
            elif stands is not None and not fits(printed, stands):
                yield False, "\n    ".join([f"{place}: it prints other than stands there:", *printed[:20]])
            else:
                yield True, f"{place}: {'as it stands there' if stands is not None else 'it ends so'}, {len(printed)} lines"


def main():
    pages = sys.argv[1:] or ["README.md"] + sorted(f"docs/{p.name}" for p in (ROOT / "docs").glob("*.md"))
    try:
        found = [(page, commands(page, (ROOT / page).read_text(encoding="utf-8"))) for page in pages]
    except ValueError as fault:
        sys.exit(f"WRONG: {fault}")
    if not (shutil.which("cargo") or shutil.which("rustc")):
        print("skipped: the commands of the pages: neither cargo nor rustc is here")
        return
    programs, run = proved(), emulator()
    ran = compared = left = wrong = 0
    for page, its in ((page, its) for page, its in found if its):
        for (_, who, _, _, stands), (well, told) in zip(its, run_page(page, its, programs, run)):
            print(told if well else f"WRONG: {told}", flush=True)
            ran, left, compared, wrong = ran + (who == "run"), left + (who != "run"), compared + (who == "run" and stands is not None), wrong + (not well)
    print(f"{ran} blocks of commands run, {compared} of them compared with what stands there, {left} not run: " + (f"{wrong} wrong" if wrong else "all as told"))
    sys.exit(1 if wrong else 0)


if __name__ == "__main__":
    main()
