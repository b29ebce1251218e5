#!/usr/bin/env python3
"""That the rows and files which scripts of this folder wrote for the gate's programs are what they write today. Exit status 1 where they are not.

Reports are worked out from the printed lines of `sheet`, and verdicts are `clearance`'s, in the folder that PROGRAMS names, else in target/bin: both have to be
proved before. Rows that
only the oracle can make are not looked at.
"""
import os
import pathlib
import subprocess
import sys
import tempfile

HERE = pathlib.Path(__file__).resolve().parent
CRATES = HERE.parents[1] / "crates"
# the scripts that write whole parts of crates/replay_batches/stdin, with the number of their tables
ROWS = {
    "contact_rows.py": ("5",), "convert_cases.py": ("7",), "job_lines.py rows": ("8", "9"), "salvage_cases.py": ("10",),
    "report_cases.py rows SHEET": ("11",), "route_cases.py rows": ("12",),
}


def written(words, *more):
    return subprocess.run([sys.executable, str(HERE / words[0]), *words[1:], *more], stdout=subprocess.PIPE, stderr=subprocess.DEVNULL, check=True).stdout


def command(program):
    """The words that run a program here."""
    run = subprocess.run(["bash", "-c", ". tests/programs/with.sh && echo $run"], cwd=CRATES.parent, stdout=subprocess.PIPE, check=True, text=True).stdout
    return f"{run.strip()} {pathlib.Path(os.environ.get('PROGRAMS', CRATES.parent / 'target/bin')) / program}"


def main():
    sheet, clearance = command("sheet"), command("clearance")
    stored, wrong = (CRATES / "replay_batches/stdin").read_bytes(), 0
    for script, tables in ROWS.items():
        rows = written([sheet if word == "SHEET" else word for word in script.split()])
        same = bool(rows) and len(rows) % 65536 == 0 and stored.find(rows) % 65536 == 0
        wrong += not same
        told = f"{len(rows) // 65536} parts of crates/replay_batches/stdin {'are' if same else 'WRONG: are not'} those of {script}"
        print(f"table {' and '.join(tables)}: {told}")
    same = written(["clearance_rows.py", clearance]) == (CRATES / "replay_clearance/stdin").read_bytes()
    wrong += not same
    print(f"table 13: crates/replay_clearance/stdin {'is' if same else 'WRONG: is not'} that of clearance_rows.py")
    with tempfile.TemporaryDirectory() as folder:
        written(["salvage_cases.py", "gate"], folder)
        for name in ("stdin", "stdout"):
            same = pathlib.Path(folder, name).read_bytes() == (CRATES / "salvage" / name).read_bytes()
            wrong += not same
            print(f"crates/salvage/{name} {'is' if same else 'WRONG: is not'} that of salvage_cases.py gate")
    sys.exit(1 if wrong else 0)


if __name__ == "__main__":
    main()
