#!/usr/bin/env python3
"""The list of first guesses at a root, in the forms that contracts, code and proofs need: all are written from the table of crates/root_list/src/lib.rt.

  python3 tests/written/root_list.py           write them anew
  python3 tests/written/root_list.py --check   change nothing; name each file that is not what would be written, and exit with 1 if there is one

That every form has the table's entries, and that these meet the rule, is proved; this script only saves the typing.
"""
import pathlib
import re
import sys

CRATES = pathlib.Path(__file__).resolve().parents[2] / "crates"
HALF = 512  # the checker takes no 1,024 arms in one function

CODE = """\
// Made by tests/written/root_list.py of the table in root_list: its entries as the arms of a `match`, of which the back end makes a read-only table.
#![tactic(auto)]

ghost use Rattle.std.specs.Prelude.{{◌≡◌, ◌≤◌, ◌<◌, get_or}};
ghost use Rattle.root_list.specs.Guesses.{{guesses}};

fn lower(k: u64) -> u32
    requires {{ k < 512 }}
    ensures {{ result ≡ get_or guesses k 0 }}
{{
    match k {{
{lower}
        _ => 0,
    }}
}}

fn upper(k: u64) -> u32
    requires {{ 512 ≤ k }}
    ensures {{ result ≡ get_or guesses k 0 }}
{{
    match k {{
{upper}
        _ => 0,
    }}
}}

// Entry k of the table, and 0 past its end. In halves, since the checker takes no 1,024 arms in one function.
pub fn guess(k: u64) -> u32
    ensures {{ result ≡ get_or guesses k 0 }}
{{
    if k < 512 {{ lower(k) }} else {{ upper(k) }}
}}
"""
LIST = """\
-- Made by tests/written/root_list.py of the table in src/lib.rt: the first guesses, for contracts and proofs to name. Entry k is the largest whole number
-- whose square is at most k * 2 ^ 38: proofs/Rule.antt.
use Rattle.std.specs.Prelude.{{ℕ, List, [], ◌∷◌}}

abbrev pub guesses : List ℕ
guesses =
{rows}
    []
"""
PROOF = """\
-- Made by tests/written/root_list.py. `{name}` answers the list's entry: in each arm by looking it up, and {rest}. Assumes nothing.
{uses}use Rattle.root_list.specs.Guesses.{{guesses}}
use Rattle.root_guess.proofs.Keys.{{at_key, past-keys}}
use Rattle.root_guess.proofs.{name}.Goals as goal

{answers}"""
ANSWER = "pub {goal} : goal.{goal}\n{goal} c = {term}\n"
# of each half: what holds in the last arm, where no key fitted, and by what
LAST = {
    "lower": (
        "there is no other",
        "use native.Mathlib.Omega.{arith}\n",
        "let past = past-keys 0 512 c.args.k (omega arith) c.in_default.in_default-own.rest in absurd (omega arith)",
    ),
    "upper": (
        "past them because no entry is left",
        "use Rattle.root_list.proofs.Rule.{past_end}\n",
        "past_end guesses _ (past-keys 512 512 c.args.k c.requires c.in_default.in_default-own.rest)",
    ),
}


def arms(table, first):
    return "\n".join(f"        {k} => {table[k]}," for k in range(first, first + HALF))


def proof(name, first):
    rest, uses, last = LAST[name]
    terms = {f"returns-in-{k}": f"at_key guesses _ {k} c.in-{k}.is" for k in range(first, first + HALF)}
    terms["returns-in_default"] = last
    return PROOF.format(name=name, rest=rest, uses=uses, answers="\n".join(ANSWER.format(goal=goal, term=term) for goal, term in terms.items()))


def written(table):
    rows = "\n".join("    " + " ".join(f"{x} ∷" for x in table[i:i + 12]) for i in range(0, len(table), 12))
    return {
        "root_list/specs/Guesses.antt": LIST.format(rows=rows),
        "root_guess/src/lib.rt": CODE.format(lower=arms(table, 0), upper=arms(table, HALF)),
        "root_guess/proofs/lower/Answers.antt": proof("lower", 0),
        "root_guess/proofs/upper/Answers.antt": proof("upper", HALF),
    }


def main():
    code = (CRATES / "root_list/src/lib.rt").read_text()
    table = [int(x) for x in re.findall(r"\d+", re.search(r"\[u32; 1024\] = \[(.*?)\];", code, re.S).group(1))]
    wrong = 0
    for name, text in written(table).items():
        file = CRATES / name
        if sys.argv[1:] == ["--check"]:
            if not file.exists() or file.read_text() != text:
                print(f"crates/{name}: not what tests/written/root_list.py writes from the table")
                wrong = 1
        else:
            file.parent.mkdir(parents=True, exist_ok=True)
            file.write_text(text)
    return wrong


sys.exit(main())
