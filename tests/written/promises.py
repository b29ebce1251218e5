#!/usr/bin/env python3
"""One statement for each public function that no second result fits its contract: crates/promises/proofs/EveryFunction.antt.

  python3 tests/written/promises.py           write that file anew, and the line of `promises` in crates.txt
  python3 tests/written/promises.py --check   change nothing; name what has no statement or no place in docs/PROMISES.md, and exit with 1 if anything has not

A statement names a function and cites the contract that the checker makes of its `ensures` lines, so what it says follows the code by itself.
What is read here is only which functions a library lets another crate call, of how many clauses each contract is, whether anything is lent to be
written, and whether a result that is a struct is told part by part.
"""
import pathlib
import re
import sys

ROOT = pathlib.Path(__file__).resolve().parents[2]
STATEMENTS = ROOT / "crates/promises/proofs/EveryFunction.antt"
CRATES = ROOT / "crates.txt"
TABLE = ROOT / "docs/PROMISES.md"
OWN = "promises"
SYSTEM = "what it answers is the system's, and no contract can fix it"
ONE_WAY = "it says yes only where something holds, and which of two sound answers comes is the search's"
WHOLE_MOVE = "grid board piece_check clear_search clearance_verdict grid_job clearance_job"
ROOM = "it fills the first of a room's floats, and what stands behind them is nobody's matter"
TEST = "it compares and counts stored rows, and nothing of the product calls it"
PROMISES = (
    "clearance_call::clearance clearance_lists::clearance_told foldflake::foldflake_clearance"
    " clearance_block::clear_block clearance_lines::write_part all_clear_search::search_part"
    " rooms_block::block_rooms rooms_lines::write_part"
)
ROUTES = "route_clearance_legs::route_clearance route_clearance_text::write_answer route_clearance_lists::route_clearance_told"
ROUTES += " foldflake::foldflake_route_clearance"
LEFT_OUT = {"streams": SYSTEM, "outfile": SYSTEM, "replay_rows": TEST, "block_floats::floats_at": ROOM}  # crates and functions
LEFT_OUT.update({name: ONE_WAY for name in f"{WHOLE_MOVE} {PROMISES} {ROUTES}".split()})
TOLD = {1: "told", 2: "told-in-two"}  # by the number of clauses

HEAD = """\
-- Made by tests/written/promises.py: for each public function of the libraries, that no second result fits its contract.
use seplogic.Ra.Ura.{{Ura}}
use base.Logic.{{SProp}}
use prog.Memory.{{Memory}}
use prog.Routine.{{Routine}}
use types.Logic.{{Logic}}
use contract.Monad.{{Fun}}
use mathlib.Core.Path.{{◌≡◌, refl}}
use Rattle.promises.specs.OneResult.{{OneResult}}
use Rattle.promises.proofs.Once.{{told, told-in-two, each-list, same-value}}
{crates}
{structs}
module _ {{M : Type 1}} {{𝓤 : Ura M}} (𝓛 : Logic 𝓤) (mem : Memory → SProp 𝓤) (run : Routine → Fun 𝓤) where
{statements}"""
STATEMENT = """\
  pub {name} : OneResult 𝓛 {path}.ended ({path}.spec 𝓛 mem run)
  {name} = record {{
    clauses = {path}.clauses 𝓛 mem run;
    of-contract = refl;
    once = λ κs a g r r' v v'. {told} 𝓤 (λ p q. (search {by}, {left}));
  }}
"""
BY_VALUE = "same-value"
BY_PARTS = "(same-value, {lemma})"
NOTHING_LENT = "refl"
EACH_LIST = "each-list {path}.ended κs a v v' (search same-value depth 12)"
STRUCT = """
-- `{name}`, where a contract tells its parts
{lemma} : {{x y : {name}}} → {premises} → x ≡ y
{lemma} {proofs} = λ i. record {{ {fields} }}
"""


def crates():
    """The libraries of crates.txt in its order."""
    names = re.findall(r"^(\w+):", CRATES.read_text(), re.M)
    return [n for n in names if n != OWN and n not in LEFT_OUT and (ROOT / f"crates/{n}/src/lib.rt").exists()]


def module_file(path, name):
    """The file of the module `name` that the file `path` declares."""
    folder = path.parent if path.name == "lib.rt" else path.with_suffix("")
    return folder / f"{name}.rt"


def headers(text):
    """Each `pub fn` at a file's outer level, with its text up to the body."""
    found = {}
    for start in re.finditer(r"^pub (?:extern \"C\" )?fn (\w+)", text, re.M):
        end = re.compile(r"^\}", re.M).search(text, start.end()).start()
        # behind clauses the body opens on a line of its own
        body = re.compile(r"^\{$", re.M).search(text, start.end(), end) or re.compile(r" \{$", re.M).search(text, start.end(), end)
        found[start.group(1)] = text[start.start() : body.start()]
    return found


def methods(text):
    """Each `pub fn` of the structs' own `impl` blocks at a file's outer level: the way to it, with its text up to the body."""
    found = {}
    for block in re.finditer(r"^impl(?:<[^>]*>)? (\w+)(?:<[^>]*>)? \{\n(.*?)^\}", text, re.M | re.S):
        for name, header in headers(re.sub(r"^ {4}", "", block.group(2), flags=re.M)).items():
            found[(block.group(1), name)] = header
    return found


def ways(used):
    """The way to each name that a `pub use` brings."""
    stem, _, group = "".join(used.split()).partition("{")
    return [tuple((stem + name).split("::")) for name in group.rstrip("}").split(",") if name or not group]


def public(path):
    """What the module in the file `path` lets others call, functions and methods: (the way to it, its header)."""
    text = path.read_text()
    found = [((name,), header) for name, header in headers(text).items()] + list(methods(text).items())
    if len(re.findall(r"^[ \t]*pub (?:extern \"C\" )?fn ", text, re.M)) != len(found):
        sys.exit(f"{path.relative_to(ROOT)}: a public function below the file's outer level, and no method, is not handled")
    modules = {name: kind for kind, name in re.findall(r"^(pub )?mod (\w+);", text, re.M)}
    for name, kind in modules.items():
        if kind:
            found += [((name,) + way, header) for way, header in public(module_file(path, name))]
    for used in re.findall(r"^pub use ([^;]+);", text, re.M):
        if used.split("::")[0] not in modules:
            continue  # another crate's: it has its statement there
        if re.search(r"\*|\bas\b|\bself\b|\{.*\{", used, re.S):
            sys.exit(f"{path.relative_to(ROOT)}: `pub use {used}` is not handled: write each name, as it is called there, in one group at most")
        for way in ways(used):
            inner = dict(public(module_file(path, way[0])))
            found += [(way[-1:] + deep[len(way) - 1 :], header) for deep, header in inner.items() if deep[: len(way) - 1] == way[1:]]
    return found


def by_parts(crate, header):
    """The struct whose parts the clauses of a function tell, if they do: its crate, where it is declared, its name, its fields."""
    if not re.search(r"\bresult\.\w", header):
        return None
    name = re.search(r"-> (\w+)", header).group(1)
    for owner in [crate, *crates()]:
        sources = ROOT / f"crates/{owner}/src"
        for path in sorted(sources.rglob("*.rt")):
            struct = re.search(rf"^pub struct {name}\b[^{{]*\{{(.*?)^\}}", path.read_text(), re.M | re.S)
            if struct:
                modules = path.relative_to(sources).with_suffix("").parts
                place = ".".join([f"Rattle.{owner}.specs.declared", *(m for m in modules if m != "lib"), name])
                return owner, place, name, re.findall(r"^ +pub (\w+):", struct.group(1), re.M)
    sys.exit(f"{crate}: no struct {name}, whose parts a contract tells")


def alias_of(owner, name):
    """What a struct is called here: those of the f64 crates have the names of the others."""
    return f"{name}64" if owner.endswith("64") else name


def lemma_of(name):
    return re.sub(r"(?<=[a-z0-9])(?=[A-Z])", "-", name).lower() + "-by-parts"


def lemma(name, fields):
    """That two values of a struct are one where each of their parts is."""
    return STRUCT.format(
        name=name,
        lemma=lemma_of(name),
        premises=" → ".join(f"x.{f} ≡ y.{f}" for f in fields),
        proofs=" ".join(f"p{k}" for k in range(len(fields))),
        fields="; ".join(f"{f} = p{k} i" for k, f in enumerate(fields)),
    )


def promised(crate, structs):
    """The statements for the functions of a crate that answer or leave something. The structs told by their parts go to `structs`."""
    found = {}
    for way, header in public(ROOT / f"crates/{crate}/src/lib.rt"):
        name = "::".join((crate,) + way)
        clauses = len(re.findall(r"^ {4}ensures\b", header, re.M))
        lent = "&mut" in header
        if name in LEFT_OUT:
            continue
        if "->" not in re.split(r"^ {4}ensures\b", header, flags=re.M)[0] and not lent:
            continue  # no result and nothing lent to be written
        if re.search(r"^ {4}requires\b", header, re.M):
            sys.exit(f"{name} asks something of its caller")
        if clauses not in TOLD:
            sys.exit(f"{name} has {clauses} clauses")
        path = ".".join((crate,) + way)
        struct = by_parts(crate, header)
        if struct:
            structs[struct[1]] = struct
        by = BY_PARTS.format(lemma=lemma_of(alias_of(struct[0], struct[2]))) if struct else BY_VALUE
        left = EACH_LIST.format(path=path) if lent else NOTHING_LENT
        found[path] = STATEMENT.format(name=re.sub(r"[._]", "-", path), path=path, told=TOLD[clauses], by=by, left=left)
    return [found[path] for path in sorted(found)]


def made():
    """The statements' file and the line of crates.txt."""
    structs = {}
    by_crate = {c: promised(c, structs) for c in crates()}
    used = [c for c in by_crate if by_crate[c]]
    statements = "\n".join(f"  -- ---- {c}\n" + "\n".join(by_crate[c]) for c in used)
    uses = [f"use Rattle.{c}.specs.contracts as {c}" for c in used] + [
        f"use {place}.{{{name}}}" if alias_of(owner, name) == name else f"use {place}.{{{name} as {alias_of(owner, name)}}}"
        for owner, place, name, _ in structs.values()
    ]
    lemmas = "".join(lemma(alias_of(owner, name), fields) for owner, _, name, fields in structs.values())
    text = HEAD.format(crates="\n".join(uses), structs=lemmas, statements=statements)
    named = {owner for owner, _, _, _ in structs.values()}.union(used)
    return text, f"{OWN}: " + " ".join(c for c in by_crate if c in named)


def stated(text):
    return set(re.findall(r"OneResult 𝓛 (\S+)\.ended", text))


def check(text, line, listed):
    """What is committed against what would be made: whether they are the same, and in words where not."""
    committed, table = STATEMENTS.read_text(), TABLE.read_text()
    wrong = [f"no statement: {path}" for path in sorted(stated(text) - stated(committed))]
    wrong += [f"no such public function: {path}" for path in sorted(stated(committed) - stated(text))]
    wrong += [f"not in {TABLE.relative_to(ROOT)}: {path}" for path in sorted(stated(text)) if not re.search(rf"\b{path.split('.')[-1]}\b", table)]
    if committed != text or line not in listed.splitlines():
        wrong.append("to be made anew: python3 tests/written/promises.py")
    print("\n".join(wrong + [f"{len(stated(text))} public functions" + ("" if wrong else ", each with its statement")]))
    return not wrong


def main():
    text, line = made()
    listed = CRATES.read_text()
    if sys.argv[1:] == ["--check"]:
        sys.exit(0 if check(text, line, listed) else 1)
    if sys.argv[1:]:
        sys.exit(__doc__)
    STATEMENTS.write_text(text)
    CRATES.write_text(re.sub(rf"^{OWN}:.*$", line, listed, flags=re.M))


if __name__ == "__main__":
    main()
