#!/usr/bin/env python3
"""Write the f64 crates from the f32 crates: the same text, other names, another width.

    wide.py            write crates/NAME64 for every NAME below
    wide.py --check    say which file is not what would be written, and write nothing (exit 1)

Nothing rests on this script: what it writes is proved like any other text, and the crates `bridge` and `bridge_own` prove that the definitions
which it writes are those that it writes them from. Files that HAND names are written by hand, in their place, and are neither written nor removed
here. The output is as `rt fmt` lays it out.
"""
import re, sys, os
from pathlib import Path

CRATES = 'model ground domain outline simplex distance separation sweep_toi toi_proxy sweep_numbers work fields sheet_lines sheet list_calls replay'.split()
# crates of either width that are written by hand
WRITTEN = ['root']
# files of model that mention a record with floats, and are written again for f64; the others are shared
SPECS = 'Ground Domain Support Second Simplex Distance Sweep Separation SweepToi Corners Work Sheet'.split()
PROOFS = 'Domain Support Second Simplex DistanceCall Searches Sheet'.split()
# literals that differ between the widths
LITERALS = {'3.4028235e38': '1.7976931348623157e308', '1.1920929e-7': '2.220446049250313e-16'}
# patterns of bits, in the files that work on them: there u32 is u64 besides
PATTERNS = {'0x8000_0000': '0x8000_0000_0000_0000', '0x7f80_0000': '0x7ff0_0000_0000_0000', '0x7fc0_0000': '0x7ff8_0000_0000_0000',
            '7FC00000': '7FF8000000000000', 'u32': 'u64', '2139095040': '9218868437227405312', '2147483648': '9223372036854775808'}
BITS = {'ground/src/bits.rt', 'ground/src/scalar.rt', 'ground/proofs/bits/from_bits/Answers.antt', 'ground/proofs/scalar/abs/Answers.antt'}
# numbers of bytes, where they are named: a float has 16 digits
ROOM = {'fields': [('float_room = 9', 'float_room = 17'), ('contact_room = 45', 'contact_room = 85'), ('CONTACT_ROOM: usize = 45', 'CONTACT_ROOM: usize = 85'),
                   ('eight digits', 'sixteen digits'), ('put_hex', 'put_wide_hex'), ('put-hex', 'put-wide-hex')],
        'sheet_lines': [('longest_line = 240', 'longest_line = 280'), ('LONGEST_LINE: usize = 240', 'LONGEST_LINE: usize = 280'), ('238', '278'),
                  ('five floats of eight', 'five floats of sixteen')]}
# crates of which only some files have a counterpart
ONLY = {'replay': ['main', 'table', 'floats', 'pool', 'operations', 'distances', 'sweeps']}
# files that speak of a block's own numbers, which are f32's
OF_BLOCK = {'work64/proofs/Laws.antt'}
# files that speak of the sheet alone: what they say is said of model's
OF_MODEL = {'sheet_lines64/proofs/Run.antt'}
# what differs otherwise: file, what stands there once, what stands in its place
PATCHES = [
    ('sheet64/src/main.rt', 'b"sheet"', 'b"sheet64"'),
    ('sheet64/src/main.rt', 'Prints the sheet of the batch on standard input,', 'Prints the sheet, worked in f64, of the batch on standard input,'),
    # a block's numbers are taken over from f32
    ('work64/src/lib.rt', '*x = ground64::from_bits(wire::word(bytes, from + 4 * i));',
     '*x = taken_over(wire::word(bytes, from + 4 * i));'),
    ('work64/src/lib.rt', 'ghost use Rattle.std.specs.Prelude', 'mod taken;\n\nghost use Rattle.std.specs.Prelude'),
    ('work64/src/lib.rt', 'use model::{Block, BlockRefusal, Refusal};', 'use model::{Block, BlockRefusal, Refusal};\nuse taken::taken_over;'),
    # stored words have eight bytes
    ('replay64/src/floats.rt', ' as u64', ''),
    ('replay64/src/pool.rt', 'wire::word(&self.bytes, 16 + 4 * i)', 'wire::word(&self.bytes, 32 + 8 * i)'),
    ('replay64/src/pool.rt', 'ground64::from_bits(self.word(i))', 'ground64::from_bits(replay_rows::long(&self.bytes, 32 + 8 * i))'),
    ('replay64/src/pool.rt', 'NUMBERS: usize = 16380', 'NUMBERS: usize = 8188'),
    ('replay64/src/operations.rt', 'wire::word(row, 4 + 4 * i)', 'replay_rows::long(row, 8 + 8 * i)'),
    ('replay64/src/distances.rt', 'wire::word(row, 8)', 'wire::word(row, 16)'),
    ('replay64/src/distances.rt', 'index(row, 4)', 'index(row, 8)'),
    ('replay64/src/distances.rt', 'index(row, 5)', 'index(row, 9)'),
    ('replay64/src/distances.rt', 'bytes 0 to 5 are outline A', 'bytes 0 to 3, 8 and 9 are outline A'),
    ('replay64/src/pool.rt', '2 * index(row, 4)', '2 * index(row, 8)'),
    ('replay64/src/pool.rt', 'index(row, 5)', 'index(row, 9)'),
    ('replay64/src/pool.rt', 'index(row, 6)', 'index(row, 10)'),
    ('replay64/src/pool.rt', 'whose bytes 2 to 6 are', 'whose bytes 2, 3 and 8 to 10 are'),
    ('replay64/src/sweeps.rt', 'bytes 0 to 6 are', 'bytes 0 to 3 and 8 to 10 are'),
    # the text and the totals of a part are model's
    ('sheet_lines64/proofs/Parts.antt', 'use Rattle.model64.proofs.DistanceCall.{both}',
     'use Rattle.model.specs.Sheet as Sheet\nuse Rattle.bridge.proofs.Sheet.{lines_same, totals-same}\nuse Rattle.model64.proofs.DistanceCall.{both}'),
    ('sheet_lines64/proofs/Parts.antt', "→ Wrote (k + m) p₀ (lines_from binary64 t₀.blocks (answers binary64 b)) p'",
     "→ Wrote (k + m) p₀ (Sheet.lines_from binary64 t₀.blocks (Sheet.answers binary64 b)) p'"),
    ('sheet_lines64/proofs/Parts.antt', '      rw (answers-cut binary64 b, lines-append',
     '      rw (← lines_same binary64 t₀.blocks b, answers-cut binary64 b, lines-append'),
    ('sheet_lines64/proofs/Parts.antt', "→ t' ≡ totals_from t₀ (answers binary64 b)", "→ t' ≡ Sheet.totals_from t₀ (Sheet.answers binary64 b)"),
    ('sheet_lines64/proofs/Parts.antt', '  all-totals e = e ∙ rw (answers-cut', '  all-totals e = e ∙ rw (← totals-same binary64 t₀ b, answers-cut'),
    ('sheet_lines64/specs/Part.antt', 'use Rattle.model64.specs.Sheet.{answers, answer_line, totals_from, part_text}',
     'use Rattle.model.specs.Sheet.{answers, totals_from, part_text}\nuse Rattle.model64.specs.Sheet.{answer_line}'),
]

HAND = {
    'work64': ['src/taken.rt', 'proofs/floats_at/', 'proofs/taken/'],
    'replay64': ['src/main.rt', 'src/table.rt'],
}


def by_hand(rel):
    crate, rest = rel.split('/', 1)
    return any(rest.startswith(h) for h in HAND.get(crate, []))


WORD = r'[\w«»]+'


def items(text):
    """The structs, enums and aliases of a .rt file: name -> (whole text, its words)."""
    found = {}
    for m in re.finditer(r'((?:(?://|#\[)[^\n]*\n)*)pub (?:struct|enum|type) (\w+) (?:\{.*?\n\}|= [^\n]*;)\n', text, re.S):
        found[m.group(2)] = (m.group(0), set(re.findall(r'\w+', re.sub(r'//[^\n]*|#\[[^\n]*', '', m.group(0)))))
    return found


def wide_types(decls):
    """The types with a float in them."""
    wide = set()
    while True:
        more = {n for n, (_, ws) in decls.items() if n not in wide and ('f32' in ws or ws & wide)}
        if not more:
            return wide
        wide |= more


def blocks(text):
    return re.split(r'\n\n+', text.rstrip('\n'))


def declared(block):
    """The names that a top-level block declares, or None where it is not one."""
    lines = [l for l in block.split('\n') if not l.startswith('--')]
    if not lines or lines[0].startswith(('module', 'use ', ' ', 'infix', 'mutual')):
        return None
    m = re.match(r'(?:abbrev |unfoldable )?pub (?:data |record )?(\S+) :', lines[0])
    if not m:
        return None
    names = [m.group(1)]
    if 'pub data' in lines[0]:
        for l in lines[1:]:
            names += l.split(' : ')[0].split()
    return names


def names_of(text):
    return set(re.findall(r'^ *(?:abbrev |unfoldable )?pub (?:data |record )?(\S+) :', text, re.M))


class Gen:
    def __init__(self, root):
        self.root = root
        self.decls = items((root / 'crates/model/src/lib.rt').read_text())
        self.wide = wide_types(self.decls)
        self.shared = {}      # module of specs -> names that stay model's
        self.out = {}
        self.deps = {}
        for line in (root / 'crates.txt').read_text().split('\n'):
            if ':' in line.split('#')[0]:
                name, deps = line.split('#')[0].split(':')
                self.deps[name.strip()] = deps.split()
        self.dropped = {}
        for s in SPECS:
            text = (root / f'crates/model/specs/{s}.antt').read_text()
            shared, dropped = [], []
            mine = names_of(text)
            bs = blocks(text)
            # a top-level definition is shared if it names no wide record and nothing that is written again
            free = {}
            for b in bs:
                ns = declared(b)
                if ns:
                    free[b] = ns
            changed = True
            imported = set()
            for m in re.finditer(r'^use Rattle\.model\.specs\.(\w+)(?:\.\{(.*)\}| as (\w+))', text, re.M):
                if m.group(1) in self.shared:
                    imported |= {n.strip() for n in m.group(2).split(',')} - self.shared[m.group(1)] if m.group(2) else {m.group(3)}
            again = mine - {n for ns in free.values() for n in ns}
            while changed:
                changed = False
                for b, ns in list(free.items()):
                    words = set(re.findall(WORD, re.sub(r'--[^\n]*', '', b)))
                    if words & (self.wide | imported | again):
                        del free[b]
                        again |= set(ns)
                        changed = True
            for b, ns in free.items():
                kind = 'unfoldable ' if re.search(r'^unfoldable', b, re.M) else ''
                shared.append((kind, ns))
                dropped.append(b)
            self.shared[s] = {n for _, ns in shared for n in ns}
            self.dropped[s] = (shared, dropped)

    # ---- paths
    def antt(self, text, crate):
        if crate != 'model':      # model is over the format
            text = re.sub(r'\bf32\b', 'f64', text.replace('binary32', 'binary64'))
        for k, v in LITERALS.items():
            text = text.replace(k, v)
        lines = []
        for line in text.split('\n'):
            lines += self.use(line, crate)
        return '\n'.join(lines)

    def use(self, line, crate):
        m = re.match(r'(\s*(?:ghost )?(?:pub |unfoldable pub )?use )Rattle\.(\w+)\.(specs|proofs)\.([^{;]*?)(\.\{(.*)\})?(;?)$', line)
        if not m:
            return [line]
        head, name, kind, path, _, group, semi = m.groups()
        alias = ''
        if ' as ' in path:
            path, a = path.split(' as ')
            alias = ' as ' + a
        parts = path.split('.')

        def put(to, group):
            g = '.{' + group + '}' if group is not None else ''
            return f'{head}Rattle.{to}.{kind}.{path}{g}{alias}{semi}'
        if name == 'model':
            if kind == 'specs' and parts[0] == 'declared':
                return [put('model64' if parts[1] in self.wide else 'model', group)]
            if kind == 'specs' and parts[0] in SPECS:
                if group is None:
                    return [put('model64', None)]
                ns = [n.strip() for n in group.split(',')]
                old = [n for n in ns if n.split(' as ')[0] in self.shared[parts[0]]]
                new = [n for n in ns if n not in old]
                return ([put('model', ', '.join(old))] if old else []) + ([put('model64', ', '.join(new))] if new else [])
            if kind == 'proofs' and (parts[0] in PROOFS or parts[0] in self.wide):
                return [put('model64', group)]
            return [put('model', group)]
        if name in CRATES + WRITTEN:
            return [put(name + '64', group)]
        return [line]

    def rt(self, text, crate):
        text = self.antt(text, crate)
        text = re.sub(r'(\b|0\.0)f32\b', lambda m: m.group(1) + 'f64', text)
        for c in CRATES + WRITTEN:
            if c == 'model':
                text = re.sub(r'(?m)^((?:pub )?use )model::\{([^}]*)\};', self.records, text)
                text = re.sub(r'\bmodel::([A-Za-z]\w*)', lambda m: ('model64' if m.group(1) in self.wide else 'model') + '::' + m.group(1), text)
            else:
                text = re.sub(rf'(?<![\w:]){c}::', f'{c}64::', text) if c in self.deps[crate] else text
        return text

    def records(self, m):
        """A group of records of model: those with floats come from model64."""
        names = [n.strip() for n in m.group(2).split(',') if n.strip()]
        groups = [('model', [n for n in names if n not in self.wide]), ('model64', [n for n in names if n in self.wide])]
        return '\n'.join(m.group(1) + c + ('::{' + ', '.join(ns) + '}' if len(ns) > 1 else '::' + ns[0]) + ';' for c, ns in groups if ns)

    # ---- files
    def model(self):
        src = ['// The records of model that hold floats, in f64. The others are model\'s.', '#![tactic(auto)]', '']
        used = set()
        body = []
        for n, (text, ws) in self.decls.items():
            if n in self.wide:
                body.append(text.replace('f32', 'f64'))
                used |= {w for w in ws if w in self.decls and w not in self.wide}
        src += [f'use model::{u};' for u in sorted(used)]
        self.write('model64/src/lib.rt', '\n'.join(src) + '\n\n' + '\n'.join(body))
        for s in SPECS:
            text = (self.root / f'crates/model/specs/{s}.antt').read_text()
            shared, dropped = self.dropped[s]
            bs = [b for b in blocks(text) if b not in dropped]
            lines = bs[0].split('\n')
            at = max(i for i, l in enumerate(lines) if l.startswith('use ')) + 1
            for kind, ns in shared:
                lines.insert(at, f'{kind}pub use Rattle.model.specs.{s}.{{{", ".join(ns)}}}')
                at += 1
            bs[0] = '\n'.join(lines)
            bs = [b for b in bs if any(l and not l.startswith('--') for l in b.split('\n'))]
            keep = '\n\n'.join(bs) + '\n'
            new = self.antt(keep, 'model')
            # the lines that were put in are model's
            self.write(f'model64/specs/{s}.antt', re.sub(r'((?:unfoldable )?pub use Rattle\.model)64\.specs', r'\1.specs', new))
        self.write('model64/specs/Lib.antt', ''.join(f'pub mod {s}\n' for s in SPECS))
        for p in PROOFS:
            f = self.root / f'crates/model/proofs/{p}.antt'
            self.write(f'model64/proofs/{p}.antt', self.antt(f.read_text(), 'model'))
        self.write('model64/proofs/Lib.antt', ''.join(f'pub mod {p}\n' for p in PROOFS))

    def crate(self, name):
        base = self.root / 'crates' / name
        for f in sorted(base.rglob('*')):
            if not f.is_file() or f.suffix not in ('.rt', '.antt') or 'must-fail' in f.parts or 'out' in f.parts:
                continue
            rel = f.relative_to(base)
            if name in ONLY and rel.parts[1].split('.')[0] not in ONLY[name]:
                continue
            text = f.read_text()
            if f'{name}/{rel}' in BITS:
                for k, v in PATTERNS.items():
                    text = text.replace(k, v)
            text = self.rt(text, name) if f.suffix == '.rt' else self.antt(text, name)
            self.write(f'{name}64/{rel}', text)

    def write(self, rel, text):
        for k, v in ROOM.get(rel.split('64/')[0], []):
            text = text.replace(k, v)
        if rel in OF_BLOCK:
            text = text.replace('binary64', 'binary32')
        if rel in OF_MODEL:
            text = text.replace('Rattle.model64.', 'Rattle.model.')
        for f, old, new in PATCHES:
            if f == rel:
                assert text.count(old) == 1, (f, old)
                text = text.replace(old, new)
        name = rel.split('64/')[0]
        self.out[rel] = f"{'--' if rel.endswith('.antt') else '//'} Written by tests/written/wide.py from {name}, in f64.\n" + text

    def run(self):
        for c in CRATES:
            self.model() if c == 'model' else self.crate(c)
        self.out = {rel: text for rel, text in self.out.items() if not by_hand(rel)}
        return self.out


def main():
    root = Path(__file__).resolve().parents[2]
    g = Gen(root)
    out = g.run()
    if '--shared' in sys.argv:
        for s, ns in g.shared.items():
            print(s, sorted(ns))
        print('wide', sorted(g.wide))
        return
    # as `rt fmt` lays it out
    import subprocess, tempfile
    with tempfile.TemporaryDirectory() as tmp:
        for rel, text in out.items():
            f = Path(tmp) / 'crates' / rel
            f.parent.mkdir(parents=True, exist_ok=True)
            f.write_text(text)
        (Path(tmp) / 'crates.txt').write_text(''.join(f'{c}64:\n' for c in CRATES))
        for c in CRATES:
            subprocess.run(['rt', 'fmt'], cwd=Path(tmp) / 'crates' / f'{c}64', stdout=subprocess.DEVNULL, check=True)
        out = {rel: (Path(tmp) / 'crates' / rel).read_text() for rel in out}
    bad = 0
    check = '--check' in sys.argv
    for rel, text in out.items():
        f = root / 'crates' / rel
        if f.is_file() and f.read_text() == text:
            continue
        bad = 1
        print('differs:' if check else 'written:', rel)
        if not check:
            f.parent.mkdir(parents=True, exist_ok=True)
            f.write_text(text)
    for c in CRATES:
        for f in sorted((root / f'crates/{c}64').rglob('*')):
            if f.is_file() and 'out' not in f.parts and f.suffix in ('.rt', '.antt') and str(f.relative_to(root / 'crates')) not in out and not by_hand(str(f.relative_to(root / 'crates'))):
                bad = 1
                print('of no source:' if check else 'removed:', f)
                if not check:
                    f.unlink()
    sys.exit(bad if check else 0)


main()
