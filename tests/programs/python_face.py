#!/usr/bin/env python3
"""python/foldflake.py beside what the proved programs print: its doc tests, its blocks, and, where the library can be loaded, every call. Exit status 1 where
something differs, each told with WRONG.
  python_face.py blocks FOLDER    what needs no library: doc tests without it, blocks read and written, refusals
  python_face.py calls FOLDER     all of it, with the library that FOLDFLAKE_LIB names
  python_face.py texts            the refusals' texts, a line each, as tests/programs/refusals.c prints them
tests/programs/python.sh fills the folder: NAME.batch with NAME.sheet, .sheet64, .clearance, .gaps and .other, what the programs print and what `convert`
writes; in routes, NAME.in with NAME.out and NAME.whole.
"""
import ast
import doctest
import math
import os
import pathlib
import random
import re
import struct
import sys
import threading

ROOT = pathlib.Path(__file__).resolve().parents[2]
sys.path[:0] = [str(ROOT / "python"), str(ROOT / "tests/cases")]
import foldflake as ff  # noqa: E402
import forms  # noqa: E402

wrong = 0


def expect(what, told, expected):
    global wrong
    if told != expected:
        wrong += 1
        print(f"{what}: WRONG: {told!r}; expected {expected!r}")


def doc_tests(with_library):
    """Runs the doc tests. Without the library those that want it are counted as left out, and no others."""
    ran, left_out = 0, 0
    for test in doctest.DocTestFinder().find(ff, "foldflake"):
        if not test.examples:
            continue
        said = []
        runner = doctest.DocTestRunner(optionflags=doctest.ELLIPSIS)
        failed = runner.run(test, out=said.append).failed
        text = "".join(said)
        if failed and not with_library and "foldflake.NoLibrary: " in text:
            left_out += 1
            continue
        ran += not failed
        expect(f"doc test {test.name}", text, "")
    print(f"doc tests: {ran} passed" + (f", {left_out} left out, which call the library" if left_out else ""))
    if with_library:
        expect("doc tests left out", left_out, 0)
        page = (ROOT / "docs/LIBRARY.md").read_text(encoding="utf-8")
        examples = "\n".join(re.findall(r"^```python\n(.*?)^```$", page, re.M | re.S))
        test, said = doctest.DocTestParser().get_doctest(examples, {}, "docs/LIBRARY.md", None, 0), []
        found = doctest.DocTestRunner().run(test, out=said.append)
        expect("the examples of docs/LIBRARY.md", ("".join(said), found.attempted > 10), ("", True))
    else:
        # the parts that need no library have theirs
        expect("doc tests without the library", ran >= 10 and left_out > 0, True)


def written():
    """The file as it stands: of the oldest Python that it is for, and with each entry point of the header as the header has it."""
    text = (ROOT / "python/foldflake.py").read_text(encoding="utf-8")
    ast.parse(text, feature_version=(3, 8))
    header = re.sub(r"/\*.*?\*/", "", (ROOT / "include/foldflake.h").read_text(encoding="utf-8"), flags=re.S)
    letters = {"float": "f", "double": "d", "uint32_t": "u", "uint64_t": "q", "size_t": "z"}
    lists = {"float": "F", "double": "D", "uint32_t": "I", "uint8_t": "B"}
    entries = {}
    for gives, name, takes in re.findall(r"^(\w+) foldflake_(\w+)\(([^)]*)\);", header, re.M):
        kinds = ""
        for argument in takes.split(","):
            kind, pointer, what = re.fullmatch(r"\s*(?:const )?(\w+) (\*?)(\w+)", argument).groups()
            # the length behind a list
            if kind != "size_t":
                kinds += lists[kind] if pointer else letters[kind]
        entries[name] = (kinds, letters[gives])
    expect("entry points", ff._ENTRIES, entries)
    expect("all names", [name for name in ff.__all__ if not hasattr(ff, name)], [])
    print(f"entry points: {len(entries)}, as the header has them")


def hex32(x):
    return "7FC00000" if math.isnan(x) else "%08X" % struct.unpack("<I", struct.pack("<f", x))


def hex64(x):
    return "7FF8000000000000" if math.isnan(x) else "%016X" % struct.unpack("<Q", struct.pack("<d", x))


def batches(folder):
    for path in sorted(folder.glob("*.batch")):
        yield path, path.stem, path.read_bytes()


def lines(folder, name, kind):
    return (folder / f"{name}.{kind}").read_text().splitlines()


def blocks_of(data):
    return [data[i : i + 512] for i in range(0, len(data), 512)]


def read_and_written(folder):
    count = 0
    for path, name, data in batches(folder):
        sheet, other = lines(folder, name, "sheet"), b""
        with open(path, "rb") as stream:
            found = list(ff.read_batch(stream))
        expect(f"{name}: blocks", len(found), len(sheet) - 1)
        for number, (entry, block, told) in enumerate(zip(found, blocks_of(data), sheet), 1):
            count += 1
            refusal = int(told.split()[2])
            if refusal in (9, 10, 11, 13):
                expect(f"{name}, block {number}", entry, ff.Refusal(refusal))
                continue
            if not isinstance(entry, ff.Job):
                expect(f"{name}, block {number}", entry, "a job")
                continue
            expect(f"{name}, block {number}: job", entry.number, int(told.split()[1]))
            expect(f"{name}, block {number}: written", entry.block(), block)
            other += entry.block(form=3 - entry.form)
            # a word more or less is noticed
            damaged = bytearray(block)
            damaged[4 * (number % 127)] ^= 1 << number % 8
            try:
                ff.Job.read(bytes(damaged))
                expect(f"{name}, block {number}: damaged", "read", "refused")
            except ff.Refusal:
                pass
        expect(f"{name}: in the other form", other, (folder / f"{name}.other").read_bytes())
    # bits that no arithmetic keeps: signs of zeros, and what is not a number
    for bits in (0, 0x80000000, 0x7F800001, 0x7FC00000, 0xFFC12345, 0xFF800000, 1, 0x807FFFFF, 0x7F7FFFFF):
        words = [5, 0x101] + [bits] * 24 + ([bits] * 2 + [0] * 30) * 2 + [0] * 37
        block = struct.pack("<128I", *words, ~sum(words) & 0xFFFFFFFF)
        expect(f"{bits:08X} read and written", ff.Job.read(block).block(), block)
    for x, bits in ((1e39, 0x7F800000), (-1e300, 0xFF800000), (10**400, 0x7F800000), (1e-46, 0), (0.1, 0x3DCCCCCD), (math.nan, 0x7FC00000)):
        job = ff.Job(1, ff.Body([(x, 0)], ff.still(0, 0)), ff.Body([0, 0], ff.still(0, 0)), slop=1)
        expect(f"{x} in f32", struct.unpack_from("<I", job.block(), 104), (bits,))
    for number, a, form, refusal in (
        (0, [(0, 0)], 1, 11), (1 << 32, [(0, 0)], 1, 11), (-1, [(0, 0)], 1, 11), (1, [], 1, 11), (1, [(0, 0)] * 17, 1, 11), (1, [0.0, 1.0, 2.0], 2, 11),
        (1, [(0, 0)], 0, 13), (1, [(0, 0)], 3, 13), (0, [], 4, 13),
    ):
        try:
            ff.Job(number, ff.Body(a, ff.still(0, 0)), ff.Body([0, 0], ff.still(0, 0)), slop=1, form=form).block()
            expect(f"{number} {len(a)} {form}", "written", f"refused by {refusal}")
        except ff.Refusal as refused:
            expect(f"{number} {len(a)} {form}", refused.number, refusal)
    print(f"blocks: {count} read, and written as they were and in the other form")


def every_byte():
    """Each byte of a block, in either form, disturbed under a check that fits and under one that does not: refused as tests/cases/forms.py has it."""
    count = 0
    example = (ROOT / "examples/example.batch").read_bytes()
    for block in (example, forms.in_form(example, 2)):
        for place in range(512):
            for value in (0, 1, 2, 16, 17, 255):
                other = forms.with_byte(block, place, value)
                for given in (other, forms.sealed(other)):
                    count += 1
                    found = answer_of(lambda: ff.Job.read(given))
                    expect(f"byte {place} as {value}", found.number if isinstance(found, ff.Refusal) else 0, forms.refusal(given))
                    if isinstance(found, ff.Job):
                        expect(f"byte {place} as {value}: written", found.block(), given)
    print(f"refusals of blocks: {count}, each byte disturbed")


def answer_of(call):
    """What a call gives, or the refusal."""
    try:
        return call()
    except ff.Refusal as refusal:
        return refusal.with_traceback(None)


def sheet_line(head, found, digits):
    if isinstance(found, ff.Refusal):
        return f"{head} {found.number}"
    corners = " ".join("- -" if c is None else f"{c.first} {c.second}" for c in (found.corners_a, found.corners_b))
    floats = " ".join(map(digits, (found.fraction, *found.point, *found.normal)))
    return f"{head} 0 {found.status.value} {floats} {found.distance_calls} {found.searches} {found.root_steps} {corners}"


def clearance_line(head, found):
    if isinstance(found, ff.Refusal):
        return f"{head} {found.number}"
    fractions = {"CLEAR": [], "TOUCH": [found.clear_up_to, found.within_by], "OPEN": [found.clear_up_to]}[found.verdict.value]
    return " ".join([f"{head} 0 {found.verdict.value}", *map(hex32, fractions), str(found.pieces)])


def worked(folder):
    blocks = 0
    for path, name, data in batches(folder):
        with open(path, "rb") as stream:
            expect(f"{name}: sheet", list(ff.sheet(stream)), [s + "\n" for s in lines(folder, name, "sheet")])
        kinds = [lines(folder, name, kind) for kind in ("sheet", "sheet64", "clearance", "gaps")]
        for number, (block, in_32, in_64, whole, gaps) in enumerate(zip(blocks_of(data), *kinds), 1):
            job = answer_of(lambda: ff.Job.read(block))
            if isinstance(job, ff.Refusal):
                continue
            blocks += 1
            head = f"{number} {job.number}"
            expect(f"{name}: sweep", sheet_line(head, answer_of(job.sweep), hex32), in_32)
            wide = answer_of(lambda: ff.sweep64(job.a, job.b, job.slop, job.max_fraction))
            expect(f"{name}: sweep64", sheet_line(head, wide, hex64), in_64)
            expect(f"{name}: clearance", clearance_line(head, answer_of(job.clearance)), whole)
            told = gaps.split()[3:]
            for k in range(0, 257, 32) if told else ():
                found = answer_of(lambda: ff.gap(job.a, job.b, job.max_fraction * k / 256))
                expect(f"{name}, block {number}: gap {k}", found if isinstance(found, ff.Refusal) else hex32(found), told[k])
    print(f"sweeps in f32 and f64, looks at the whole move, gaps: {blocks} blocks")


def route_numbers(text):
    return [struct.unpack(">f", bytes.fromhex(word))[0] for word in text.split()[1:]]


def routes(folder):
    count = 0
    for path in sorted(folder.glob("routes/*.in")):
        searched, whole = path.with_suffix(".out").read_text().strip(), path.with_suffix(".whole").read_text().strip()
        if searched.startswith("14 "):
            continue
        count += 1
        slop, cart, *rest = path.read_text("ascii").splitlines()
        ways = [ff.Waypoint((n[0], n[1]), (n[2], n[3])) for n in (route_numbers(s) for s in rest if s.startswith("AT"))]
        stills = [route_numbers(s) for s in rest if s.startswith("STILL")]
        given = route_numbers(cart), ways, stills, route_numbers(slop)[0]
        found = answer_of(lambda: ff.route(*given))
        if isinstance(found, ff.Route) and found.status is ff.RouteStatus.CLEAR:
            told = f"0 CLEAR {found.distance_calls}"
        elif isinstance(found, ff.Route):
            floats = " ".join(map(hex32, (found.fraction, *found.point, *found.normal)))
            told = f"0 {found.leg} {found.outline} {found.status.value} {floats} {found.distance_calls}"
        else:
            told = " ".join(str(x) for x in (found.number, found.leg, found.outline) if x is not None)
            # a refused one does not tell its calls
            searched = searched.rpartition(" ")[0] if found.leg else searched
        expect(f"route {path.stem}", told, searched)
        found = answer_of(lambda: ff.route_clearance(*given))
        if isinstance(found, ff.RouteClearance) and found.verdict is ff.Verdict.CLEAR:
            told = f"0 CLEAR {found.pieces}"
        elif isinstance(found, ff.RouteClearance):
            fractions = [x for x in (found.clear_up_to, found.within_by) if x is not None]
            told = " ".join([f"0 {found.leg} {found.outline} {found.verdict.value}", *map(hex32, fractions), str(found.pieces)])
        else:
            told = " ".join(str(x) for x in (found.number, found.leg, found.outline) if x is not None)
            whole = whole.rpartition(" ")[0] if found.leg else whole
        expect(f"whole route {path.stem}", told, whole)
    expect("routes", count > 30, True)
    print(f"routes, by sweeps and as a whole: {count}")


def by_hand():
    """Calls that no program prints."""
    expect("root", [hex32(ff.root(x)) for x in (4.0, 2.0, 2.0**-149, -0.0, -1.0)], ["40000000", "3FB504F3", "1A3504F3", "80000000", "7FC00000"])
    expect("root64", [ff.root64(x) == math.sqrt(x) for x in (2.0, 5e-324, 1e308, 0.1)], [True] * 4)
    square = [-1, -1, 1, -1, 1, 1, -1, 1]
    for call in (ff.distance, ff.distance64):
        cache = ff.Cache()
        found = call(square, square, translation=(3 + 2, 4 + 2), radii=(1, 0.5), use_radii=True, pair=41, cache=cache)
        expect(f"{call.__name__}: 3 4 5", (found.distance, found.ending, found.point_a != found.point_b), (3.5, ff.Ending.SETTLED, True))
        expect(f"{call.__name__}: cache", (cache.pair, cache.count > 0), (41, True))
        again = call(square, square, translation=(5, 6), radii=(1, 0.5), use_radii=True, pair=41, cache=cache)
        expect(f"{call.__name__}: again", (again.distance, again.rounds <= found.rounds), (3.5, True))
        kept = ff.Cache(**vars(cache))
        expect(f"{call.__name__}: touching", call([(0, 0)], [(0, 0)], pair=41, cache=cache).ending, ff.Ending.TOUCHING)
        expect(f"{call.__name__}: refused", answer_of(lambda: call(square, square, pair=7, cache=cache)), ff.Refusal(12))
        expect(f"{call.__name__}: kept", cache, kept)
        expect(f"{call.__name__}: a count above 255", answer_of(lambda: call(square, square, cache=ff.Cache(count=256))), ff.Refusal(255))
    edge = (struct.unpack(">f", bytes.fromhex("3F800000"))[0], struct.unpack(">f", bytes.fromhex("3E000003"))[0])
    expect("a rotation in f32", ff.distance([0, 0], [0, 0], edge, (9, 0)).ending, ff.Ending.SETTLED)
    expect("the same in f64", answer_of(lambda: ff.distance64([0, 0], [0, 0], edge, (9, 0))), ff.Refusal(5))
    for name, call, number in (
        ("plate", lambda: ff.plate(6, -4), 3), ("bar", lambda: ff.bar((0, 0), (math.nan, 0)), 3), ("placed_plate", lambda: ff.placed_plate(1, 1, (1, 1), (0, 0)), 5),
        ("placed_bar", lambda: ff.placed_bar((0, 0), (1, 0), (1, 0), (2e6, 0)), 6), ("pose", lambda: ff.pose(ff.still(0, 0), 1.5), 7),
        ("from", lambda: ff.clearance(ff.Body([0, 0], ff.still(0, 0)), ff.Body([0, 0], ff.still(4, 0)), 0.5, 0.5, 0.75), 7),
    ):
        expect(name, answer_of(call), ff.Refusal(number))
    for name, call in (
        ("a pair below 0", lambda: ff.distance([0, 0], [0, 0], pair=-1)), ("line 0", lambda: ff.line(0, bytes(512))), ("a short block", lambda: ff.line(1, b"x")),
        ("three parts", lambda: ff.distance([(0, 0, 0)], [0, 0])),
    ):
        try:
            expect(name, call(), "ValueError")
        except ValueError:
            pass
    print("roots, distances, builders, poses: by hand")


ODD = [math.nan, math.inf, -math.inf, 1e300, -1e300, 2.0**-149, 5e-324, 0.0, -0.0, 1.0, -1.0, 2.0**20, -(2.0**20), 2.0**20 + 0.125, 10**400]


def hostile(seed):
    """Every call on what nobody would hand over: an answer, or a refusal by a number that its page has."""
    r = random.Random(seed)

    def number():
        return r.choice(ODD) if r.random() < 0.2 else r.uniform(-8, 8)

    def pair():
        return number(), number()

    def turned():
        return pair() if r.random() < 0.1 else ff.rotation(r.uniform(-400, 400))

    def outline():
        length, tame = r.choice((0, 1, 2, 3, 8, 8, 8, 128, 129, 4000)), r.random() < 0.7
        return [r.uniform(-9, 9) if tame else number() for _ in range(length)]

    def body():
        return ff.Body(outline(), ff.Move(pair(), pair(), turned(), turned(), pair()), number() if r.random() < 0.3 else 0.5)

    a, b, fraction, slop = body(), body(), r.choice((1.0, 0.5, number())), r.choice((0.01, 1.0, number()))
    cache = ff.Cache(r.randrange(2), r.randrange(5), (0, r.randrange(1 << 32), 1), (0, 1, r.randrange(9)))
    ways = [ff.Waypoint(pair(), turned()) for _ in range(r.choice((0, 1, 2, 2, 3, 33, 34)))]
    stills = [outline() for _ in range(r.choice((0, 1, 1, 2, 32, 33, 50)))]
    calls = [
        (lambda: ff.sweep(a, b, slop, fraction), range(1, 9)),
        (lambda: ff.sweep64(a, b, slop, fraction), range(1, 9)),
        (lambda: ff.clearance(a, b, slop, fraction, r.choice((0.0, fraction, number()))), range(1, 9)),
        (lambda: ff.distance(a.points, b.points, turned(), pair(), pair(), True, 1, cache), (1, 2, 3, 4, 5, 6, 12)),
        (lambda: ff.distance64(a.points, b.points, turned(), pair(), pair(), False, 1, cache), (1, 2, 3, 4, 5, 6, 12)),
        (lambda: ff.pose(a.move, fraction), (5, 6, 7)),
        (lambda: ff.gap(a, b, fraction), (1, 2, 3, 5, 6, 7)),
        (lambda: ff.plate(number(), number()), (3,)),
        (lambda: ff.bar(pair(), pair()), (3,)),
        (lambda: ff.placed_plate(number(), number(), turned(), pair()), (3, 5, 6)),
        (lambda: ff.placed_bar(pair(), pair(), turned(), pair()), (3, 5, 6)),
        (lambda: ff.route(a.points, ways, stills, slop), (1, 2, 3, 5, 6, 8, 16, 17)),
        (lambda: ff.route_clearance(a.points, ways, stills, slop), (1, 2, 3, 5, 6, 8, 16, 17)),
        (lambda: ff.root(number()), ()),
        (lambda: ff.root64(number()), ()),
        (lambda: ff.line(r.choice((1, 1 << 63)), bytes(r.randrange(256) for _ in range(512))), ()),
    ]
    said = []
    for place, (call, numbers) in enumerate(calls):
        found = answer_of(call)
        if isinstance(found, ff.Refusal):
            expect(f"hostile {seed}, call {place}", found.number in numbers, True)
        said.append(repr(found) + str(found))
    return said + [repr(cache)]


def on_the_edge():
    seeds = range(int(os.environ.get("HOSTILE", "150")))
    alone = [hostile(seed) for seed in seeds]
    refused = {int(n) for said in alone for text in said for n in re.findall(r"refused by (\d+)", text)}
    expect("refusals met", refused, {1, 2, 3, 4, 5, 6, 7, 8, 12, 16, 17})
    at_once = {}
    few = seeds[:30]
    threads = [threading.Thread(target=lambda k=k: at_once.update({k: [hostile(seed) for seed in few]})) for k in range(4)]
    for thread in threads:
        thread.start()
    for thread in threads:
        thread.join()
    expect("threads", [at_once.get(k) == alone[: len(few)] for k in range(4)], [True] * 4)
    print(f"hostile input: {len(alone)} times every call; four threads at once answer as one")


def texts():
    for number in [*range(0, 20), 254, 255, 256, 4294967295]:
        print(number, ff.refusal_text(number))


def main(words):
    if words == ["texts"]:
        return texts()
    kind, folder = words[0], pathlib.Path(words[1])
    if kind == "blocks":
        os.environ["FOLDFLAKE_LIB"] = str(folder / "no-library")
    written()
    doc_tests(kind == "calls")
    read_and_written(folder)
    if kind == "blocks":
        every_byte()
    else:
        worked(folder)
        routes(folder)
        by_hand()
        on_the_edge()
    sys.exit(1 if wrong else 0)


if __name__ == "__main__":
    main(sys.argv[1:])
