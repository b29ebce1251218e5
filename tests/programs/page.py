#!/usr/bin/env python3
"""page.py PAGE BATCH SHEET CLEARANCE ROOMS: that a page says what the programs say of the same batch.

PAGE is parsed as XML; SHEET, CLEARANCE and ROOMS are what `sheet`, `clearance` and `rooms` printed of BATCH. Compared, by the standard library alone: each line
with its card and its row of the table; every float of a line with the card's bits, its shortest decimal and its rounded one; what is proved with how the card
opens, rounded to the side on which it stays true, by exact fractions worked out here; where the search disagrees, that the card says why; the band with the
cells; totals and checksum; that each drawing is SVG with finite numbers, in its frame; that links lead somewhere and nothing is fetched; and the least
sampled gap of each worked job with one worked out here, in doubles, from the block's corners, which must not speak against what is proved."""
from collections import Counter
from fractions import Fraction
import hashlib
import math
import re
import struct
import sys
import xml.etree.ElementTree as ET

HTML, SVG = "{http://www.w3.org/1999/xhtml}", "{http://www.w3.org/2000/svg}"
# the elements a drawing may have, and their attributes that are lengths
SHAPES = {"svg": "", "title": "", "g": "", "text": "x y", "circle": "cx cy r", "path": "", "rect": "width height"}
NUMBER = r"-?\d+(?:\.\d+)?"
# the steps of a path, by their letter: how many numbers each takes
STEPS = {"M": 2, "L": 2, "H": 1, "V": 1, "A": 7, "Z": 0}
PIECES = 256
# the lines whose gap was worked out here too, and how often each pair of letter and verdict was met
compared, pairs = [], Counter()


def said(element):
    return "".join(element.itertext()).strip()


def bits(x):
    return struct.unpack("<I", struct.pack("<f", x))[0]


def single(word):
    return struct.unpack("<f", struct.pack("<I", word))[0]


# ---- drawings
def path_places(data):
    """The places that a path goes through; fails where it is no path."""
    assert data.startswith("M"), data[:40]
    x = y = 0.0
    for letter, rest in re.findall(r"([A-Za-z])([^A-Za-z]*)", data):
        assert re.fullmatch(rf"(\s*{NUMBER})*\s*", rest), (letter, rest)
        numbers = [float(n) for n in re.findall(NUMBER, rest)]
        assert len(numbers) == STEPS[letter], (letter, rest)
        if letter == "H":
            x = numbers[0]
        elif letter == "V":
            y = numbers[0]
        elif letter == "A":
            assert numbers[0] == numbers[1] > 0 and numbers[2:5] == [0, 0, 0], rest
            x, y = numbers[5:]
        elif letter != "Z":
            x, y = numbers
        yield x, y


def check_drawing(svg):
    wide, high = map(float, svg.get("viewBox").split()[2:])
    assert wide > 0 and high > 0
    for element in svg.iter():
        name = element.tag.replace(SVG, "")
        assert element.tag.startswith(SVG) and name in SHAPES, element.tag
        for attribute in SHAPES[name].split():
            assert math.isfinite(float(element.get(attribute))), (name, attribute)
        if name == "path":
            for x, y in path_places(element.get("d")):
                assert -60 <= x <= wide + 60 and -60 <= y <= high + 60, (svg.get("aria-label"), element.get("class"), x, y)


# ---- the gap, worked out here
def hull(points):
    points = sorted(set(points))
    if len(points) < 3:
        return points

    def half(points):
        chain = []
        for p in points:
            while len(chain) > 1 and cross(chain[-2], chain[-1], p) <= 0:
                chain.pop()
            chain.append(p)
        return chain[:-1]

    return half(points) + half(points[::-1])


def cross(o, a, b):
    return (a[0] - o[0]) * (b[1] - o[1]) - (a[1] - o[1]) * (b[0] - o[0])


def to_side(p, a, b):
    dx, dy = b[0] - a[0], b[1] - a[1]
    square = dx * dx + dy * dy
    t = 0 if square == 0 else max(0, min(1, ((p[0] - a[0]) * dx + (p[1] - a[1]) * dy) / square))
    return math.hypot(p[0] - a[0] - t * dx, p[1] - a[1] - t * dy)


def sides(shape):
    return [(shape[i], shape[(i + 1) % len(shape)]) for i in range(len(shape))]


def inside(p, shape):
    return len(shape) > 2 and all(cross(a, b, p) >= 0 for a, b in sides(shape))


def crossing(a, b, c, d):
    return cross(a, b, c) * cross(a, b, d) < 0 and cross(c, d, a) * cross(c, d, b) < 0


def apart(a, b):
    """The distance of two convex shapes by their corners and sides."""
    if inside(a[0], b) or inside(b[0], a) or any(crossing(*s, *t) for s in sides(a) for t in sides(b)):
        return 0.0
    return min(min(to_side(p, *t) for p in a for t in sides(b)), min(to_side(p, *t) for p in b for t in sides(a)))


def gaps(block):
    """The block's gap at each sample, in doubles; none for a half turn, which has no pose halfway, and for sides so short, or places so far out, that
    the distance call may tell 0 of outlines that are apart."""
    floats = struct.unpack("<88f", block[8:360])
    moves = [floats[4:14], floats[14:24]]
    if any(m[6] * m[8] + m[7] * m[9] < -0.9 for m in moves) or max(map(abs, floats)) > 1e4:
        return None
    points = [list(zip(floats[24 + 32 * k : 24 + 32 * k + 2 * n : 2], floats[25 + 32 * k : 25 + 32 * k + 2 * n : 2])) for k, n in enumerate(block[4:6])]
    if any(0 < math.dist(p, q) < 0.1 for corners in points for p in corners for q in corners):
        return None
    out = []
    for k in range(PIECES + 1):
        t = floats[2] * k / PIECES
        shapes = []
        for m, corners in zip(moves, points):
            c, s = ((1 - t) * m[6 + i] + t * m[8 + i] for i in (0, 1))
            size = math.hypot(c, s)
            c, s = c / size, s / size
            x, y = ((1 - t) * m[2 + i] + t * m[4 + i] for i in (0, 1))
            x, y = x - (c * m[0] - s * m[1]), y - (s * m[0] + c * m[1])
            shapes.append(hull([(c * p - s * q + x, s * p + c * q + y) for p, q in corners]))
        out.append(apart(*shapes))
    return out


# ---- cards
def exact(word):
    return Fraction(single(int(word, 16)))


def four(x, up=False):
    """A fraction to four places, rounded down or up."""
    return f"{(math.ceil if up else math.floor)(x * 10000) / 10000:.4f}"


def three(x):
    """A distance by three digits, rounded down; none where nothing is left."""
    if x <= 0:
        return None
    places = 2 - math.floor(math.log10(x))
    assert Fraction(10) ** (2 - places) <= x < Fraction(10) ** (3 - places), x
    places = min(places, 12)
    digits = math.floor(x * Fraction(10) ** places)
    return f"{float(digits * Fraction(10) ** -places):.{max(places, 0)}f}" if digits else None


def opening(block, clearance, room):
    """How the card has to open, and what the table has to say, by the verdict's fields, from the word on."""
    radii, (fraction, slop) = [Fraction(x) for x in struct.unpack("<2f", block[8:16])], struct.unpack("<2f", block[16:24])
    keep, note = (single(bits(sum(struct.unpack("<2f", block[8:16])))), " (the radii together)") if sum(radii) > Fraction(slop) else (slop, "")
    # the shortest decimal that reads back
    keep = next(text for text in (f"{keep:.{digits}g}" for digits in range(1, 10)) if bits(float(text)) == bits(keep))
    keep = keep if "e" in keep and float(keep) < 1e-5 else f"{float(keep):.12f}".rstrip("0").rstrip(".")
    planned = "the whole move" if fraction == 1 else "all that is planned, up to " + (f"{abs(fraction):.4f}".rstrip("0").rstrip(".") or "0") + " of the move"
    if clearance[0] == "CLEAR":
        who, left = "the bodies, radii included," if any(radii) else "the outlines", three(exact(room) - sum(radii))
        stays = f"stay at least {left} apart" if left else "do not meet"
        return f"proved clear over {planned}: {who} {stays}", f"at least {left} apart" if left else "they do not meet"
    assert room == "-", (clearance, room)
    u = exact(clearance[1])
    if clearance[0] == "TOUCH":
        t = exact(clearance[2])
        assert 0 <= u <= t <= Fraction(fraction), clearance
        if t == 0:
            return f"not clear: within {keep}{note} at the start already", "contact at the start"
        apart = f"further apart than {keep}{note} up to {four(u)} of the move, within {keep} by {four(t, True)}"
        return "not clear: " + (apart if u else f"within {keep}{note} by {four(t, True)} of the move"), f"contact by {four(t, True)}"
    assert clearance[0] == "OPEN", clearance
    rest = f"not settled after {four(u)}: further apart than {keep}{note} up to there, and the proof comes no further"
    return rest if u else "not settled: the proof comes no further than the start", f"not settled after {four(u)}"


def reasons(status, told, clearance):
    """How the card has to say why the search disagrees with what is proved; nothing where it does not."""
    if clearance[0] == "OPEN":
        return "Neither clears it: "
    if clearance[0] == "CLEAR":
        return {"S": "", "H": "Why H, and yet clear: ", "O": "Why O, and yet clear: ", "F": "Why no verdict, and yet clear: "}[status]
    u, t = exact(clearance[1]), exact(clearance[2])
    if status == "H":
        hit = Fraction(single(told[0]))
        early = "Why the hit is told before they are within that distance: " if u - hit > Fraction(1e-4) else ""
        return "Why the hit is told later than the contact: " if hit > t else early
    late = "Why O, and yet a contact later than the start: " if u else ""
    return {"S": "Why S, and yet not clear: ", "O": late, "F": "Why no verdict, and yet a contact: "}[status]


def band(card):
    """The cells that a card's band shows, as a text of letters."""
    out = ""
    for path in card.iter(f"{SVG}path"):
        kind = re.fullmatch(r"band (clear|touch|open)", path.get("class", ""))
        if kind:
            left, right = (float(x) for x in re.match(rf"M({NUMBER}) {NUMBER}H({NUMBER})V", path.get("d")).groups())
            assert abs(left - 44 - 346 * len(out) / 64) < 0.01, path.get("d")
            out += {"clear": "C", "touch": "T", "open": "O"}[kind.group(1)] * round((right - left) * 64 / 346)
    return out


def check_card(card, row, line, proved, block, measured):
    fields, clearance, room = line.split(" "), proved[0].split(" "), proved[1].split(" ")
    assert clearance[:3] == room[:3] == fields[:3], (line, proved)
    assert card.get("id") == f"block{fields[0]}"
    title = said(card.find(f"{HTML}h3"))
    assert re.search(rf"\bJob {fields[1]}\b" if fields[1] != "0" else rf"\bBlock {fields[0]}\b", title), (title, line)
    pre = said(card.find(f"{HTML}details/{HTML}pre"))
    assert pre.split("\n")[1] == line, (pre.split("\n")[1], line)
    spoken = [said(p) for p in card.iter(f"{HTML}p")]
    mark, known = title.split(" ")[0], [said(cell) for cell in row]
    if fields[2] != "0":
        assert spoken[0].startswith(f"Refused by {fields[2]}: ") and spoken[1].startswith("At fault: "), spoken
        assert mark == "refused" and card.get("class") == "card refused" and not list(card.iter(f"{SVG}svg"))
        return None
    status, told = fields[3], [int(word, 16) for word in fields[4:9]]
    assert pre.split("\n")[3] == proved[0] and pre.split("\n")[5] == proved[1], pre
    opens, short = opening(block, clearance[3:], room[3])
    assert spoken[0] == opens and mark == clearance[3], (spoken[0], opens)
    missed = clearance[3] == "TOUCH" and status == "S"
    assert card.get("class") == "card " + clearance[3].lower() + " warned" * missed and row.get("class") == card.get("class")[5:], line
    assert known[-4:-1] == [clearance[3], short, known[-2]] and known[-2].startswith(status), (known, line)
    assert band(card) in ("", room[4]), (band(card), room)
    pairs[f"{status} {clearance[3]}"] += 1
    numbers = {row[:24].strip(): row[24:].split() for row in pre.split("\n")[6:]}
    for name, word in zip(("fraction", "point x", "point y", "normal x", "normal y"), told):
        shown, shortest = numbers[name]
        assert int(shown, 16) == word, (name, shown, line)
        assert shortest == "NaN" if word == 0x7FC00000 else bits(float(shortest)) == word, (name, shortest)
    for name, (shown, shortest) in numbers.items():
        assert shortest == "NaN" or bits(float(shortest)) == int(shown, 16), name
    t, x, y = map(single, told[:3])
    start = {"S": "separated along one axis, where it stood and at the end", "O": "touching or overlapping where it stood"}
    start["H"], start["F"] = f"hit at {t:.4f} of the move, at x ", f"it gave up where it stood, at {t:.4f} of the move."
    begins = f"The search says {status}{', no verdict' * (status == 'F')}: {start[status]}"
    assert spoken[1].startswith(begins), (spoken[1], line)
    if status == "H":
        for name, value in (("x", x), ("y", y)):
            shown = re.search(rf"\b{name} (-?[\d.]+)", spoken[1][len(begins) - 2 :]).group(1).rstrip(".")
            places = len(shown.split(".")[1])
            assert places >= 2 and float(shown) == float(f"{value:.{places}f}"), (shown, value)
    why = reasons(status, told, clearance[3:])
    assert spoken[2 : 2 + bool(why)] == [text for text in spoken if why and text.startswith(why)], (spoken, why, line)
    assert why or not any(re.match(r"Why |Neither ", text) for text in spoken), (spoken, line)
    facts = {said(row[0]): said(row[1]) for row in card.iter(f"{HTML}tr")}
    check_words(status, t, fields, facts, spoken, block, line)
    assert facts["work"] == "distance calls {}, searches {}, root steps {}".format(*fields[9:12]), (facts["work"], line)
    check_gap(clearance[3:], room[3], facts, block, line, measured)
    return missed


def number(text):
    """The first number of a text, `below` and `above` taken off."""
    return float(re.search(r"-?[\d.]+", text).group(0))


def check_words(status, t, fields, facts, spoken, block, line):
    """What the card says in words of the sheet's fraction and corners, of ways, clearances and turns."""
    floats = struct.unpack("<88f", block[8:360])
    corners, moves = fields[12:16], [floats[4:14], floats[14:24]]
    pads = [text for text in spoken if text.startswith("To pad: ")]
    told = {corner for corner in corners if corner != "-"}
    assert bool(pads) == (status == "H" and bool(told)), (pads, line)
    assert not pads or {n for n in re.findall(r"\d+", pads[0])} == told, (pads, line)
    ways = [math.hypot(m[4] - m[2], m[5] - m[3]) for m in moves]
    if status == "H" and any(ways):
        shown = {body: (float(gone), float(whole)) for body, gone, whole in re.findall(r"([AB]) ([\d.]+) of ([\d.]+)", facts["way travelled"])}
        for body, way in zip("AB", ways):
            if way:
                gone, whole = shown[body]
                assert abs(gone - way * t) <= 0.006 + 1e-6 * way and abs(whole - way * floats[2]) <= 0.006 + 1e-6 * way, (shown, way, t, line)
    if facts["least sampled gap"] != "no number":
        clearance = number(facts["clearance there"])
        assert abs(clearance - (number(facts["least sampled gap"]) - floats[0] - floats[1])) < 3e-4 + 1e-6 * abs(clearance), (facts, line)
    halves = [f"{body} makes a half turn" for body, m in zip("AB", moves) if math.hypot(m[6] + m[8], m[7] + m[9]) < 1e-4]
    assert spoken[0].startswith("proved clear") or all(any(text.startswith(half) for text in spoken) for half in halves), (spoken, line)
    assert status != "F" or facts["search stood at"] == f"{t:.4f} of the move", (facts, line)
    for text in [*spoken, *facts.values()]:
        assert not re.search(r"(?i)clear by|is clear|\bsafe", text), (text, line)


def check_gap(clearance, room, facts, block, line, measured):
    """The least sampled gap beside one worked out here, and what is proved beside both."""
    ours = gaps(block) if measured else None
    if ours is None:
        return
    least = facts["least sampled gap"]
    value = float(re.match(r"(?:below )?([\d.]+)", least).group(1))
    size = max(map(abs, struct.unpack("<88f", block[8:360])))
    near = 1e-4 + 2e-6 * size
    assert abs(value - min(ours)) <= near, (least, min(ours), line)
    compared.append(line)
    a, b, fraction, slop = struct.unpack("<4f", block[8:24])
    keep = max(slop, a + b)
    # where they are told to be further apart, samples are, and at the contact they are not
    upto = fraction if clearance[0] == "CLEAR" else single(int(clearance[1], 16))
    inside = [gap for k, gap in enumerate(ours) if fraction * k / PIECES <= upto]
    assert upto == 0 or min(inside) > (single(int(room, 16)) if clearance[0] == "CLEAR" else keep) - near, (min(inside), upto, line)
    if clearance[0] == "TOUCH":
        place = single(int(clearance[2], 16)) / fraction * PIECES if fraction else 0
        steps = max(abs(p - q) for p, q in zip(ours, ours[1:]))
        assert min(ours[int(place) : int(place) + 2]) <= keep + near + steps, (place, line)


def main(page, batch, *texts):
    raw = open(page, encoding="utf-8").read()
    blocks = open(batch, "rb").read()
    lines, clearances, rooms = (open(text, encoding="ascii").read().splitlines() for text in texts)
    total, proved = lines.pop().split(" ")[1:], clearances.pop().split(" ")[1:]
    assert rooms.pop().split(" ")[1:] == [total[0], total[-1]] == [proved[0], proved[-1]], (total, proved)
    root = ET.fromstring(raw)
    cards = list(root.iter(f"{HTML}section"))
    assert len(cards) == len(lines) == len(clearances) == len(rooms) == int(total[0]), (len(cards), len(lines), total)
    rows = [row for table in root.iter(f"{HTML}table") if table.get("class") == "jobs" for row in table.find(f"{HTML}tbody")]
    assert [[said(row[0]), said(row[1])] for row in rows] == [line.split(" ")[:2] for line in lines]
    # of a long batch only some gaps are worked out here
    every = 1 + len(lines) // 1000 * 10
    told = zip(cards, rows, lines, zip(clearances, rooms))
    missed = [check_card(*each, blocks[512 * i : 512 * i + 512], i % every == 0) for i, each in enumerate(told)]
    shown = {row.get("id"): [said(cell) for cell in row] for row in root.iter(f"{HTML}tr") if row.get("id")}
    assert shown["totals"] == proved, (shown, proved)
    letters = {letter: [str(pairs[f"{letter} {word}"]) for word in ("CLEAR", "TOUCH", "OPEN")] for letter in "SHOF"}
    assert all(shown[f"letter{letter}"] == [letter, *counts] for letter, counts in letters.items()), (shown, pairs)
    assert [sum(map(int, letters["S"])), sum(map(int, letters["H"] + letters["O"])), sum(map(int, letters["F"]))] == list(map(int, total[1:4])), (pairs, total)
    # which jobs need a look: by what is proved
    named = {said(li.find(f"{HTML}b")): {a.get("href") for a in li.iter(f"{HTML}a")} for li in root.iter(f"{HTML}li") if li.find(f"{HTML}a") is not None}
    kinds = ["not clear, although the search says S:", "not clear:", "not settled: treat as not clear:", "refused: nothing was looked at:"]
    kinds.append("proved clear, although the search says H, O or F: the card says why:")

    def kind(line, clearance):
        word, letter = (clearance.split(" ") + [""])[3], (line.split(" ") + [""])[3]
        if not word:
            return 3
        return {"TOUCH": 0 if letter == "S" else 1, "OPEN": 2, "CLEAR": None if letter == "S" else 4}[word]

    found = [kind(line, clearance) for line, clearance in zip(lines, clearances)]
    for k, text in enumerate(kinds):
        these = [f"#block{i + 1}" for i, is_kind in enumerate(found) if is_kind == k]
        assert named.get(f"{len(these)} {text}", set()) == set(these[:200]), (text, these)
    assert len(named) == len({k for k in found if k is not None}), named
    assert hashlib.sha256(blocks).hexdigest() in [said(cell) for cell in root.iter(f"{HTML}td")]
    drawings = [svg for svg in root.iter(f"{SVG}svg") if svg.get("class") != "defs"]
    for svg in drawings:
        check_drawing(svg)
    has = [len([svg for svg in card.iter(f"{SVG}svg")]) for card in cards]
    worked = [is_missed is not None for is_missed in missed]
    assert len(drawings) == sum(has) == 2 * min(sum(worked), max(500, sum(map(bool, missed)))), (len(drawings), sum(worked))
    # S that are not clear have theirs; one that needs no look has one only where every card that needs a look has
    assert all(n == 2 for n, is_missed in zip(has, missed) if is_missed)
    assert not any(n for n, k in zip(has, found) if k is None) or all(n for n, k, w in zip(has, found, worked) if w and k is not None)
    assert all(band(card) for card, n in zip(cards, has) if n)
    ids = [element.get("id") for element in root.iter() if element.get("id")]
    assert len(ids) == len(set(ids))
    for element in root.iter():
        for name in element.attrib:
            assert name not in ("src", "action") and not name.startswith("on"), name
        if element.get("href"):
            assert element.get("href")[:1] == "#" and element.get("href")[1:] in ids, element.get("href")
        assert not element.tag.endswith("}script")
    assert not re.search(r"@import|url\((?!#(?:hatch|dots)\))|https?://(?!www\.w3\.org/(?:1999/xhtml|2000/svg)\")", raw)
    for row, line in zip(rows, lines):
        refusal = line.split(" ")[2]
        assert refusal == "0" or re.search(rf"refused by {refusal}: \w", said(row)), (said(row), line)
    met = ", ".join(f"{pair} {count}" for pair, count in sorted(pairs.items()))
    print(f"{page}: {len(cards)} cards, {len(drawings)} drawings: as the programs say ({met or 'none worked'}); {len(compared)} gaps worked out here too")


if __name__ == "__main__":
    main(*sys.argv[1:])
