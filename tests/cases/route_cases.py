#!/usr/bin/env python3
"""Cases of `route`: texts of routes with the line that each comes to. The rules of texts and of the order of sweeps stand here a second time, in Python;
a sweep's own answer is the oracle's, asked through `oracle sheet` for one block a sweep. What they come to is stored in tests/cases/route_answers.txt. Of the
same routes looked at as a whole, for `route_clearance`, a pair's own answer is that of the program `clearance` on one block a pair; stored in
tests/cases/route_clearance_answers.txt.
  route_cases.py answers ORACLE         works all answers out and prints that file
  route_cases.py clearances COMMAND..   the same of whole legs, with the command that runs `clearance`
  route_cases.py rows                   the parts of table 12 for `replay_batches`, of all cases that fit in a row
  route_cases.py example ORACLE         the line of examples/hall.route, and figures for each leg
  route_cases.py FOLDER                 NAME.in, NAME.out and NAME.whole of every case, larger ones too, for tests/programs/programs.sh
"""
import math
import os
import re
import struct
import subprocess
import sys

import case_rows

TABLE = 12
HERE = os.path.dirname(os.path.abspath(__file__))
STORED = os.path.join(HERE, "route_answers.txt")
STORED_WHOLE = os.path.join(HERE, "route_clearance_answers.txt")
KINDS = {"clear": 1, "hit": 2, "overlapped": 3, "failed": 4, "refused": 5, "waypoints": 6, "outlines": 7, "text": 8, "order": 9}


# ---- texts
class Bits(int):
    """A float by its bits."""


def bits(x):
    return int(x) if isinstance(x, Bits) else struct.unpack("<I", struct.pack("<f", x))[0]


def word(x):
    """A number as the eight digits of its bits."""
    return "%08X" % bits(x)


def line(name, numbers):
    return " ".join([name] + [word(x) for x in numbers]) + "\n"


def text(cart, waypoints, stills, slop=0.005):
    lines = [line("SLOP", [slop]), line("CART", cart)] + [line("AT", w) for w in waypoints] + [line("STILL", s) for s in stills]
    return "".join(lines).encode()


# ---- the rules
WORD = rb" [0-9A-F]{8}"
FORMS = {"SLOP": WORD, "CART": b"(?:%s)*" % WORD, "AT": b"(?:%s){4}" % WORD, "STILL": b"(?:%s)*" % WORD}


def form(name, given):
    return re.fullmatch(name.encode() + FORMS[name] + b"\n", given, re.DOTALL)


def parse(given):
    """The words of each kind of line, or the number of the first line that is none of a route."""
    lines = re.findall(rb"[^\n]*\n|[^\n]+", given)
    found = {"SLOP": [], "CART": [], "AT": [], "STILL": []}
    for n, given_line in enumerate(lines, 1):
        may = ["SLOP"] if n == 1 else ["CART"] if n == 2 else ["STILL"] if found["STILL"] else ["AT", "STILL"]
        kind = next((k for k in may if form(k, given_line)), None)
        if kind is None:
            return n
        found[kind].append([int(x, 16) for x in given_line.split()[1:]])
    return found if len(lines) >= 2 else len(lines) + 1


def bad_outline(s):
    return len(s) == 0 or len(s) % 2 == 1 or len(s) > 128


def shortened(s):
    """The outline without points behind the sixteenth, where these repeat the first: they never win in `support`."""
    if len(s) > 32:
        assert s[32:] == s[:2] * ((len(s) - 32) // 2), "the oracle's blocks have sixteen points"
    return s[:32]


def block(cart, start, end, still, slop):
    one, zero = bits(1.0), 0
    cart, still = shortened(cart), shortened(still)
    words = [1, len(cart) // 2 | len(still) // 2 << 8, 0, 0, one, slop]
    words += [zero, zero, start[0], start[1], end[0], end[1], start[2], start[3], end[2], end[3]]
    words += [zero] * 6 + [one, zero, one, zero]
    words += (cart + [0] * 32)[:32] + (still + [0] * 32)[:32] + [0] * 37
    words.append((0xFFFFFFFF - sum(words)) % 2**32)
    return struct.pack("<128I", *words)


def asked(command, blocks):
    """The fields of a block's line each."""
    told = subprocess.run(command, input=b"".join(blocks), stdout=subprocess.PIPE, check=True).stdout.decode().splitlines()
    return [t.split() for t in told[:-1]]


def answer(command, given, passes="S", calls_at=9, figures=None):
    """The first pair that does not pass, by what the command prints of its block, and the calls or pieces of all up to it: the field at that place."""
    found = parse(given)
    if isinstance(found, int):
        return "14 %d" % found
    (slop,), cart, ways, stills = found["SLOP"][0], found["CART"][0], found["AT"], found["STILL"]
    if not 2 <= len(ways) <= 33:
        return "16"
    if not 1 <= len(stills) <= 32:
        return "17"
    pairs = [(i, j) for i in range(len(ways) - 1) for j in range(len(stills))]
    good = [p for p in pairs if not bad_outline(cart) and not bad_outline(stills[p[1]])]
    told = dict(zip(good, asked(command, [block(cart, ways[i], ways[i + 1], stills[j], slop) for i, j in good]))) if good else {}
    calls = 0
    for i, j in pairs:
        if bad_outline(cart) or bad_outline(stills[j]):
            return "%d %d %d %d" % (1 if bad_outline(cart) else 2, i + 1, j + 1, calls)
        fields = told[i, j]
        if fields[2] != "0":
            return "%s %d %d %d" % (fields[2], i + 1, j + 1, calls)
        calls += int(fields[calls_at])
        if figures is not None:
            figures.append((i + 1, j + 1, fields[3], int(fields[calls_at])))
        if fields[3] != passes:
            return "0 %d %d %s %d" % (i + 1, j + 1, " ".join(fields[3:calls_at]), calls)
    return "0 CLEAR %d" % calls


def whole_answer(command, given):
    return answer(command, given, "CLEAR", -1)


# ---- the cases
def box(x, y, hx, hy):
    return [x - hx, y - hy, x + hx, y - hy, x + hx, y + hy, x - hx, y + hy]


def at(x, y, degrees=0.0):
    return [x, y, math.cos(math.radians(degrees)), math.sin(math.radians(degrees))]


CART = box(0, 0, 1, 0.5)
ROW = [box(4 * k, 3, 0.5, 0.5) for k in range(1, 5)]
THERE = [at(0, 0), at(20, 0)]
NAN, INFINITE = Bits(0x7FC00000), Bits(0x7F800000)


def cases():
    """Name, kind and text of each."""
    yield "a_point_past_a_point", "clear", text([0, 0], [at(0, 0), at(4, 0)], [[2, 2]])
    yield "a_row_of_columns", "clear", text(CART, THERE, ROW)
    yield "there_and_back", "clear", text(CART, [at(0, 0), at(20, 0), at(0, 0)], ROW)
    yield "a_turn_in_steps", "clear", text(CART, [at(0, 0, a) for a in range(0, 181, 15)], [box(3, 0, 0.5, 0.5)])
    yield "the_same_place_twice", "clear", text(CART, [at(0, 0), at(0, 0)], ROW)
    yield "most_of_both", "clear", text([0, 0], [at(k, 0) for k in range(33)], [[k, 2] for k in range(32)])
    yield "64_points", "clear", text(box(0, 0, 1, 1) + [-1, -1] * 60, THERE, [box(10, 5, 1, 1) + [9, 4] * 60])
    yield "one_outline_one_leg_hit", "hit", text([0, 0], [at(0, 0), at(4, 0)], [[2, 0]])
    yield "the_whole_line", "hit", text([0, 0], [at(4, 0), at(0, 0)], [[0, 0]], 0.5)
    yield "a_hit_while_turning", "hit", text(CART, [at(0, 0), at(0, 0, 90)], [box(0, 1.2, 0.4, 0.4)])
    yield "a_turn_that_S_does_not_see", "clear", text(CART, [at(0, 0), at(0, 0, 90)], [box(0, 1.5, 0.4, 0.4)])
    yield "two_on_one_leg", "order", text(CART, THERE, [box(15, 0, 1, 1), box(5, 0, 1, 1)])
    yield "the_second_outline_on_leg_1", "order", text(CART, [at(0, 0), at(9, 0), at(9, 9)], [box(9, 7, 1, 1), box(6, 0, 1, 1)])
    yield "the_first_outline_on_leg_2", "order", text(CART, [at(0, 0), at(9, 0), at(9, 9), at(0, 9)], [box(9, 7, 1, 1), box(4, 9, 1, 1)])
    yield "the_last_leg", "order", text(CART, [at(3 * k, 0) for k in range(33)], [[94, 2], [95, 0]])
    yield "the_last_outline", "order", text(CART, THERE, [[k / 2, 4] for k in range(31)] + [box(10, 0, 1, 1)])
    yield "overlapped_at_the_start", "overlapped", text(CART, THERE, [box(0.5, 0, 1, 1)])
    yield "the_second_outline_comes_first", "order", text(CART, [at(0, 0), at(0, 5), at(0, 9)], [box(0, 9, 1, 1), box(0, 5.9, 0.5, 0.5)])
    yield "standing_in_a_column", "overlapped", text(CART, [at(0, 0), at(0, 0)], ROW + [box(0, 0, 0.1, 0.1)])
    yield "no_verdict", "failed", text(FAILED[0], FAILED[1], FAILED[2], FAILED[3])
    yield "no_verdict_behind_clear_ones", "failed", text(FAILED[0], FAILED[1], [[50, 50], [60, 60]] + FAILED[2], FAILED[3])
    yield "no_cart", "refused", text([], THERE, ROW)
    yield "half_a_cart_point", "refused", text([0, 0, 1], THERE, ROW)
    yield "a_cart_of_65_points", "refused", text([0, 0] * 65, THERE, ROW)
    yield "a_cart_of_64_and_a_half", "refused", text([0, 0] * 64 + [1], THERE, ROW)
    yield "no_points_in_outline_1", "refused", text(CART, THERE, [[]])
    yield "no_points_in_outline_3", "refused", text(CART, THERE, ROW[:2] + [[]] + ROW[2:])
    yield "half_a_point_in_outline_2", "refused", text(CART, THERE, ROW[:1] + [[1, 2, 3]])
    yield "outline_2_of_65_points", "refused", text(CART, THERE, ROW[:1] + [[9, 9] * 65] + ROW[1:])
    yield "outline_2_of_200_points", "refused", text(CART, THERE, ROW[:1] + [[9, 9] * 200] + ROW[1:])
    yield "a_cart_point_not_a_number", "refused", text([0, NAN], THERE, ROW)
    yield "a_column_too_far", "refused", text(CART, THERE, ROW + [[1048576.125, 0]])
    yield "a_rotation_too_long", "refused", text(CART, [at(0, 0), [9, 0, 1.0, 0.25]], ROW)
    yield "a_rotation_too_long_on_leg_2", "refused", text(CART, [at(0, 0), at(9, 0), [9, 9, 0.5, 0.5]], ROW)
    yield "a_waypoint_at_no_place", "refused", text(CART, [at(0, 0), at(9, 0), at(20, 0), [INFINITE, 0, 1, 0]], ROW)
    yield "a_slop_of_0", "refused", text(CART, THERE, ROW, 0)
    yield "a_slop_below_0", "refused", text(CART, THERE, ROW, -0.005)
    yield "refused_after_a_hit", "order", text(CART, THERE, [box(5, 0, 1, 1), []])
    yield "a_hit_after_refused", "order", text(CART, THERE, [[], box(5, 0, 1, 1)])
    yield "1_before_2", "order", text([], THERE, [[]])
    yield "2_before_3", "order", text([0, NAN], THERE, [[]])
    yield "3_before_5", "order", text([0, NAN], [at(0, 0), [9, 0, 0, 0]], ROW)
    yield "5_before_6", "order", text(CART, [[NAN, 0, 0, 0], at(0, 0)], ROW)
    yield "6_before_8", "order", text(CART, [[NAN, 0, 1, 0], at(0, 0)], ROW, 0)
    yield "16_before_17", "order", text(CART, THERE[:1], [])
    yield "16_before_1", "order", text([], [], [])
    yield "17_before_1", "order", text([], THERE, [])
    yield "14_before_16", "order", text(CART, [], ROW) + b"AT\n"
    yield "no_waypoint", "waypoints", text(CART, [], ROW)
    yield "one_waypoint", "waypoints", text(CART, THERE[:1], ROW)
    yield "34_waypoints", "waypoints", text([0, 0], [at(k, 0) for k in range(34)], [[0, 2]])
    yield "100_waypoints", "waypoints", text([0, 0], [at(k, 0) for k in range(100)], [[0, 2]])
    yield "no_outline", "outlines", text(CART, THERE, [])
    yield "33_outlines", "outlines", text(CART, THERE, [[k, 4] for k in range(33)])
    yield "100_outlines", "outlines", text(CART, THERE, [[k, 4] for k in range(100)])
    good = text(CART, THERE, ROW)
    head = good.split(b"\n")[0] + b"\n"
    yield "nothing", "text", b""
    yield "a_newline", "text", b"\n"
    yield "the_slop_alone", "text", head
    yield "the_slop_without_its_newline", "text", head[:-1]
    yield "cart_first", "text", good[len(head):]
    yield "slop_twice", "text", head + good
    yield "cart_twice", "text", head + line("CART", CART).encode() + good[len(head):]
    yield "still_before_at", "text", head + line("CART", CART).encode() + line("STILL", ROW[0]).encode() + line("AT", THERE[0]).encode()
    yield "a_slop_of_two_words", "text", head[:-1] + b" 3F800000\n" + good[len(head):]
    yield "a_slop_of_no_word", "text", b"SLOP\n" + good[len(head):]
    yield "a_blank_after_cart", "text", head + b"CART \n"
    yield "a_blank_after_a_word", "text", head[:-1] + b" \n" + good[len(head):]
    yield "two_blanks", "text", good.replace(b"CART ", b"CART  ")
    yield "a_blank_before_a_name", "text", good.replace(b"CART", b" CART")
    yield "a_tab", "text", good.replace(b"CART ", b"CART\t")
    yield "small_digits", "text", good.replace(b"3F800000", b"3f800000", 1)
    yield "a_small_name", "text", good.replace(b"CART", b"cart")
    yield "seven_digits", "text", good.replace(b" 3F800000", b" 3F80000", 1)
    yield "nine_digits", "text", good.replace(b" 3F800000", b" 3F8000000", 1)
    yield "a_digit_g", "text", good.replace(b"3F800000", b"3G800000", 1)
    yield "a_colon_and_an_at_sign", "text", good.replace(b"3F800000", b"3:@00000", 1)
    yield "three_numbers_at", "text", head + b"CART 00000000\nAT 00000000 00000000 00000000\n"
    yield "five_numbers_at", "text", good.replace(b"AT ", b"AT 00000000 ", 1)
    yield "at_and_nothing", "text", head + b"CART\nAT\n"
    yield "an_empty_line_at_the_end", "text", good + b"\n"
    yield "an_empty_line_between", "text", good.replace(b"CART", b"\nCART")
    yield "a_return_before_the_newline", "text", good.replace(b"\n", b"\r\n")
    yield "the_last_newline_missing", "text", good[:-1]
    yield "a_nought_at_the_end", "text", good + b"\0"
    yield "a_byte_above_127", "text", good.replace(b"STILL", b"ST\xc9LL", 1)
    yield "another_name", "text", good + b"STILLS 00000000\n"
    yield "a_long_name", "text", good + b"S" * 5000 + b"\n"
    yield "half_a_name", "text", good + b"STIL"
    yield "the_cart_alone", "waypoints", head + b"CART\n"
    yield "cart_and_still_without_a_blank", "refused", text([], THERE, [[]])


def large():
    """Cases that fit in no row."""
    yield "100000_outlines", text(CART, THERE, [[1, 9]] * 100000)
    yield "100000_waypoints", text(CART, THERE * 50000, ROW)
    yield "an_outline_of_100000_points", text(CART, THERE, ROW + [[1, 9] * 100000])
    yield "a_cart_of_100000_points", text([1, 9] * 100000, THERE, ROW)
    yield "a_wrong_line_behind_100000", text(CART, THERE, [[1, 9]] * 100000) + b"AT\n"
    yield "2000000_bytes_of_nothing", b"\0" * 2000000


# a sweep that answers F: so small a slop that the root search seldom lands
FAILED = (CART, [at(-6, 4, 20), at(8, -3, 70)], [box(1, 0.5, 0.7, 0.3)], 1e-7)


def all_cases():
    for name, kind, given in cases():
        yield name, kind, given
    for name, given in large():
        yield name, "", given


def stored(file=STORED):
    return dict(s.rstrip("\n").split(": ", 1) for s in open(file))


def main(words):
    if words[:1] == ["answers"]:
        for name, kind, given in all_cases():
            print("%s: %s" % (name, answer([words[1], "sheet"], given)))
    elif words[:1] == ["clearances"]:
        for name, kind, given in all_cases():
            print("%s: %s" % (name, whole_answer(words[1:], given)))
    elif words[:1] == ["example"]:
        figures = []
        given = open(os.path.join(HERE, "../../examples/hall.route"), "rb").read()
        print(answer([words[1], "sheet"], given, figures=figures))
        for n in sorted({f[0] for f in figures}):
            print("leg %d: %s" % (n, ", ".join("%d %s" % (f[3], f[2]) for f in figures if f[0] == n)))
    elif words[:1] == ["rows"]:
        told = stored()
        case_rows.write(TABLE, [case_rows.row(KINDS[kind], given, (told[name] + "\n").encode()) for name, kind, given in cases()])
    else:
        told, whole = stored(), stored(STORED_WHOLE)
        for name, kind, given in all_cases():
            open(os.path.join(words[0], name + ".in"), "wb").write(given)
            open(os.path.join(words[0], name + ".out"), "w").write(told[name] + "\n")
            open(os.path.join(words[0], name + ".whole"), "w").write(whole[name] + "\n")


if __name__ == "__main__":
    main(sys.argv[1:])
