"""tables.py CSV JSON SHEET CLEARANCE: whether `foldflake csv` and `foldflake json` tell what `sheet` and `clearance` print of the same batch."""
import csv
import json
import struct
import sys


def number(bits):
    return struct.unpack("<f", struct.pack("<I", int(bits, 16)))[0]


def same(decimal, bits):
    x = number(bits)
    return (x != x and decimal == "NaN") or struct.pack("<f", float(decimal)) == struct.pack("<f", x)


rows = list(csv.DictReader(open(sys.argv[1], newline="")))
document = json.load(open(sys.argv[2]))
sheet = [line.split() for line in open(sys.argv[3])][:-1]
clearance = [line.split() for line in open(sys.argv[4])][:-1]
assert len(rows) == len(document["blocks"]) == len(sheet) == len(clearance), "blocks"
floats = ["fraction", "point_x", "point_y", "normal_x", "normal_y"]
counts = ["distance_calls", "searches", "root_steps"]
corners = ["corner_a_1", "corner_a_2", "corner_b_1", "corner_b_2"]
for row, block, line, proved in zip(rows, document["blocks"], sheet, clearance):
    at = f"block {line[0]}"
    assert [row["block"], row["job"]] == [str(block["block"]), str(block["job"])] == line[:2], at
    if len(line) == 3:
        assert row["refusal"] == str(block["refusal"]) == line[2] != "0", at
        assert row["reason"] == block["reason"] != "", at
        assert all(row[name] == "" for name in ["status", "proved", "pieces"] + floats + counts + corners), at
        continue
    assert row["status"] == block["status"] == line[3] and row["refusal"] == row["reason"] == "" and "refusal" not in block, at
    for name, bits in zip(floats, line[4:9]):
        assert row[name + "_bits"] == block[name]["bits"] == bits and same(row[name], bits), (at, name)
        value = block[name]["value"]
        assert value is None if number(bits) - number(bits) != 0 else same(value, bits), (at, name)
    assert [row[name] for name in counts] == [str(block[name]) for name in counts] == line[9:12], at
    assert [row[name] or "-" for name in corners] == line[12:16], at
    assert [block["corners_a"] or ["-", "-"], block["corners_b"] or ["-", "-"]] == [
        [int(k) if k != "-" else k for k in line[i:i + 2]] for i in (12, 14)
    ], at
    assert row["proved"] == block["proved"] == proved[3] and row["pieces"] == str(block["pieces"]) == proved[-1], at
    told = proved[4:-1] + [""] * (2 - len(proved[4:-1]))
    for name, bits in zip(["clear_up_to", "contact_by"], told):
        assert row[name + "_bits"] == bits and block.get(name, {"bits": ""})["bits"] == bits, (at, name)
        assert row[name] == "" if bits == "" else same(row[name], bits) and same(block[name]["value"], bits), (at, name)
totals = document["totals"]
assert totals["blocks"] == len(sheet) and totals["refused"] == sum(len(line) == 3 for line in sheet), "totals"
for letter in "SHOF":
    assert totals[letter] == sum(len(line) > 3 and line[3] == letter for line in sheet), letter
for word in ["CLEAR", "TOUCH", "OPEN"]:
    assert totals[word] == sum(len(line) > 3 and line[3] == word for line in clearance), word
