#!/usr/bin/env python3
"""Writes the seed inputs of the fuzzer, from the examples, a small input of the benchmarks and the plans below: one for each operation.
Run from the repository's root: python3 tests/fuzz/seeds.py [FOLDER]. The layout of an input is in harness.c. The inputs of the corpus
with `found` in their name are the fuzzer's, kept for a refusal or for instructions that no seed reaches."""
import pathlib
import sys

OPERATIONS = [
    "read_floor", "read_plan", "write_floor", "write_plan", "read_rules", "check_moves", "check", "move_on", "replace_row", "clause",
]


def little(*numbers):
    return b"".join(n.to_bytes(2, "little") for n in numbers)


def seed(name, numbers, *buffers, edges=0, repeat=0):
    lengths = [len(buffer) for buffer in buffers[:-1]]
    return bytes([OPERATIONS.index(name), edges, repeat]) + little(*numbers, *lengths) + b"".join(buffers)


def record(kind, body):
    return little(len(body), kind) + bytes(body)


def bodies(file, kind):
    """The bodies of a file's records of one kind."""
    out, at = [], 0
    while at < len(file):
        length, found = (int.from_bytes(file[at + i : at + i + 2], "little") for i in (0, 2))
        if found == kind:
            out.append(file[at + 4 : at + 4 + length])
        at += 4 + length
    return out


PLACE, LANE, CART = record(1, [1, 0, 0, 0]), record(2, [0, 0, 255]), record(3, [0, 0])


def full():
    """61 steps with a run-in of 20, an odd number of carts and lanes, and every operator inside and outside counts."""
    lanes = [(0, 0, 255), (0, 1, 255), (1, 0, 255), (1, 1, 255), (0, 1, 1)]
    floor = PLACE + record(1, [2, 0, 0, 0]) + b"".join(record(2, lane) for lane in lanes) + CART * 3
    rows = [[step * cart // 7 % 2 for step in range(61)] for cart in (2, 3, 5)]
    plan = record(4, little(61, 20, 0)) + b"".join(record(5, row) for row in rows)
    inner = "[X m0 | !X m1 & (m0 U m1 | m0 R m1) | F m0 & G m1 & true,0]"
    outer = ["{} U {}", "!(X {} R !{})", "G {} & F {}", "X {} | !{}", "!(!{} U !{})", "!F !{} & !G !{}", "true U {} | {}"]
    return floor, plan, "".join(clause.format(inner, "[m0 | m1,100%]") + "\n" for clause in outer).encode()


def wide():
    """32 carts, the most."""
    rows = [record(5, [0, 0]) for _ in range(32)]
    return PLACE + LANE + CART * 32, record(4, little(2, 1, 1)) + b"".join(rows), b"G [m0,32] & F [X m0,100%]\n"


def one():
    """A place, a lane, a cart and a step."""
    return PLACE + LANE + CART, record(4, little(1, 0, 16)) + record(5, [0]), b"G [m0,1] R F [m0,1%]\n"


def bays(rows, narrow, l, d):
    """Four places with lanes between any two, narrow ones among them, and a cart for each row."""
    lanes = b"".join(record(2, [start, end, 255]) for start in range(4) for end in range(4) if start != end)
    floor = PLACE * 4 + lanes + b"".join(record(3, [0, row[0]]) for row in rows) + b"".join(record(6, [place]) for place in narrow)
    return floor, record(4, little(len(rows[0]), l, d)) + b"".join(record(5, row) for row in rows)


def crowd(d):
    """32 carts, each on its own two narrow places in turn, and 256 records of narrow places; the last cart comes to the first one's
    at step 63, which has just left it."""
    narrow = b"".join(record(6, [place % 64]) for place in range(256))
    lanes = b"".join(record(2, [place, place ^ 1, 255]) for place in range(64)) + record(2, [62, 0, 255]) + record(2, [0, 62, 255])
    rows = [[2 * cart + step % 2 for step in range(64)] for cart in range(31)] + [[62] * 63 + [0]]
    floor = PLACE * 64 + lanes + b"".join(record(3, [0, row[0]]) for row in rows) + narrow
    return floor, record(4, little(64, 62, d)) + b"".join(record(5, row) for row in rows)


def fleet(carts, away, d):
    """Carts on a place with m0, the first few of them on one with m1 at the second step of two."""
    floor = PLACE + record(1, [2, 0, 0, 0]) + record(2, [0, 1, 255]) + record(2, [1, 0, 255]) + CART * carts
    return floor, record(4, little(2, 0, d)) + b"".join(record(5, [0, cart < away]) for cart in range(carts))


def grouped(files, *groups):
    """A floor and its plan, with groups of these carts."""
    floor, plan = files
    return floor + b"".join(record(7, sum(1 << cart for cart in group).to_bytes(4, "little")) for group in groups), plan


def folder(path):
    return [(pathlib.Path(path) / file).read_bytes() for file in ("floor", "plan", "rules")]


def seeds_of(floor, plan, rules):
    places, lanes, carts, narrow, groups = (b"".join(bodies(floor, kind)) for kind in (1, 2, 3, 6, 7))
    head, rows = bodies(plan, 4)[0], bodies(plan, 5)
    h, l, d = (int.from_bytes(head[i : i + 2], "little") for i in (0, 2, 4))
    return {
        "read_floor": seed("read_floor", [], floor),
        "read_plan": seed("read_plan", [], floor, plan),
        "write_floor": seed("write_floor", [len(floor)], places, lanes, carts, narrow, groups),
        "write_plan": seed("write_plan", [h, l, d, len(plan) + 9], floor, b"".join(rows)),
        "read_rules": seed("read_rules", [], rules),
        "check_moves": seed("check_moves", [], floor, plan),
        "check": seed("check", [], floor, plan, rules),
        "move_on": seed("move_on", [h + 1, len(plan)], floor, plan),
        "replace_row": seed("replace_row", [len(rows) > 1, 0], floor, plan, rows[0]),
        "clause": seed("clause", [], little(3, 0, 17, 0, 1, 0, 0, 0), rules),
    }


def special_seeds():
    """A clause that fails at a step. Moves on by less than the run-in, by just it and by a whole lap more. Carts that park on a floor
    without lanes, one that leaves its place there, and a row for it that does. Sheets past level 32 and 128 nodes. Buffers past the
    limits by repetition: a floor of 65,550 bytes, a plan of 65,542, a sheet of 16,649, 116 clauses, 261 places, 521 carts, 33 rows and
    a half. A cart too many, a verdict of 14 bytes. Empty buffers as null pointers."""
    line, (floor, plan, _), two_carts = b"G [m0,1]\n", full(), folder("examples/two-carts")
    parked, away = (record(4, little(3, 2, 0)) + record(5, row) for row in ([0, 0, 0], [0, 0, 1]))
    return {
        "fails_at_2": seed("check", [], *two_carts[:2], b"true\n" + line),
        "move_on-3": seed("move_on", [3, 0], floor, plan),
        "move_on-20": seed("move_on", [20, 170], floor, plan),
        "move_on-61": seed("move_on", [61, 999], floor, plan),
        "no_lanes": seed("check_moves", [], PLACE + CART * 2, one()[1] + record(5, [0])),
        "no_lane_away": seed("check", [], PLACE * 2 + CART, away, line),
        "no_lane_for_row": seed("replace_row", [0, 0], PLACE * 2 + CART, parked, bytes([0, 0, 1])),
        "deep_sheet": seed("read_rules", [], b"[m0,1] & !" + b"(" * 30 + b"[X (m1),1] " + b")" * 30 + b"\n"),
        "many_nodes": seed("read_rules", [], b"true |" * 64 + b"true\n"),
        "long_floor": seed("read_floor", [], PLACE * 3 + CART, repeat=63 << 2),
        "long_plan": seed("read_plan", [], PLACE + CART, record(4, little(4, 0, 0)) * 2 + b"..", repeat=1 | 63 << 2),
        "long_sheet": seed("read_rules", [], line, repeat=2 | 16 << 2),
        "many_clauses": seed("read_rules", [], line, repeat=2 | 1 << 2),
        "many_places": seed("write_floor", [4000], bytes([1, 0, 0, 0]), b"", bytes([0, 0]), b"", b"", repeat=1 << 2),
        "many_carts": seed("write_floor", [4000], bytes([1, 0, 0, 0]), bytes([0, 0, 255]), bytes([0, 0]), b"", b"", repeat=2 | 1 << 2),
        "many_rows": seed("write_plan", [64, 0, 0, 4000], PLACE + CART, bytes(64), repeat=1 | 2 << 2),
        "no_such_cart": seed("replace_row", [3, 0], floor, plan, bytes(61)),
        "short_verdict": seed("clause", [], little(3, 0, 17, 0, 0, 0, 0), line),
        "nothing": seed("check", [], b"", b"", b"", edges=0xF0),
    }


def narrow_seeds():
    """Carts that meet in a narrow place: in step, within the drift, beyond the last step alone, carts 1 and 2 of three, with a sheet that is
    refused, and at the limits. Carts exchanged between two places, and between a narrow and a wide one. Records of kind 6 that are
    refused: a cart behind one, an absent place, the 257th; and 1,041 narrow places to write. Operations that take no notice."""
    true, broken = b"true\n", b"G ![m1,1]\n"
    paper, ends, pair, swap = [[0, 1, 1, 0], [0, 0, 1, 1]], [[1, 0, 0], [0, 0, 1]], [[3, 3], [2, 1], [0, 1]], [[1, 0, 2, 2], [3, 0, 1, 3]]
    floor, plan = bays(paper, [1], 0, 1)
    marks, lane, cart = bytes([1, 0, 0, 0]) * 2, bytes([0, 1, 255]), bytes(2)
    return {
        "met_in_step": seed("check", [], *bays(paper, [1, 1], 0, 0), true),
        "met_in_drift": seed("check", [], floor, plan, broken),
        "met_beyond_h": seed("check", [], *bays(ends, [1], 0, 1), true),
        "met_the_other_way": seed("check", [], *bays(ends[::-1], [1], 0, 1), true),
        "met_not_in_run_in": seed("check", [], *bays(ends, [1], 1, 1), true),
        "met_1_and_2": seed("check", [], *bays(pair, [1], 1, 0), true),
        "met_before_sheet": seed("check", [], *bays(pair, [1], 1, 0), b"?"),
        "met_before_no_sheet": seed("check", [], floor, plan, b"", edges=0xF0),
        "swapped_in_drift": seed("check", [], *bays(swap, [0, 1], 3, 1), true),
        "swapped_in_step": seed("check", [], *bays([[0, 1], [1, 0]], [0, 1], 0, 0), true),
        "swapped_wide": seed("check", [], *bays([[0, 1], [1, 0]], [0], 0, 0), true),
        "crowd_met": seed("check", [], *crowd(16), true),
        "crowd_apart": seed("check", [], *crowd(0), true),
        "own_places": seed("check", [], *bays([[0, 0], [1, 1], [2, 3]], [3, 2, 1, 0], 0, 16), broken),
        "narrow_moves": seed("check_moves", [], floor, plan),
        "narrow_move_on": seed("move_on", [1, 99], floor, plan),
        "narrow_row": seed("replace_row", [1, 0], floor, plan, bytes([0, 1, 1, 0])),
        "narrow_then_cart": seed("read_floor", [], floor + record(3, [0, 0])),
        "narrow_absent": seed("read_floor", [], floor + record(6, [4])),
        "narrow_long": seed("read_floor", [], floor + record(6, [1, 1])),
        "narrow_no_cart": seed("read_floor", [], PLACE + record(6, [0])),
        "narrow_257": seed("read_floor", [], crowd(0)[0] + record(6, [0])),
        "narrow_to_write": seed("write_floor", [60], marks, lane, cart, bytes([1, 0, 1]), b""),
        "narrow_absent_to_write": seed("write_floor", [60], marks, lane, cart, bytes([1, 2]), b""),
        "many_narrow": seed("write_floor", [4000], marks, lane, cart, bytes([1]), b"", repeat=3 | 1 << 2),
        "no_narrow_to_write": seed("write_floor", [60], marks, lane, cart, b"", b"", edges=0x10),
    }


def share_seeds():
    """Percentages at half a cart and beside it: of five carts, of two with drift, negated, of one, of 32; several in a sheet."""
    return {
        "share_25_of_5": seed("check", [], *fleet(5, 1, 0), b"X [m1,25%]\n"),
        "share_30_of_5": seed("check", [], *fleet(5, 1, 0), b"X [m1,30%]\n"),
        "share_50_of_5": seed("check", [], *fleet(5, 2, 0), b"X [m1,50%]\n"),
        "share_50_of_5_not": seed("check", [], *fleet(5, 2, 0), b"X ![m1,50%]\n"),
        "share_24_of_2": seed("check", [], *fleet(2, 2, 16), b"G [m2,24%]\nF ![m1,24%]\n"),
        "share_25_of_2": seed("check", [], *fleet(2, 0, 16), b"G ! ![m0,25%] & G ![m1,25%]\n[m1,25%]\n"),
        "share_74_of_2": seed("check", [], *fleet(2, 2, 16), b"F [m1,74%]\n"),
        "share_75_of_2": seed("check", [], *fleet(2, 2, 16), b"![m1,75%]\nF [m1,75%]\n"),
        "share_1_of_1": seed("check", [], *fleet(1, 0, 16), b"G [m1,1%]\n"),
        "share_50_of_1": seed("check", [], *fleet(1, 0, 1), b"G [m1,49%]\nF [m1,50%]\n"),
        "share_98_of_32": seed("check", [], *fleet(32, 31, 0), b"X [m1,98%]\n"),
        "share_99_of_32": seed("check", [], *fleet(32, 31, 0), b"X ![m1,99%] U X [m1,99%]\n"),
        "share_in_a_row": seed("check", [], *fleet(7, 3, 2), b" F [ m1 , 7% ] | [m12,100%]&[ m0,2] R [m1 U m31,0% ]\n[m0,99%]\n"),
    }


def tables(rows, l, d):
    """Places with m1, with m2 and without a mark, lanes between any two, and a cart for each row."""
    places = b"".join(record(1, [marks, 0, 0, 0]) for marks in (2, 4, 0))
    lanes = b"".join(record(2, [start, end, 255]) for start in range(3) for end in range(3) if start != end)
    floor = places + lanes + b"".join(record(3, [0, row[0]]) for row in rows)
    return floor, record(4, little(len(rows[0]), l, d)) + b"".join(record(5, row) for row in rows)


def either_seeds():
    """Ors of counts: example 3 of document 002, as an or, a negated and, an until and a negated release; a count more, in front, behind
    and between; sums at the number of carts; something else among the counts; a mark that is left; a step of a G; 32 carts."""
    three, gone = [[0, 0], [0, 1], [1, 1]], [[0, 0, 0], [0, 1, 2], [1, 1, 1]]
    clauses = {
        "or": "[m1,2] | [m2,2]",
        "or_always": "G ([m1,2] | [m2,2])",
        "negated_and": "!(![m1,2] & ![m2,2])",
        "negated_or": "!([m1,2] | [m2,2])",
        "and": "[!m1,2] & [!m2,2]",
        "until": "[m1,2] U [m2,2]",
        "negated_release": "!(![m1,2] R ![m2,2])",
        "release": "[m1,2] R [m2,2]",
        "negated_until": "!(![m1,2] U ![m2,2])",
        "more_behind": "[m1,2] | [m2,2] | [m3,3]",
        "more_between": "[m1,2] | [m3,3] | [m2,2]",
        "more_in_front": "[m3,3] | ([m1,2] | [m2,2])",
        "sum_of_three": "G ([m1,2] | [m2,3])",
        "mixed": "!true | [m1,2] | [m2,2]",
        "three_counts": "[m1,2] | ([m2,2] | [m3,1])",
        "shares": "[m1,50%] | ![!m2,67%]",
    }
    seeds = {f"either_{name}": seed("check", [], *tables(three, 1, 1), f"{clause}\n".encode()) for name, clause in clauses.items()}
    either = b"[m1,2] | [m2,2]\nG ([m1,2] | [m2,2])\n"
    return seeds | {
        "either_round_a_lap": seed("check", [], *tables(three, 0, 16), b"G ([m1,2] | [m2,2])\n[m1,2] U [m2,2]\n"),
        "either_in_step": seed("check", [], *tables(three, 0, 0), either + b"[m1,3] | [m2,2]\n"),
        "either_gone": seed("check", [], *tables(gone, 2, 1), either),
        "either_gone_too_soon": seed("check", [], *tables(gone, 2, 2), either),
        "either_all_carts": seed("check", [], *tables([[0, 2], [1, 2]], 1, 1), b"[m1 | m2,1]\n[m1,1] | [m2,1]\n"),
        "either_of_32": seed("check", [], *fleet(32, 32, 16), b"G ([m0,17] | ![m0,17])\n[m0,17] | [m1,17]\n"),
    }


def lapping(text, l, d, *others):
    """Two carts on a place with m1 where the text has a 1, a third on one with m2."""
    row = [0 if bit == "1" else 2 for bit in text]
    return tables([row, row, [1] * len(row), *others], l, d)


def window_seeds():
    """Counts of one mark: always true with more drift than steps, 17 trues in a row and 16, across the lap's end, a lap longer than the window;
    the same mark counted again and again, negated and not, by other thresholds, and by all carts."""
    counts = {
        "always": lapping("1", 0, 2),
        "of_17": lapping("1" * 17 + "0", 17, 16),
        "of_16": lapping("1" * 16 + "00", 17, 16),
        "round_a_lap": lapping("0" + "1" * 8 + "0" + "1" * 8, 1, 15),
        "in_the_lap": lapping("0" * 3 + "1" * 18, 3, 16),
        "of_two": lapping("1101101", 2, 1),
        "not_of_two": lapping("0010010", 0, 1),
    }
    clauses = b"F [m1,2]\nF ![m1,2]\nF [m2,1]\nF [m1,2]\nF [!m1,1] | [m1,67%]\nG [m1,2]\n"
    seeds = {f"window_{name}": seed("check", [], *files, clauses) for name, files in counts.items()}
    again = b"[m1,2]\nF ![m1,3]\nG [m1,0]\n[m1,1] & [m1,2]\n![m1,4]\n[m1,3]\n[m31,0]\n[m1,2]\n"
    return seeds | {
        "window_whole_g": seed("check", [], *counts["of_17"], b"G [m1,2]\nG ![m1,1]\n"),
        "window_again": seed("check", [], *counts["of_17"], again),
        "window_all_carts": seed("check", [], *fleet(2, 2, 1), b"[m0,1]\n[m0,1]\nF [m1,1]\n![m1,2]\nG [m0,1]\n"),
    }


def group_seeds():
    """Counts over groups: one cart, none, all, the same ones twice; in ors, untils and their negations, beside counts of the fleet and of other
    groups; percentages and negations of a group's size, thresholds above it; all carts of a group at a step that is left. Groups that the floor
    lacks: the second in the text, before 16, behind a wrong byte, of no group at all. Of 32 carts. Tokens that are refused."""
    three, leaving = [[0, 0], [0, 1], [1, 1]], [[0, 0, 2], [0, 0, 2], [0, 0, 0]]
    sets = (0, 1), (1, 2), (0, 1, 2), (), (2, 1), (0, 1, 2)
    clauses = {
        "or": "[m1,2@0] | [m2,1@0]",
        "or_of_others": "[m1,2@0] | [m2,2@1]",
        "or_with_fleet": "[m1,2] | [m2,2@2]",
        "or_of_fleet_twice": "[m1,2@2] | [m2,2@5]",
        "or_not_fleet": "[m1,2] | [m2,2@1]",
        "or_of_equals": "G ([m1,1@1] | [m2,2@4])",
        "negated_and": "!(![m1,2@0] & ![m2,1@0])",
        "negated_and_of_others": "!(![m1,2@2] & ![m2,2@1])",
        "until": "[m1,2@2] U [m2,2]",
        "until_of_others": "[m1,2@2] U [m2,2@1]",
        "until_of_one": "[m1,2@0] U [m2,1@0]",
        "negated_release": "!(![m1,2@2] R ![m2,2@1])",
        "more_of_others": "([m1,2] | [m2,2@2]) | [m1,2@1]",
        "others_between": "[m1,2] | ([m1,2@1] | [m2,2])",
        "empty": "[m1,0@3] & ![m1,1@3] & [m1,100%@3] & [m1,1%@1]",
        "of_none": "F [m1,1@3]",
        "none_negated": "![m1,0@3]",
        "above_its_size": "G ![m1,3@1] & F [m2,2@1]",
        "share": "[m1,75%@0] | [m2,25%@1]",
        "all": "F [m1,1@2]",
    }
    seeds = {f"group_{name}": seed("check", [], *grouped(tables(three, 1, 1), *sets), f"{clause}\n".encode()) for name, clause in clauses.items()}
    halves = b"G [m1,50%@0]\nF ![m1,50%@1]\n[m2,50%@1]\nG ![m1,67%@0]\n"
    wide = grouped(fleet(32, 20, 2), range(16), range(16, 32), range(32), [31])
    lacking = b"true\n[m1,0@1] & [m1,0@5] & [m1,0@4]\nX true\n[m1,0@7]\n"
    return seeds | {
        "group_shares_in_step": seed("check", [], *grouped(tables(three, 1, 0), *sets), halves),
        "group_all_leave": seed("check", [], *grouped(tables(leaving, 2, 1), (0, 1), (0, 1, 2)), b"G [m1,1@0]\n"),
        "group_one_stays": seed("check", [], *grouped(tables(leaving, 2, 1), (0, 1), (2,)), b"G [m1,1@1]\nF ![m1,2@0]\nG [m1,1@0]\n"),
        "group_fleet_leaves": seed("check", [], *grouped(tables(leaving[:2], 2, 1), (0, 1)), b"F [m1,1@0]\nG [m1,1@0]\n"),
        "group_negated": seed("check", [], *grouped(tables(three, 1, 0), *sets), b"![m1,2@1]\n![m1,3@0]\nF ![m1,1@1]\n"),
        "group_of_32": seed("check", [], *wide, b"G [m0,12@1]\n[m0,75% @1 ]\nG ([m0,1@3] | [m1,1@3])\nG [m0,13@2]\n"),
        "group_8": seed("check", [], *grouped(fleet(3, 1, 0), *[[n % 3] for n in range(8)]), b"X [m1,1@0]\nX [m1,1@3]\nX ![m1,1@7]\n"),
        "group_lacking": seed("check", [], *grouped(fleet(3, 1, 1), (0,), (1,), ()), lacking),
        "group_lacking_no_drift": seed("check", [], *grouped(fleet(3, 1, 0), (0,), (1,), ()), lacking[5:]),
        "group_none_there": seed("check", [], *fleet(3, 1, 0), b"G [m0,0@0]\n"),
        "group_lacking_bad_sheet": seed("check", [], *fleet(3, 1, 0), b"G [m0,0@0]\n[m0,1@8]\n"),
        "group_sheet": seed("read_rules", [], b"[m0,1@0] | [ m1 , 50%  @7 ]\n"),
        "group_digit_8": seed("read_rules", [], b"true\n[m0,1@8]\n"),
        "group_two_digits": seed("read_rules", [], b"[m0,100%@01]\n"),
        "group_space_inside": seed("read_rules", [], b"[m0,1@ 0]\n"),
        "group_cut": seed("read_rules", [], b"[m0,1@"),
        "group_clause": seed("clause", [], little(3, 0, 21, 0, 1, 0, 7, 0), b"true\n[m0,1@7]\n"),
    }


def group_file_seeds():
    """Records of kind 7: eight of them, a ninth, an absent cart, a wrong length, a narrow place behind one, before any cart. To write: three
    behind a narrow place, an absent cart's, the empty one alone, nine, 261 and 8,321."""
    floor, plan = grouped(bays([[0, 1], [2, 3]], [1], 0, 0), (0,), (), (0, 1))
    marks, lane, cart = bytes([1, 0, 0, 0]) * 2, bytes([0, 1, 255]), bytes(4)
    write = lambda room, narrow, *groups, **how: seed("write_floor", [room], marks, lane, cart, narrow, b"".join(groups), **how)
    bits = [bytes([n, 0, 0, 0]) for n in range(8)]
    return {
        "groups_read": seed("read_floor", [], floor),
        "groups_of_8": seed("read_floor", [], floor + record(7, bits[0]) * 5),
        "groups_of_9": seed("read_floor", [], floor + record(7, bits[0]) * 6),
        "groups_of_32": seed("read_floor", [], PLACE + CART * 32 + record(7, [255] * 4)),
        "groups_absent_cart": seed("read_floor", [], floor + record(7, bits[4])),
        "groups_long": seed("read_floor", [], floor + record(7, [1] * 5)),
        "groups_then_narrow": seed("read_floor", [], floor + record(6, [1])),
        "groups_no_cart": seed("read_floor", [], PLACE + record(7, bits[0])),
        "groups_before_cart": seed("read_floor", [], PLACE + record(7, bits[1]) + CART),
        "groups_plan": seed("read_plan", [], floor, plan),
        "groups_moves": seed("check_moves", [], floor, plan),
        "groups_move_on": seed("move_on", [1, 99], floor, plan),
        "groups_row": seed("replace_row", [1, 0], floor, plan, bytes([2, 3])),
        "groups_to_write": write(99, bytes([1]), bits[2], bits[0], bits[3]),
        "groups_absent_to_write": write(99, b"", bits[1], bits[4]),
        "groups_empty_to_write": write(43, b"", bits[0]),
        "groups_9_to_write": write(999, b"", *[bits[3]] * 9),
        "many_groups": write(4000, b"", bits[1], repeat=3 | 1 << 2),
        "too_many_groups": write(4000, b"", bits[1], repeat=3 | 32 << 2),
        "no_groups_to_write": write(60, b"", edges=0x20),
    }


def sum_seeds():
    """Plans to be moved on twice, the room's number being the second one too: before, at, across and beyond l, laps without a run-in and of one
    step, as far as there is in two parts, by 0, and the most steps and carts."""
    rows = [[0, 1, 2, 3, 1], [3, 3, 0, 2, 1]]
    sums = {"before_l": (1, 1), "to_l": (1, 2), "at_l": (3, 0), "across_l": (2, 2), "beyond_l": (4, 7), "beyond_h": (6, 1), "far": (300, 700)}
    laps = {"0": (0, 0), "1": (1, 2), "h": (5, 5), "far": (20_000, 20_000), "to_the_end": (32_768, 32_767), "past_the_end": (40_000, 40_000)}
    seeds = {f"sum_{name}": seed("move_on", by, *bays(rows, [], 3, 2)) for name, by in sums.items()}
    seeds |= {f"sum_of_laps_{name}": seed("move_on", by, *bays(rows, [], 0, 16)) for name, by in laps.items()}
    return seeds | {
        "sum_at_the_end": seed("move_on", [65_535, 0], *bays(rows, [], 3, 0)),
        "sum_one_step_lap": seed("move_on", [3, 9], *bays(rows, [], 4, 1)),
        "sum_one_step": seed("move_on", [2, 1], *one()[:2]),
        "sum_of_64": seed("move_on", [61, 3], *crowd(16)),
        "sum_of_64_in_lap": seed("move_on", [63, 65_472], *crowd(0)),
    }


def main():
    out = pathlib.Path(sys.argv[1] if len(sys.argv) > 1 else "tests/fuzz/corpus")
    seeds = special_seeds() | narrow_seeds() | share_seeds() | either_seeds() | window_seeds() | group_seeds() | group_file_seeds() | sum_seeds()
    edits = ["check", "move_on", "replace_row", "write_floor", "write_plan", "clause"]
    for name, files, operations in [
        ("two-carts", folder("examples/two-carts"), OPERATIONS),
        ("workshop", folder("examples/workshop"), edits),
        ("two-bays", folder("examples/two-bays"), edits),
        ("full", full(), edits),
        ("wide", wide(), ["check"]),
        ("one", one(), ["check"]),
        ("b", folder("bench/inputs/b"), ["check"]),
    ]:
        made = seeds_of(*files)
        seeds |= {f"{operation}-{name}": made[operation] for operation in operations}
    out.mkdir(parents=True, exist_ok=True)
    for name, data in seeds.items():
        (out / name).write_bytes(data)


main()
