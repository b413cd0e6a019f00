#!/usr/bin/env python3
"""Runs the program cartcheck on folders of files at the limits of its buffers, absent files and each file's refusal, and compares the line
that it prints, also where standard input is closed, so that the first file has descriptor 0. The lines are written by hand from
documents 01 and 02. Then sees that the lines due of the program cases name each refusal, 1 to 21. Run from the repository's root after
`rt run` in crates/cartcheck."""
import pathlib
import re
import subprocess
import sys
import tempfile

ROOT = pathlib.Path(__file__).resolve().parent.parent
PROGRAM = ROOT / "crates" / "cartcheck" / "out" / "cartcheck"


def read(example, name):
    return (ROOT / "examples" / example / name).read_bytes()


def group(*carts):
    """The record of a group of these carts."""
    return bytes([4, 0, 7, 0]) + sum(1 << cart for cart in carts).to_bytes(4, "little")


FLOOR, PLAN, RULES = (read("two-carts", name) for name in ("floor", "plan", "rules"))
PLACE = bytes([4, 0, 1, 0, 0, 0, 0, 0])
ROW = bytes([4, 0, 5, 0, 0, 0, 0, 0])
LONG_FLOOR = PLACE * (65536 // 8)
LONG_PLAN = (PLAN[:10] + ROW * 8191)[:65536]

# Three places in 24 bytes, four lanes in 28, three carts in 18, two narrow bays; a head of 10 bytes, rows at 10, 20 and 30.
BAYS, BAYS_PLAN, BAYS_RULES = (read("two-bays", name) for name in ("floor", "plan", "rules"))
BAYS_DRIFT_2 = BAYS_PLAN[:8] + b"\2" + BAYS_PLAN[9:]
BAYS_EARLY = BAYS_PLAN[:34] + bytes([0, 0, 0, 1, 0, 0])
NEXT_DOOR = BAYS[:52] + bytes([3, 0, 2, 0, 1, 2, 255, 3, 0, 2, 0, 2, 1, 255]) + BAYS[52:]
CHANGED = bytes([6, 0, 4, 0, 4, 0, 0, 0, 0, 0, 4, 0, 5, 0, 0, 1, 2, 0, 4, 0, 5, 0, 0, 2, 1, 0]) + ROW

# The longest floor, 10,688 bytes, with 32 carts parked on narrow places of their own.
LONGEST = PLACE * 256 + bytes([3, 0, 2, 0, 0, 1, 255]) * 1024 + b"".join(bytes([2, 0, 3, 0, 0, n]) for n in range(32))
LONGEST += b"".join(bytes([1, 0, 6, 0, n]) for n in range(256))
LONGEST_PLAN = bytes([6, 0, 4, 0, 64, 0, 63, 0, 16, 0]) + b"".join(bytes([64, 0, 5, 0, *[n] * 64]) for n in range(32))

# 60% of four carts are two; from 63% on they are three, and so many never come together within the drift.
WORKSHOP, WORKSHOP_PLAN, WORKSHOP_RULES = (read("workshop", name) for name in ("floor", "plan", "rules"))

# One of two tables has two carts at every moment, though with drift 1 neither has them surely; drift is byte 8 of the plan.
TABLES, TABLES_PLAN, TABLES_RULES = (read("either-table", name) for name in ("floor", "plan", "rules"))

CASES = [
    ("workshop", [WORKSHOP, WORKSHOP_PLAN, WORKSHOP_RULES], "accepted"),
    ("workshop, 62% at the tables", [WORKSHOP, WORKSHOP_PLAN, WORKSHOP_RULES.replace(b"60%", b"62%")], "accepted"),
    ("workshop, 63% at the tables", [WORKSHOP, WORKSHOP_PLAN, WORKSHOP_RULES.replace(b"60%", b"63%")], "refused rules 17 3 0"),
    ("either table", [TABLES, TABLES_PLAN, TABLES_RULES], "accepted"),
    ("either table, drift 0", [TABLES, TABLES_PLAN[:8] + b"\0" + TABLES_PLAN[9:], TABLES_RULES], "accepted"),
    ("either table, two at the one and three at the other", [TABLES, TABLES_PLAN, b"[m1,2] | [m2,3]\n"], "refused rules 17 0 0"),
    ("either table, a hopeless count beside the first two", [TABLES, TABLES_PLAN, b"([m1,2] | [m2,2]) | [m3,3]\n"], "accepted"),
    ("either table, a hopeless count beside the second", [TABLES, TABLES_PLAN, b"[m1,2] | ([m2,2] | [m3,3])\n"], "refused rules 17 0 0"),
    ("two carts", [FLOOR, PLAN, RULES], "accepted"),
    ("a clause that fails at step 2", [FLOOR, PLAN, b"G [m0,1]\n"], "refused rules 17 0 2"),
    ("no lanes", [FLOOR[:16] + FLOOR[30:], PLAN, RULES], "refused plan 11 0 0"),
    ("two bays", [BAYS, BAYS_PLAN, BAYS_RULES], "accepted"),
    ("two bays, drift 2", [BAYS, BAYS_DRIFT_2, BAYS_RULES], "refused plan 20 0 2"),
    ("two bays, a cart a step earlier", [BAYS, BAYS_EARLY, BAYS_RULES], "refused plan 20 0 2"),
    ("two bays, drift 2, the second alone narrow", [BAYS[:70] + BAYS[75:], BAYS_DRIFT_2, b"true\n"], "accepted"),
    ("two bays, drift 2, no rules", [BAYS, BAYS_DRIFT_2, None], "refused plan 20 0 2"),
    ("two bays, a bay named twice", [BAYS + BAYS[70:75], BAYS_DRIFT_2, BAYS_RULES], "refused plan 20 0 2"),
    ("two bays, a cart behind them", [BAYS + BAYS[64:70], BAYS_PLAN, BAYS_RULES], "refused floor 3 80 0"),
    ("two bays, a third that is absent", [BAYS + b"\1\0\6\0\3", BAYS_PLAN, BAYS_RULES], "refused floor 6 80 0"),
    ("two carts change bays", [NEXT_DOOR, CHANGED, b"true\n"], "refused plan 20 0 1"),
    ("two carts change bays, the second wide", [NEXT_DOOR[:-5], CHANGED, b"true\n"], "accepted"),
    ("the longest floor", [LONGEST, LONGEST_PLAN, b"true\n"], "accepted"),
    ("the longest floor and a narrow place", [LONGEST + b"\1\0\6\0\0", LONGEST_PLAN, b"true\n"], "refused floor 5 10688 0"),
    ("the longest floor with eight groups", [LONGEST + group(*range(32)) * 8, LONGEST_PLAN, b"G ![m0,1@7]\n"], "accepted"),
    ("the longest floor and a ninth group", [LONGEST + group() * 9, LONGEST_PLAN, b"true\n"], "refused floor 5 10752 0"),
    ("two carts, groups of one each", [FLOOR + group(0) + group(1), PLAN, b"X [m1,1@0]\nX [m0,1@1]\n"], "accepted"),
    ("two carts, the first leaves at step 1", [FLOOR + group(0), PLAN, b"G [m0,1@0]\n"], "refused rules 17 0 1"),
    ("two carts, the second leaves at step 2", [FLOOR + group() + group(1), PLAN, b"G [m0,1@1]\n"], "refused rules 17 0 2"),
    ("two carts, none of them", [FLOOR + group(), PLAN, b"G [m0,100%@0]\nG ![m0,1@0]\n"], "accepted"),
    ("two carts, one of none", [FLOOR + group(), PLAN, b"[m0,1@0]\n"], "refused rules 17 0 0"),
    ("two carts, a group that is not there", [FLOOR + group(0), PLAN, b"true\n[m0,1@0] & [m0,1@3] & [m0,1@1]\n"], "refused rules 21 1 3"),
    ("two carts, no group and X", [FLOOR, PLAN[:8] + b"\1" + PLAN[9:], b"X true\n[m0,1@7]\n"], "refused rules 21 1 7"),
    ("two carts, a group of a third", [FLOOR + group(0, 1, 2), PLAN, RULES], "refused floor 6 42 0"),
    ("two carts, a narrow place behind a group", [FLOOR + group(0) + b"\1\0\6\0\0", PLAN, RULES], "refused floor 3 50 0"),
    ("two carts, group 8", [FLOOR, PLAN, b"[m0,1@8]\n"], "refused rules 13 6 0"),
    ("either table, all carts as two groups", [TABLES + group(0, 1, 2) * 2, TABLES_PLAN, b"[m1,2@0] | [m2,2@1]\n"], "accepted"),
    ("either table, two carts at the one", [TABLES + group(0, 1), TABLES_PLAN, b"[m1,2@0] | [m2,2]\n"], "refused rules 17 0 0"),
    ("no floor", [None, PLAN, RULES], "refused floor 7 0 0"),
    ("no plan", [FLOOR, None, RULES], "refused plan 7 0 0"),
    ("no rules", [FLOOR, PLAN, None], "refused rules 7 0 0"),
    ("65,536 bytes of floor, the 257th place", [LONG_FLOOR, PLAN, RULES], "refused floor 5 2048 0"),
    ("65,537 bytes of floor", [LONG_FLOOR + b"\0", PLAN, RULES], "refused floor 1 0 0"),
    ("65,536 bytes of plan, the third row", [FLOOR, LONG_PLAN, RULES], "refused plan 5 26 0"),
    ("65,537 bytes of plan", [FLOOR, LONG_PLAN + b"\0", RULES], "refused plan 1 0 0"),
    ("16,384 bytes of rules", [FLOOR, PLAN, RULES.rjust(16384)], "accepted"),
    ("16,385 bytes of rules", [FLOOR, PLAN, RULES.rjust(16385)], "refused rules 12 0 0"),
]


def printed(files, command):
    with tempfile.TemporaryDirectory() as folder:
        for name, content in zip(("floor", "plan", "rules"), files):
            if content is not None:
                (pathlib.Path(folder) / name).write_bytes(content)
        return subprocess.run(["sh", "-c", command, PROGRAM], cwd=folder, capture_output=True, check=True).stdout


failed = 0
for title, files, line in CASES:
    for command in ('exec "$0"', 'exec "$0" <&-'):
        got = printed(files, command)
        if got != (line + "\n").encode():
            failed += 1
            print(f"program: {title}, {command}: printed {got!r}, not {line!r}")
due = (ROOT / "crates" / "cases" / "stdout").read_text()
missing = set(range(1, 22)) - {int(n) for n in re.findall(r"^\d+ refused \w+ (\d+) \d+ \d+", due, re.MULTILINE)}
if missing:
    print(f"program: no data set of cases is refused by {sorted(missing)}")
print(f"program: {len(CASES)} folders, {failed} differences")
sys.exit(failed > 0 or bool(missing))
