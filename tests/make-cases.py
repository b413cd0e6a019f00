#!/usr/bin/env python3
"""Writes the data sets and the expected output of the programs crates/cases and crates/cartcheck.

Run from the repository's root: python3 tests/make-cases.py
It prints each case's number, name and verdict. The verdicts are written by hand from documents 01 and 02; no reader is asked.
With --list it writes nothing and prints, for each file and each number that its refusals have, the data sets that give it.
"""
import pathlib
import re
import shutil
import sys

CRATE = pathlib.Path("crates/cases")
PROGRAM = pathlib.Path("crates/cartcheck")

# How many data sets crates/cases runs: the first ones. The others were made for moving on added up, and what they print is not in its expected output
# but in this page.
RUN = 1125
OTHERS = pathlib.Path("docs/unfinished-cases.txt")


def number16(n):
    return n.to_bytes(2, "little")


def record(kind, body, length=None):
    """A record; a length that is not the body's makes the body seem longer or shorter."""
    return number16(len(body) if length is None else length) + number16(kind) + bytes(body)


def place(marks=0):
    return record(1, marks.to_bytes(4, "little"))  # 8 bytes


def lane(start, end, classes=255):
    return record(2, [start, end, classes])  # 7 bytes


def cart(class_, start):
    return record(3, [class_, start])  # 6 bytes


def narrow(*places):
    return b"".join(record(6, [place]) for place in places)  # 5 bytes each


def groups(*carts):
    return b"".join(record(7, bits.to_bytes(4, "little")) for bits in carts)  # 8 bytes each


def head(h, l=0, d=0):
    return record(4, number16(h) + number16(l) + number16(d))  # 10 bytes


def row(*places):
    return record(5, places)  # 4 + h bytes


def still(h):
    """A row that stays on place 0."""
    return row(*[0] * h)


def filled(start, length):
    """The bytes, followed by zeros up to the length. Four zeros are a record of kind 0."""
    return start + bytes(length - len(start))


# Document 01's floor: places at 0 and 8, lanes at 16, 23, 30 and 37, carts at 44 and 50, the end at 56.
PLACES = place(1 << 0) + place(1 << 1)
LANES = lane(0, 1) + lane(1, 0) + lane(0, 0) + lane(1, 1)
CARTS = cart(0, 0) + cart(0, 0)
FLOOR = PLACES + LANES + CARTS
assert len(FLOOR) == 56

# Document 01's plan: the head at 0, rows at 10 and 18, the end at 26.
ROWS = row(0, 1, 1, 0) + row(0, 0, 1, 1)
PLAN = head(4) + ROWS
assert len(PLAN) == 26

# One place and one cart: 14 bytes. A plan for it: 15 bytes.
SMALL = place() + cart(0, 0)
STAY = head(1) + row(0)

# As many as there may be: 2,048, 7,168 and 192 bytes. A plan for 32 carts, of 10 + 32 * 5 bytes.
PLACES_256 = place() * 256
LANES_1024 = lane(0, 1) * 1024
CARTS_32 = cart(0, 0) * 32
ROWS_32 = head(1) + row(0) * 32

# Name, floor, plan, verdict. None is a file that isn't there. Kinds 8 to 11 are not used.
CASES = [
    # Accepted.
    ("document 01's floor and plan", FLOOR, PLAN, "accepted"),
    ("one place, one cart, no lane", SMALL, STAY, "accepted"),
    ("the same lane twice, a lane for no class", PLACES + lane(0, 1) * 2 + lane(1, 0, 0) + CARTS, PLAN, "accepted"),
    ("moves are not judged: other starts, no lanes", PLACES + CARTS, head(2) + row(1, 0) * 2, "accepted"),
    ("the longest floor and plan", PLACES_256 + LANES_1024 + CARTS_32, head(64, 63, 16) + still(64) * 32, "accepted"),
    # Floor, 1: too long.
    ("floor of 65,536 bytes, kind 0 behind good records", filled(FLOOR, 65536), PLAN, "refused floor 3 56 0"),
    ("floor of 65,536 bytes, one record", record(1, bytes(65532)), PLAN, "refused floor 4 0 0"),
    ("floor of 65,537 bytes, good records first", filled(FLOOR, 65537), PLAN, "refused floor 1 0 0"),
    ("floor of 65,537 bytes, cut short at 0", record(1, bytes(65533), 65535), PLAN, "refused floor 1 0 0"),
    # Floor, 2: cut short.
    ("floor of 1 byte", b"\x04", PLAN, "refused floor 2 0 0"),
    ("floor of 2 bytes", b"\x04\x00", PLAN, "refused floor 2 0 0"),
    ("floor of 3 bytes", b"\x04\x00\x01", PLAN, "refused floor 2 0 0"),
    ("1 byte behind the last cart", FLOOR + b"\x02", PLAN, "refused floor 2 56 0"),
    ("2 bytes behind the last cart", FLOOR + b"\x02\x00", PLAN, "refused floor 2 56 0"),
    ("3 bytes behind the last cart", FLOOR + b"\x02\x00\x03", PLAN, "refused floor 2 56 0"),
    ("first place one byte short", place()[:-1], PLAN, "refused floor 2 0 0"),
    ("first lane one byte short", PLACES + lane(0, 1)[:-1], PLAN, "refused floor 2 16 0"),
    ("last cart one byte short", FLOOR[:-1], PLAN, "refused floor 2 50 0"),
    ("place of length 260, the high byte set", record(1, bytes(4), 260) + FLOOR, PLAN, "refused floor 2 0 0"),
    ("unknown kind, body one byte short", FLOOR + record(12, [0], 2), PLAN, "refused floor 2 56 0"),
    ("place behind a cart, body one byte short", FLOOR + place()[:-1], PLAN, "refused floor 2 56 0"),
    # Floor, 3: kind unknown or out of place.
    ("kind 0 first in a floor", record(0, bytes(4)) + FLOOR, PLAN, "refused floor 3 0 0"),
    ("kind 12 last in a floor", FLOOR + record(12, [0, 0]), PLAN, "refused floor 3 56 0"),
    ("kind 258 in a floor, a lane but for the high byte", PLACES + record(258, [0, 1, 255]) + CARTS, PLAN,
     "refused floor 3 16 0"),
    ("head in a floor", PLACES + head(4) + CARTS, PLAN, "refused floor 3 16 0"),
    ("row in a floor", FLOOR + row(0, 1, 1, 0), PLAN, "refused floor 3 56 0"),
    ("place behind a lane", PLACES + lane(0, 1) + place() + CARTS, PLAN, "refused floor 3 23 0"),
    ("place behind a cart", PLACES + cart(0, 0) + place() + cart(0, 0), PLAN, "refused floor 3 22 0"),
    ("lane behind a cart", PLACES + CARTS + lane(0, 1), PLAN, "refused floor 3 28 0"),
    ("place of 3 bytes behind a cart", FLOOR + record(1, bytes(3)), PLAN, "refused floor 3 56 0"),
    ("lane from an absent place behind a cart", FLOOR + lane(2, 0), PLAN, "refused floor 3 56 0"),
    ("257th place behind a lane", PLACES_256 + lane(0, 1) + place() + CARTS, PLAN, "refused floor 3 2055 0"),
    # Floor, 4: wrong body length.
    ("place of 3 bytes", record(1, bytes(3)) + FLOOR, PLAN, "refused floor 4 0 0"),
    ("place of 5 bytes", place() + record(1, bytes(5)) + CARTS, PLAN, "refused floor 4 8 0"),
    ("place of 0 bytes", PLACES + record(1, []) + CARTS, PLAN, "refused floor 4 16 0"),
    ("lane of 2 bytes", PLACES + record(2, [0, 1]) + CARTS, PLAN, "refused floor 4 16 0"),
    ("lane of 4 bytes", PLACES + lane(0, 1) + record(2, [1, 0, 255, 0]) + CARTS, PLAN, "refused floor 4 23 0"),
    ("lane of 0 bytes", PLACES + LANES + record(2, []) + CARTS, PLAN, "refused floor 4 44 0"),
    ("cart of 1 byte", PLACES + record(3, [0]) + CARTS, PLAN, "refused floor 4 16 0"),
    ("cart of 3 bytes", PLACES + cart(0, 0) + record(3, [0, 0, 0]), PLAN, "refused floor 4 22 0"),
    ("cart of 0 bytes", FLOOR + record(3, []), PLAN, "refused floor 4 56 0"),
    ("lane of 4 bytes from an absent place", PLACES + record(2, [2, 0, 255, 0]) + CARTS, PLAN, "refused floor 4 16 0"),
    ("cart of 3 bytes and class 9", PLACES + record(3, [9, 0, 0]), PLAN, "refused floor 4 16 0"),
    ("257th place of 5 bytes", PLACES_256 + record(1, bytes(5)) + CARTS, PLAN, "refused floor 4 2048 0"),
    ("1,025th lane of 2 bytes", PLACES + LANES_1024 + record(2, [0, 1]) + CARTS, PLAN, "refused floor 4 7184 0"),
    ("33rd cart of 1 byte", PLACES + CARTS_32 + record(3, [0]), ROWS_32, "refused floor 4 208 0"),
    # Floor, 5: one too many.
    ("256 places", PLACES_256 + CARTS, PLAN, "accepted"),
    ("257 places", PLACES_256 + place() + CARTS, PLAN, "refused floor 5 2048 0"),
    ("1,024 lanes", PLACES + LANES_1024 + CARTS, PLAN, "accepted"),
    ("1,025 lanes", PLACES + LANES_1024 + lane(0, 1) + CARTS, PLAN, "refused floor 5 7184 0"),
    ("32 carts", PLACES + CARTS_32, ROWS_32, "accepted"),
    ("33 carts", PLACES + CARTS_32 + cart(0, 0), ROWS_32 + row(0), "refused floor 5 208 0"),
    ("1,025th lane to an absent place", PLACES + LANES_1024 + lane(0, 2) + CARTS, PLAN, "refused floor 5 7184 0"),
    ("33rd cart of class 9", PLACES + CARTS_32 + cart(9, 0), ROWS_32, "refused floor 5 208 0"),
    # Floor, 6: absent place or class over 7.
    ("last place in lanes and as a start", PLACES + lane(1, 1) + cart(0, 1) * 2, PLAN, "accepted"),
    ("place 255 of 256 places", PLACES_256 + lane(255, 255) + cart(0, 255), head(1) + row(255), "accepted"),
    ("class 7", PLACES + cart(7, 0) * 2, PLAN, "accepted"),
    ("lane from place 2 of 2", PLACES + lane(2, 0) + CARTS, PLAN, "refused floor 6 16 0"),
    ("lane to place 2 of 2", PLACES + lane(0, 1) + lane(0, 2) + CARTS, PLAN, "refused floor 6 23 0"),
    ("lane to place 255 of 255", place() * 255 + lane(0, 255) + CARTS, PLAN, "refused floor 6 2040 0"),
    ("last cart from place 2 of 2", FLOOR[:50] + cart(0, 2), PLAN, "refused floor 6 50 0"),
    ("first cart of class 8", FLOOR[:44] + cart(8, 0) + cart(0, 0), PLAN, "refused floor 6 44 0"),
    ("last cart of class 255", FLOOR[:50] + cart(255, 0), PLAN, "refused floor 6 50 0"),
    ("lane before any place", lane(0, 0) + FLOOR, PLAN, "refused floor 6 0 0"),
    ("cart before any place", cart(0, 0) + FLOOR, PLAN, "refused floor 6 0 0"),
    # Floor, 7: no place or no cart.
    ("empty floor", b"", PLAN, "refused floor 7 0 0"),
    ("no floor file", None, PLAN, "refused floor 7 0 0"),
    ("no file at all", None, None, "refused floor 7 0 0"),
    ("places only", PLACES, PLAN, "refused floor 7 16 0"),
    ("places and lanes, no cart", PLACES + LANES, PLAN, "refused floor 7 44 0"),
    # Floor: the lowest offset wins.
    ("absent place, then a cut cart", PLACES + lane(0, 2) + CARTS[:-1], PLAN, "refused floor 6 16 0"),
    ("no cart, cut short", PLACES + b"\x02", PLAN, "refused floor 2 16 0"),
    # The floor's refusals come before the plan's.
    ("floor's end before the plan's first byte", PLACES, b"\x06", "refused floor 7 16 0"),
    ("last cart of class 8, head out of range", FLOOR[:50] + cart(8, 0), head(0) + ROWS, "refused floor 6 50 0"),
    ("cut floor, plan of 65,537 bytes", FLOOR[:-1], filled(PLAN, 65537), "refused floor 2 50 0"),
    # Plan, 1: too long.
    ("plan of 65,536 bytes, kind 0 behind good records", FLOOR, filled(PLAN, 65536), "refused plan 3 26 0"),
    ("plan of 65,536 bytes, one record", FLOOR, record(4, bytes(65532)), "refused plan 4 0 0"),
    ("plan of 65,537 bytes, good records first", FLOOR, filled(PLAN, 65537), "refused plan 1 0 0"),
    ("plan of 65,537 bytes, cut short at 0", FLOOR, record(4, bytes(65533), 65535), "refused plan 1 0 0"),
    # Plan, 2: cut short.
    ("plan of 1 byte", FLOOR, b"\x06", "refused plan 2 0 0"),
    ("plan of 2 bytes", FLOOR, b"\x06\x00", "refused plan 2 0 0"),
    ("plan of 3 bytes", FLOOR, b"\x06\x00\x04", "refused plan 2 0 0"),
    ("2 bytes behind the head", FLOOR, head(4) + b"\x04\x00", "refused plan 2 10 0"),
    ("1 byte behind the last row", FLOOR, PLAN + b"\x04", "refused plan 2 26 0"),
    ("3 bytes behind the last row", FLOOR, PLAN + b"\x04\x00\x05", "refused plan 2 26 0"),
    ("head one byte short", FLOOR, head(4)[:-1], "refused plan 2 0 0"),
    ("first row one byte short", FLOOR, PLAN[:17], "refused plan 2 10 0"),
    ("last row one byte short", FLOOR, PLAN[:25], "refused plan 2 18 0"),
    ("row of length 260, the high byte set", FLOOR, head(4) + record(5, [0, 1, 1, 0], 260), "refused plan 2 10 0"),
    ("unknown kind in a plan, body one byte short", FLOOR, PLAN + record(12, [0], 2), "refused plan 2 26 0"),
    ("surplus row one byte short", FLOOR, PLAN + row(0, 1, 1, 0)[:-1], "refused plan 2 26 0"),
    # Plan, 3: kind unknown or out of place.
    ("kind 0 in place of the head", FLOOR, record(0, head(4)[4:]) + ROWS, "refused plan 3 0 0"),
    ("kind 12 behind the head, as long as a row", FLOOR, head(4) + record(12, bytes(4)) + ROWS, "refused plan 3 10 0"),
    ("kind 1 behind the head, as long as a row", FLOOR, head(4) + place() + ROWS, "refused plan 3 10 0"),
    ("kind 2 first in a plan", FLOOR, lane(0, 1) + PLAN, "refused plan 3 0 0"),
    ("kind 3 behind the last row", FLOOR, PLAN + cart(0, 0), "refused plan 3 26 0"),
    ("kind 260, a head but for the high byte", FLOOR, record(260, head(4)[4:]) + ROWS, "refused plan 3 0 0"),
    ("kind 261, a row but for the high byte", FLOOR, head(4) + record(261, [0, 1, 1, 0]), "refused plan 3 10 0"),
    ("row before the head", FLOOR, row(0, 1, 1, 0) + PLAN, "refused plan 3 0 0"),
    ("row of 0 bytes before the head", FLOOR, row() + PLAN, "refused plan 3 0 0"),
    ("second head behind the first", FLOOR, head(4) + PLAN, "refused plan 3 10 0"),
    ("second head behind the rows", FLOOR, PLAN + head(4), "refused plan 3 26 0"),
    ("second head between the rows, h 0", FLOOR, PLAN[:18] + head(0) + ROWS[8:], "refused plan 3 18 0"),
    ("second head of 5 bytes", FLOOR, head(4) + record(4, bytes(5)) + ROWS, "refused plan 3 10 0"),
    # Plan, 4: wrong body length.
    ("head of 5 bytes", FLOOR, record(4, [4, 0, 0, 0, 0]) + ROWS, "refused plan 4 0 0"),
    ("head of 7 bytes", FLOOR, record(4, [4, 0, 0, 0, 0, 0, 0]) + ROWS, "refused plan 4 0 0"),
    ("head of 0 bytes", FLOOR, record(4, []) + ROWS, "refused plan 4 0 0"),
    ("head of 7 bytes, h 0", FLOOR, record(4, bytes(7)) + ROWS, "refused plan 4 0 0"),
    ("first row of 3 bytes, h 4", FLOOR, head(4) + row(0, 1, 1) + ROWS[8:], "refused plan 4 10 0"),
    ("last row of 5 bytes, h 4", FLOOR, PLAN[:18] + row(0, 0, 1, 1, 0), "refused plan 4 18 0"),
    ("last row of 0 bytes", FLOOR, PLAN[:18] + row(), "refused plan 4 18 0"),
    ("row of 5 bytes with an absent place", FLOOR, head(4) + row(2, 2, 2, 2, 2), "refused plan 4 10 0"),
    ("surplus row of 3 bytes", FLOOR, PLAN + row(0, 1, 1), "refused plan 4 26 0"),
    # Plan, 5: more rows than carts.
    ("third row of two carts", FLOOR, PLAN + row(0, 1, 1, 0), "refused plan 5 26 0"),
    ("third row with an absent place", FLOOR, PLAN + row(2, 2, 2, 2), "refused plan 5 26 0"),
    ("33rd row of 32 carts", PLACES + CARTS_32, ROWS_32 + row(0), "refused plan 5 170 0"),
    # Plan, 7: no head or too few rows.
    ("empty plan", FLOOR, b"", "refused plan 7 0 0"),
    ("no plan file", FLOOR, None, "refused plan 7 0 0"),
    ("head and no row", FLOOR, head(4), "refused plan 7 10 0"),
    ("one row of two carts", FLOOR, PLAN[:18], "refused plan 7 18 0"),
    ("31 rows of 32 carts", PLACES + CARTS_32, ROWS_32[:165], "refused plan 7 165 0"),
    # Plan, 8: h, l or d out of range.
    ("h 0", SMALL, head(0) + row(), "refused plan 8 0 0"),
    ("h 64, l 0", SMALL, head(64) + still(64), "accepted"),
    ("h 65", SMALL, head(65) + still(65), "refused plan 8 0 0"),
    ("h 260, 4 but for the high byte", FLOOR, head(260) + ROWS, "refused plan 8 0 0"),
    ("l 3, h 4", FLOOR, head(4, 3) + ROWS, "accepted"),
    ("l 4, h 4", FLOOR, head(4, 4) + ROWS, "refused plan 8 0 0"),
    ("l 1, h 1", SMALL, head(1, 1) + row(0), "refused plan 8 0 0"),
    ("l 256, 0 but for the high byte", FLOOR, head(4, 256) + ROWS, "refused plan 8 0 0"),
    ("d 16", FLOOR, head(4, 0, 16) + ROWS, "accepted"),
    ("d 17", FLOOR, head(4, 0, 17) + ROWS, "refused plan 8 0 0"),
    ("d 256, 0 but for the high byte", FLOOR, head(4, 0, 256) + ROWS, "refused plan 8 0 0"),
    # Plan, 9: place not on the floor.
    ("first step of the first row on place 2 of 2", FLOOR, head(4) + row(2, 1, 1, 0) + ROWS[8:], "refused plan 9 10 0"),
    ("last step of the first row on place 2 of 2", FLOOR, head(4) + row(0, 1, 1, 2) + ROWS[8:], "refused plan 9 10 0"),
    ("first step of the last row on place 2 of 2", FLOOR, PLAN[:18] + row(2, 0, 1, 1), "refused plan 9 18 0"),
    ("last step of the last row on place 255", FLOOR, PLAN[:18] + row(0, 0, 1, 255), "refused plan 9 18 0"),
    ("step 63 of the 32nd row on place 2 of 2", PLACES + CARTS_32,
     head(64) + still(64) * 31 + row(*[0] * 63, 2), "refused plan 9 2118 0"),
    # Plan: the lowest offset wins.
    ("head out of range, then an absent place", FLOOR, head(4, 4) + row(2, 1, 1, 0), "refused plan 8 0 0"),
    ("absent place, then a row of 3 bytes", FLOOR, head(4) + row(0, 1, 2, 0) + row(0, 0, 1), "refused plan 9 10 0"),
    ("absent place, too few rows", FLOOR, head(4) + row(0, 2, 1, 0), "refused plan 9 10 0"),
    ("too few rows, cut short", FLOOR, PLAN[:18] + b"\x04", "refused plan 2 18 0"),
]



# Tasks other than reading a plan: what the file `task` holds.
MOVES = bytes([1])


def move_on(s):
    return bytes([2]) + number16(s)


def replace(cart, *places):
    return bytes([3]) + cart.to_bytes(4, "little") + bytes(places)


# What a lent buffer holds before it is written to.
FILL = 165


def lent(length):
    return bytes([FILL]) * length


def done(result, room=None):
    """Written, and the bytes past the result as they were."""
    rest = 0 if room is None else room - len(result)
    return f"done {len(result)}", result + lent(rest)


# Three places in a ring for class 1, and a lane from place 2 to itself; one cart that starts on place 1.
RING = place() * 3 + lane(0, 1, 2) + lane(1, 2, 2) + lane(2, 0, 2) + lane(2, 2, 2) + cart(1, 1)

# The last of everything: 256 places, 1,024 lanes of which the last is the one needed, 32 carts, 64 steps.
FULL = PLACES_256 + lane(0, 1) * 1023 + lane(254, 255, 128) + cart(7, 254) * 32
FULL_ROW = [254] + [255] * 63
FULL_PLAN = head(64, 63, 16) + row(*FULL_ROW) * 32

SIX = head(6, 2, 7) + row(0, 1, 2, 3, 4, 5)
SIX_FLOOR = place() * 6 + cart(0, 0)

# Name, floor, plan, task, verdict; for moving on also the buffer lent, and what is left of the buffer written to.
EDITS = [
    # Checking moves.
    ("moves of document 01's plan", FLOOR, PLAN, MOVES, "accepted"),
    ("moves round a ring", RING, head(3) + row(1, 2, 0), MOVES, "accepted"),
    ("a run-in that ends in a lap of one step", RING, head(2, 1) + row(1, 2), MOVES, "accepted"),
    ("moves at every limit", FULL, FULL_PLAN, MOVES, "accepted"),
    ("moves on a floor that is refused", PLACES, PLAN, MOVES, "refused floor 7 16 0"),
    ("moves of a plan that is refused", FLOOR, PLAN[:18], MOVES, "refused plan 7 18 0"),
    ("first cart begins elsewhere", FLOOR, head(4) + row(1, 1, 1, 0) + row(0, 0, 1, 1), MOVES, "refused plan 10 0 0"),
    ("second cart begins elsewhere", FLOOR, head(4) + row(0, 1, 1, 0) + row(1, 0, 1, 1), MOVES, "refused plan 10 1 0"),
    ("32nd cart begins elsewhere", FULL, FULL_PLAN[:-64] + bytes([0]) + FULL_PLAN[-63:], MOVES, "refused plan 10 31 0"),
    ("no lane at all", PLACES + CARTS, PLAN, MOVES, "refused plan 11 0 0"),
    ("first move shut", RING, head(3) + row(1, 0, 1), MOVES, "refused plan 11 0 0"),
    ("second move shut", RING, head(3) + row(1, 2, 1), MOVES, "refused plan 11 0 1"),
    ("closing move shut, l 0", RING, head(2) + row(1, 2), MOVES, "refused plan 11 0 1"),
    ("closing move shut, l 1", RING, head(3, 1) + row(1, 2, 0), MOVES, "refused plan 11 0 2"),
    ("parked without a lane", RING, head(1) + row(1), MOVES, "accepted"),
    ("the lane is for another class", RING[:-2] + bytes([0, 1]), head(3) + row(1, 2, 0), MOVES, "refused plan 11 0 0"),
    ("class 7 by the highest bit", PLACES + lane(0, 1, 128) + cart(7, 0), head(2, 1) + row(0, 1), MOVES, "accepted"),
    ("class 7, all bits but the highest", PLACES + lane(0, 1, 127) + cart(7, 0), head(2, 1) + row(0, 1), MOVES,
     "refused plan 11 0 0"),
    ("either of two equal lanes opens it", PLACES + lane(0, 1, 1) + lane(0, 1, 2) + cart(1, 0), head(2, 1) + row(0, 1), MOVES,
     "accepted"),
    ("a lane the other way round", PLACES + lane(1, 0) + cart(0, 0), head(2) + row(0, 1), MOVES, "refused plan 11 0 0"),
    ("cart 0 shut before cart 1 begins elsewhere", FLOOR[:16] + lane(0, 1) + CARTS, head(2) + row(0, 1) + row(1, 0), MOVES,
     "refused plan 11 0 1"),
    ("last move of the 32nd cart shut", FULL, FULL_PLAN[:-1] + bytes([0]), MOVES, "refused plan 11 31 62"),
    # Moving on.
    ("moved on by 0", FLOOR, PLAN, move_on(0), lent(26), *done(PLAN)),
    ("moved on by 1, l 0", FLOOR, PLAN, move_on(1), lent(26), *done(head(4) + row(1, 1, 0, 0) + row(0, 1, 1, 0))),
    ("moved on by h", FLOOR, PLAN, move_on(4), lent(26), *done(PLAN)),
    ("moved on by 65,535", FLOOR, PLAN, move_on(65535), lent(26), *done(head(4) + row(0, 0, 1, 1) + row(1, 0, 0, 1))),
    ("moved on by l - 1", SIX_FLOOR, SIX, move_on(1), lent(19), *done(head(5, 1, 7) + row(1, 2, 3, 4, 5))),
    ("moved on by l", SIX_FLOOR, SIX, move_on(2), lent(18), *done(head(4, 0, 7) + row(2, 3, 4, 5))),
    ("moved on by l + 1", SIX_FLOOR, SIX, move_on(3), lent(18), *done(head(4, 0, 7) + row(3, 4, 5, 2))),
    ("moved on by l and the lap less 1", SIX_FLOOR, SIX, move_on(5), lent(18), *done(head(4, 0, 7) + row(5, 2, 3, 4))),
    ("moved on by l and the lap", SIX_FLOOR, SIX, move_on(6), lent(18), *done(head(4, 0, 7) + row(2, 3, 4, 5))),
    ("moved on by 65,534, whole laps", SIX_FLOOR, SIX, move_on(65534), lent(18), *done(head(4, 0, 7) + row(2, 3, 4, 5))),
    ("a lap of one step moved on by 1,000", RING, head(2, 1) + row(1, 2), move_on(1000), lent(15), *done(head(1) + row(2))),
    ("bytes past the result stay", SIX_FLOOR, SIX, move_on(3), lent(23), *done(head(4, 0, 7) + row(3, 4, 5, 2), 23)),
    ("starts and lanes are not judged", PLACES + CARTS, head(2) + row(1, 0) * 2, move_on(1), lent(22),
     *done(head(2) + row(0, 1) * 2)),
    ("room one byte short", SIX_FLOOR, SIX, move_on(3), lent(17), "refused plan 18 18 0", lent(17)),
    ("room for the plan, not for nothing", SIX_FLOOR, SIX, move_on(0), lent(19), "refused plan 18 20 0", lent(19)),
    ("no room", SIX_FLOOR, SIX, move_on(0), b"", "refused plan 18 20 0", b""),
    ("moved on, floor refused", PLACES, PLAN, move_on(1), lent(26), "refused floor 7 16 0", lent(26)),
    ("moved on, plan refused", FLOOR, PLAN + b"\x04", move_on(1), lent(30), "refused plan 2 26 0", lent(30)),
    ("the longest plan, moved on by 62", FULL, FULL_PLAN, move_on(62), lent(202),
     *done(head(2, 1, 16) + row(255, 255) * 32)),
    # Replacing a row.
    ("second row replaced", FLOOR, PLAN, replace(1, 0, 1, 0, 1), "accepted", head(4) + row(0, 1, 1, 0) + row(0, 1, 0, 1)),
    ("first row replaced by itself", FLOOR, PLAN, replace(0, 0, 1, 1, 0), "accepted", PLAN),
    ("32nd row replaced by itself", FULL, FULL_PLAN, replace(31, *FULL_ROW), "accepted", FULL_PLAN),
    ("no cart 2 of two", FLOOR, PLAN, replace(2, 0, 1, 1, 0), "refused plan 19 2 0", PLAN),
    ("no cart 4,294,967,295", FLOOR, PLAN, replace(4294967295), "refused plan 19 4294967295 0", PLAN),
    ("no cart 256, 0 but for the second byte", FLOOR, PLAN, replace(256, 0, 1, 1, 0), "refused plan 19 256 0", PLAN),
    ("row of 0 steps", FLOOR, PLAN, replace(1), "refused plan 4 0 0", PLAN),
    ("row of 3 steps", FLOOR, PLAN, replace(1, 0, 1, 1), "refused plan 4 0 0", PLAN),
    ("row of 5 steps, the places absent", FLOOR, PLAN, replace(1, 2, 2, 2, 2, 2), "refused plan 4 0 0", PLAN),
    ("absent place at step 0, begins elsewhere", FLOOR, PLAN, replace(1, 2, 1, 1, 0), "refused plan 9 1 0", PLAN),
    ("absent places at steps 2 and 3", FLOOR, PLAN, replace(1, 1, 1, 2, 255), "refused plan 9 1 2", PLAN),
    ("row that begins elsewhere, shut too", RING, head(2, 1) + row(1, 2), replace(0, 0, 2), "refused plan 10 0 0",
     head(2, 1) + row(1, 2)),
    ("row with a shut move", RING, head(2, 1) + row(1, 2), replace(0, 1, 0), "refused plan 11 0 0", head(2, 1) + row(1, 2)),
    ("row with a shut closing move", RING, head(3) + row(1, 2, 0), replace(0, 1, 2, 2), "refused plan 11 0 2",
     head(3) + row(1, 2, 0)),
    ("old plan's 10 before 19", FLOOR, head(1) + row(0) + row(1), replace(9), "refused plan 10 1 0", head(1) + row(0) + row(1)),
    ("old plan's 11 before the new row", RING, head(2) + row(1, 2), replace(0, 1, 1), "refused plan 11 0 1",
     head(2) + row(1, 2)),
    ("replaced, floor refused", PLACES, PLAN, replace(0, 0, 1, 1, 0), "refused floor 7 16 0", PLAN),
    ("replaced, plan refused", FLOOR, PLAN[:18], replace(0, 0, 1, 1, 0), "refused plan 7 18 0", PLAN[:18]),
]


# Checking a plan: its task, and sheets of a clause a line.
CHECK = bytes([4])


def sheet(*clauses):
    return "".join(clause + "\n" for clause in clauses).encode()


def drifting(d, l=0):
    """Document 01's plan with another drift and lap. Carts on m0, step by step: 2 1 0 1; on m1: 0 1 2 1."""
    return head(4, l, d) + ROWS


def pair(h, l, d, *places):
    """Two carts on the same row, for a floor with two carts."""
    return head(h, l, d) + row(*places) * 2


# Document 01's places and lanes with one cart, with two that start on place 1, and with one on each place.
ONE = PLACES + LANES + cart(0, 0)
FROM_1 = PLACES + LANES + cart(0, 1) * 2
APART = PLACES + LANES + cart(0, 0) + cart(0, 1)

# 32 carts: all on place 0 at step 0, and on place 1 at step 1 those of the given numbers.
CROWD = PLACES + LANES + CARTS_32


def crowd(d, *away):
    return head(2, 0, d) + b"".join(row(0, int(n in away)) for n in range(32))


# Marks m0 and m31 on place 0, m30 on place 1.
ENDS = place(1 << 0 | 1 << 31) + place(1 << 30) + LANES + CARTS

# 126 nodes in 252 bytes, and what follows decides.
NODES_126 = "!true|" * 42

# Name, floor, plan, sheet, verdict of the check. Two carts, unless the name says otherwise.
CHECKS = [
    # Document 01's table.
    ("F [m1,2], d 0", FLOOR, PLAN, sheet("F [m1,2]"), "accepted"),
    ("F [m1,2], d 1", FLOOR, drifting(1), sheet("F [m1,2]"), "refused rules 17 0 0"),
    ("F [m1,1], d 1", FLOOR, drifting(1), sheet("F [m1,1]"), "accepted"),
    ("F [m1,1], d 2: all on m1 at step 2", FLOOR, drifting(2), sheet("F [m1,1]"), "accepted"),
    ("G ![m1,2], d 0", FLOOR, PLAN, sheet("G ![m1,2]"), "refused rules 17 0 2"),
    ("G [m0,1], d 0", FLOOR, PLAN, sheet("G [m0,1]"), "refused rules 17 0 2"),
    ("G [m0,1], d 1", FLOOR, drifting(1), sheet("G [m0,1]"), "refused rules 17 0 1"),
    ("[G F m1,2], d 16", FLOOR, drifting(16), sheet("[G F m1,2]"), "accepted"),
    ("X [m1,1], d 0", FLOOR, PLAN, sheet("X [m1,1]"), "accepted"),
    ("X [m1,1], d 1", FLOOR, drifting(1), sheet("X [m1,1]"), "refused rules 16 0 0"),
    ("[m0,0], d 16", FLOOR, drifting(16), sheet("[m0,0]"), "accepted"),
    ("[m0,3], d 0", FLOOR, PLAN, sheet("[m0,3]"), "refused rules 17 0 0"),
    # Document 01's other cases.
    ("check: l = h", FLOOR, drifting(0, 4), sheet("true"), "refused plan 8 0 0"),
    ("check: l = h - 1", FLOOR, drifting(0, 3), sheet("true"), "accepted"),
    ("check: d 16", FLOOR, drifting(16), sheet("true"), "accepted"),
    ("check: d 17", FLOOR, drifting(17), sheet("true"), "refused plan 8 0 0"),
    ("check: 32 carts", CROWD, crowd(0), sheet("[m0,32]"), "accepted"),
    ("check: the 33rd cart", CROWD + cart(0, 0), crowd(0) + row(0, 0), sheet("true"), "refused floor 5 236 0"),
    ("m31", ENDS, PLAN, sheet("[m31,2]"), "accepted"),
    ("m32 is 15", ENDS, PLAN, sheet("[m32,2]"), "refused rules 15 2 0"),
    ("m01 is 13 at the 1", FLOOR, PLAN, sheet("[m01,2]"), "refused rules 13 3 0"),
    # The stages in order: each pair refuses both, and the first is named.
    ("floor before plan", FLOOR[:-1], PLAN[:-1], b"", "refused floor 2 50 0"),
    ("floor before sheet", PLACES, PLAN, sheet("?"), "refused floor 7 16 0"),
    ("plan before moves: too few rows, the first begins elsewhere", FLOOR, head(4) + row(1, 1, 1, 0), sheet("true"),
     "refused plan 7 18 0"),
    ("plan before sheet", FLOOR, PLAN[:-1], b"", "refused plan 2 18 0"),
    ("10 before an empty sheet", FLOOR, head(1) + row(0) + row(1), b"", "refused plan 10 1 0"),
    ("11 before a sheet's 13", PLACES + LANES[:7] + CARTS, PLAN, sheet("?"), "refused plan 11 0 2"),
    ("11 before 16", PLACES + LANES[:7] + CARTS, drifting(1), sheet("X true"), "refused plan 11 0 2"),
    ("closing move before 17", PLACES + lane(0, 1) + CARTS, pair(2, 0, 0, 0, 1), sheet("!true"), "refused plan 11 0 1"),
    ("a sheet's 13 in the second line before 16 in the first", FLOOR, drifting(1), sheet("X true", "?"),
     "refused rules 13 7 0"),
    ("a sheet's 15 in the second line before 17 in the first", FLOOR, PLAN, sheet("!true", "[m32,1]"),
     "refused rules 15 8 0"),
    ("16 of the second clause before 17 of the first", FLOOR, drifting(1), sheet("!true", "X true"),
     "refused rules 16 1 0"),
    ("16 before 17 of one clause", FLOOR, drifting(1), sheet("X !true"), "refused rules 16 0 0"),
    # The sheet's own limits, as the check says them.
    ("no rules file", FLOOR, PLAN, None, "refused rules 7 0 0"),
    ("empty rules", FLOOR, PLAN, b"", "refused rules 7 0 0"),
    ("no byte 10 at the end of the rules", FLOOR, PLAN, b"true", "refused rules 13 4 0"),
    ("spaces before every token", FLOOR, PLAN, sheet("  F  [  m1  ,  2  ]  "), "accepted"),
    ("rules of 16,384 bytes", FLOOR, PLAN, b" " * 16379 + b"true\n", "accepted"),
    ("rules of 16,385 bytes", FLOOR, PLAN, b" " * 16380 + b"true\n", "refused rules 12 0 0"),
    ("rules of 16,386 bytes, wrong at once", FLOOR, PLAN, b"?" * 16386, "refused rules 12 0 0"),
    ("floor of 65,538 bytes", filled(FLOOR, 65538), PLAN, sheet("true"), "refused floor 1 0 0"),
    ("plan of 65,538 bytes", FLOOR, filled(PLAN, 65538), sheet("true"), "refused plan 1 0 0"),
    # 16: next outside a count, with d above 0.
    ("16: the lowest of two clauses", FLOOR, drifting(1), sheet("true", "X true", "true", "X true"),
     "refused rules 16 1 0"),
    ("16: the 32nd clause", FLOOR, drifting(16), sheet(*["true"] * 31, "X true"), "refused rules 16 31 0"),
    ("16: where the rest would decide", FLOOR, drifting(1), sheet("true | X true"), "refused rules 16 0 0"),
    ("16: deep inside, on the right of an R", FLOOR, drifting(1), sheet("[m0,1] & (true R !F G X [m0,1])"),
     "refused rules 16 0 0"),
    ("16: behind a next in a count", FLOOR, drifting(1), sheet("[X m1,1] | X [m1,1]"), "refused rules 16 0 0"),
    ("next in a count is no 16", FLOOR, drifting(1), sheet("[X m1,1]"), "accepted"),
    ("with d 0 there is no 16", FLOOR, PLAN, sheet("X true", "true U X [m1,2]"), "accepted"),
    # 17: the lowest clause.
    ("17: the first of three", FLOOR, PLAN, sheet("!true", "true", "!true"), "refused rules 17 0 0"),
    ("17: the lowest of two", FLOOR, PLAN, sheet("true", "[m0,2]", "[m1,1]", "!true"), "refused rules 17 2 0"),
    ("17: the lowest, with the step of its own G", FLOOR, PLAN, sheet("true", "G [m0,1]", "G [m0,2]"),
     "refused rules 17 1 2"),
    ("32 clauses", FLOOR, PLAN, sheet(*["[m0,2]"] * 32), "accepted"),
    ("17: the 32nd clause", FLOOR, PLAN, sheet(*["[m0,2]"] * 31, "G [m0,2]"), "refused rules 17 31 1"),
    ("33 clauses", FLOOR, PLAN, sheet(*["[m0,2]"] * 33), "refused rules 14 224 0"),
    # 17: the step of a G.
    ("G fails at step 0", FLOOR, PLAN, sheet("G [m1,1]"), "refused rules 17 0 0"),
    ("G fails in the run-in only, one cart", ONE, head(6, 3) + row(0, 1, 0, 0, 0, 0), sheet("G [m0,1]"),
     "refused rules 17 0 1"),
    ("G fails in the run-in and in the lap, one cart", ONE, head(6, 3) + row(0, 0, 1, 0, 0, 1), sheet("G [m0,1]"),
     "refused rules 17 0 2"),
    ("G fails on the lap's first step only, one cart", ONE, head(6, 3) + row(0, 0, 0, 1, 0, 0), sheet("G [m0,1]"),
     "refused rules 17 0 3"),
    ("G fails on the last step only, one cart", ONE, head(6, 3) + row(0, 0, 0, 0, 0, 1), sheet("G [m0,1]"),
     "refused rules 17 0 5"),
    ("G fails on step 63 of 64", FLOOR, pair(64, 63, 0, *[0] * 63, 1), sheet("G [m0,2]"), "refused rules 17 0 63"),
    ("G fails within the drift of step 63", FLOOR, pair(64, 63, 16, *[0] * 63, 1), sheet("G [m0,2]"),
     "refused rules 17 0 47"),
    ("G of what comes in the run-in only, one cart", ONE, head(4, 2) + row(0, 1, 0, 0), sheet("G F [m1,1]"),
     "refused rules 17 0 2"),
    ("G in parentheses", FLOOR, PLAN, sheet("((G [m0,1]))"), "refused rules 17 0 2"),
    ("G of a G", FLOOR, PLAN, sheet("G G [m0,1]"), "refused rules 17 0 0"),
    ("G under two negations", FLOOR, PLAN, sheet("!!G [m0,1]"), "refused rules 17 0 0"),
    ("G written out", FLOOR, PLAN, sheet("!F ![m0,1]"), "refused rules 17 0 0"),
    ("G on one side of an and", FLOOR, PLAN, sheet("G [m0,1] & true"), "refused rules 17 0 0"),
    ("G on the right of a U", FLOOR, PLAN, sheet("true U G [m0,1]"), "refused rules 17 0 0"),
    # Until and release.
    ("U, its right side reached", FLOOR, PLAN, sheet("[m0,1] U [m1,2]"), "accepted"),
    ("U, its left side lost", FLOOR, PLAN, sheet("[m0,2] U [m1,2]"), "refused rules 17 0 0"),
    ("U, its right side at once", FLOOR, PLAN, sheet("!true U [m0,2]"), "accepted"),
    ("U round a lap where its right side never comes, one cart", ONE, head(2) + row(0, 0), sheet("[m0,1] U [m1,1]"),
     "refused rules 17 0 0"),
    ("U inside a count round such a lap, one cart", ONE, head(2) + row(0, 0), sheet("[m0 U m1,1]"),
     "refused rules 17 0 0"),
    ("R with no need that its left side comes, one cart", ONE, head(2) + row(0, 0), sheet("[m1,1] R [m0,1]"), "accepted"),
    ("R, released while both hold", FLOOR, PLAN, sheet("[m1,1] R [m0,1]"), "accepted"),
    ("R, released too late", FLOOR, PLAN, sheet("[m1,2] R [m0,1]"), "refused rules 17 0 0"),
    ("a negated U is an R", FLOOR, PLAN, sheet("!(![m1,1] U ![m0,1])"), "accepted"),
    ("U groups to the right, one cart", ONE, head(2, 1) + row(0, 1), sheet("[m0,1] U !true U [m1,1]"), "accepted"),
    ("U to the left by parentheses, one cart", ONE, head(2, 1) + row(0, 1), sheet("([m0,1] U !true) U [m1,1]"),
     "refused rules 17 0 0"),
    ("and binds before or", FLOOR, PLAN, sheet("true | true & !true"), "accepted"),
    ("U binds before and", FLOOR, PLAN, sheet("!true & true U true"), "refused rules 17 0 0"),
    # Next.
    ("next of the last step is the lap's first, one cart", ONE, head(3, 1) + row(0, 1, 0), sheet("X X X [m1,1]"),
     "accepted"),
    ("next in a count goes the same way, one cart", ONE, head(3, 1) + row(0, 1, 0), sheet("[X X X X m1,1]"),
     "refused rules 17 0 0"),
    ("next in a count follows the cart's own row", FLOOR, PLAN, sheet("[m0 & X m1,1]"), "accepted"),
    ("next in a count doesn't follow another cart", FLOOR, PLAN, sheet("[X m1,2]"), "refused rules 17 0 0"),
    # Inner text on a cart's own row.
    ("U in a count", FLOOR, drifting(16), sheet("[m0 U m1,2]"), "accepted"),
    ("R in a count, its right side lost", FLOOR, PLAN, sheet("[m1 R m0,1]"), "refused rules 17 0 0"),
    ("R in a count, released while both hold", FLOOR, PLAN, sheet("[true R m0,2]"), "accepted"),
    ("G in a count, behind the run-in, one cart", ONE, head(2, 1) + row(0, 1), sheet("[X G m1,1] & ![G m1,1]"), "accepted"),
    ("F in a count, in the run-in only, one cart", ONE, head(4, 2) + row(0, 1, 0, 0), sheet("[F m1,1]", "[G F m1,1]"),
     "refused rules 17 1 0"),
    # Negation driven inward.
    ("a negated and", FLOOR, PLAN, sheet("!([m0,2] & [m1,1])"), "accepted"),
    ("a negated or", FLOOR, PLAN, sheet("!([m0,2] | [m1,1])"), "refused rules 17 0 0"),
    ("a negated next", FLOOR, PLAN, sheet("!X [m0,2]"), "accepted"),
    ("a negated F", FLOOR, PLAN, sheet("!F [m1,2]"), "refused rules 17 0 0"),
    ("a negated G, in step", FLOOR, PLAN, sheet("!G [m0,1]"), "accepted"),
    ("a negated G, within the drift", FLOOR, drifting(1), sheet("!G [m0,1]"), "refused rules 17 0 0"),
    ("a count or its negation, in step", FLOOR, PLAN, sheet("X ([m1,1] | ![m1,1])"), "accepted"),
    ("a count or its negation, within the drift", FLOOR, drifting(1), sheet("[m1,1] | ![m1,1]"), "accepted"),
    ("negation reaches the inner text", FLOOR, pair(2, 0, 16, 0, 0), sheet("![F !m0,1]"), "accepted"),
    # The window of the drift.
    ("window over steps 0 and 1", FLOOR, pair(4, 0, 1, 0, 0, 1, 1), sheet("[m0,2]"), "accepted"),
    ("window includes s + d", FLOOR, pair(4, 0, 2, 0, 0, 1, 1), sheet("[m0,2]"), "refused rules 17 0 0"),
    ("window turns into the lap, where the mark is missing", FROM_1, pair(6, 3, 1, 1, 1, 1, 1, 1, 0), sheet("F [m0,2]"),
     "refused rules 17 0 0"),
    ("window turns into the lap, where the mark is", FROM_1, pair(6, 3, 1, 1, 1, 1, 0, 1, 0), sheet("F [m0,2]"),
     "accepted"),
    ("window round a lap of one step", FROM_1, pair(3, 2, 16, 1, 1, 0), sheet("F [m0,2]"), "accepted"),
    ("window longer than the lap", FROM_1, pair(4, 1, 16, 1, 0, 0, 1), sheet("F [m0,2]"), "refused rules 17 0 0"),
    ("window of 16 up to step 16", FLOOR, pair(18, 17, 16, *[0] * 17, 1), sheet("[m0,2]"), "accepted"),
    ("window of 16 over step 16", FLOOR, pair(18, 17, 16, *[0] * 16, 1, 1), sheet("[m0,2]"), "refused rules 17 0 0"),
    ("all carts at s count for a threshold of 1", FLOOR, pair(2, 0, 1, 0, 1), sheet("[m0,1]"), "accepted"),
    ("all carts at s don't count for a threshold of 2", FLOOR, pair(2, 0, 1, 0, 1), sheet("[m0,2]"),
     "refused rules 17 0 0"),
    ("all but one of 32 carts at s don't count", CROWD, crowd(1, *range(31)), sheet("F [m1,1]"), "refused rules 17 0 0"),
    ("all of 32 carts at s count", CROWD, crowd(1, *range(32)), sheet("F [m1,1]"), "accepted"),
    ("a cart on m0 at every step, in step", APART, head(2) + row(0, 1) + row(1, 0), sheet("G [m0,1]"), "accepted"),
    ("a cart on m0 at every step, but never the same", APART, head(2, 0, 1) + row(0, 1) + row(1, 0), sheet("G [m0,1]"),
     "refused rules 17 0 0"),
    # Thresholds 0, N and N + 1, and what negation makes of them.
    ("threshold 0", FLOOR, drifting(16), sheet("G [!true,0]"), "accepted"),
    ("threshold 0 negated is N + 1", FLOOR, PLAN, sheet("![!true,0]"), "refused rules 17 0 0"),
    ("threshold N", FLOOR, PLAN, sheet("[m0,2]"), "accepted"),
    ("threshold N, one cart short", FLOOR, PLAN, sheet("X [m0,2]"), "refused rules 17 0 0"),
    ("threshold N negated is 1: one cart", FLOOR, PLAN, sheet("X ![m0,2]"), "accepted"),
    ("threshold N negated is 1: all carts at s", FLOOR, drifting(16), sheet("![m1,2]"), "accepted"),
    ("threshold N negated, no cart", FLOOR, PLAN, sheet("![m0,2]"), "refused rules 17 0 0"),
    ("threshold 1 negated is N, in step", FLOOR, PLAN, sheet("![m1,1]"), "accepted"),
    ("threshold 1 negated is N, within the drift", FLOOR, drifting(1), sheet("![m1,1]"), "refused rules 17 0 0"),
    ("threshold N + 1", FLOOR, PLAN, sheet("[true,3]"), "refused rules 17 0 0"),
    ("threshold N + 1 negated is 0", FLOOR, drifting(16), sheet("G ![true,3]"), "accepted"),
    ("threshold N + 2 negated is 0", FLOOR, drifting(16), sheet("G ![true,4]"), "accepted"),
    ("threshold 999", FLOOR, PLAN, sheet("[true,999]"), "refused rules 17 0 0"),
    ("threshold 999 negated", FLOOR, drifting(16), sheet("![true,999]"), "accepted"),
    ("threshold 1000 is 15", FLOOR, PLAN, sheet("[true,1000]"), "refused rules 15 6 0"),
    ("threshold 32 of 32 carts", CROWD, crowd(0, *range(32)), sheet("X [m1,32]"), "accepted"),
    ("threshold 32 of 32, the last cart missing", CROWD, crowd(0, *range(31)), sheet("X [m1,32]"), "refused rules 17 0 0"),
    ("threshold 1 of 32, the last cart alone", CROWD, crowd(0, 31), sheet("X [m1,1]"), "accepted"),
    ("threshold 32 of 32 negated, the last cart alone", CROWD, crowd(0, *range(31)), sheet("X ![m1,32]"), "accepted"),
    ("threshold 33 of 32 carts", CROWD, crowd(0), sheet("[true,33]"), "refused rules 17 0 0"),
    # Percentages.
    ("0 percent", FLOOR, drifting(16), sheet("G [!true,0%]"), "accepted"),
    ("0 percent negated", FLOOR, PLAN, sheet("![!true,0%]"), "refused rules 17 0 0"),
    ("100 percent", FLOOR, PLAN, sheet("[m0,100%]"), "accepted"),
    ("100 percent, one cart short", FLOOR, PLAN, sheet("X [m0,100%]"), "refused rules 17 0 0"),
    ("100 percent negated", FLOOR, PLAN, sheet("X ![m0,100%]"), "accepted"),
    ("101 percent is 15", FLOOR, PLAN, sheet("[m0,101%]"), "refused rules 15 4 0"),
    ("50 percent of two is 1: all carts at s count", FLOOR, drifting(16), sheet("[m0,50%]"), "accepted"),
    ("51 percent of two is 1: they count too", FLOOR, drifting(16), sheet("[m0,51%]"), "accepted"),
    ("1 percent of two is 0", FLOOR, PLAN, sheet("[m1,1%]"), "accepted"),
    ("96 percent of 32 is 31", CROWD, crowd(0, *range(31)), sheet("X [m1,96%]"), "accepted"),
    ("97 percent of 32 is 31", CROWD, crowd(0, *range(31)), sheet("X [m1,97%]"), "accepted"),
    ("25 percent of 32 is 8", CROWD, crowd(0, *range(8)), sheet("X [m1,25%]"), "accepted"),
    ("26 percent of 32 is 8", CROWD, crowd(0, *range(8)), sheet("X [m1,26%]"), "accepted"),
    # Marks.
    ("two marks on a place", ENDS, PLAN, sheet("[m0 & m31,2] & ![m30,1]"), "accepted"),
    ("a mark that no place bears", ENDS, PLAN, sheet("F [m1,1]"), "refused rules 17 0 0"),
    # 128 nodes, level 32.
    ("128 nodes, the last makes it true", FLOOR, PLAN, sheet(NODES_126 + "[m0,2]"), "accepted"),
    ("128 nodes, the last makes it false", FLOOR, PLAN, sheet(NODES_126 + "[m0,3]"), "refused rules 17 0 0"),
    ("the 129th node", FLOOR, PLAN, sheet(NODES_126 + "![m0,2]"), "refused rules 14 254 0"),
    ("128 nodes in one count", FLOOR, PLAN, sheet("[" + "m1|" * 63 + "m0,2]"), "accepted"),
    ("128 nodes in each of 32 clauses", FLOOR, PLAN, sheet(*[NODES_126 + "[m0,2]"] * 31, NODES_126 + "[m1,2]"),
     "refused rules 17 31 0"),
    ("level 32 by negations", FLOOR, PLAN, sheet("!" * 32 + "true"), "accepted"),
    ("level 33 by negations", FLOOR, PLAN, sheet("!" * 33 + "true"), "refused rules 14 32 0"),
    ("level 32 by parentheses and a count", FLOOR, PLAN, sheet("(" * 31 + "[m0,2]" + ")" * 31), "accepted"),
    ("level 33 by parentheses and a count", FLOOR, PLAN, sheet("(" * 32 + "[m0,2]" + ")" * 32), "refused rules 14 32 0"),
    ("level 32, a negation driven down to its count", FLOOR, PLAN, sheet("!" * 31 + "[m0,2]"), "refused rules 17 0 0"),
    ("31 times next: step 3", FLOOR, PLAN, sheet("X" * 31 + "[m1,1]"), "accepted"),
    ("31 times next: not both on m1", FLOOR, PLAN, sheet("X" * 31 + "[m1,2]"), "refused rules 17 0 0"),
    ("31 times next in a count, and a G", FLOOR, drifting(16), sheet("[" + "X" * 31 + "G m1,2]"), "refused rules 14 32 0"),
    ("30 times next in a count, and an F", FLOOR, drifting(16), sheet("[" + "X" * 30 + "F m1,2]"), "accepted"),
    ("32 times U", FLOOR, PLAN, sheet("[m0,1]U" * 31 + "[m0,1]U true"), "accepted"),
    ("33 times U", FLOOR, PLAN, sheet("[m0,1]U" * 32 + "true U true"), "refused rules 14 229 0"),
    ("a count behind 32 times U", FLOOR, PLAN, sheet("[m0,1]U" * 32 + "[m0,1]"), "refused rules 14 224 0"),
    # Zeros up to the length of a file and one byte past it.
    ("floor of 65,536 zeros", bytes(65536), PLAN, sheet("true"), "refused floor 3 0 0"),
    ("floor of 65,537 zeros", bytes(65537), PLAN, sheet("true"), "refused floor 1 0 0"),
    ("plan of 65,536 zeros", FLOOR, bytes(65536), sheet("true"), "refused plan 3 0 0"),
    ("plan of 65,537 zeros", FLOOR, bytes(65537), sheet("true"), "refused plan 1 0 0"),
]


# Checking a plan, and the part of the sheet that the verdict's bytes pick.
SHOW = bytes([5])

# Name, floor, plan, sheet, verdict of the check, the part shown.
SHOWN = [
    ("shown: 17 of clause 0", FLOOR, PLAN, sheet("!true", "true"), "refused rules 17 0 0", "!true"),
    ("shown: 17 of clause 1 of 3, spaces included", FLOOR, PLAN, sheet("true", "  G  [m0,1] ", "!true"), "refused rules 17 1 2",
     "  G  [m0,1] "),
    ("shown: 16 of clause 0", FLOOR, drifting(1), sheet("X [m1,1]", "!true"), "refused rules 16 0 0", "X [m1,1]"),
    ("shown: 16 of clause 1 of 3, spaces included", FLOOR, drifting(1), sheet("!true", " true | X true", "X true"), "refused rules 16 1 0",
     " true | X true"),
    ("shown: 17 of the 32nd clause", FLOOR, PLAN, sheet(*["[m0,2]"] * 31, "[m0,2] & [m1,1]"), "refused rules 17 31 0", "[m0,2] & [m1,1]"),
    ("shown: nothing of an accepted sheet", FLOOR, PLAN, sheet("true", "[m0,2]"), "accepted", ""),
    ("shown: nothing for 13", FLOOR, PLAN, sheet("true", "?"), "refused rules 13 5 0", ""),
    ("shown: nothing for 15, whose offset is a line's number", FLOOR, PLAN, sheet("[m32,1]", "true", "true"), "refused rules 15 2 0", ""),
    ("shown: nothing for 7", FLOOR, PLAN, b"", "refused rules 7 0 0", ""),
    ("shown: nothing for the plan's 11", PLACES + LANES[:7] + CARTS, PLAN, sheet("true", "true"), "refused plan 11 0 2", ""),
    ("shown: nothing for the floor's 7", PLACES, PLAN, sheet("true"), "refused floor 7 16 0", ""),
]

# Document 02, 1): a cart may park on any place. Two places without a lane; document 01's floor without its lanes from a place to itself.
NO_LANES = PLACES + CARTS
BARE = PLACES + LANES[:14] + CARTS

# As EDITS.
PARKED = [
    ("parked: moves of document 01's plan", BARE, PLAN, MOVES, "accepted"),
    ("parked: no lane, h 1", NO_LANES, head(1) + row(0) * 2, MOVES, "accepted"),
    ("parked: no lane, the lap all steps", NO_LANES, pair(3, 0, 0, 0, 0, 0), MOVES, "accepted"),
    ("parked: class 7 on the last place, no lane", PLACES + cart(7, 1), head(2) + row(1, 1), MOVES, "accepted"),
    ("parked: a lane to itself for the other classes", PLACES + lane(0, 0, 253) + cart(1, 0), head(1) + row(0), MOVES, "accepted"),
    ("parked: a lane to itself for no class", PLACES + lane(0, 0, 0) + cart(1, 0), head(1) + row(0), MOVES, "accepted"),
    ("parked: lanes away for the class alone", PLACES + lane(0, 1, 2) + cart(1, 0), head(2) + row(0, 0), MOVES, "accepted"),
    ("parked: on another place than the start", NO_LANES, head(1) + row(0) + row(1), MOVES, "refused plan 10 1 0"),
    ("parked: by the closing move, l = h - 1", RING, head(3, 2) + row(1, 2, 0), MOVES, "accepted"),
    ("parked: by the closing move, l = h - 2", RING, head(4, 2) + row(1, 2, 0, 0), MOVES, "accepted"),
    ("parked: but the closing move is shut", RING, head(4) + row(1, 1, 2, 2), MOVES, "refused plan 11 0 3"),
    ("parked: then a shut move", NO_LANES, pair(4, 3, 0, 0, 0, 1, 1), MOVES, "refused plan 11 0 1"),
    ("parked: the first cart; the second is shut", NO_LANES, head(2, 1) + row(0, 0) + row(0, 1), MOVES, "refused plan 11 1 0"),
    ("parked: lanes to themselves open no other move", PLACES + lane(0, 0) + lane(1, 1) + CARTS, pair(2, 1, 0, 0, 1), MOVES,
     "refused plan 11 0 0"),
    ("parked: the 32nd cart of class 7 on place 255, 1,024 lanes that leave it", PLACES_256 + lane(255, 0, 127) * 1024 + cart(7, 255) * 32,
     head(64) + row(*[255] * 64) * 32, MOVES, "accepted"),
    ("parked: moved on", NO_LANES, pair(2, 1, 3, 0, 0), move_on(1), lent(20), *done(pair(1, 0, 3, 0))),
    ("parked: a row replaced by itself", NO_LANES, pair(2, 0, 0, 0, 0), replace(1, 0, 0), "accepted", pair(2, 0, 0, 0, 0)),
    ("parked: a row that parks for one that goes", BARE, pair(2, 0, 0, 0, 1), replace(0, 0, 0), "accepted",
     head(2) + row(0, 0) + row(0, 1)),
    ("parked: a row that goes for one that parks", NO_LANES, pair(2, 0, 0, 0, 0), replace(1, 0, 1), "refused plan 11 1 0",
     pair(2, 0, 0, 0, 0)),
    ("parked: a row that parks elsewhere", NO_LANES, pair(2, 0, 0, 0, 0), replace(1, 1, 1), "refused plan 10 1 0",
     pair(2, 0, 0, 0, 0)),
    ("parked: the old plan's 11 before a row that parks", NO_LANES, pair(2, 1, 0, 0, 1), replace(0, 0, 0), "refused plan 11 0 0",
     pair(2, 1, 0, 0, 1)),
]

# As CHECKS: document 01's table, the same verdicts; and the order of refusals.
PARKED_CHECKS = [(f"parked: {name}", BARE, *rest) for name, _, *rest in CHECKS[:12]] + [
    ("parked: 11 before 17", NO_LANES, pair(3, 2, 0, 0, 0, 1), sheet("!true"), "refused plan 11 0 1"),
    ("parked: true in every run", NO_LANES, pair(1, 0, 16, 0), sheet("G [m0,2]"), "accepted"),
]

# Document 02, 2): narrow places. Records of kind 6, as CASES.
NARROW_256 = narrow(*[1] * 256)
NARROW_FLOORS = [
    ("narrow: place 0", FLOOR + narrow(0), PLAN, "accepted"),
    ("narrow: the last place, then the first", FLOOR + narrow(1, 0), PLAN, "accepted"),
    ("narrow: the same place three times", FLOOR + narrow(1, 1, 1), PLAN, "accepted"),
    ("narrow: 256 records", FLOOR + NARROW_256, PLAN, "accepted"),
    ("narrow: the 257th record", FLOOR + NARROW_256 + narrow(1), PLAN, "refused floor 5 1336 0"),
    ("narrow: the 257th record, absent place", FLOOR + NARROW_256 + narrow(2), PLAN, "refused floor 5 1336 0"),
    ("narrow: the 257th record of 2 bytes", FLOOR + NARROW_256 + record(6, [1, 1]), PLAN, "refused floor 4 1336 0"),
    ("narrow: the 257th record one byte short", FLOOR + NARROW_256 + narrow(1)[:-1], PLAN, "refused floor 2 1336 0"),
    ("narrow: a cart behind 256 records", FLOOR + NARROW_256 + cart(0, 0), PLAN, "refused floor 3 1336 0"),
    ("narrow: the longest floor", PLACES_256 + LANES_1024 + CARTS_32 + narrow(*range(256)), head(64, 63, 16) + still(64) * 32, "accepted"),
    ("narrow: one more than the longest floor", PLACES_256 + LANES_1024 + CARTS_32 + narrow(*range(256), 0), ROWS_32,
     "refused floor 5 10688 0"),
    ("narrow: place 2 of 2", FLOOR + narrow(2), PLAN, "refused floor 6 56 0"),
    ("narrow: place 255 of 2 behind good ones", FLOOR + narrow(0, 1, 255), PLAN, "refused floor 6 66 0"),
    ("narrow: place 255 of 256", PLACES_256 + cart(0, 255) + narrow(255), head(1) + row(255), "accepted"),
    ("narrow: place 255 of 255", place() * 255 + cart(0, 0) + narrow(255), STAY, "refused floor 6 2046 0"),
    ("narrow: 0 bytes", FLOOR + record(6, []), PLAN, "refused floor 4 56 0"),
    ("narrow: 2 bytes", FLOOR + narrow(0) + record(6, [0, 1]), PLAN, "refused floor 4 61 0"),
    ("narrow: 2 bytes, absent place", FLOOR + record(6, [2, 2]), PLAN, "refused floor 4 56 0"),
    ("narrow: one byte short", FLOOR + narrow(0)[:-1], PLAN, "refused floor 2 56 0"),
    ("narrow: kind 262, 6 but for the high byte", FLOOR + record(262, [0]), PLAN, "refused floor 3 56 0"),
    ("narrow: a place behind it", FLOOR + narrow(0) + place(), PLAN, "refused floor 3 61 0"),
    ("narrow: a lane behind it", FLOOR + narrow(0) + lane(0, 1), PLAN, "refused floor 3 61 0"),
    ("narrow: a cart behind it", FLOOR + narrow(0) + cart(0, 0), PLAN, "refused floor 3 61 0"),
    ("narrow: before the first cart", PLACES + LANES + narrow(0) + CARTS, PLAN, "refused floor 3 49 0"),
    ("narrow: between two carts", FLOOR[:50] + narrow(0) + cart(0, 0), PLAN, "refused floor 3 55 0"),
    ("narrow: before any place", narrow(0) + FLOOR, PLAN, "refused floor 6 0 0"),
    ("narrow: places and no cart", PLACES + narrow(0), PLAN, "refused floor 7 21 0"),
    ("narrow: places, lanes and no cart", PLACES + LANES + narrow(0, 1), PLAN, "refused floor 7 54 0"),
    ("narrow: in a plan", FLOOR, PLAN + narrow(0), "refused plan 3 26 0"),
    ("narrow: in place of a head", FLOOR, narrow(0) + PLAN, "refused plan 3 0 0"),
]

# As EDITS. Both carts of document 01's plan begin on place 0, but only the check refuses that.
JAMMED = FLOOR + narrow(0, 1)
NARROW_EDITS = [
    ("narrow: moves of carts that meet", JAMMED, PLAN, MOVES, "accepted"),
    ("narrow: moved on where carts meet", JAMMED, PLAN, move_on(1), lent(26), *done(head(4) + row(1, 1, 0, 0) + row(0, 1, 1, 0))),
    ("narrow: a row replaced where carts meet", JAMMED, PLAN, replace(1, 0, 1, 0, 1), "accepted", head(4) + row(0, 1, 1, 0) + row(0, 1, 0, 1)),
    ("narrow: a row by which carts meet", APART + narrow(0, 1), head(2) + row(0, 0) + row(1, 1), replace(0, 0, 1), "accepted",
     head(2) + row(0, 1) + row(1, 1)),
    ("narrow: moves on a floor refused for it", FLOOR + narrow(2), PLAN, MOVES, "refused floor 6 56 0"),
    ("narrow: moved on, floor refused for it", FLOOR + narrow(2), PLAN, move_on(1), lent(26), "refused floor 6 56 0", lent(26)),
    ("narrow: replaced, floor refused for it", FLOOR + record(6, []), PLAN, replace(0, 0, 1, 1, 0), "refused floor 4 56 0", PLAN),
]


def bays(rows, *places, count=4):
    """Places with lanes between any two, a cart at the beginning of each row, and narrow places."""
    lanes = b"".join(lane(start, end) for start in range(count) for end in range(count) if start != end)
    return place() * count + lanes + b"".join(cart(0, steps[0]) for steps in rows) + narrow(*places)


def met(name, rows, places, l, d, verdict, rules=sheet("true")):
    """A check of these rows with these narrow places."""
    numbers = verdict if verdict == "accepted" else "refused plan 20 " + verdict
    return "narrow: " + name, bays(rows, *places), head(len(rows[0]), l, d) + b"".join(row(*steps) for steps in rows), rules, numbers


PAPER_ROWS = [(0, 1, 1, 0), (0, 0, 1, 1)]
ENDS_OF_LAP = [(1, 0, 0), (0, 0, 1)]
STEP_1_AND_3 = [(2, 1, 2, 2, 2, 2), (3, 3, 3, 1, 3, 3)]
FIRST_AND_LAST = [(2, 1, 2, 2, 2, 2), (3, 3, 3, 3, 3, 1)]
CHANGED = [(0, 1), (1, 0)]
CHANGED_LATER = [(1, 0, 2, 2), (3, 0, 1, 3)]
ROUND_A_RING = [(0, 1, 2), (1, 2, 0), (2, 0, 1)]

# Everything at its limit: 32 carts that park on places of their own, or the last two on one; or one that comes to another's at last.
OWN_32 = PLACES_256 + b"".join(cart(n % 8, n) for n in range(32)) + narrow(*range(256))
SHARED_32 = OWN_32[: 2048 + 186] + cart(7, 30) + narrow(*range(256))
LAST_STEP_32 = PLACES_256 + lane(31, 30, 128) + OWN_32[2048:]
PARKED_32 = b"".join(row(*[n] * 64) for n in range(31))

# As CHECKS.
NARROW_CHECKS = [
    # Two carts in one place at a moment.
    met("document 01's plan, no narrow place", PAPER_ROWS, [], 0, 16, "accepted"),
    met("document 01's plan, a place that nobody comes to", PAPER_ROWS, [2, 3], 0, 16, "accepted"),
    met("document 01's plan, d 0", PAPER_ROWS, [1], 0, 0, "0 2"),
    met("document 01's plan, d 1", PAPER_ROWS, [1], 0, 1, "0 1"),
    met("document 01's plan, the place named twice", PAPER_ROWS, [1, 1], 0, 1, "0 1"),
    met("document 01's plan, both begin there", PAPER_ROWS, [0], 0, 0, "0 0"),
    met("at counters 3 and 2 alone, h 3", ENDS_OF_LAP, [1], 0, 1, "0 0"),
    met("at counters 2 and 3 alone, h 3", ENDS_OF_LAP[::-1], [1], 0, 1, "0 2"),
    met("not with d 0", ENDS_OF_LAP, [1], 0, 0, "accepted"),
    met("not if the first step is in the run-in", ENDS_OF_LAP, [1], 1, 1, "accepted"),
    met("one waits in the run-in, two ahead", ENDS_OF_LAP, [1], 2, 2, "0 0"),
    met("the earliest counter, not the lowest step", [(0, 0, 0, 1), (1, 1, 1, 0)], [0], 0, 2, "0 1"),
    met("the lowest step within d 3", [(0, 0, 0, 1), (1, 1, 1, 0)], [0], 0, 3, "0 0"),
    met("two steps apart, d 1", STEP_1_AND_3, [1], 5, 1, "accepted"),
    met("two steps apart, d 2", STEP_1_AND_3, [1], 5, 2, "0 1"),
    met("two steps behind, d 1", STEP_1_AND_3[::-1], [1], 5, 1, "accepted"),
    met("two steps behind, d 2", STEP_1_AND_3[::-1], [1], 5, 2, "0 3"),
    met("round the lap, d 1", FIRST_AND_LAST, [1], 0, 1, "accepted"),
    met("round the lap, d 2", FIRST_AND_LAST, [1], 0, 2, "0 1"),
    met("round the lap from its first step, d 1", FIRST_AND_LAST, [1], 1, 1, "0 1"),
    met("not round the lap from the run-in, d 3", FIRST_AND_LAST, [1], 2, 3, "accepted"),
    met("from the run-in itself, d 4", FIRST_AND_LAST, [1], 2, 4, "0 1"),
    met("carts 1 and 2", [(0, 0), (1, 0), (1, 0)], [1], 1, 0, "1 0"),
    met("cart 0 later than carts 1 and 2", [(0, 0, 2), (1, 0, 3), (1, 3, 3), (3, 3, 2)], [1, 2], 2, 0, "0 2"),
    met("one cart, d 16", [(0, 1, 2, 3)], [0, 1, 2, 3], 0, 16, "accepted"),
    met("each parked on its own place, d 16", [(0,), (1,), (2,), (3,)], [0, 1, 2, 3], 0, 16, "accepted"),
    met("two parked on one place", [(0,), (0,)], [0], 0, 0, "0 0"),
    # Two carts exchanged between two places.
    met("exchanged, d 0", CHANGED, [0, 1], 0, 0, "0 0"),
    met("exchanged, but one place is wide", CHANGED, [0], 0, 0, "accepted"),
    met("exchanged, but the other place is wide", CHANGED, [1], 0, 0, "accepted"),
    met("exchanged at counters 0 and 1, d 1", CHANGED_LATER, [0, 1], 3, 1, "0 0"),
    met("both in place 0 at counter 1, d 1", CHANGED_LATER, [0], 3, 1, "0 1"),
    met("both in place 0 at counter 1, d 0", CHANGED_LATER, [0, 1], 3, 0, "0 1"),
    met("exchanged by the closing move", [(0, 2, 1), (1, 3, 0)], [0, 1], 0, 0, "0 2"),
    met("no closing move to the run-in", [(0, 2, 1), (1, 3, 0)], [0, 1], 2, 0, "accepted"),
    met("exchanged in the lap", [(2, 0, 1), (3, 1, 0)], [0, 1], 1, 0, "0 1"),
    met("round a ring, d 0", ROUND_A_RING, [0, 1, 2], 0, 0, "accepted"),
    met("round a ring, d 1", ROUND_A_RING, [0, 1, 2], 0, 1, "0 0"),
    met("into a place just left", [(0, 1, 1), (1, 2, 2)], [0, 1, 2], 2, 0, "accepted"),
    met("to a place from elsewhere", [(0, 1, 1), (3, 0, 0)], [0, 1, 3], 2, 0, "accepted"),
    # At the limits.
    ("narrow: 32 carts on places of their own, h 64, d 16", OWN_32, head(64, 0, 16) + PARKED_32 + row(*[31] * 64), sheet("true"), "accepted"),
    ("narrow: the last two of 32 carts", SHARED_32, head(64, 0, 16) + PARKED_32 + row(*[30] * 64), sheet("true"), "refused plan 20 30 0"),
    ("narrow: cart 31 on step 63, l 63", LAST_STEP_32, head(64, 63, 0) + PARKED_32 + row(*[31] * 63, 30), sheet("true"),
     "refused plan 20 30 63"),
    ("narrow: cart 31 on step 63, d 16", LAST_STEP_32, head(64, 63, 16) + PARKED_32 + row(*[31] * 63, 30), sheet("true"),
     "refused plan 20 30 47"),
    # The stages in order, as above.
    ("narrow: floor before 20", JAMMED + narrow(2), PLAN, sheet("true"), "refused floor 6 66 0"),
    ("narrow: plan before 20", JAMMED, PLAN[:18], sheet("true"), "refused plan 7 18 0"),
    ("narrow: 10 of the last cart before 20", JAMMED, head(1) + row(0) + row(1), sheet("true"), "refused plan 10 1 0"),
    ("narrow: 11 before 20", NO_LANES + narrow(0, 1), pair(4, 3, 0, 0, 0, 1, 1), sheet("true"), "refused plan 11 0 1"),
    met("before an empty sheet", PAPER_ROWS, [1], 0, 0, "0 2", b""),
    met("before a sheet's 12", PAPER_ROWS, [1], 0, 0, "0 2", b"?" * 16385),
    met("before a sheet's 13", PAPER_ROWS, [1], 0, 0, "0 2", b"?"),
    met("before 16", PAPER_ROWS, [1], 0, 1, "0 1", sheet("X true")),
    met("before 17", PAPER_ROWS, [1], 0, 0, "0 2", sheet("!true")),
    ("narrow: clear of conflicts, 17", APART + narrow(0, 1), head(1, 0, 16) + row(0) + row(1), sheet("G [m0,1]", "G [m0,2]"),
     "refused rules 17 1 0"),
    ("narrow: clear of conflicts, 16", APART + narrow(0, 1), head(1, 0, 16) + row(0) + row(1), sheet("X true"), "refused rules 16 0 0"),
]

# As SHOWN: the first number of 20 is a cart, and no clause.
NARROW_SHOWN = [
    ("narrow: nothing shown for 20", JAMMED, PLAN, sheet("true", "!true"), "refused plan 20 0 0", ""),
]


def share(name, carts, marked, clause, verdict, d=0):
    """A check of carts on place 0 at step 0, the first few of them on place 1 at step 1, as in document 01's floor."""
    rows = b"".join(row(0, int(n < marked)) for n in range(carts))
    numbers = verdict if verdict == "accepted" else "refused rules 17 " + verdict
    return "percent: " + name, PLACES + LANES + cart(0, 0) * carts, head(2, 0, d) + rows, sheet(clause), numbers


# Document 02, 3): percentages to the nearest cart, a half going up. As CHECKS.
PERCENTAGES = [
    # "25% of 5 is 1, 30% of 5 is 2, 50% of 5 is 3."
    share("25 of five is 1", 5, 1, "X [m1,25%]", "accepted"),
    share("25 of five, none there", 5, 0, "X [m1,25%]", "0 0"),
    share("30 of five is 2", 5, 2, "X [m1,30%]", "accepted"),
    share("30 of five, one there", 5, 1, "X [m1,30%]", "0 0"),
    share("50 of five is 3", 5, 3, "X [m1,50%]", "accepted"),
    share("50 of five, two there", 5, 2, "X [m1,50%]", "0 0"),
    # A half goes up, to an odd number as well as to an even one; anything less goes down, anything more up.
    share("9 of five is 0", 5, 0, "X [m1,9%]", "accepted"),
    share("10 of five is 1", 5, 0, "X [m1,10%]", "0 0"),
    share("49 of five is 2", 5, 2, "X [m1,49%]", "accepted"),
    share("51 of five is 3", 5, 2, "X [m1,51%]", "0 0"),
    share("69 of five is 3", 5, 3, "X [m1,69%]", "accepted"),
    share("70 of five is 4", 5, 3, "X [m1,70%]", "0 0"),
    share("89 of five is 4", 5, 4, "X [m1,89%]", "accepted"),
    share("90 of five is 5", 5, 4, "X [m1,90%]", "0 0"),
    share("33 of three is 1", 3, 0, "X [m1,33%]", "0 0"),
    share("67 of three is 2", 3, 2, "X [m1,67%]", "accepted"),
    share("15 of ten is 2", 10, 1, "X [m1,15%]", "0 0"),
    share("25 of ten is 3", 10, 2, "X [m1,25%]", "0 0"),
    share("98 of 25 is 25", 25, 24, "X [m1,98%]", "0 0"),
    share("shares of five that add up to all of them", 5, 2, "X ([m1,30%] & [m0,60%])", "accepted"),
    share("shares of five that ask for six", 5, 2, "X ([m1,30%] & [m0,70%])", "0 0"),
    # Less than half a cart is none: true always, and its negation never.
    share("49 of one is 0", 1, 0, "G [m1,49%]", "accepted", 16),
    share("50 of one is 1", 1, 0, "X [m1,50%]", "0 0"),
    share("50 of one, there", 1, 1, "X [m1,50%]", "accepted"),
    share("1 of 32 is 0", 32, 0, "G [m1,1%]", "accepted", 16),
    share("2 of 32 is 1", 32, 0, "X [m1,2%]", "0 0"),
    share("24 of two is 0", 2, 0, "G [!true,24%]", "accepted", 16),
    share("24 of two negated, no cart there", 2, 0, "F ![m1,24%]", "0 0"),
    share("24 of two negated, under a G", 2, 2, "G ([m0,1] | ![m2,24%])", "0 1"),
    share("24 of two negated, under a G and with drift", 2, 2, "G ([true,2] & ![m2,24%])", "0 0", 16),
    # One, with the case of all carts at s, and two, without it.
    share("50 of two is 1, all carts at s", 2, 2, "F [m1,50%]", "accepted", 16),
    share("74 of two is 1, all carts at s", 2, 2, "F [m1,74%]", "accepted", 16),
    share("74 of two is 1, all but one at s", 2, 1, "F [m1,74%]", "0 0", 16),
    share("75 of two is 2, all carts at s", 2, 2, "F [m1,75%]", "0 0", 16),
    share("75 of two is 2, in step", 2, 2, "F [m1,75%]", "accepted"),
    share("29 of five is 1, all carts at s", 5, 5, "F [m1,29%]", "accepted", 16),
    share("30 of five is 2, all carts at s", 5, 5, "F [m1,30%]", "0 0", 16),
    share("4 of 32 is 1, all carts at s", 32, 32, "F [m1,4%]", "accepted", 16),
    share("5 of 32 is 2, all carts at s", 32, 32, "F [m1,5%]", "0 0", 16),
    # Rounded first, then negated.
    share("50 of five negated is 3", 5, 2, "X ![m1,50%]", "accepted"),
    share("50 of five negated, two elsewhere", 5, 3, "X ![m1,50%]", "0 0"),
    share("50 of five negated is 3, with drift", 5, 2, "G ![m1,50%]", "accepted", 16),
    share("50 of five negated, two elsewhere, with drift", 5, 3, "G ![m1,50%]", "0 0", 16),
    share("50 of five negated, two elsewhere, step of a G", 5, 3, "G ![m1,50%]", "0 1"),
    share("25 of two negated is 2", 2, 0, "G ![m1,25%]", "accepted", 16),
    share("25 of two negated, one elsewhere", 2, 1, "X ![m1,25%]", "0 0"),
    share("75 of two negated is 1, all carts at s", 2, 2, "![m1,75%]", "accepted", 16),
    share("74 of two negated is 2, all carts at s", 2, 2, "![m1,74%]", "0 0", 16),
    share("26 of two under three negations", 2, 0, "!!![m1,26%]", "accepted"),
    # At the limits.
    share("98 of 32 is 31", 32, 31, "X [m1,98%]", "accepted"),
    share("98 of 32, thirty there", 32, 30, "X [m1,98%]", "0 0"),
    share("98 of 32 negated is 2", 32, 30, "X ![m1,98%]", "accepted"),
    share("99 of 32 is 32", 32, 31, "X [m1,99%]", "0 0"),
    share("99 of 32, all there", 32, 32, "X [m1,99%]", "accepted"),
    share("99 of 32 negated is 1", 32, 31, "X ![m1,99%]", "accepted"),
    share("100 of one is 1", 1, 0, "X [m1,100%]", "0 0"),
    # Numbers as they stand, and the clause by its number.
    share("3 of five without a sign", 5, 2, "X [m1,3]", "0 0"),
    share("3 of five with it is 0", 5, 2, "[m1,3%]", "accepted"),
    share("the third clause of three", 5, 2, "X [m1,49%]\n[m1,9%]\nX [m1,50%]", "2 0"),
]

# Truth by step. The tables of a check lie in one block: those of the marks, of all, of none, and six pairs of places in which the texts of counts are
# judged. Floor and plan say which of three blocks it is; of two operands the one that needs more pairs goes first. No verdict may hang on that.


def words(marks, h):
    """The words of the tables."""
    return (marks + 2 + 2 * 6) * h


def block(marks, h):
    """The words of the block."""
    return min(room for room in (500, 1000, 2944) if words(marks, h) <= room)


def meeting(h, l=0, d=0):
    """Two carts, on m0 and at last on m1: the first from step h - 2 on, the second at step h - 1."""
    return head(h, l, d) + row(*[0] * (h - 2), 1, 1) + row(*[0] * (h - 1), 1)


# On that plan: true with every drift; false, at step h - 1 or with drift at step h - 2; and X outside a count.
KEPT, BROKEN, AHEAD = "[F m1,2]", "G [m0,1]", "X true"


def text(start, size):
    """Inner text of so many nodes with the truth of `start`: no place bears m2."""
    return start + "|m2" * ((size - 1) // 2)


def kept(size):
    """As KEPT, with a text of so many nodes, an even number."""
    return f"[{text('F m1', size)},2]"


def broken(size):
    """As BROKEN, with a text of so many nodes, an odd number."""
    return f"G [{text('m0', size)},1]"


def rules_verdict(verdict):
    return verdict if verdict == "accepted" else "refused rules " + verdict


def large_texts(room, h, size):
    """Checks in a block of so many words: clauses with a text of so many nodes, an even number, or one less, among small ones."""
    large, false = kept(size), broken(size - 1)
    sheets = [
        ("the one clause", 0, (large,), "accepted"),
        ("the first clause", 0, (large, KEPT, KEPT), "accepted"),
        ("a middle clause", 0, (KEPT, large, KEPT), "accepted"),
        ("the last clause", 0, (KEPT, KEPT, large), "accepted"),
        ("two clauses", 0, (large, KEPT, large), "accepted"),
        ("the first clause, d 16", 16, (large, KEPT), "accepted"),
        ("the last clause, d 16", 16, (KEPT, large), "accepted"),
        ("the first of two counts", 0, (KEPT, f"{large} & {KEPT}", KEPT), "accepted"),
        ("the last of two counts", 0, (KEPT, f"{KEPT} & {large}", KEPT), "accepted"),
        ("17 by the one clause", 0, (false,), f"17 0 {h - 1}"),
        ("17 before it", 0, (BROKEN, large, KEPT), f"17 0 {h - 1}"),
        ("17 by it", 0, (KEPT, false, KEPT), f"17 1 {h - 1}"),
        ("17 behind it", 0, (KEPT, large, BROKEN), f"17 2 {h - 1}"),
        ("17 before it and behind it", 0, (KEPT, BROKEN, large, "!true"), f"17 1 {h - 1}"),
        ("17 by the second of two", 0, (large, KEPT, false), f"17 2 {h - 1}"),
        ("17 before it, d 16", 16, (BROKEN, large), f"17 0 {h - 2}"),
        ("17 by it, d 16", 16, (false, "!true"), f"17 0 {h - 2}"),
        ("17 behind it, d 16", 16, (large, BROKEN), f"17 1 {h - 2}"),
        ("16 before it", 1, (KEPT, AHEAD, large), "16 1 0"),
        ("16 by it", 1, (KEPT, "X " + large), "16 1 0"),
        ("16 behind it", 1, (KEPT, large, AHEAD), "16 2 0"),
        ("16 before it, 17 by it", 1, (AHEAD, false), "16 0 0"),
        ("16 behind it, 17 before it", 1, (BROKEN, large, AHEAD), "16 2 0"),
        ("16 behind it, 17 by it", 1, (false, AHEAD), "16 1 0"),
        ("16 before it and behind it", 1, (AHEAD, large, AHEAD), "16 0 0"),
        ("no 16 behind it with d 0", 0, (large, AHEAD), "accepted"),
    ]
    assert block(2, h) == room
    for name, d, clauses, verdict in sheets:
        yield f"{room} words, a large text: {name}", FLOOR, meeting(h, h // 2, d), sheet(*clauses), rules_verdict(verdict)


def large_clauses(room, h, size):
    """Checks in a block of so many words: clauses with two texts of so many nodes, an even number, or with no count."""
    wide, false = f"{kept(size)} & {kept(size)}", f"G ([{text('m0', size - 1)},1] & {kept(size)})"
    long = " & ".join(["true"] * 64)
    sheets = [
        ("one clause", 0, (wide,), "accepted"),
        ("all clauses", 0, (wide, KEPT, wide), "accepted"),
        ("one without a count", 0, (long, KEPT), "accepted"),
        ("one without a count, and it is false", 0, (KEPT, "!(" + long + ")"), "17 1 0"),
        ("17 by it", 0, (KEPT, false, KEPT), f"17 1 {h - 1}"),
        ("17 behind it", 0, (wide, BROKEN), f"17 1 {h - 1}"),
        ("17 behind it, d 16", 16, (wide, BROKEN), f"17 1 {h - 2}"),
        ("16 behind it", 1, (wide, AHEAD), "16 1 0"),
        ("one, and then a larger text", 0, (wide, kept(size + 2), BROKEN), f"17 2 {h - 1}"),
    ]
    assert block(2, h) == room
    for name, d, clauses, verdict in sheets:
        yield f"{room} words, two texts: {name}", FLOOR, meeting(h, h // 2, d), sheet(*clauses), rules_verdict(verdict)


def sized(h, size, marks=2):
    """Texts of so many nodes, in a clause that is kept and in one that is not."""
    even = size % 2 == 0
    rules = sheet(kept(size), f"G [{text('X m0', size)},1]") if even else sheet(f"[{text('m0', size)},2]", broken(size))
    floor = place(1 << 0) + place(1 << 1 | 1 << marks - 1) + LANES + CARTS
    return f"texts of {size} nodes: h {h}, {marks} marks", floor, meeting(h), rules, f"refused rules 17 1 {h - 1 - even}"


# As CHECKS.
BLOCKS = [
    *large_texts(500, 25, 18),
    *large_texts(1000, 50, 18),
    *large_texts(2944, 64, 62),
    *large_clauses(500, 25, 16),
    *large_clauses(1000, 50, 16),
    *large_clauses(2944, 64, 60),
    *[sized(h, size) for h, sizes in [(25, (16, 17, 36, 37)), (36, (9, 10)), (38, (9, 10))] for size in sizes],
    *[sized(h, size) for h, sizes in [(50, (16, 17, 77, 78)), (59, (12, 13, 65, 66)), (64, (60, 61))] for size in sizes],
    *[sized(h, size, 32) for h, sizes in [(10, (16, 17, 66, 67)), (20, (16, 17, 126)), (64, (29, 30, 31, 126))] for size in sizes],
]

# Texts by their shape: a leaf, or the shapes of one operand or of two.
LEAF = ()
ONE_LEAF = (LEAF,)


def leaves(shape):
    return sum(map(leaves, shape)) if shape else 1


def nodes(shape):
    return 1 + sum(map(nodes, shape))


def need(shape):
    """How many pairs a text of this shape needs."""
    needs = sorted(map(need, shape))
    if not needs:
        return 0
    return max(1, needs[-1]) if len(needs) == 1 else needs[1] + (needs[0] == needs[1])


def balanced(n, leaf=LEAF):
    """The least shape of this leaf and of operators with two operands that needs n pairs."""
    return leaf if need(leaf) == n else (balanced(n - 1, leaf),) * 2


def leaning(n, leaf, to_left):
    """A shape of at most 126 nodes that needs n pairs by its first part, with parts beside it that need fewer and fewer."""
    shape = balanced(n, leaf)
    for fewer in range(n - 1, need(leaf) - 1, -1):
        beside = balanced(fewer, leaf)
        if nodes(shape) + nodes(beside) < 126:
            shape = (shape, beside) if to_left else (beside, shape)
    return shape


def step_of(k, count, h=64):
    """The step at which the first cart of `passing` comes to place k."""
    return k * h // count


def names(count, marks=32):
    """The marks of places 0 to count - 1, each its own; the last place bears the highest one."""
    return [f"m{k}" for k in range(count - 1)] + [f"m{marks - 1}" if marks else "true"]


def passing(count, marks=32, h=64, d=0):
    """A floor and a plan: carts go through so many places and stay on the last one, the second cart a step behind the first."""
    own = [1 << k for k in range(count - 1)] + [1 << marks >> 1]
    lanes = b"".join(lane(k, k) + lane(k, min(k + 1, count - 1)) for k in range(count))
    places = [max(k for k in range(count) if step_of(k, count, h) <= s) for s in range(h)]
    return b"".join(map(place, own)) + lanes + CARTS, head(h, h - 1, d) + row(*places) + row(*[0, *places][:h])


def over(shape, marks, operators, one="", wrong=None):
    """A text of this shape over these places' marks, the operators in turn from level to level, before each leaf the operator with one operand.

    By | and U it is true while a cart is on these places: a U b is, where b's places follow a's. With X before each mark that is a step earlier; with F it
    is true up to the last of them. By & and R, with ! before each mark, it is true elsewhere. A place's text beside itself is that text. An operator over
    the marks `wrong` is U with its operands exchanged, which is true on the places of the first half alone.
    """
    if len(shape) < 2:
        return one * len(shape) + marks[0]
    cut = max(1, len(marks) * leaves(shape[0]) // leaves(shape))
    parts = (marks[:cut], marks[cut:]) if marks[1:] else (marks, marks)
    turned = operators[1:] + operators[:1]
    a, b = (over(part, its, turned, one, wrong) for part, its in zip(shape, parts))
    return f"({b}U{a})" if marks == wrong else f"({a}{operators[0]}{b})"


# What stands before each mark, and the operators in turn.
BARE_MARKS, UNDER_ONE = [("", "|U")], [("X", "U|"), ("!", "&R"), ("F", "|U"), ("!", "R&")]


def held(shape, marks, one, operators):
    """A clause that is true as long as carts are on these places."""
    return ("G ![%s,1]" if one == "!" else "G [%s,2]") % over(shape, marks, operators, one)


def by_need():
    """Texts of every need, balanced and leaning to each side: over all places in one sheet, and over all but the last, which is told by its step."""
    for leaf, kinds in (LEAF, BARE_MARKS), (ONE_LEAF, UNDER_ONE):
        for n in range(need(leaf), 6 + need(leaf)):
            ways = {balanced(n, leaf): "balanced"}
            ways.setdefault(leaning(n, leaf, True), "to the left")
            ways.setdefault(leaning(n, leaf, False), "to the right")
            assert all(need(shape) == n for shape in ways)
            count = min(32, leaves(balanced(n, leaf)))
            clauses = [held(shape, names(count), *kind) for shape in ways for kind in kinds]
            yield f"{n} pairs over {'marks' if leaf == LEAF else 'operators'}", *passing(count, d=16), sheet(*clauses), "accepted"
            for k, (shape, way) in enumerate(ways.items()):
                one, operators = kinds[(n + k) % len(kinds)]
                count = min(31, leaves(shape))
                rules = sheet(held(shape, names(count + 1)[:count], one, operators))
                step = step_of(count, count + 1) - (one == "X")
                yield f"{n} pairs, {way}: {one}m by {operators}", *passing(count + 1), rules, f"refused rules 17 0 {step}"


# 64 leaves in 127 nodes, which need six pairs, in a clause of 128: 32 under each operand of U or R, which look at all steps. The halves: on one place or
# another, always; on the last place; on two places at once, never.
HALF = balanced(5)
ON, OTHERWISE_ON, AT_LAST = over(HALF, names(32), "|U"), over(HALF, names(32), "U|"), over(HALF, names(32)[31:], "&|UR")
NOWHERE = over(HALF, names(32), "||||&")
assert nodes((HALF, HALF)) == 127 and leaves((HALF, HALF)) == 64 and need((HALF, HALF)) == 6


def six(name, clause, verdict, d=0):
    return f"64 leaves: {name}", *passing(32, d=d), sheet(clause), rules_verdict(verdict)


def exchanged(first, end):
    """One U in it has its operands exchanged, so that its later places are missing."""
    marks = names(32)
    text = f"{NOWHERE}R{over(HALF, marks, '|', wrong=marks[first:end])}"
    return six(f"U over places {first} to {end - 1} exchanged", f"[{text},1]", "17 0 0")


SIX_PAIRS = [
    six("on one place or another", f"[{NOWHERE}R{ON},2]", "accepted"),
    six("on one place or another, d 16", f"[{NOWHERE}R{OTHERWISE_ON},2]", "accepted", 16),
    six("on them up to the last", f"[{ON}U{AT_LAST},2]", "accepted"),
    six("on them up to the last, d 16", f"[{OTHERWISE_ON}U{AT_LAST},2]", "accepted", 16),
    six("U of what holds at once", f"[{NOWHERE}U{ON},2]", "accepted"),
    six("on two places at once, or one", f"[{NOWHERE}|{ON},2]", "accepted"),
    six("U of what never holds", f"[{ON}U{NOWHERE},1]", "17 0 0"),
    six("U of what never holds, d 16", f"[{OTHERWISE_ON}U{NOWHERE},1]", "17 0 0", 16),
    six("R of what never holds", f"[{ON}R{NOWHERE},1]", "17 0 0"),
    six("R of what holds at last", f"[{OTHERWISE_ON}R{AT_LAST},1]", "17 0 0"),
    six("R by what never holds", f"[{NOWHERE}R{AT_LAST},1]", "17 0 0"),
    six("never and always", f"[{NOWHERE}&{ON},1]", "17 0 0"),
    six("always and never", f"[{ON}&{NOWHERE},1]", "17 0 0"),
    *[exchanged(first, end) for first, end in [(0, 32), (0, 16), (16, 32), (8, 16), (0, 2), (14, 16), (16, 18), (30, 32)]],
]


def always(n):
    """A text that needs n pairs and is true on the plans of `meeting`."""
    return ("true", "(m0|m1)")[n] if n < 2 else over(balanced(n, ONE_LEAF), ["m0", "m1"], "|U", "X")


def never(n):
    """A text that needs n pairs and is false on them."""
    return ("m2", "(m0&m1)")[n] if n < 2 else over(balanced(n, ONE_LEAF), ["m0", "m1"], "&R", "!")


def told_apart(a, b):
    """True clauses with U and R of a text that needs a pairs and one that needs b; each would be false with its operands exchanged."""
    return [f"G [{never(a)}U{always(b)},2]", f"G [{never(a)}R{always(b)},2]", f"G ![{always(a)}U{never(b)},1]", f"G ![{always(a)}R{never(b)},1]"]


def two_operands():
    """U and R of texts that need so many pairs, the left one and the right one. The false ones would be true with their operands exchanged."""
    pairs = [(a, b) for a in range(7) for b in range(7) if max(a, b) < 6 or min(a, b) < 5]
    for way, some in [("left", [(a, b) for a, b in pairs if a > b]), ("right", [(a, b) for a, b in pairs if a < b]),
                      ("neither", [(a, b) for a, b in pairs if a == b])]:
        for k, h in zip(range(0, len(some), 8), (25, 50, 64)):
            clauses = [clause for a, b in some[k : k + 8] for clause in told_apart(a, b)]
            yield f"{way} needs more, sheet {k // 8}", FLOOR, meeting(h, h - 1, 16), sheet(*clauses), "accepted"
    for a, b in [(0, 0), (1, 0), (0, 1), (1, 1), (2, 1), (1, 2), (3, 1), (1, 3), (4, 4), (5, 4), (4, 5), (6, 0), (0, 6), (6, 4), (4, 6)]:
        for k, operator in enumerate("UR"):
            h = (25, 50, 64)[(a + k) % 3]
            rules = sheet(told_apart(a, b)[k], f"F [{always(a)}{operator}{never(b)},1]")
            yield f"{a} pairs {operator} {b} pairs", FLOOR, meeting(h, h - 1, 16 * (b % 2)), rules, "refused rules 17 1 0"


def ahead(k, wrong=0):
    """A text of k times X: on `passing(32)` the first cart is there at step k, or on the place before."""
    return "X" * k + f"m{k // 2 + wrong}"


def again(k):
    """A text: after k steps on the same mark."""
    return f"(m0&{'X' * k} m0|m1&{'X' * k} m1)"


def chained(name, clauses, verdict="accepted", d=0):
    return f"a chain: {name}", *passing(32, d=d), sheet(*clauses), rules_verdict(verdict)


# Operators with one operand, one upon the other, in the two places of a pair in turn: at most 31 within a count.
CHAINS = [
    chained("X", [f"[{ahead(k)},1]" for k in range(32)]),
    chained("X, none a place further", [f"![{ahead(k, 1)},1]" for k in range(31)]),
    *[chained(f"{k} times X, a place further", [f"[{ahead(k)},1]", f"[{ahead(k, 1)},1]"], "17 1 0") for k in (1, 2, 3, 30, 31)],
    chained("!", [("![%sm0,1]" if k % 2 else "[%sm0,2]") % ("!" * k) for k in range(31)]),
    *[chained(f"{k} times !", [f"[{'!' * k}m{k % 2 ^ 1},2]"], "17 0 0") for k in (1, 2, 30, 31)],
    chained("F and G in turn", [f"G [{both * k} m31,2]" for both in ("FG", "GF") for k in range(1, 16)], d=16),
    chained("F and G in turn, false", ["[" + "GF" * 15 + " m31,2]", "[" + "GF" * 15 + " m0,1]"], "17 1 0"),
    chained("! F ! is G", [clause for k in (1, 2, 10) for clause in [f"![{'!F!' * k} m0,1]", f"F [{'!F!' * k} m31,2]"]]),
    chained("! F ! is G, false", ["[" + "!F!" * 10 + " m0,1]"], "17 0 0"),
    chained("! X in turn", [f"[{'!X' * k} m{k // 2},1]" for k in (2, 4, 14)] + [f"![{'!X' * k} m{k // 2},1]" for k in (1, 3, 15)]),
    *[chained(f"& of {a} times X and others", [clause for b in (1, 2, 3, 29, 30) for clause in
                                               [f"[{ahead(a)}&{ahead(b)},1]", *[f"![{ahead(a, i)}&{ahead(b, 1 - i)},1]" for i in (0, 1)]]])
      for a in (1, 2, 3, 29, 30)],
    *[chained(f"| of {a} and {b} times X", [*[f"[{ahead(a, i)}|{ahead(b, 1 - i)},1]" for i in (0, 1)], f"[{ahead(a, 1)}|{ahead(b, 1)},1]"], "17 2 0")
      for a, b in [(1, 1), (1, 2), (2, 1), (2, 2), (31, 31)]],
    ("a chain: X round a lap of four steps", FLOOR, PLAN, sheet(*[f"G [{again(k)},2]" for k in range(4, 32, 4)]), "accepted"),
    ("a chain: X round a lap of two steps", FLOOR, drifting(0, 2), sheet(*[f"[XX{again(k)},2]" for k in range(2, 26, 2)]), "accepted"),
    ("a chain: X half round a lap", FLOOR, PLAN, sheet(*[f"G [{again(k)},2]" for k in (28, 26)]), "refused rules 17 1 0"),
    chained("30 times ! over 49 leaves", ["[" + "!" * 30 + "(" + "&".join(["true"] * 49) + "),2]", "[" + "!" * 29 + "(" + "&".join(["true"] * 49) + "),1]"],
            "17 1 0"),
    chained("30 times ! over 49 leaves, no count", ["!" * 30 + "(" + "&".join(["true"] * 49) + ")", "!" * 29 + "(" + "&".join(["true"] * 49) + ")"], "17 1 0"),
]


def counted(name, clauses, verdict="accepted", d=0):
    return f"counts: {name}", *passing(16, d=d), sheet(*clauses), rules_verdict(verdict)


# A count behind a count, in the same places. On 16 places the first cart stays four steps on each.
ALL_16, NONE_16 = over(balanced(5, ONE_LEAF), names(16), "|U", "X"), over(balanced(5, ONE_LEAF), names(16), "&R", "!")
MOST_16 = over(balanced(5, ONE_LEAF), names(16)[:15], "|U", "F")
COUNTS = [
    counted("on one place or another", ["G (" + "|".join(f"[{mark},1]" for mark in names(16)) + ")"]),
    counted("on one place or another, but for the last", ["G (" + "|".join(f"[{mark},1]" for mark in names(16)[:15]) + ")"], "17 0 61"),
    counted("one place after the other", ["U".join(f"[{mark},1]" for mark in names(16))]),
    counted("two large texts", [f"G ([{ALL_16},2] & ![{NONE_16},1])", f"G (![{NONE_16},1] & [{ALL_16},2])"], d=16),
    counted("a large text and a small one", [f"G [{ALL_16},2] & [m0,2]", f"[m0,2] & G [{ALL_16},2]"], d=3),
    counted("a large text and a small one that is false", [f"G ([{ALL_16},2] & [m0,2])"], "17 0 4"),
    counted("a small one that is false and a large text", [f"G ([m0,2] & [{ALL_16},2])"], "17 0 4"),
    counted("a large text that is false and a small one", [f"F ([{NONE_16},1] & [true,2])"], "17 0 0"),
    counted("a small one and a large text that is false", [f"F ([true,2] & [{NONE_16},1])"], "17 0 0"),
    counted("one large text until another", [f"[{MOST_16},2] U [!{MOST_16},1]", f"G ([{MOST_16},2] | [!{MOST_16},1])"]),
    counted("one large text until another, d 16", [f"G ([{MOST_16},2] | [!{MOST_16},1])", f"G ([{MOST_16},2] | [!{MOST_16},2])"], "17 1 44", 16),
    counted("the same text twice, one negated", [f"G ([{MOST_16},2] & ![!{MOST_16},1])"], "17 0 60"),
    counted("two clauses of large texts", [f"G [{ALL_16},2]", f"G ![{NONE_16},1]", f"G [{MOST_16},1]"], "17 2 61"),
]


def limit(taken, marks, h):
    """A check whose tables take so many words: texts that need six pairs, in a clause that is kept and in one that is not."""
    assert words(marks, h) == taken
    n, shape = max(1, min(32, marks, h // 2)), balanced(6, ONE_LEAF)
    kept = held(shape, names(n, marks), "X", "|U")
    false = held(shape, names(n, marks)[:-1], "!", "R&") if n > 1 else "!" + kept
    return f"{taken} words: {marks} marks, h {h}", *passing(n, marks, h), sheet(kept, false), f"refused rules 17 1 {step_of(n - 1, n, h)}"


# No floor and plan take 497 to 499 words, 501 to 503, 1,001 or 1,002.
LIMITS = [
    # 500, the nearest below and above, and a step or a mark less or more.
    limit(500, 6, 25),
    limit(500, 11, 20),
    limit(496, 2, 31),
    limit(496, 17, 16),
    limit(504, 0, 36),
    limit(504, 4, 28),
    limit(504, 28, 12),
    limit(480, 6, 24),
    limit(520, 6, 26),
    limit(475, 5, 25),
    limit(525, 7, 25),
    limit(475, 11, 19),
    limit(525, 11, 21),
    limit(480, 10, 20),
    limit(520, 12, 20),
    # The same about 1,000.
    limit(1000, 6, 50),
    limit(1000, 11, 40),
    limit(1000, 26, 25),
    limit(999, 13, 37),
    limit(999, 23, 27),
    limit(1003, 3, 59),
    limit(980, 6, 49),
    limit(1020, 6, 51),
    limit(950, 5, 50),
    limit(1050, 7, 50),
    limit(975, 11, 39),
    limit(1025, 11, 41),
    limit(975, 25, 25),
    limit(1025, 27, 25),
    # All marks or none, all steps or one.
    limit(14, 0, 1),
    limit(46, 32, 1),
    limit(460, 32, 10),
    limit(506, 32, 11),
    limit(966, 32, 21),
    limit(1012, 32, 22),
    limit(490, 0, 35),
    limit(896, 0, 64),
    limit(960, 1, 64),
    limit(1024, 2, 64),
    # The full load.
    limit(2898, 32, 63),
    limit(2880, 31, 64),
    limit(2944, 32, 64),
]


def last_lane(count, classes):
    """Document 01's places and carts with so many lanes from place 0 to 1, of which only the last may be open to class 0."""
    return PLACES + lane(0, 1, 2) * (count - 1) + lane(0, 1, classes) + CARTS


# As EDITS. Links have room for 128 lanes, or for all.
BOTH_GO, BOTH_PARK = pair(2, 1, 0, 0, 1), pair(2, 1, 0, 0, 0)
LINKS = [
    case
    for n in (128, 129)
    for case in [
        (f"{n} lanes: the last opens the move", last_lane(n, 1), BOTH_GO, MOVES, "accepted"),
        (f"{n} lanes: none opens the move", last_lane(n, 2), BOTH_GO, MOVES, "refused plan 11 0 0"),
        (f"{n} lanes: the first opens the move", PLACES + lane(0, 1, 1) + lane(0, 1, 2) * (n - 1) + CARTS, BOTH_GO, MOVES, "accepted"),
        (f"{n} lanes: the last from its place", PLACES + lane(1, 0) * (n - 1) + lane(0, 1) + CARTS, pair(2, 0, 0, 0, 1), MOVES, "accepted"),
        (f"{n} lanes: the last to its place", PLACES + lane(0, 1) * (n - 1) + lane(1, 0) + CARTS, pair(2, 0, 0, 0, 1), MOVES, "accepted"),
        (f"{n} lanes: a row replaced that goes by the last", last_lane(n, 1), BOTH_PARK, replace(1, 0, 1), "accepted",
         head(2, 1) + row(0, 0) + row(0, 1)),
        (f"{n} lanes: a row replaced that none opens", last_lane(n, 2), BOTH_PARK, replace(1, 0, 1), "refused plan 11 1 0", BOTH_PARK),
        (f"{n} lanes: the old plan's 11 first", last_lane(n, 2), BOTH_GO, replace(1, 0, 0), "refused plan 11 0 0", BOTH_GO),
    ]
] + [
    # The new row's fit is told only where the old plan's moves are open.
    ("the old plan's 11 before 19", NO_LANES, BOTH_GO, replace(2, 0, 0), "refused plan 11 0 0", BOTH_GO),
    ("the old plan's 11 before 4", NO_LANES, BOTH_GO, replace(1), "refused plan 11 0 0", BOTH_GO),
    ("the old plan's 11 before 9", NO_LANES, BOTH_GO, replace(1, 0, 2), "refused plan 11 0 0", BOTH_GO),
    ("the old plan's 11 before 10", NO_LANES, BOTH_GO, replace(1, 1, 1), "refused plan 11 0 0", BOTH_GO),
]

# As CHECKS: the whole check over as many lanes.
LINKED_CHECKS = [
    case
    for n in (128, 129)
    for case in [
        (f"{n} lanes: the check goes by the last", last_lane(n, 1), BOTH_GO, sheet("F [m1,2]"), "accepted"),
        (f"{n} lanes: the check, none opens the move", last_lane(n, 2), BOTH_GO, sheet("F [m1,2]"), "refused plan 11 0 0"),
    ]
]


def marked(on_0, on_1, *more):
    """Document 01's floor with these marks on its places, and places behind them that no cart comes to."""
    return b"".join(place(marks) for marks in (on_0, on_1, *more)) + LANES + CARTS


EVERY_MARK = 2**32 - 1
EVEN_MARKS = sum(1 << k for k in range(0, 32, 2))
# One clause for each mark, true where both carts are on the even ones.
ONE_EACH = ["[m%d,2]" % k if k % 2 == 0 else "![m%d,1]" % k for k in range(32)]

# As CHECKS: document 01's plan, carts on place 0 step by step: 2 1 0 1.
BORNE = [
    ("no mark borne: none is seen", marked(0, 0), drifting(16), sheet("G ![m0,1]", "G ![m31,1]", "G [!m0 & !m31,2]", "[true,2]"), "accepted"),
    ("no mark borne: m0", marked(0, 0), PLAN, sheet("[m0,1]"), "refused rules 17 0 0"),
    ("no mark borne: m1", marked(0, 0), PLAN, sheet("true", "F [m1,1]"), "refused rules 17 1 0"),
    ("no mark borne: m31", marked(0, 0), PLAN, sheet("F [m31,1]"), "refused rules 17 0 0"),
    ("m0 alone borne", marked(1, 0), PLAN, sheet("[m0,2]", "G ![m1,1]", "G ![m2,1]", "G ![m31,1]"), "accepted"),
    ("m0 alone borne: its step", marked(1, 0), PLAN, sheet("G [m0,1]"), "refused rules 17 0 2"),
    ("m0 alone borne: m1", marked(1, 0), PLAN, sheet("F [m1,1]"), "refused rules 17 0 0"),
    ("m0 alone borne: m2", marked(1, 0), PLAN, sheet("F [m2,1]"), "refused rules 17 0 0"),
    ("m1 alone borne", marked(0, 2), PLAN, sheet("F [m1,2]", "G ![m0,1]", "G ![m2,1]", "G ![m3,1]"), "accepted"),
    ("m1 alone borne: m0", marked(0, 2), PLAN, sheet("F [m0,1]"), "refused rules 17 0 0"),
    ("m1 alone borne: m2", marked(0, 2), PLAN, sheet("F [m2,1]"), "refused rules 17 0 0"),
    ("m31 alone borne", marked(1 << 31, 0), PLAN, sheet("[m31,2]", "G ![m30,1]", "G ![m0,1]"), "accepted"),
    ("m31 alone borne: its step", marked(1 << 31, 0), PLAN, sheet("G [m31,1]"), "refused rules 17 0 2"),
    ("m30 alone borne", marked(1 << 30, 0), PLAN, sheet("[m30,2]", "G ![m29,1]"), "accepted"),
    ("m30 alone borne: m31", marked(1 << 30, 0), PLAN, sheet("F [m31,1]"), "refused rules 17 0 0"),
    ("m31 where no cart comes", marked(1, 2, 1 << 31), PLAN, sheet("[m0,2]", "F [m1,2]", "G ![m31,1]"), "accepted"),
    ("m31 where no cart comes: m31", marked(1, 2, 1 << 31), PLAN, sheet("F [m31,1]"), "refused rules 17 0 0"),
    ("all marks on one place", marked(EVERY_MARK, 0), PLAN, sheet("[m0 & m1 & m15 & m16 & m30 & m31,2]", "G [m0 & m31 | !m0 & !m31,2]"), "accepted"),
    ("all marks on one place: a step", marked(EVERY_MARK, 0), PLAN, sheet("G [m17,1]"), "refused rules 17 0 2"),
    ("m31 on the last of 256 places", PLACES_256[:-8] + place(1 << 31) + cart(0, 255), head(1, 0, 16) + row(255), sheet("G [m31,1]"), "accepted"),
    ("m31 on the first of 256 places", place(1 << 31) + PLACES_256[:-8] + cart(0, 255), head(1, 0, 16) + row(255), sheet("G [m31,1]"),
     "refused rules 17 0 0"),
    ("each mark by itself", marked(EVEN_MARKS, EVERY_MARK - EVEN_MARKS), PLAN, sheet(*ONE_EACH), "accepted"),
    ("each mark by itself, one clause otherwise", marked(EVEN_MARKS, EVERY_MARK - EVEN_MARKS), PLAN, sheet(*ONE_EACH[:31], "[m31,1]"),
     "refused rules 17 31 0"),
]


def stairs(l, d):
    """32 carts on m0: cart n is on m1 from step 32 + n on, so that s - 31 are at step s."""
    return head(64, l, d) + b"".join(row(*[0] * (32 + n), *[1] * (32 - n)) for n in range(32))


def turning(carts, l):
    """Carts on m1 at step 1 and at the last 16, with drift 16."""
    return head(64, l, 16) + row(0, 1, *[0] * 46, *[1] * 16) * carts


# One step: 32 carts of which the last is on place 1, or one cart.
ALL_BUT_ONE = PLACES + cart(0, 0) * 31 + cart(0, 1)
ONE_STEP = head(1, 0, 16) + row(0) * 31 + row(1)
ALONE = head(1, 0, 16) + row(0)
LAST_STEP = row(*[0] * 63, 1)

# As CHECKS.
STEPS = [
    # 32 carts, 64 steps, a lap of one.
    ("32 carts in turn: d 0", CROWD, stairs(63, 0), sheet("G [m0,1]"), "refused rules 17 0 63"),
    ("32 carts in turn: d 16", CROWD, stairs(63, 16), sheet("G [m0,1]"), "refused rules 17 0 47"),
    ("32 carts in turn: half of them, d 0", CROWD, stairs(63, 0), sheet("G [m0,16]"), "refused rules 17 0 48"),
    ("32 carts in turn: half of them, d 16", CROWD, stairs(63, 16), sheet("G [m0,16]"), "refused rules 17 0 32"),
    ("32 carts in turn: all of them, d 16", CROWD, stairs(63, 16), sheet("G [m0,32]"), "refused rules 17 0 16"),
    ("32 carts in turn: negated, d 0", CROWD, stairs(63, 0), sheet("G ![m1,32]"), "refused rules 17 0 63"),
    ("32 carts in turn: negated, d 16", CROWD, stairs(63, 16), sheet("G ![m1,32]"), "refused rules 17 0 47"),
    ("32 carts in turn: all at last", CROWD, stairs(63, 16), sheet("F G [m1,32]", "F [G m1,32]", "[F G m1,32]"), "accepted"),
    ("32 carts in turn: 33 never", CROWD, stairs(63, 16), sheet("F [m1,33]"), "refused rules 17 0 0"),
    ("32 carts in turn: on one mark or the other", CROWD, stairs(63, 16), sheet("G ([m0,1] | [m1,1])", "G [m0 | m1,32]"), "accepted"),
    ("32 carts in turn: U and R in counts", CROWD, stairs(63, 16), sheet("G [m0 U m1,32]", "G [m1 R (m0 | m1),32]", "G [m0 | X m1,32]"), "accepted"),
    ("32 carts in turn: R in a count", CROWD, stairs(63, 16), sheet("[m1 R m0,1]"), "refused rules 17 0 0"),
    ("32 carts in turn: G in a count", CROWD, stairs(63, 16), sheet("G ![G m1,1]"), "refused rules 17 0 16"),
    ("32 carts in turn: a change, d 0", CROWD, stairs(63, 0), sheet("F [m0 & X m1,1]", "G ![m0 & X m1,1]"), "refused rules 17 1 31"),
    ("32 carts in turn: a change, d 16", CROWD, stairs(63, 16), sheet("F [m0 & X m1,1]"), "refused rules 17 0 0"),
    # A window of 17 counters from step 48 on, the last of them back in the lap.
    ("window of 16 that ends on the lap's first step", CROWD, turning(32, 1), sheet("F [m1,32]"), "accepted"),
    ("window of 16, the lap begins a step later", CROWD, turning(32, 2), sheet("F [m1,32]"), "refused rules 17 0 0"),
    ("window of 16, the lap is one step", CROWD, turning(32, 63), sheet("F [m1,32]", "F G [m1,32]"), "accepted"),
    ("window of 16, the lap is the last two steps", CROWD, turning(32, 62), sheet("F G [m1,32]"), "accepted"),
    ("window of 16, one cart", ONE, turning(1, 2), sheet("G [m0,1]"), "refused rules 17 0 1"),
    # One cart, 64 steps.
    ("one cart, l 0, d 16", ONE, head(64, 0, 16) + LAST_STEP, sheet("G [F m1,1]", "G [m0,1]"), "refused rules 17 1 63"),
    ("one cart, l 63, d 16", ONE, head(64, 63, 16) + LAST_STEP, sheet("F G [m1,1]", "G F [m0,1]"), "refused rules 17 1 63"),
    ("one cart, l 63, d 16: in a count", ONE, head(64, 63, 16) + LAST_STEP, sheet("[F G m1,1]", "[G F m0,1]"), "refused rules 17 1 0"),
    # One step, drift 16.
    ("one step, 32 carts", ALL_BUT_ONE, ONE_STEP, sheet("[m0,31]", "[m1,1]", "![m0,32]", "G [X F G m0,31]", "[m0 U m1,1]", "[m1 R m0,31]"), "accepted"),
    ("one step, 32 carts: all", ALL_BUT_ONE, ONE_STEP, sheet("G [m0,32]"), "refused rules 17 0 0"),
    ("one step, 32 carts: two", ALL_BUT_ONE, ONE_STEP, sheet("F [m1,2]"), "refused rules 17 0 0"),
    ("one step, 32 carts: U", ALL_BUT_ONE, ONE_STEP, sheet("[m0 U m1,2]"), "refused rules 17 0 0"),
    ("one step, 32 carts: R", ALL_BUT_ONE, ONE_STEP, sheet("[m1 R m0,32]"), "refused rules 17 0 0"),
    ("one step, one cart", ONE, ALONE, sheet("G [m0,1]", "G ![m1,1]", "[m0,100%]", "[G F X m0,1]"), "accepted"),
    ("one step, one cart: another mark", ONE, ALONE, sheet("F [m1,1]"), "refused rules 17 0 0"),
    ("one step, one cart: two", ONE, ALONE, sheet("[m0,2]"), "refused rules 17 0 0"),
    ("one step, one cart: 128 nodes", ONE, ALONE, sheet("[" + "m1|" * 63 + "m0,1]", "G ![" + "m0&" * 62 + "m0,1]"), "refused rules 17 1 0"),
    ("two steps, a lap of one", FLOOR, pair(2, 1, 16, 0, 1), sheet("[m0,1]", "F [m1,2]", "[m0,2]"), "refused rules 17 2 0"),
]


def tables(name, rows, l, d, clauses, verdict):
    """A check of these clauses on places with m1, with m2 and without a mark, lanes between any two, and a cart for each row."""
    lanes = b"".join(lane(start, end) for start in range(3) for end in range(3) if start != end)
    floor = place(1 << 1) + place(1 << 2) + place() + lanes + b"".join(cart(0, steps[0]) for steps in rows)
    plan = head(len(rows[0]), l, d) + b"".join(row(*steps) for steps in rows)
    return "either: " + name, floor, plan, sheet(*clauses), verdict if verdict == "accepted" else "refused rules " + verdict


# Document 002's example 3: one cart always on m1, one on m1 once and then on m2, one always on m2. With drift 1, at step 0, one cart is on m1
# throughout the window, one on m2, and all three are on one or the other.
EXAMPLE_3 = [(0, 0), (0, 1), (1, 1)]
# The second cart goes on to the place without a mark, or comes through it.
GONE_AT_LAST = [(0, 0, 0), (0, 1, 2), (1, 1, 1)]
GONE_BETWEEN = [(0, 0, 0), (0, 2, 1), (1, 1, 1)]

# Cart n is on places n and n + 1 in turn, each with a mark of its own: no cart is on one mark throughout a window, all are on the 32 together.
RING_32 = [[(n + step % 2) % 32 for step in range(64)] for n in range(32)]
RING_FLOOR = b"".join(place(1 << n) for n in range(32)) + b"".join(lane(n, (n + 1) % 32) + lane((n + 1) % 32, n) for n in range(32))
RING = RING_FLOOR + b"".join(cart(0, n) for n in range(32)), head(64, 0, 16) + b"".join(row(*steps) for steps in RING_32)


def ring_counts(first):
    """A count for each mark: the first asks for so many carts, each other for two."""
    return ["[m0,%d]" % first] + ["[m%d,2]" % k for k in range(1, 32)]


def nested(counts):
    """An or of counts that groups to the right."""
    return counts[0] if len(counts) == 1 else "%s | (%s)" % (counts[0], nested(counts[1:]))


# Document 02, 4): either table will do. As CHECKS; a refused clause stands last, so that those before it are accepted.
EITHER = [
    # Example 3: an or however it is written, and what stands beside it.
    tables("example 3", EXAMPLE_3, 1, 1, [
        "[m1,2] | [m2,2]", "[m2,2] | [m1,2]", "G ([m1,2] | [m2,2])", "!(![m1,2] & ![m2,2])", "!([!m1,2] & [!m2,2])", "!!([m1,2] | [m2,2])",
        "[m1,2] | [m2,2] | [m3,3]", "[m3,3] | ([m1,2] | [m2,2])", "!true | ([m1,2] | [m2,2])", "[m1,50%] | [m2,67%]", "[m3,0] | [m3,4]",
        "![m3,4] | [m3,4]", "[m1,2] | ![m1,2]", "F ([m1,2] | [m2,2]) & G [true,3]"], "accepted"),
    tables("example 3, d 16, and a count alone", EXAMPLE_3, 1, 16, ["G ([m1,2] | [m2,2])", "[m1,2] U [m2,2]", "[m1,2]"], "17 2 0"),
    tables("example 3 in step, and three of each", EXAMPLE_3, 0, 0, [
        "G ([m1,2] | [m2,2])", "[m1,2] U [m2,2]", "!(![m1,2] R ![m2,2])", "[m1,2] R ([m1,2] | [m2,2])", "[m1,3] | [m2,2]"], "17 4 0"),
    # More carts than the sum of thresholds less one: three than two, not than three.
    tables("three carts, a sum of two and of three", EXAMPLE_3, 1, 1, [
        "[m1,2] | ([m2,2] | [m3,1])", "[m1,2] | !(![m2,2] & ![m3,1])", "[m1,2] | ([m2,2] | [m3,2])"], "17 2 0"),
    tables("three carts, a sum of two and of three in two counts", EXAMPLE_3, 1, 1, ["[m1,2] | [m2,2]", "[m1,2] | [m2,3]"], "17 1 0"),
    tables("no cart asked for, and more than there are", EXAMPLE_3, 1, 1, ["[m3,0] | [m3,999]", "![m3,0] | [m1,2]"], "17 1 0"),
    ("either: 32 carts on two marks in turn", CROWD, crowd(16, *range(32)),
     sheet("[m0,17] | ![m0,17]", "G ([m0,16] | [m1,17])", "G ([m0,17] | [m1,16])", "[m0,17] | [m1,17]"), "refused rules 17 3 0"),
    ("either: 32 counts for 32 carts", *RING,
     sheet(" | ".join(ring_counts(1)), nested(ring_counts(1)), "G (%s)" % " | ".join(ring_counts(1)), " | ".join(ring_counts(2))),
     "refused rules 17 3 0"),
    # Each nested or is joined by itself, and no others are.
    tables("a hopeless count on the right of both, on that of the second", EXAMPLE_3, 1, 1, [
        "([m1,2] | [m2,2]) | [m3,3]", "[m1,2] | ([m2,2] | [m3,3])"], "17 1 0"),
    tables("a hopeless count between both", EXAMPLE_3, 1, 1, ["[m1,2] | [m3,3] | [m2,2]"], "17 0 0"),
    tables("a hopeless count, as negated ands", EXAMPLE_3, 1, 1, [
        "!(![m1,2] & ![m2,2] & ![m3,3])", "!(![m1,2] & (![m2,2] & ![m3,3]))"], "17 1 0"),
    # Counts alone.
    tables("true is no count", EXAMPLE_3, 1, 1, ["!true | ([m1,2] | [m2,2])", "!true | [m1,2] | [m2,2]"], "17 1 0"),
    tables("a G is no count", EXAMPLE_3, 1, 1, ["[m1,2] | [m2,2] | G [m3,1]", "[m1,2] | G [m3,1] | [m2,2]"], "17 1 0"),
    tables("an and is no count", EXAMPLE_3, 1, 1, ["[m1,2] & true | [m2,2]"], "17 0 0"),
    tables("a negated or is an and", EXAMPLE_3, 1, 1, ["!(![m1,2] & ![m2,2])", "!([m1,2] | [m2,2])"], "17 1 0"),
    # The window: an inner text for each counter, the last one included, and no case of all carts at s.
    tables("no mark behind the window, and the step of a G", GONE_AT_LAST, 2, 1, ["[m1,2] | [m2,2]", "G ([m1,2] | [m2,2])"], "17 1 1"),
    tables("no mark at the window's end", GONE_AT_LAST, 2, 2, ["[m1,2] | [m2,2]"], "17 0 0"),
    tables("no mark within the window", GONE_BETWEEN, 2, 2, ["F ([m1,2] | [m2,2])", "[m1,2] | [m2,2]"], "17 1 0"),
    tables("all carts at s, in one count and in two", [(0, 2), (1, 2)], 1, 1, ["[m1 | m2,1]", "[m1,1] | [m2,1]"], "17 1 0"),
    # U asks for either side while its right side has not come; that still has to come by itself. R is as it was.
    tables("U and a negated R, R and a negated U", EXAMPLE_3, 1, 1, [
        "[m1,2] U [m2,2]", "!(![m1,2] R ![m2,2])", "G ([m1,2] U [m2,2])", "([m1,2] | [m3,1]) U [m2,2]", "([m1,2] | [m2,2]) U [m2,2]",
        "[m3,3] U [m1,2] U [m2,2]", "[m2,2] R ([m1,2] | [m2,2])", "!(![m1,2] U ![m2,2])"], "17 7 0"),
    tables("U whose right side never comes by itself", EXAMPLE_3, 0, 1, ["G ([m1,2] | [m2,2])", "[m1,2] U [m2,2]"], "17 1 0"),
    tables("U with an and", EXAMPLE_3, 1, 1, ["[m1,2] U [m2,2]", "([m1,2] & true) U [m2,2]"], "17 1 0"),
    tables("U before another U", EXAMPLE_3, 1, 1, ["[m1,2] U ([m3,1] U [m2,2])"], "17 0 0"),
    tables("U with a hopeless count", EXAMPLE_3, 1, 1, ["[m1,2] U [m2,2] | [m3,3]", "[m1,2] U ([m2,2] | [m3,3])"], "17 1 0"),
    # 16 before them all.
    tables("X outside a count", EXAMPLE_3, 1, 1, ["[m1,2] | [m2,2]", "[m3,3]", "X [m1,2] | [m2,2]"], "16 2 0"),
]

# Document 02, 5): the count of counters in a row, cut off at 17, and numbers of carts that are kept from count to count. As CHECKS.
WINDOWS = [
    ("windows: one step, always true, drift 2", FLOOR, pair(1, 0, 2, 0), sheet("G [m0,2]"), "accepted"),
    ("windows: 17 in a row across the lap's end", FROM_1, pair(19, 1, 16, 1, *[0] * 8, 1, *[0] * 9), sheet("F [m0,2]"), "accepted"),
    ("windows: 16 in a row across the lap's end", FROM_1, pair(18, 1, 16, 1, *[0] * 8, 1, *[0] * 8), sheet("F [m0,2]"), "refused rules 17 0 0"),
    ("windows: one mark counted again and again", FLOOR, pair(4, 0, 1, 0, 0, 1, 1), sheet(
        "[m0,2]", "F ![m0,2]", "F ![m0,1]", "![m0,3]", "[m0,0]", "[m0,1]", "![m31,1]", "G ([m0,1] | ![m0,2])", "[m0,2] & ![m0,3]",
        "G ([m0,2] | ![m0,1])"), "refused rules 17 9 1"),
]

# Document 02, 6): groups. Records of kind 7, as CASES.
GROUPS_8 = groups(3, 0, 1, 2, 3, 3, 0, 0)
GROUP_FLOORS = [
    ("group: both carts", FLOOR + groups(3), PLAN, "accepted"),
    ("group: no cart", FLOOR + groups(0), PLAN, "accepted"),
    ("group: the last cart, then the first", FLOOR + groups(2, 1), PLAN, "accepted"),
    ("group: eight records, some of them alike", FLOOR + GROUPS_8, PLAN, "accepted"),
    ("group: the ninth record", FLOOR + GROUPS_8 + groups(0), PLAN, "refused floor 5 120 0"),
    ("group: the ninth record, absent cart", FLOOR + GROUPS_8 + groups(4), PLAN, "refused floor 5 120 0"),
    ("group: the ninth record of 3 bytes", FLOOR + GROUPS_8 + record(7, bytes(3)), PLAN, "refused floor 4 120 0"),
    ("group: the ninth record one byte short", FLOOR + GROUPS_8 + groups(1)[:-1], PLAN, "refused floor 2 120 0"),
    ("group: a narrow place behind eight records", FLOOR + GROUPS_8 + narrow(0), PLAN, "refused floor 3 120 0"),
    ("group: cart 2 of 2", FLOOR + groups(4), PLAN, "refused floor 6 56 0"),
    ("group: cart 2 of 2 with both others, behind good ones", FLOOR + groups(3, 0, 7), PLAN, "refused floor 6 72 0"),
    ("group: cart 8 of 2", FLOOR + groups(1 << 8), PLAN, "refused floor 6 56 0"),
    ("group: cart 16 of 2", FLOOR + groups(1 << 16), PLAN, "refused floor 6 56 0"),
    ("group: cart 31 of 2", FLOOR + groups(1 << 31), PLAN, "refused floor 6 56 0"),
    ("group: cart 31 of 31", PLACES + CARTS_32[:-6] + groups(1 << 31), ROWS_32[:-5], "refused floor 6 202 0"),
    ("group: cart 31 of 32", PLACES + CARTS_32 + groups(1 << 31, 2**32 - 1), ROWS_32, "accepted"),
    ("group: 0 bytes", FLOOR + record(7, []), PLAN, "refused floor 4 56 0"),
    ("group: 3 bytes", FLOOR + groups(1) + record(7, bytes(3)), PLAN, "refused floor 4 64 0"),
    ("group: 5 bytes, absent cart", FLOOR + record(7, [4, 0, 0, 0, 0]), PLAN, "refused floor 4 56 0"),
    ("group: one byte short", FLOOR + groups(0)[:-1], PLAN, "refused floor 2 56 0"),
    ("group: kind 263, 7 but for the high byte", FLOOR + record(263, bytes(4)), PLAN, "refused floor 3 56 0"),
    ("group: behind a narrow place", FLOOR + narrow(0) + groups(1), PLAN, "accepted"),
    ("group: a narrow place behind it", FLOOR + groups(1) + narrow(0), PLAN, "refused floor 3 64 0"),
    ("group: a cart behind it", FLOOR + groups(1) + cart(0, 0), PLAN, "refused floor 3 64 0"),
    ("group: a lane behind it", FLOOR + groups(1) + lane(0, 1), PLAN, "refused floor 3 64 0"),
    ("group: a place behind it", FLOOR + groups(1) + place(), PLAN, "refused floor 3 64 0"),
    ("group: between two carts", FLOOR[:50] + groups(1) + cart(0, 0), PLAN, "refused floor 3 58 0"),
    ("group: the second cart before it is there", FLOOR[:50] + groups(2) + cart(0, 0), PLAN, "refused floor 6 50 0"),
    ("group: no cart, before any place", groups(0) + FLOOR, PLAN, "refused floor 3 8 0"),
    ("group: cart 0, before any place", groups(1) + FLOOR, PLAN, "refused floor 6 0 0"),
    ("group: places and no cart", PLACES + groups(0), PLAN, "refused floor 7 24 0"),
    ("group: alone", groups(0), PLAN, "refused floor 7 8 0"),
    ("group: in a plan", FLOOR, PLAN + groups(0), "refused plan 3 26 0"),
    ("group: in place of a head", FLOOR, groups(0) + PLAN, "refused plan 3 0 0"),
    ("group: the longest floor", PLACES_256 + LANES_1024 + CARTS_32 + narrow(*range(256)) + groups(*[2**32 - 1] * 8),
     head(64, 63, 16) + still(64) * 32, "accepted"),
    ("group: one more than the longest floor", PLACES_256 + LANES_1024 + CARTS_32 + narrow(*range(256)) + groups(*[2**32 - 1] * 9), ROWS_32,
     "refused floor 5 10752 0"),
]

# Document 01's floor with its first cart, both and none as groups 0, 1 and 2.
GROUPED = FLOOR + groups(1, 3, 0)

# As EDITS: groups are read, and say nothing of moves.
GROUP_EDITS = [
    ("group: moves on a floor with some", GROUPED, PLAN, MOVES, "accepted"),
    ("group: moved on", GROUPED, PLAN, move_on(1), lent(26), *done(head(4) + row(1, 1, 0, 0) + row(0, 1, 1, 0))),
    ("group: a row replaced", GROUPED, PLAN, replace(1, 0, 1, 0, 1), "accepted", head(4) + row(0, 1, 1, 0) + row(0, 1, 0, 1)),
    ("group: moves on a floor refused for it", FLOOR + groups(4), PLAN, MOVES, "refused floor 6 56 0"),
    ("group: moved on, floor refused for it", FLOOR + groups(4), PLAN, move_on(1), lent(26), "refused floor 6 56 0", lent(26)),
    ("group: replaced, floor refused for it", FLOOR + record(7, []), PLAN, replace(0, 0, 1, 1, 0), "refused floor 4 56 0", PLAN),
]


def grouped(name, carts, rows, l, d, clauses, verdict):
    """As tables, with groups of these carts."""
    _, floor, *rest = tables(name, rows, l, d, clauses, verdict)
    return "group: " + name, floor + groups(*carts), *rest


def token(text, verdict, d=0):
    """A sheet as it stands, on document 01's floor with three groups."""
    shown = text.decode().replace("\n", " / ")
    return f"group, drift {d}: {shown}", GROUPED, drifting(d), text, verdict if verdict == "accepted" else "refused rules " + verdict


# Example 3 and a cart without a mark. Groups 0 and 1 are the carts of the example, 2 is all carts, 3 none, 4 the first two.
WITH_A_FOURTH = [7, 7, 15, 0, 3], [*EXAMPLE_3, (2, 2)], 1, 1
# One cart on m1 once, the other always on m2: groups of each of them, of none, of both.
ONCE_AND_ALWAYS = [1, 2, 0, 3], [(0, 2), (1, 1)], 1, 1
BOTH_ONCE = [3, 1, 0], [(0, 2), (0, 2)], 1, 1
# x for the carts of y, and the other way round.
CROSSWISE = [1, 2], [(1,), (0,)], 0

# 32 carts: the first half, the last cart, all.
HALVED = CROWD + groups(0xFFFF, 1 << 31, 2**32 - 1)

# As CHECKS; a refused clause stands last, so that those before it are accepted.
GROUP_CHECKS = [
    # The all-carts case only where the group is the whole fleet.
    grouped("true once, of one of two carts", *ONCE_AND_ALWAYS, ["F [!m1,1@0]", "[m2,1@1]", "[m1,1@0]"], "17 2 0"),
    grouped("all carts at s: without a group, by a full one, by a part", *BOTH_ONCE, ["[m1,1]", "[m1,1@0]", "[m1,50%@0]", "[m1,1@1]"], "17 3 0"),
    grouped("all carts at s: two of them", *BOTH_ONCE, ["[m1,1@0]", "[m1,2@0]"], "17 1 0"),
    grouped("all carts at s: no cart", *BOTH_ONCE, ["[m1,1]", "[m1,1@2]"], "17 1 0"),
    grouped("all carts at s: negated", *BOTH_ONCE, ["![!m1,2@0]", "![!m1,1@1]"], "17 1 0"),
    grouped("the hindmost cart outside", [1, 2], [(0, 2), (1, 2)], 1, 1, ["G ([true,1@0] | ![m2,1@1])", "G ([m1,1@0] | ![m2,1@1])"], "17 1 0"),
    # Percentages and negation by the group's size.
    grouped("sizes", *ONCE_AND_ALWAYS, [
        "[m2,49%@0]", "[m2,100%@1]", "[m2,50%@3]", "![m2,1@0]", "![m2,2@3]", "![m2,2@1]", "[m1,0@2]", "[m1,100%@2]", "![m1,1@2]", "![m1,2@2]",
        "![true,1@2]", "G ![m1,1@2]", "[true,50%@1] & ![true,2@1]"], "accepted"),
    grouped("half of one cart", *ONCE_AND_ALWAYS, ["[m2,50%@0]"], "17 0 0"),
    grouped("all of two carts, and of one", *ONCE_AND_ALWAYS, ["[m2,100%@1]", "[m2,100%@3]"], "17 1 0"),
    grouped("negated over one cart, and over two", *ONCE_AND_ALWAYS, ["![m2,1@0]", "![m2,1@3]"], "17 1 0"),
    grouped("no cart: one", *ONCE_AND_ALWAYS, ["[m1,1@2]"], "17 0 0"),
    grouped("no cart: one of true", *ONCE_AND_ALWAYS, ["F [true,1@2]"], "17 0 0"),
    grouped("no cart: none, negated", *ONCE_AND_ALWAYS, ["![m1,0@2]"], "17 0 0"),
    grouped("no cart: a share, negated", *ONCE_AND_ALWAYS, ["[m1,50%@2]", "![m1,50%@2]"], "17 1 0"),
    grouped("no cart: a G and its step", *ONCE_AND_ALWAYS, ["G [m1,0@2]", "G [m1,1@2]"], "17 1 0"),
    # Joined over the same carts as a set.
    grouped("joined over the same carts", *WITH_A_FOURTH, [
        "[m1,2] | [m2,2]", "[m1,2@0] | [m2,2@0]", "[m1,2@0] | [m2,2@1]", "[m1,2@2] | [m2,2]", "[m1,2] | [m2,2@2]", "G ([m2,2@1] | [m1,2@0])",
        "[m1,2@0] | ([m2,2@1] | [m3,1@0])", "[m1,2@0] | [m2,2@1] | [m3,1]", "[m3,1] | ([m1,2@0] | [m2,2@1])", "!(![m1,2@0] & ![m2,2@1])",
        "!([!m1,2@0] & [!m2,2@0])", "G ([m1,67%@0] | [m2,50%@0])", "[m1,2@0] U [m2,2@1]", "!(![m1,2@0] R ![m2,2@1])", "[m1,0@3] | [m2,5@3]",
        "![m1,1@3] | [m2,1@3]"], "accepted"),
    grouped("a part and all carts not joined", *WITH_A_FOURTH, ["[m1,2@0] | [m2,2]"], "17 0 0"),
    grouped("a part and a full group not joined", *WITH_A_FOURTH, ["[m1,2@0] | [m2,2@2]"], "17 0 0"),
    grouped("two parts not joined", *WITH_A_FOURTH, ["[m1,2@4] | [m2,2@0]"], "17 0 0"),
    grouped("not more than the sum", *WITH_A_FOURTH, ["[m1,2@0] | ([m2,2@1] | [m3,2@0])"], "17 0 0"),
    grouped("a plain count among them", *WITH_A_FOURTH, ["[m1,2@0] | ([m2,2@1] | [m3,1])"], "17 0 0"),
    grouped("negations by all carts", *WITH_A_FOURTH, ["!([!m1,2@0] & [!m2,2@0])", "!([!m1,2] & [!m2,2])"], "17 1 0"),
    grouped("percentages of all carts", *WITH_A_FOURTH, ["G ([m1,67%@0] | [m2,50%@0])", "G ([m1,67%] | [m2,50%])"], "17 1 0"),
    grouped("U over a part and all carts", *WITH_A_FOURTH, ["[m1,2@0] U [m2,2@1]", "[m1,2@0] U [m2,2]"], "17 1 0"),
    grouped("an or over no cart", *WITH_A_FOURTH, ["[m1,1@3] | [true,1@3]"], "17 0 0"),
    grouped("a group's or for its own carts", *WITH_A_FOURTH, ["[m1,1@4] | [m2,2@4]", "[m2,2@4] | [m2,2@4]"], "17 1 0"),
    grouped("crosswise, d 1", *CROSSWISE, 1, ["[m1,1@1] | [m2,1@0]", "[m1,1@0] | [m2,1]", "[m1,1@0] | [m2,1@1]"], "17 2 0"),
    grouped("crosswise, d 0", *CROSSWISE, 0, ["[m1,1@1] | [m2,1@0]", "[m1,1@0] | [m2,1]", "[m1,1@0] | [m2,1@1]"], "17 2 0"),
    grouped("crosswise: U", *CROSSWISE, 1, ["[m1,1@0] U [m2,1@0]", "[m1,1@0] U [m2,1@1]"], "17 1 0"),
    # 32 carts: cart n is on m1 from step 32 + n on.
    ("group: 32 carts, the first half, d 0", HALVED, stairs(63, 0), sheet("G [m0 | m1,16@0]", "G [m0,1@0]"), "refused rules 17 1 47"),
    ("group: 32 carts, the first half, d 16", HALVED, stairs(63, 16), sheet("G [m0,1@0]"), "refused rules 17 0 31"),
    ("group: 32 carts, half of the first half", HALVED, stairs(63, 0), sheet("G [m0,50%@0]"), "refused rules 17 0 40"),
    ("group: 32 carts, the last one, d 0", HALVED, stairs(63, 0), sheet("G [m0,1@1]"), "refused rules 17 0 63"),
    ("group: 32 carts, the last one, d 16", HALVED, stairs(63, 16), sheet("G [m0,1@1]"), "refused rules 17 0 47"),
    ("group: 32 carts, all, d 16", HALVED, stairs(63, 16), sheet("G [m0,1@2]"), "refused rules 17 0 47"),
    ("group: 32 carts, negated, d 16", HALVED, stairs(63, 16), sheet("G ![m1,33@2]", "G ![m1,17@0]", "G ![m1,16@0]"), "refused rules 17 2 31"),
    ("group: 32 carts, eight groups", CROWD + groups(*[1 << g for g in range(8)]), stairs(63, 0),
     sheet(*["F [m1,1@%d]" % g for g in range(8)], "G [m0,1@7]"), "refused rules 17 8 39"),
    # The token.
    token(b"[m0,1@0]\n", "accepted"),
    token(b"[m0,1 @0]\n", "accepted"),
    token(b" [ m0 , 100%  @1  ] \n", "accepted"),
    token(b"[m0,2@0]\n", "17 0 0"),
    token(b"G [m0,1@1]\n", "17 0 2"),
    token(b"[m0,1@8]\n", "13 6 0"),
    token(b"[m0,1@01]\n", "13 7 0"),
    token(b"[m0,1@10]\n", "13 7 0"),
    token(b"[m0,1@ 0]\n", "13 6 0"),
    token(b"[m0,1 @ 0]\n", "13 7 0"),
    token(b"[m0,1@", "13 6 0"),
    token(b"[m0,1@0", "13 7 0"),
    token(b"[m0,1@]\n", "13 6 0"),
    token(b"[m0,1@0@1]\n", "13 7 0"),
    token(b"[m0,1@0%]\n", "13 7 0"),
    token(b"[m0@0,1]\n", "13 3 0"),
    token(b"[m0,@0]\n", "13 4 0"),
    token(b"[m0,1]@0\n", "13 6 0"),
    token(b"true@0\n", "13 4 0"),
    token(b"[m0,1000@9]\n", "15 4 0"),
    token(b"[m0,101%@8]\n", "15 4 0"),
    token(b"[m0,101@8]\n", "13 8 0"),
    ("group: no node", GROUPED, PLAN, sheet("&".join(["[m0,0@0]"] * 43)), "accepted"),
    ("group: no node, the 129th beside it", GROUPED, PLAN, sheet("!" + "&".join(["[m0,0@0]"] * 43)), "refused rules 14 380 0"),
    ("group: no level", GROUPED, PLAN, sheet("!" * 30 + "([m0,0 @2])"), "accepted"),
    ("group: no level, the 33rd beside it", GROUPED, PLAN, sheet("!" * 31 + "([m0,0 @2])"), "refused rules 14 32 0"),
    # 21: behind the sheet, before 16; the lowest clause, its first group in the text.
    ("group: a floor without any", FLOOR, PLAN, sheet("true", "[m0,1@0]"), "refused rules 21 1 0"),
    ("group: seven, and the eighth named", FLOOR + groups(*[3] * 7), PLAN, sheet("[m0,1@6]", "[m0,1@7]"), "refused rules 21 1 7"),
    ("group: eight, and the eighth named", FLOOR + groups(*[3] * 8), PLAN, sheet("[m0,1@6]", "[m0,1@7]"), "accepted"),
    token(b"[m0,1@3]\n", "21 0 3"),
    token(b"true | [m0,0@3]\n", "21 0 3", 16),
    token(b"[m0,1@3]\n?", "13 9 0"),
    token(b"[m0,1@5] & [m0,1@3]\n", "21 0 5"),
    token(b"[m0,1@0] | [m0,1@6] | [m0,1@3]\n", "21 0 6"),
    token(b"![m0,1@0] U ([m0,1@7] R [m0,1@4])\n", "21 0 7"),
    token(b"[m0,1@7]\n[m0,1@3]\n", "21 0 7"),
    token(b"!true\n[m0,1@3]\n", "21 1 3"),
    token(b"X true\n[m0,1@3]\n", "21 1 3", 1),
    token(b"[m0,1@4]\nX true\n[m0,1@3]\n", "21 0 4", 1),
    token(b"X [m0,1@3]\n", "21 0 3", 1),
    token(b"X [m0,1@0]\n", "16 0 0", 1),
    token(b"X [m0,1@1]\n", "accepted"),
    ("group: 20 before 21", JAMMED + groups(1), PLAN, sheet("[m0,1@1]"), "refused plan 20 0 0"),
]

# As SHOWN.
GROUP_SHOWN = [
    ("group: 21 of clause 1 shown, spaces included", FLOOR, PLAN, sheet("!true", " [m0,1@0] "), "refused rules 21 1 0", " [m0,1@0] "),
    ("group: 21 of the 32nd clause shown", GROUPED, drifting(1), sheet(*["[m0,1@1]"] * 31, "[m0,1@0] | [m0,1@5]"), "refused rules 21 31 5",
     "[m0,1@0] | [m0,1@5]"),
    ("group: 17 of a clause with groups shown", GROUPED, PLAN, sheet("[m0,1@0]", "[m0,2@0]"), "refused rules 17 1 0", "[m0,2@0]"),
]

# SIX moved on by 1, and its lap as it is turned.
SIX_BY_1 = head(5, 1, 7) + row(1, 2, 3, 4, 5)
LAP = head(4, 0, 7) + row(2, 3, 4, 5)
LAP_BY_1 = head(4, 0, 7) + row(3, 4, 5, 2)
LAP_BY_2 = head(4, 0, 7) + row(4, 5, 2, 3)
LAP_BY_3 = head(4, 0, 7) + row(5, 2, 3, 4)

# Document 01's plan, which has no run-in, turned by 1 and by 2.
PLAN_BY_1 = head(4) + row(1, 1, 0, 0) + row(0, 1, 1, 0)
PLAN_BY_2 = head(4) + row(1, 0, 0, 1) + row(1, 1, 0, 0)

# 64 steps round 64 places, and the same from the last of them.
ROUND_FLOOR = place() * 64 + cart(0, 0)
ROUND = head(64, 0, 16) + row(*range(64))
ROUND_BY_63 = head(64, 0, 16) + row(63, *range(63))

# As EDITS: what was moved on is moved on again, and beside it the plan itself by the sum.
SUMS = [
    ("sum: 1 and 0", SIX_FLOOR, SIX_BY_1, move_on(0), lent(19), *done(SIX_BY_1)),
    ("sum: 1 and 1, to l", SIX_FLOOR, SIX_BY_1, move_on(1), lent(18), *done(LAP)),
    ("sum: 1 and 2, across l", SIX_FLOOR, SIX_BY_1, move_on(2), lent(18), *done(LAP_BY_1)),
    ("sum: 1 and 4, to the end of the lap", SIX_FLOOR, SIX_BY_1, move_on(4), lent(18), *done(LAP_BY_3)),
    ("sum: 1 and 5, a lap beyond l", SIX_FLOOR, SIX_BY_1, move_on(5), lent(18), *done(LAP)),
    ("sum: l and 0", SIX_FLOOR, LAP, move_on(0), lent(18), *done(LAP)),
    ("sum: l and 1", SIX_FLOOR, LAP, move_on(1), lent(18), *done(LAP_BY_1)),
    ("sum: l and l", SIX_FLOOR, LAP, move_on(2), lent(18), *done(LAP_BY_2)),
    ("sum: l and l at once", SIX_FLOOR, SIX, move_on(4), lent(18), *done(LAP_BY_2)),
    ("sum: l and the lap", SIX_FLOOR, LAP, move_on(4), lent(18), *done(LAP)),
    ("sum: l + 1 and 0", SIX_FLOOR, LAP_BY_1, move_on(0), lent(18), *done(LAP_BY_1)),
    ("sum: l + 1 and 1", SIX_FLOOR, LAP_BY_1, move_on(1), lent(18), *done(LAP_BY_2)),
    ("sum: l + 1 and l", SIX_FLOOR, LAP_BY_1, move_on(2), lent(18), *done(LAP_BY_3)),
    ("sum: l + 1 and l + 1", SIX_FLOOR, LAP_BY_1, move_on(3), lent(18), *done(LAP)),
    ("sum: l + 1 and h", SIX_FLOOR, LAP_BY_1, move_on(6), lent(18), *done(LAP_BY_3)),
    ("sum: l + 1 and h at once", SIX_FLOOR, SIX, move_on(9), lent(18), *done(LAP_BY_3)),
    ("sum: h + 1 and 1", SIX_FLOOR, LAP_BY_1, move_on(1), lent(20), *done(LAP_BY_2, 20)),
    ("sum: h + 1 and 1 at once", SIX_FLOOR, SIX, move_on(8), lent(20), *done(LAP_BY_2, 20)),
    # 65,533 steps beyond l are 16,383 laps and one step.
    ("sum: 65,535 at once", SIX_FLOOR, SIX, move_on(65535), lent(18), *done(LAP_BY_1)),
    ("sum: 1 and 65,534", SIX_FLOOR, SIX_BY_1, move_on(65534), lent(18), *done(LAP_BY_1)),
    ("sum: l and 65,533", SIX_FLOOR, LAP, move_on(65533), lent(18), *done(LAP_BY_1)),
    ("sum: 5 and 65,530", SIX_FLOOR, LAP_BY_3, move_on(65530), lent(18), *done(LAP_BY_1)),
    ("sum: 32,767 and 32,768", SIX_FLOOR, LAP_BY_1, move_on(32768), lent(18), *done(LAP_BY_1)),
    # Without a run-in.
    ("sum: l 0, 1 and 0", FLOOR, PLAN_BY_1, move_on(0), lent(26), *done(PLAN_BY_1)),
    ("sum: l 0, 1 and 1", FLOOR, PLAN_BY_1, move_on(1), lent(26), *done(PLAN_BY_2)),
    ("sum: l 0, 1 and h - 1", FLOOR, PLAN_BY_1, move_on(3), lent(26), *done(PLAN)),
    ("sum: l 0, 1 and h", FLOOR, PLAN_BY_1, move_on(4), lent(26), *done(PLAN_BY_1)),
    ("sum: l 0, 1 and h + 1", FLOOR, PLAN_BY_1, move_on(5), lent(26), *done(PLAN_BY_2)),
    ("sum: l 0, h + 1 at once", FLOOR, PLAN, move_on(5), lent(26), *done(PLAN_BY_1)),
    ("sum: l 0, h + 2 at once", FLOOR, PLAN, move_on(6), lent(26), *done(PLAN_BY_2)),
    ("sum: l 0, 2 and 65,533", FLOOR, PLAN_BY_2, move_on(65533), lent(26), *done(head(4) + row(0, 0, 1, 1) + row(1, 0, 0, 1))),
    # One step, one step after a run-in, 64 steps, 32 carts.
    ("sum: one step, 0", SMALL, STAY, move_on(0), lent(15), *done(STAY)),
    ("sum: one step, 1", SMALL, STAY, move_on(1), lent(15), *done(STAY)),
    ("sum: one step, 65,535", SMALL, STAY, move_on(65535), lent(15), *done(STAY)),
    ("sum: a lap of one step, l at once", SIX_FLOOR, head(3, 2, 16) + row(3, 4, 5), move_on(2), lent(15), *done(head(1, 0, 16) + row(5))),
    ("sum: a lap of one step, 1 and 1", SIX_FLOOR, head(2, 1, 16) + row(4, 5), move_on(1), lent(15), *done(head(1, 0, 16) + row(5))),
    ("sum: a lap of one step, 1 and 2", SIX_FLOOR, head(2, 1, 16) + row(4, 5), move_on(2), lent(15), *done(head(1, 0, 16) + row(5))),
    ("sum: 64 steps, 0", ROUND_FLOOR, ROUND, move_on(0), lent(78), *done(ROUND)),
    ("sum: 64 steps, 63 at once", ROUND_FLOOR, ROUND, move_on(63), lent(78), *done(ROUND_BY_63)),
    ("sum: 64 steps, 63 and 1", ROUND_FLOOR, ROUND_BY_63, move_on(1), lent(78), *done(ROUND)),
    ("sum: 64 steps, 64 at once", ROUND_FLOOR, ROUND, move_on(64), lent(78), *done(ROUND)),
    ("sum: 64 steps, 63 and 65,472", ROUND_FLOOR, ROUND_BY_63, move_on(65472), lent(78), *done(ROUND_BY_63)),
    ("sum: 64 steps, 65,535 at once", ROUND_FLOOR, ROUND, move_on(65535), lent(78), *done(ROUND_BY_63)),
    ("sum: 32 carts, 62 and 1", FULL, head(2, 1, 16) + row(255, 255) * 32, move_on(1), lent(170), *done(head(1, 0, 16) + row(255) * 32)),
    ("sum: 32 carts, 63 at once", FULL, FULL_PLAN, move_on(63), lent(170), *done(head(1, 0, 16) + row(255) * 32)),
    # A buffer that holds the last result may be too short for the first.
    ("sum: 1, room for 1 and 1 alone", SIX_FLOOR, SIX, move_on(1), lent(18), "refused plan 18 19 0", lent(18)),
    ("sum: 1 and 1, a byte short", SIX_FLOOR, SIX_BY_1, move_on(1), lent(17), "refused plan 18 18 0", lent(17)),
    ("sum: 1 and 1 at once, a byte short", SIX_FLOOR, SIX, move_on(2), lent(17), "refused plan 18 18 0", lent(17)),
    ("sum: l and 0, a byte short", SIX_FLOOR, LAP, move_on(0), lent(17), "refused plan 18 18 0", lent(17)),
]


def in_step(name, rows, l, clause, verdict):
    """A check at drift 0: place n bears mark n, lanes lead between any two, group 0 is cart 0. Each cart starts where its row does."""
    lanes = b"".join(lane(start, end) for start in range(4) for end in range(4) if start != end)
    floor = b"".join(place(1 << n) for n in range(4)) + lanes + b"".join(cart(0, steps[0]) for steps in rows) + groups(1)
    plan = head(len(rows[0]), l) + b"".join(row(*steps) for steps in rows)
    return "sum: " + name, floor, plan, sheet(clause), verdict if verdict == "accepted" else "refused rules " + verdict


# Two carts with a lap from step 2 on, moved on by 1, by 2 and by 4.
WAY = [(0, 1, 2, 3, 1), (3, 3, 2, 0, 1)]
WAY_BY_1 = [(1, 2, 3, 1), (3, 2, 0, 1)]
WAY_BY_2 = [(2, 3, 1), (2, 0, 1)]
WAY_BY_4 = [(1, 2, 3), (1, 2, 0)]

# What was true at counter s, told by as many X, is true at the start of the plan that is moved on by s.
SUM_CHECKS = [
    in_step("counter 1, a mark", WAY, 2, "X [m1,1] & X ![m0,1]", "accepted"),
    in_step("by 1, a mark", WAY_BY_1, 1, "[m1,1] & ![m0,1]", "accepted"),
    in_step("not at counter 0", WAY, 2, "[m1,1] & ![m0,1]", "17 0 0"),
    in_step("counter 2, both carts", WAY, 2, "X X [m2,100%]", "accepted"),
    in_step("by 2, both carts", WAY_BY_2, 0, "[m2,100%]", "accepted"),
    in_step("not by 1, both carts", WAY_BY_1, 1, "[m2,100%]", "17 0 0"),
    in_step("counter 4, X into the lap", WAY, 2, "X X X X X [m2,2]", "accepted"),
    in_step("by 4, X into the lap", WAY_BY_4, 0, "X [m2,2]", "accepted"),
    in_step("counter 4, X not to step 0", WAY, 2, "X X X X X [m0,1]", "17 0 0"),
    in_step("by 4, X not to step 0", WAY_BY_4, 0, "X [m0,1]", "17 0 0"),
    in_step("by 1, X round the lap", WAY_BY_1, 1, "X X X X [m2,2]", "accepted"),
    in_step("counter 4, a group until both", WAY, 2, "X X X X ([m1,1@0] U [m2,2])", "accepted"),
    in_step("by 4, a group until both", WAY_BY_4, 0, "[m1,1@0] U [m2,2]", "accepted"),
    in_step("by 2, no group until both leave", WAY_BY_2, 0, "[m2,1@0] U [m1,2]", "17 0 0"),
    in_step("counter 2, no group until both leave", WAY, 2, "X X ([m2,1@0] U [m1,2])", "17 0 0"),
    in_step("counter 0, a mark of the run-in", WAY, 2, "F [m0,1@0]", "accepted"),
    in_step("counter 1, a mark of the run-in", WAY, 2, "X F [m0,1@0]", "17 0 0"),
    in_step("by 1, a mark of the run-in", WAY_BY_1, 1, "F [m0,1@0]", "17 0 0"),
    in_step("counter 0, never a mark of the run-in", WAY, 2, "G ![m0,1@0]", "17 0 0"),
    in_step("by 1, never a mark of the run-in", WAY_BY_1, 1, "G ![m0,1@0]", "accepted"),
]

# The numbers that each file's refusals have. No task writes a floor, so 18 is about the plan alone.
NUMBERS = {"floor": [*range(1, 8)], "plan": [*range(1, 6), *range(7, 12), 18, 19, 20], "rules": [7, *range(12, 18), 21]}


def write(folder, name, content):
    if content is not None:
        folder.mkdir(parents=True, exist_ok=True)
        (folder / name).write_bytes(content)


def edit_set(name, floor, plan, task, *rest):
    files = {"floor": floor, "plan": plan, "task": task}
    if task[0] == 2:
        files["out"], *rest = rest
    verdict, *after = rest
    return name, files, " ".join([verdict + ":" * len(after), *(str(b) for left in after for b in left)])


def check_set(name, floor, plan, rules, verdict):
    return name, {"floor": floor, "plan": plan, "rules": rules, "task": CHECK}, verdict


def read_set(name, floor, plan, verdict):
    return name, {"floor": floor, "plan": plan}, verdict


def show_set(name, floor, plan, rules, verdict, part):
    return name, {"floor": floor, "plan": plan, "rules": rules, "task": SHOW}, f'{verdict}: "{part}"'


def data_sets():
    """Name, files by their names, and the line due for each case."""
    for case in CASES:
        yield read_set(*case)
    for case in EDITS:
        yield edit_set(*case)
    for case in CHECKS:
        yield check_set(*case)
    for case in SHOWN:
        yield show_set(*case)
    for case in PARKED:
        yield edit_set(*case)
    for case in PARKED_CHECKS:
        yield check_set(*case)
    for case in NARROW_FLOORS:
        yield read_set(*case)
    for case in NARROW_EDITS:
        yield edit_set(*case)
    for case in NARROW_CHECKS:
        yield check_set(*case)
    for case in NARROW_SHOWN:
        yield show_set(*case)
    for case in PERCENTAGES:
        yield check_set(*case)
    for case in LINKS:
        yield edit_set(*case)
    for cases in (LINKED_CHECKS, BORNE, STEPS, BLOCKS, [*by_need()], SIX_PAIRS, [*two_operands()], CHAINS, COUNTS, LIMITS, EITHER, WINDOWS):
        for case in cases:
            yield check_set(*case)
    for case in GROUP_FLOORS:
        yield read_set(*case)
    for case in GROUP_EDITS:
        yield edit_set(*case)
    for case in GROUP_CHECKS:
        yield check_set(*case)
    for case in GROUP_SHOWN:
        yield show_set(*case)
    for case in SUMS:
        yield edit_set(*case)
    for case in SUM_CHECKS:
        yield check_set(*case)


def giving(sets, file, number):
    """The numbers and names of the data sets that are refused so."""
    return [(n, name) for n, (name, _, line) in enumerate(sets) if line.startswith(f"refused {file} {number} ")]


def list_numbers(sets):
    for file, numbers in NUMBERS.items():
        for number in numbers:
            found = giving(sets, file, number)
            more = [f"and {len(found) - 3} more"] if found[3:] else []
            print(f"{file} {number}: " + "; ".join([f"{n:04} {name}" for n, name in found[:3]] + more))


def check(sets):
    """The names differ, the lines have the output's form, each number is there, and the program knows how many data sets it runs."""
    names = [name for name, _, _ in sets]
    assert len(set(names)) == len(names)
    for name, _, line in sets:
        assert re.fullmatch(r"(accepted|done \d+|refused (floor|plan|rules) \d+ \d+ \d+)(:( \d+)*|: \"[^\"]*\")?", line), name
    for file, numbers in NUMBERS.items():
        for number in numbers:
            assert giving(sets, file, number), (file, number)
    source = (CRATE / "src/main.rt").read_text()
    if f"const CASES: usize = {RUN};" not in source:
        sys.exit(f"{CRATE}/src/main.rt: CASES has to be {RUN}")


def write_program():
    """The second case of document 01's table, in the program's own folder."""
    _, floor, plan, rules, verdict = CHECKS[1]
    for file, content in {"floor": floor, "plan": plan, "rules": rules}.items():
        write(PROGRAM / "data", file, content)
    (PROGRAM / "stdout").write_text(verdict + "\n")


def main():
    sets = list(data_sets())
    if sys.argv[1:] == ["--list"]:
        return list_numbers(sets)
    check(sets)
    data = CRATE / "data"
    shutil.rmtree(data, ignore_errors=True)
    lines = []
    for n, (name, files, line) in enumerate(sets):
        for file, content in files.items():
            write(data / f"{n:04}", file, content)
        lines.append(f"{n:04} {line}\n")
        print(f"{n:04} {name}: {line}"[:120])
    (CRATE / "stdout").write_text("".join(lines[:RUN]))
    about = f"What data sets {RUN} to {len(sets) - 1} of {CRATE} print; they were made for moving on added up, and the program does not run them.\n"
    OTHERS.write_text(about + "".join(lines[RUN:]))
    write_program()


if __name__ == "__main__":
    main()
