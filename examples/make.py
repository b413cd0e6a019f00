#!/usr/bin/env python3
"""Writes the example files from the tables below. Run from the repository's root: python3 examples/make.py"""
import pathlib


def record(kind, body):
    return len(body).to_bytes(2, "little") + kind.to_bytes(2, "little") + bytes(body)


def floor(places, lanes, carts, narrow=(), groups=()):
    """places: the set of mark numbers of each; lanes: (from, to, classes); carts: (class, start); narrow: places that hold one cart; groups: the set
    of cart numbers of each."""
    out = b"".join(record(1, sum(1 << m for m in marks).to_bytes(4, "little")) for marks in places)
    out += b"".join(record(2, lane) for lane in lanes)
    out += b"".join(record(3, cart) for cart in carts)
    out += b"".join(record(6, [place]) for place in narrow)
    return out + b"".join(record(7, sum(1 << n for n in carts).to_bytes(4, "little")) for carts in groups)


def plan(h, l, d, rows):
    head = b"".join(n.to_bytes(2, "little") for n in (h, l, d))
    return record(4, head) + b"".join(record(5, row) for row in rows)


def rules(*clauses):
    return "".join(clause + "\n" for clause in clauses).encode()


EVERY = 255  # open to all eight classes
HIDES = 1 << 0  # open to class 0, the carts that carry hides
PANELS = 1 << 1  # open to class 1, the carts that carry cut panels

EXAMPLES = {
    # Document 01's cases: two carts that go from place 0 to place 1 and back, and park on each for a step. A cart may park on
    # any place, so the floor needs no lane from a place to itself.
    "two-carts": (
        floor(
            places=[{0}, {1}],
            lanes=[(0, 1, EVERY), (1, 0, EVERY)],
            carts=[(0, 0), (0, 0)],
        ),
        plan(4, 0, 0, [[0, 1, 1, 0], [0, 0, 1, 1]]),
        rules("F [m1,2]"),  # at some step both are on place 1
    ),
    # Store (m0), two cutting tables (m1) and skiving (m2); three carts bring hides, one takes panels on to skiving.
    # One step of run-in, then a lap of six; a cart may be one step ahead of another.
    "workshop": (
        floor(
            places=[{0}, {1}, {1}, {2}],
            lanes=[
                (0, 1, HIDES), (0, 2, HIDES), (1, 0, HIDES), (2, 0, HIDES),
                (1, 3, PANELS), (2, 3, PANELS), (3, 1, PANELS), (3, 2, PANELS),
            ],
            carts=[(0, 0), (0, 0), (0, 0), (1, 3)],
        ),
        plan(
            7, 1, 1,
            [
                [0, 1, 1, 1, 0, 0, 0],
                [0, 0, 0, 2, 2, 2, 0],
                [0, 0, 0, 0, 0, 1, 0],
                [3, 3, 1, 1, 3, 2, 2],
            ],
        ),
        rules(
            "G [m0,1]",  # there is always a cart at the store
            "G ![m2,2]",  # never two at skiving
            "[m0,2] U [m1,1]",  # two wait at the store until one is at a cutting table
            "G F [m1,60%]",  # again and again two carts, the number nearest to 60% of four, are at the tables together
            "[G (!m2 | F m1),100%]",  # every cart that is at skiving comes to a table later
        ),
    ),
    # A yard (m0) and two bays (m1) that hold one cart each. Carts 0 and 2 use the same bay, two steps apart: with a drift of 1 they
    # never meet there, with 2 they could.
    "two-bays": (
        floor(
            places=[{0}, {1}, {1}],
            lanes=[(0, 1, EVERY), (0, 2, EVERY), (1, 0, EVERY), (2, 0, EVERY)],
            carts=[(0, 0), (0, 0), (0, 0)],
            narrow=[1, 2],
        ),
        plan(
            6, 0, 1,
            [
                [0, 1, 1, 0, 0, 0],
                [0, 0, 2, 2, 0, 0],
                [0, 0, 0, 0, 1, 0],
            ],
        ),
        rules(
            "G [m0,1]",  # there is always a cart in the yard
            "[G F m1,3]",  # every cart comes to a bay again and again
        ),
    ),
    # Example 3 of source document 002: of three carts one stays at table m1, one goes from there to table m2, one stays at m2. With a drift of 1
    # nobody can say at which of the two the second cart is, but one table has two carts at every moment.
    "either-table": (
        floor(
            places=[{1}, {2}],
            lanes=[(0, 1, EVERY)],
            carts=[(0, 0), (0, 0), (0, 1)],
        ),
        plan(2, 1, 1, [[0, 0], [0, 1], [1, 1]]),
        rules(
            "[m1,2] | [m2,2]",  # at the start one of the two tables has two carts,
            "G ([m1,2] | [m2,2])",  # and always
            "[m1,2] U [m2,2]",  # two are at m1 until two are at m2: no moment is between the two
        ),
    ),
    # Tasks for certain robots, as in section VI B of source document 002: two of four carts have a camera, for the hides on the photo table (m1), and
    # all but the leader, which stays at the desk (m2), report there. The two with a camera take turns; a cart may be one step ahead of another.
    "two-groups": (
        floor(
            places=[{0}, {1}, {2}],
            lanes=[(0, 1, EVERY), (1, 0, EVERY), (0, 2, EVERY), (2, 0, EVERY)],
            carts=[(0, 1), (0, 1), (0, 0), (0, 2)],
            groups=[{0, 1}, {0, 1, 2}],
        ),
        plan(
            8, 0, 1,
            [
                [1, 1, 1, 1, 1, 0, 2, 0],
                [1, 0, 2, 0, 1, 1, 1, 1],
                [0, 0, 0, 0, 2, 0, 1, 0],
                [2, 2, 2, 2, 2, 2, 2, 2],
            ],
        ),
        rules(
            "G [m1,1@0]",  # a cart with a camera is always at the photo table
            "[G F m2,100%@1]",  # each of the others reports to the leader again and again,
            "G ![m2,2@1]",  # and never two of them at a time; with the leader two are at the desk
        ),
    ),
}

for name, files in EXAMPLES.items():
    folder = pathlib.Path("examples") / name
    folder.mkdir(exist_ok=True)
    for file, content in zip(("floor", "plan", "rules"), files):
        (folder / file).write_bytes(content)
