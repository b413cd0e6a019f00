#!/usr/bin/env python3
"""Writes accepted inputs to the folder given as first argument: ones that grow in one dimension each, from a full load down, ones with and
without narrow places, and sheets for the floor and plan of c. To the folder given as second argument go inputs of the benchmarks with other
drifts, which need not be accepted. Run from the repository's root."""
import pathlib
import shutil
import sys

BASE = {"steps": 64, "drift": 16, "carts": 32, "nodes": 128, "clauses": 32, "lanes": 1024}
SIZES = {
    "steps": (1, 8, 16, 32, 64),
    "drift": (0, 4, 8, 16),
    "carts": (1, 4, 8, 16, 32),
    "nodes": (16, 32, 64, 128),
    "clauses": (4, 8, 16, 32),
    "lanes": (128, 256, 512, 1024),
}


def record(kind, body):
    return len(body).to_bytes(2, "little") + kind.to_bytes(2, "little") + bytes(body)


def floor(carts, lanes, narrow=()):
    """Places in pairs, a lane from each to itself and to the other of its pair, and then more of the same lanes; narrow places."""
    out = b"".join(record(1, (0x9E3779B1 * (q + 1) % 2**32).to_bytes(4, "little")) for q in range(64))
    pairs = [(q, to, 255) for q in range(64) for to in (q, q ^ 1)]
    out += b"".join(record(2, pairs[j % len(pairs)]) for j in range(lanes))
    out += b"".join(record(3, (0, 2 * n)) for n in range(carts))
    return out + b"".join(record(6, [place]) for place in narrow)


def plan(steps, drift, carts, first, place=lambda s: s >> 1 & 1):
    """Each cart keeps to its own pair; place says on which of the two it is at a step."""
    head = b"".join(n.to_bytes(2, "little") for n in (steps, first, drift))
    return record(4, head) + b"".join(record(5, [2 * n + place(s) for s in range(steps)]) for n in range(carts))


def count(nodes):
    """A count that is always true, its inner text of marks under U, &, X, F and ! in turn: as many nodes as asked for."""
    text, made, mark = "m0", 2, 1
    while made < nodes:
        left = nodes - made
        if left >= 6:
            text, made = f"(F m{mark % 32} U X m{(mark + 1) % 32} & {text})", made + 6
        elif left >= 3:
            text, made = f"(m{mark % 32} U X {text})", made + 3
        else:
            text, made = f"!{text}", made + 1
        mark += 2
    return f"[{text},0]"


def clause(nodes):
    """Four counts under &."""
    inside = nodes - 3
    return " & ".join(count(inside // 4 + (k < inside % 4)) for k in range(4))


def write(folder, steps, drift, carts, nodes, clauses, lanes):
    folder.mkdir(parents=True, exist_ok=True)
    (folder / "floor").write_bytes(floor(carts, lanes))
    # A run-in of one step, unless that is all there is.
    (folder / "plan").write_bytes(plan(steps, drift, carts, min(1, steps - 1)))
    (folder / "rules").write_text("".join(clause(nodes) + "\n" for _ in range(clauses)))


# A full load with a small sheet, for the cost of narrow places: the narrow ones, and where a cart is at a step. Parked carts are always
# in a narrow place; going ones move between two at every step. No cart comes to places 64 to 95, which are named twice, so that there
# are as many records to read.
UNUSED = [*range(64, 96)] * 2
NARROW = {
    "wide_parked": ([], lambda s: 0),
    "unused_parked": (UNUSED, lambda s: 0),
    "narrow_parked": (range(64), lambda s: 0),
    "wide_going": ([], lambda s: s & 1),
    "unused_going": (UNUSED, lambda s: s & 1),
    "narrow_going": (range(64), lambda s: s & 1),
}


def write_narrow(folder, narrow, place):
    folder.mkdir(parents=True, exist_ok=True)
    spare = b"".join(record(1, bytes(4)) for _ in range(32))
    base = floor(32, 128, narrow)
    (folder / "floor").write_bytes(base[: 64 * 8] + spare + base[64 * 8 :])
    (folder / "plan").write_bytes(plan(64, 16, 32, 0, place))
    (folder / "rules").write_text("[m0,0]\n")


# For the most stack: 30 negations of a chain of & with 48 operands, the first a count, which is 79 nodes deep. A chain is no level of nesting, so the
# 32 levels of the reader do not bound how deep judging goes.
CHAIN = "!" * 30 + "([m0,0]" + "&true" * 47 + ")"
CHAIN_INSIDE = "[" + "!" * 30 + "(" + "&".join(["true"] * 49) + "),0]"


def joined(counts, depth):
    """An or of counts, nested on the right so many levels deep; the rest is a chain."""
    if depth == 0:
        return "|".join(counts)
    return f"{counts[0]}|({joined(counts[1:], depth - 1)})"


def ors(number):
    """43 counts, which with their marks and ors are 128 nodes, nested as deep as 32 levels allow: on the right, on the left, or as negated ands. Few
    carts are asked for, so that every or has carts enough to be judged as a whole."""
    counts = [f"[m{(k * (number + 1)) % 32},{1 + (k % 8 == 0)}]" for k in range(42)] + ["[true,1]"]
    if number % 3 == 0:
        return joined(counts, 31)
    if number % 3 == 1:
        return "(" * 31 + counts[0] + "".join(f"|{c})" for c in counts[1:32]) + "".join(f"|{c}" for c in counts[32:])
    negated = [f"!{c}" for c in counts[12:]]
    return f"!({joined(negated, 28)})".replace("|", "&")


def grouped(number):
    """As ors, with counts over groups: all of an or over one group, so that they are joined, or each over another, and a percentage among them."""
    over = (lambda k: number % 8) if number % 2 == 0 else (lambda k: k % 8)
    counts = [f"[m{(k * (number + 1)) % 32},{1 + (k % 8 == 0)}@{over(k)}]" for k in range(41)]
    counts += [f"[m{number},50%@{over(41)}]", f"[true,1@{over(42)}]"]
    if number % 4 < 2:
        return joined(counts, 31)
    return "G (" + "|".join(counts[1:]) + ")"


def untils(operators):
    """So many U over counts, the last of which is always true."""
    return " U ".join([f"[m{k % 32},2]" for k in range(operators)] + ["[true,32]"])


# Eight groups of c's 32 carts, the last of them all.
GROUPS = [0x0000FFFF, 0xFFFF0000, 0x55555555, 0x0F0F0F0F, 0x7FFFFFFF, 0x80000001, 0x00000FF0, 0xFFFFFFFF]

# Clauses for the floor and plan of c.
SHEETS = {
    "chain": [CHAIN],
    "chain_inside": [CHAIN_INSIDE],
    "ors": [ors(number) for number in range(32)],
    "groups": [grouped(number) for number in range(32)],
    **{f"untils_{n}": [untils(n)] * 32 for n in (1, 8, 16, 31)},
}


def write_sheet(folder, clauses, groups=()):
    folder.mkdir(parents=True, exist_ok=True)
    for file in ("floor", "plan"):
        shutil.copy(pathlib.Path("bench/inputs/c") / file, folder / file)
    with (folder / "floor").open("ab") as file:
        file.write(b"".join(record(7, group.to_bytes(4, "little")) for group in groups))
    (folder / "rules").write_text("".join(clause + "\n" for clause in clauses))


def write_drift(folder, base, drift):
    """An input of the benchmarks, its plan with another drift: the last two bytes of the head."""
    shutil.copytree(base, folder, dirs_exist_ok=True)
    plan = bytearray((base / "plan").read_bytes())
    plan[8:10] = drift.to_bytes(2, "little")
    (folder / "plan").write_bytes(plan)


def main():
    for name in ("b", "c", "c_counts"):
        for drift in (0, 1, 4, 16):
            write_drift(pathlib.Path(sys.argv[2]) / f"{name}_{drift}", pathlib.Path("bench/inputs") / name, drift)
    for name, clauses in SHEETS.items():
        write_sheet(pathlib.Path(sys.argv[1]) / name, clauses, GROUPS if name == "groups" else ())
    for name, (narrow, place) in NARROW.items():
        write_narrow(pathlib.Path(sys.argv[1]) / name, narrow, place)
    for name, sizes in SIZES.items():
        for size in sizes:
            write(pathlib.Path(sys.argv[1]) / f"{name}_{size}", **{**BASE, name: size})


main()
