#!/usr/bin/env python3
"""Brings the names of this repository's definitions and lemmas to today's spelling: words in snake case.

Usage, once, at the repository's root, on what the kit's port.py has made:  python3 tools/spelling.py [--list]

A name in camel case that begins small is put in snake case, and so is a name with dashes, but for a lemma whose statement has each part of the
name as a word of its own: there the dash joins two names, and stays. Functions of src/ keep their names. Names that proof files of functions give to
goals are not touched. With --list it only prints the pairs.
"""
import collections
import os
import re
import sys

ROOT = os.path.join(os.getcwd(), "crates")
MARKS = r"(?:pattern |unfoldable |abbrev |axiom |pub |data |record |inductive )*"
SIGNED = re.compile(r"^( *)(" + MARKS + r")([^\s:(){}\[\]=,;λ→]+)((?: (?:\{[^}]*\}|\([^()]*(?:\([^()]*\)[^()]*)*\)))*) ?: ")
WORD = re.compile(r"[^\s(){}\[\],.;:=⌜⌝\"`|]+")

SPECIAL = {"inStep": "run_in_step"}


def files(ending):
    for folder, dirs, names in os.walk(ROOT):
        dirs[:] = sorted(d for d in dirs if d not in ("out", "data"))
        for f in sorted(names):
            if f.endswith(ending):
                yield os.path.join(folder, f)


def text(path):
    with open(path, encoding="utf-8") as f:
        return f.read()


def code(line, mark):
    """A line's code and its comment."""
    at = line.find(mark)
    while at > 0 and not line[at - 1].isspace():
        at = line.find(mark, at + 1)
    return (line, "") if at < 0 else (line[:at], line[at:])


def snake(name):
    out = re.sub(r"([a-z0-9])([A-Z])", r"\1_\2", name)
    return "".join(c if not ("A" <= c <= "Z") else c.lower() for c in out)


def is_camel(name):
    return re.match(r"^[a-z][A-Za-z0-9-]*[a-z0-9][A-Z]", name) is not None


def main():
    proofs = {p for p in files("Proof.antt")}
    shown, kinds = collections.defaultdict(list), collections.defaultdict(set)
    foreign = set()
    own_crates = set(os.listdir(ROOT))
    for p in files(".antt"):
        lines = [code(l, "--")[0] for l in text(p).split("\n")]
        for i, l in enumerate(lines):
            m = re.match(r"^\s*(?:pub )?use ([\w.+'-]+)\.\{(.*)\}", l)
            if m and not (m.group(1).split(".")[0] == "Rattle" and m.group(1).split(".")[1] in own_crates):
                foreign.update(re.split(r"[, ]+", m.group(2)))
            m = SIGNED.match(l)
            if not m or p in proofs:
                continue
            more = i + 1
            while more < len(lines) and len(lines[more]) - len(lines[more].lstrip()) > len(m.group(1)):
                more += 1
            name = m.group(3)
            shown[name].append(set(WORD.findall(" ".join(lines[i:more])[len(m.group(0)):])))
            kinds[name].add(m.group(2))
    words = {n for n in shown if any("abbrev" in k or "unfoldable" in k or "data" in k or "record" in k for k in kinds[n])}
    new = {}
    for name in sorted(shown):
        if name in foreign:
            continue
        to = snake(name) if is_camel(name) else name
        if "-" in name:
            parts = name.split("-")
            if not all(set(parts) <= it for it in shown[name]):
                to = to.replace("-", "_")
        if to != name:
            new[name] = SPECIAL.get(name, to)
    back = collections.defaultdict(list)
    for a, b in new.items():
        back[b].append(a)
    for b, those in sorted(back.items()):
        # names that would fall together: a word has the plain name, and a lemma beside it gets _lem
        if len(those) > 1 or b in shown:
            lemmas = [it for it in [*those, *([b] if b in shown else [])] if it not in words]
            plain = len(those) + (b in shown) - len(lemmas)
            for it in lemmas if plain else lemmas[1:]:
                new[it] = b + "_lem"
            if plain > 1 or (not plain and len(lemmas) > 1):
                print("spelling: look at", b, those, file=sys.stderr)
    if "--list" in sys.argv:
        for a in sorted(new):
            print(a, new[a])
        return

    def turn(m):
        return new.get(m.group(0), m.group(0))

    for p in [*files(".antt"), *files(".rt")]:
        mark = "--" if p.endswith(".antt") else "//"
        out = []
        for l in text(p).split("\n"):
            c, comment = code(l, mark)
            if not (p.endswith(".rt") and re.match(r"\s*(pub(\([a-z]+\))? )?fn ", c)):
                c = WORD.sub(turn, c)
            comment = re.sub(r"`([^`]+)`", lambda m: "`" + WORD.sub(turn, m.group(1)) + "`", comment)
            comment = re.sub(r"\b[a-z]+[A-Z]\w*", lambda m: new.get(m.group(0), m.group(0)), comment)
            out.append(c + comment)
        if "\n".join(out) != text(p):
            with open(p, "w", encoding="utf-8") as f:
                f.write("\n".join(out))


main()
