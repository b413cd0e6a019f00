"""The one-token changes of a crate's code: what stands in function bodies, not contracts, signatures or comments."""
import random
import re
from collections import namedtuple
from pathlib import Path

# A change: the file, the characters it replaces, what it puts there, and of which kind it is.
Change = namedtuple("Change", "file start end old new kind function")
Token = namedtuple("Token", "text start end")

TOKEN = re.compile(
    r"""//[^\n]*                                  # comment
      | b?"(?:\\.|[^"\\])*"                       # string
      | b'(?:\\.|[^'\\])'                         # byte
      | \d[0-9_]*(?:u8|u16|u32|u64|usize|i32)?    # number
      | [A-Za-z_]\w*
      | <<= | >>= | << | >> | <= | >= | == | != | && | \|\| | \+= | -= | \*= | -> | => | :: | \.\.
      | [^\s\w]""",
    re.X,
)

COMPARISON = {"<": "<=", "<=": "<", ">": ">=", ">=": ">", "==": "!=", "!=": "=="}
ARITHMETIC = {"+": "-", "-": "+", "*": "+", "/": "*", "%": "/", "<<": ">>", ">>": "<<", "+=": "-=", "-=": "+="}
LOGIC = {"&&": "||", "||": "&&", "true": "false", "false": "true", "&": "|", "|": "&", "^": "|", "!": ""}
KEYWORDS = {"let", "mut", "if", "else", "while", "loop", "return", "match", "as", "true", "false", "fn", "pub", "use", "break", "continue"}


def tokens(text):
    return [Token(m.group(), m.start(), m.end()) for m in TOKEN.finditer(text) if not m.group().startswith("//")]


def closing(ts, i):
    """The index behind the bracket that closes the one at i."""
    depth = 0
    for j in range(i, len(ts)):
        if ts[j].text in ("(", "[", "{"):
            depth += 1
        elif ts[j].text in (")", "]", "}"):
            depth -= 1
            if depth == 0:
                return j + 1
    return len(ts)


def split_types(ts):
    """Name and type of each `name: type` between commas."""
    pairs, depth, part = [], 0, []
    for t in list(ts) + [Token(",", 0, 0)]:
        depth += (t.text in "([") - (t.text in ")]")
        if t.text == "," and depth == 0:
            words = [u.text for u in part if u.text != "pub"]
            if ":" in words:
                at = words.index(":")
                pairs.append((words[at - 1], "".join(words[at + 1 :])))
            part = []
        else:
            part.append(t)
    return pairs


def functions(ts):
    """Name, parameters, result and the body's tokens of each function."""
    i = 0
    while i < len(ts):
        if ts[i].text != "fn":
            i += 1
            continue
        name, end = ts[i + 1].text, closing(ts, i + 2)
        parameters = split_types(ts[i + 3 : end - 1])
        result, i = [], end
        while ts[i].text != "{":
            if ts[i].text in ("requires", "ensures"):
                i = closing(ts, i + 1)
            else:
                result.append(ts[i].text)
                i += 1
        end = closing(ts, i)
        yield name, parameters, "".join(result), ts[i:end]
        i = end


class Repository:
    """What one name may be exchanged for: fields of one struct, variants of one enum, functions, each of the same type."""

    def __init__(self, crates):
        self.fields, self.variants, self.calls = {}, {}, {}
        for path in sorted(crates.glob("*/src/*.rt")):
            ts = tokens(path.read_text())
            for i, t in enumerate(ts):
                if t.text in ("struct", "enum") and ts[i + 2].text == "{":
                    self.declared(ts[i + 1].text, t.text, ts[i + 3 : closing(ts, i + 2) - 1])
            by_type = {}
            for name, parameters, result, _ in functions(ts):
                by_type.setdefault((tuple(p[1] for p in parameters), result), []).append(name)
            for same in by_type.values():
                for name in same:
                    self.calls.setdefault(name, set()).update(n for n in same if n != name)

    def declared(self, name, word, ts):
        if word == "struct":
            pairs = split_types(ts)
            for field, kind in pairs:
                self.fields.setdefault(field, set()).update(f for f, k in pairs if k == kind and f != field)
            return
        text = " ".join(t.text for t in ts)
        pairs = re.findall(r"(\w+)((?: \([^)]*\)| \{[^}]*\})?)(?: ,|$)", text)
        for variant, kind in pairs:
            self.variants[(name, variant)] = {v for v, k in pairs if k == kind and v != variant}


def numbers(text):
    digits = re.match(r"[0-9_]+", text).group()
    value, suffix = int(digits.replace("_", "")), text[len(digits) :]
    return [f"{v}{suffix}" for v in (value + 1, value - 1) if v >= 0]


def names_of(parameters, body):
    """The function's own names, with the type where it is written down."""
    known = dict(parameters)
    for i, t in enumerate(body):
        if t.text == "let":
            at = i + 2 if body[i + 1].text == "mut" else i + 1
            kind = body[at + 2].text if body[at + 1].text == ":" else None
            known[body[at].text] = kind
    return known


def replacements(body, i, known, repository):
    """Each new text and kind for the token at i."""
    text, before, after = body[i].text, body[i - 1].text, body[i + 1].text if i + 1 < len(body) else ""
    binary = re.match(r"[\w)\]]", before) and before not in KEYWORDS
    if text in COMPARISON:
        return [(COMPARISON[text], "comparison")]
    if text in ARITHMETIC:
        return [(ARITHMETIC[text], "arithmetic")] if binary else []
    if text in LOGIC:
        return [(LOGIC[text], "logic")] if binary or text in ("true", "false", "!") else []
    if text[0].isdigit():
        return [(n, "number") for n in numbers(text)]
    if re.fullmatch(r"b'[A-Za-z0-9()@]'", text):
        return [(f"b'{chr(ord(text[2]) + 1)}'", "number")]
    if not re.fullmatch(r"[A-Za-z_]\w*", text) or text in KEYWORDS:
        return []
    if before == "." and after != "(":
        return [(f, "field") for f in sorted(repository.fields.get(text, ()))]
    if before == "::" and (body[i - 2].text, text) in repository.variants:
        return [(v, "variant") for v in sorted(repository.variants[(body[i - 2].text, text)])]
    if after == "(":
        return [(f, "call") for f in sorted(repository.calls.get(text, ()))]
    declared = before in ("let", "mut") or after in (":", "::", "{") or before in (".", "::")
    if text in known and not declared:
        kind = known[text]
        return [(n, "name") for n, k in sorted(known.items()) if n != text and (k is None or kind is None or k == kind)]
    return []


def changes_of(crate, repository):
    """All one-token changes of the crate's functions."""
    for path in sorted((crate / "src").glob("*.rt")):
        text = path.read_text()
        for name, parameters, _, body in functions(tokens(text)):
            known = names_of(parameters, body)
            for i, t in enumerate(body):
                for new, kind in replacements(body, i, known, repository):
                    yield Change(path.name, t.start, t.end, t.text, new, kind, name)


def in_turn(changes, seed):
    """The changes in a random order in which the kinds take turns, and within a kind the functions."""
    chance = random.Random(seed)
    kinds = {}
    for c in changes:
        kinds.setdefault(c.kind, {}).setdefault((c.file, c.function), []).append(c)
    queues = []
    for kind in sorted(kinds):
        lists = [kinds[kind][f] for f in sorted(kinds[kind])]
        for one in lists:
            chance.shuffle(one)
        chance.shuffle(lists)
        queue = []
        while any(lists):
            queue += [one.pop() for one in lists if one]
        queues.append(queue[::-1])
    while any(queues):
        for queue in queues:
            if queue:
                yield queue.pop()


if __name__ == "__main__":
    root = Path(__file__).resolve().parents[2]
    everything = Repository(root / "crates")
    for folder in sorted((root / "crates").iterdir()):
        found = list(changes_of(folder, everything))
        print(folder.name, len(found), *sorted({c.kind for c in found}))
