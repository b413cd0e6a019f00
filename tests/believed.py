#!/usr/bin/env python3
"""What must be believed: the definitions that the contracts of the functions for C rest on.

Starts at the names that the `ensures` of each exported function cites, follows every name of the project that their definitions use, and
lists the files that hold them. Run at the repository's root:

    python3 tests/believed.py            prints the list; with --names each file's definitions too
    python3 tests/believed.py --check    fails if README's list is another one, or if a definition stands in a law file or in proofs/
    python3 tests/believed.py --write    puts the list into README
"""
import os
import re
import sys

BEGIN, END = "<!-- believed: made by tests/believed.py -->", "<!-- /believed -->"
DECLARED = re.compile(r"^(\s*)((?:unfoldable |abbrev |pub )*)(data |record )?([^\s(){}.;,@\"«»:]+)((?:\s.*?)?)\s*(?::|where)")
TOKEN = re.compile(r"(?P<dot>[\s)]\.)?(?P<name>[^\s(){}.;,@\"«»]+)(?P<more>(?:\.[^\s(){}.;,@\"«»]+)*)")


def lines_of(path):
    """The file's lines without comments."""
    with open(path, encoding="utf-8") as text:
        return [re.sub(r"(^|\s)--.*$", "", line.rstrip("\n")) for line in text]


class Module:
    """One file of specs: what it imports, and the text of each of its declarations."""

    def __init__(self, crate, name):
        self.crate, self.name = crate, name
        self.path = os.path.join("crates", crate, "specs", *name.split(".")) + ".antt"
        self.imports, self.aliases, self.texts, self.owner = {}, {}, {}, {}
        self.read()

    def read(self):
        body = []
        for line in lines_of(self.path):
            if line.startswith("use "):
                self.read_use(line[4:])
            elif line.strip() and not re.match(r"(pub )?mod ", line):
                body.append(line)
        current, depth, kind, headers = None, 0, None, []
        for line in body:
            indent = len(line) - len(line.lstrip())
            if re.match(r"\s*module _", line):
                headers = [header for header in headers if header[0] < indent] + [[indent, line]]
                current = None
                continue
            if current is None and headers and not headers[-1][1].rstrip().endswith("where"):
                headers[-1][1] += line
                continue
            if current and indent > depth:
                self.texts[current] += self.member(current, line, kind if indent == depth + 2 else None) + "\n"
                continue
            found = DECLARED.match(line)
            name = line.split()[0]
            if name in self.texts and not (found and found.group(2)):
                current, depth, kind = name, indent, None
            elif found:
                current, depth, kind = found.group(4), indent, found.group(3)
                self.texts.setdefault(current, "\n".join(header for at, header in headers if at < indent) + "\n")
            if current:
                self.texts[current] += line + "\n"

    def member(self, owner, line, kind):
        """A line of a declaration. What it declares itself, a constructor or a field, is told apart from what it uses."""
        found = re.match(r"\s+((?:pub )?[^:(){}]*?) :(?=\s)", line) if kind else None
        if not found:
            return line
        if kind == "data ":
            self.owner.update({name: owner for name in found.group(1).split()})
        return line[found.end():]

    def read_use(self, text):
        found = re.match(r"([^\s{]+?)\.\{(.*)\}$", text)
        if found:
            for item in found.group(2).split(","):
                words = item.split()
                if words:
                    self.imports[words[-1]] = (found.group(1), words[0])
            return
        words = text.split()
        self.aliases[words[-1] if "as" in words else words[0].split(".")[-1]] = words[0]


class Project:
    """The project's modules, and what is reached."""

    def __init__(self):
        self.modules, self.reached, self.types, self.outside = {}, {}, {}, set()

    def module(self, path):
        """The module of a path such as Rattle.floor.specs.Numbers, or None for the kit's."""
        found = re.match(r"Rattle\.(\w+)\.specs\.(.+)$", path)
        if not found or not os.path.isdir(os.path.join("crates", found.group(1))):
            return None
        crate, name = found.groups()
        if name.startswith("declared."):
            self.types.setdefault(crate, set()).add(name.split(".")[1])
            return None
        if (crate, name) not in self.modules:
            self.modules[crate, name] = Module(crate, name)
        return self.modules[crate, name]

    def reach(self, path, name):
        module = self.module(path)
        if module is None:
            found = re.match(r"Rattle\.(\w+)\.proofs\.", path)
            if found and os.path.isdir(os.path.join("crates", found.group(1))):
                self.outside.add(f"{path}.{name}")
            return
        if name in module.owner and name not in module.texts:
            name = module.owner[name]
        if name not in module.texts and "." in name:
            name = name.split(".")[0]
        seen = self.reached.setdefault((module.crate, module.name), set())
        if name in seen:
            return
        if name not in module.texts:
            sys.exit(f"believed: {module.path} has no {name}")
        seen.add(name)
        self.follow(module, module.texts[name])

    def follow(self, module, text):
        own = f"Rattle.{module.crate}.specs.{module.name}"
        for token in TOKEN.finditer(text):
            if token.group("dot"):
                continue
            name, more = token.group("name"), token.group("more")
            if name in module.aliases and more:
                self.reach(module.aliases[name], more[1:])
            elif name in module.imports:
                self.reach(*module.imports[name])
            elif name in module.texts or name in module.owner:
                self.reach(own, name)


def exported(project):
    """Reaches what the functions for C promise."""
    for root, _, files in os.walk("crates"):
        for file in sorted(files):
            if not file.endswith(".rt") or "/src" not in root:
                continue
            with open(os.path.join(root, file), encoding="utf-8") as text:
                source = text.read()
            names = {}
            for path, items in re.findall(r"ghost use (\S+?)\.\{(.*?)\};", source, re.S):
                for item in items.split(","):
                    names[item.split()[-1]] = (path, item.split()[0])
            for promise in re.findall(r"pub extern \"C\" fn.*?\n\{", source, re.S):
                for clause in re.findall(r"ensures[^{]*\{(.*?)\}\n", promise, re.S):
                    for token in TOKEN.finditer(clause):
                        if token.group("name") in names:
                            project.reach(*names[token.group("name")])


def law_files(crate):
    """The files that a crate lists as laws or worked cases."""
    laws, section = set(), ""
    with open(os.path.join("crates", crate, "specs", "Lib.antt"), encoding="utf-8") as text:
        for line in text:
            if line.startswith("--"):
                section = line[2:].strip()
            elif line.startswith("pub mod ") and section in ("laws", "worked cases"):
                laws.add(line.split()[2])
    return laws


def order():
    """The crates, lower layers first."""
    with open("crates.txt", encoding="utf-8") as text:
        return [line.split(":")[0].split()[0] for line in text if ":" in line and not line.startswith("#")]


def listing(project, names):
    rows = []
    for crate in order():
        files = [module for owner, module in project.reached if owner == crate]
        if not files:
            continue
        with open(os.path.join("crates", crate, "specs", "Lib.antt"), encoding="utf-8") as text:
            listed = [line.split()[2] for line in text if line.startswith("pub mod ")]
        files.sort(key=listed.index)
        types = sorted(project.types.get(crate, ()))
        row = f"- `{crate}`: " + ", ".join(f"`{module}`" for module in files)
        rows.append(row + (f"; of `src/lib.rt` {', '.join(f'`{name}`' for name in types)}" if types else ""))
        if names:
            for module in files:
                texts = list(project.modules[crate, module].texts)
                rows.append(f"    {module}: {' '.join(sorted(project.reached[crate, module], key=texts.index))}")
    return "\n".join(rows)


def main():
    project = Project()
    exported(project)
    text = listing(project, "--names" in sys.argv)
    wrong = [f"{crate} {module}" for crate, module in project.reached if module in law_files(crate)]
    if sys.argv[1:] in ([], ["--names"]):
        print(text)
        return
    with open("README.md", encoding="utf-8") as file:
        readme = file.read()
    if BEGIN not in readme or END not in readme:
        sys.exit("believed: README has no place for the list")
    begin, end = readme.index(BEGIN) + len(BEGIN), readme.index(END)
    if sys.argv[1:] == ["--write"]:
        with open("README.md", "w", encoding="utf-8") as file:
            file.write(f"{readme[:begin]}\n{text}\n{readme[end:]}")
        return
    if wrong:
        sys.exit(f"believed: definitions stand in law files: {', '.join(wrong)}")
    if project.outside:
        sys.exit(f"believed: definitions stand in proofs/: {', '.join(sorted(project.outside))}")
    if readme[begin:end].strip() != text:
        sys.exit("believed: README's list is not what `python3 tests/believed.py` prints")
    print(f"believed: {len(project.reached)} definition files, as README lists them")


main()
