#!/usr/bin/env python3
"""Brings this repository's own definitions and lemmas to the spelling of today's Rattle: words in snake case (`valueAt` to `value_at`, `after-lo` to `after_lo`).

usage: tools/snake_names.py [--check] [ROOT]

A dash before a sign stays, as in `abs-*`: it joins two names. Names that begin with a capital (types, facts, and the polynomials P, Q, W of the rules) keep it.
Renamed is what specs/ and the lemma files of proofs/ declare, and what a Proof.antt declares beside its answers. A name behind a dot is renamed where a record of
this repository has that field, or where a module or an alias of a module of this repository stands before the dot. Rust names, strings, inputs and outputs stay.
It ran once, right after the port's own script; a second run finds nothing.
"""
import os
import re
import sys

NAME = r"[^\s(){}.;,@\"«»:]+"
TOKEN = re.compile(r"[^\s(){}.;,@\"«»`]+")
DECL = re.compile(r"^(\s*)((?:abbrev |unfoldable |pub |opaque )*)(?:(?:data|record|module|ruleset) )?(" + NAME + r"(?: " + NAME + r")*) :(?= |$)(.*)", re.M)
HEAD = re.compile(r"^\s*(?:pub )?(?:data|record|ruleset) (" + NAME + ")", re.M)
FIELD = re.compile(r"^\s+(?:pub )?(" + NAME + r"(?: " + NAME + r")*) :(?= |$)", re.M)
RECORD = re.compile(r"^(?:pub )?record [^\n]*\n((?:[ \t]+[^\n]*\n|\n)*)", re.M)
OPEN = re.compile(r"\b(?:let|in|where)\b")


def snake(name):
    """The new spelling of a name."""
    out = []
    for i, c in enumerate(name):
        if c == "-" and i and i + 1 < len(name) and name[i + 1].isalnum():
            out.append("_")
        else:
            out.append(c)
    parts = []
    for part in re.split(r"(?<=\w)_(?=\w)", "".join(out)):
        if part[:1].islower():
            part = re.sub(r"(?<=[a-z0-9])([A-Z])", lambda m: "_" + m.group(1).lower(), part)
        parts.append(part)
    return "_".join(parts)


def files(root, *ends):
    for folder, dirs, names in os.walk(os.path.join(root, "crates")):
        dirs[:] = sorted(d for d in dirs if d not in ("out", "target"))
        for n in sorted(names):
            if n.endswith(ends):
                yield os.path.join(folder, n)


def code(text):
    return re.sub(r"--[^\n]*", "", text)


def declared(text, answers):
    """The names that a file declares; of a proof file, those that are no answers."""
    found = set()
    for m in DECL.finditer(code(text)):
        line = m.group(0).strip()
        if OPEN.match(line):
            continue
        if answers and re.match(r"\s*(?:\{[^}]*\} → )?(?:tie|goal|walk|statement)\b", m.group(4)):
            continue
        found.update(m.group(3).split())
    for m in HEAD.finditer(code(text)):
        found.add(m.group(1))
    return found


def fields(text):
    found = set()
    for m in RECORD.finditer(code(text)):
        for f in FIELD.finditer(m.group(1)):
            found.update(f.group(1).split())
    return found


def aliases(text):
    """The short names that a file gives to modules of this repository."""
    return set(re.findall(r"\buse Rattle\.[^\s{};]*\.specs\.[^\s{};]* as (\w[\w-]*)", text))


class Names:
    """The new spelling of each name: `table` of a definition or a lemma, `field` of a record's field."""

    def __init__(self, root):
        top, self.fields, spoken = set(), set(), set()
        self.local = {}
        for p in files(root, ".antt"):
            text = code(open(p, encoding="utf-8").read())
            if p.endswith("/Proof.antt"):
                self.local[p] = declared(text, True)
            else:
                d, f = declared(text, False), fields(text)
                top |= d - f
                self.fields |= f
            spoken.update(TOKEN.findall(text))
        self.table = {}
        camel = {n for n in top | self.fields if re.search("[a-z0-9][A-Z]", n)}
        fields_only = self.fields - top
        for n in top | self.fields:
            to = snake(n)
            rivals = {m for m in (top | self.fields) - {n} if snake(m) == to}
            # a lemma that would have its function's name gets `_lem`
            if rivals and "-" in n and n not in fields_only:
                to += "_lem"
            elif n == "count_at":
                to = "count_at_lem"
            if to != n:
                self.table[n] = to
        self.field = {n: snake(n) for n in self.fields if snake(n) != n}

    def of(self, p, text):
        table = dict(self.table)
        for n in self.local.get(p, ()):
            if snake(n) != n:
                table.setdefault(n, snake(n))
        return table, aliases(text)


def turned(part, names, table, short):
    """Code with each name turned."""

    def one(m):
        w, i = m.group(0), m.start()
        if i and part[i - 1] == ".":
            before = re.search(r"([^\s(){}.;,@\"«»`]+)\.$", part[:i])
            if before and before.group(1) in short or re.search(r"(?<![\w.])Rattle(\.[\w+]+)*\.specs(\.\w+)*\.$", part[:i]):
                return table.get(w, w)
            return names.field.get(w, w)
        if w in names.field and w in table and names.field[w] != table[w]:
            # a field where a record is declared or made, else the lemma of that name
            if re.search(r"(?:^|[{;])\s*$", part[:i]) and re.match(r"\s=\s", part[m.end() :]) or re.search(r"^\s+pub $", part[:i]):
                return names.field[w]
        return table.get(w, w)

    return TOKEN.sub(one, part)


def turned_prose(part, names, table, short):
    """A comment: its code spans, and names that are no English."""
    part = re.sub(r"`[^`]*`", lambda m: turned(m.group(0), names, table, short), part)
    return TOKEN.sub(lambda m: table[m.group(0)] if m.group(0) in table and re.search("[a-z0-9][A-Z]", m.group(0)) else m.group(0), part)


def turn(text, p, names, mark):
    table, short = names.of(p, text)
    out = []
    for line in text.splitlines(keepends=True):
        m = re.search(r"(?:^|(?<=\s))" + mark + r"(?=\s|$)", line)
        at = m.start() if m else len(line)
        out.append(turned(line[:at], names, table, short) + turned_prose(line[at:], names, table, short))
    return "".join(out)


def turn_page(text, names):
    """A page of docs/: code spans and blocks."""
    return re.sub(r"```.*?```|`[^`\n]*`", lambda m: turned(m.group(0), names, names.table, set()), text, flags=re.S)


def turn_edit(text, names):
    out = []
    for line in text.splitlines(keepends=True):
        if line.startswith("#"):
            out.append(turned_prose(line, names, names.table, set()))
        elif line.startswith(("old:", "new:")):
            out.append(line[:4] + turned(line[4:], names, names.table, set()))
        else:
            out.append(line)
    return "".join(out)


def main(argv):
    check = "--check" in argv
    argv = [a for a in argv if a != "--check"]
    root = argv[0] if argv else os.path.dirname(os.path.dirname(os.path.realpath(__file__)))
    names = Names(root)
    if check:
        for n, to in sorted(names.table.items()):
            print(n, to)
        return 0
    changed = 0
    pages = [os.path.join(root, "README.md"), os.path.join(root, "CONTRIBUTING.md")]
    pages += [os.path.join(root, "docs", f) for f in sorted(os.listdir(os.path.join(root, "docs"))) if f.endswith(".md")]
    for p in [*files(root, ".antt", ".rt", ".edit"), *pages]:
        text = open(p, encoding="utf-8").read()
        if p.endswith(".edit"):
            new = turn_edit(text, names)
        elif p.endswith(".md"):
            new = turn_page(text, names)
        else:
            new = turn(text, p, names, "--" if p.endswith(".antt") else "//")
        if new != text:
            changed += 1
            with open(p, "w", encoding="utf-8") as f:
                f.write(new)
    print(len(names.table), "names,", changed, "files changed")
    return 0


if __name__ == "__main__":
    raise SystemExit(main(sys.argv[1:]))
