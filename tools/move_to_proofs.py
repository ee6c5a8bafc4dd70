#!/usr/bin/env python3
"""Moves theorems from specs/ to proofs/, statements unchanged, as tools/moves.txt lists them, and turns every import and the paths in pages.

usage: tools/move_to_proofs.py [ROOT]

`rt must-fail` reads an edit of a definition as a BAD EDIT where a theorem of specs/ rests on another theorem of specs/ that the edit breaks. In proofs/ the same theorems refuse it.

A line of moves.txt is `CRATE FILE` (all of crates/CRATE/specs/FILE moves) or `CRATE FILE keep NAME..` (these declarations stay: a contract or another crate's clause
cites them). `#` begins a comment. A second run finds nothing to move; it turns imports that a merge brought back.

A declaration is a paragraph: its comment lines, its signature, its clauses, up to a blank line. A kept name of a `module _ (a : A) where` is given its arguments where the
paragraphs that move cite it. Own specs/ and src/ can't name own proofs/: such a line is printed, and has to be mended by hand. `rt tidy` drops imports that are needless then.
"""
import glob
import os
import re
import sys

HERE = os.path.dirname(os.path.abspath(__file__))
WORDS = r"(?:abbrev |unfoldable |pub |opaque )*"
NAME = r"[^\s(){};,@\"«»:]+"
ANY = r"[\w`'-]"


def read(path):
    with open(path, encoding="utf-8") as it:
        return it.read()


def write(path, text):
    os.makedirs(os.path.dirname(path), exist_ok=True)
    with open(path, "w", encoding="utf-8") as it:
        it.write(text)


class Move:
    """One line of moves.txt."""

    def __init__(self, root, line):
        self.crate, self.file, *rest = line.split()
        assert not rest or rest[0] == "keep", line
        self.keep = set(rest[1:])
        self.module = self.file[: -len(".antt")].replace("/", ".")
        self.top = f"{root}/crates/{self.crate}"
        self.old, self.new = f"{self.top}/specs/{self.file}", f"{self.top}/proofs/{self.file}"

    def is_done(self):
        return os.path.exists(self.new)


# ---- module lines


def declare(crate, file):
    """Declares a file of proofs/ in the node files above it."""
    parts = file[: -len(".antt")].split("/")
    for i, name in enumerate(parts):
        node = f"{crate}/proofs/" + ("/".join(parts[:i]) + ".antt" if i else "Lib.antt")
        text = read(node) if os.path.exists(node) else ""
        if not re.search(rf"(?m)^(pub )?mod {re.escape(name)}$", text):
            write(node, text + f"pub mod {name}\n")


def undeclare(crate, file):
    """Takes the line of a file that is gone out of the node file above it, and an empty node file with its own line."""
    parts = file[: -len(".antt")].split("/")
    node = f"{crate}/specs/" + ("/".join(parts[:-1]) + ".antt" if len(parts) > 1 else "Lib.antt")
    write(node, re.sub(rf"(?m)^(pub )?mod {re.escape(parts[-1])}\n", "", read(node)))
    if len(parts) > 1 and not re.sub(r"--[^\n]*|\s", "", read(node)):
        os.remove(node)
        undeclare(crate, "/".join(parts[:-1]) + ".antt")


# ---- a file that is parted


def names(paragraph, indent=""):
    """What a paragraph declares at this indent."""
    found = set()
    for line in paragraph.split("\n"):
        if not line.startswith(indent) or line.startswith(indent + " "):
            continue
        line = line[len(indent) :]
        record = re.match(rf"{WORDS}(?:data|record|ruleset) ({NAME})", line)
        signature = re.match(rf"{WORDS}({NAME}(?: {NAME})*) :(?= |$)", line)
        if record:
            found.add(record[1])
        elif signature and not line.startswith(("use ", "module ", "--")):
            found.update(signature[1].split())
    return found


def items(paragraphs):
    """The paragraphs, those of a module in one list."""
    out = []
    for one in paragraphs:
        lines = [it for it in one.split("\n") if not it.startswith("--")]
        if out and out[-1][0].startswith("module ") and (not lines or lines[0].startswith(" ")):
            out[-1][1].append(one)
        else:
            out.append((lines[0] if lines else "", [one]))
    return out


def parted(head, paragraphs, keep):
    """The texts that stay and that go."""
    stay, go, found = [], [], set()
    for line, ones in items(paragraphs):
        if not line.startswith("module "):
            hit = names(ones[0]) & keep
            assert not hit or names(ones[0]) <= keep, f"one paragraph declares more than {hit}"
            (stay if hit else go).append(ones[0])
            found |= hit
            continue
        top, _, first = ones[0].partition(line + "\n")
        inner = [it for it in [first, *ones[1:]] if it]
        kept = [it for it in inner if names(it, "  ") & keep]
        rest = "\n\n".join(it for it in inner if it not in kept)
        hit = set().union(*(names(it, "  ") for it in kept))
        assert hit <= keep, f"one paragraph declares more than {hit & keep}"
        found |= hit
        if kept:
            stay.append(f"{top}{line}\n" + "\n\n".join(kept))
            given = " ".join(x for group in re.findall(r"\(([^()]*?) :", line) for x in group.split())
            for name in hit:
                rest = with_arguments(rest, name, given)
        if rest:
            go.append(f"{top}{line}\n{rest}")
    assert found == keep, f"not declared: {keep - found}"
    body = re.sub(r"--.*", "", "\n\n".join(stay))
    return "\n\n".join([*(needed(it, body) for it in head), *stay]) + "\n", go


def with_arguments(text, name, given):
    """The text with the module's arguments behind a name that no longer stands in the module."""
    at = rf"(?<![\w.`-]){re.escape(name)}(?!{ANY})"
    out = []
    for line in text.split("\n"):
        if not line.strip().startswith("unfolding "):
            line = re.sub(at + r"(?= [\w(])", f"{name} {given}", line)
            line = re.sub(at + f"(?! {re.escape(given)})", f"({name} {given})", line)
        out.append(line)
    return "\n".join(out)


def needed(head, body):
    """The head with no import that the body doesn't name."""

    def is_used(name):
        name = name.split(" as ")[-1]
        if "◌" in name:
            return all(it in body for it in name.split("◌") if it)
        return re.search(rf"(?<![\w-]){re.escape(name)}(?!{ANY})", body)

    out = []
    for line in head.split("\n"):
        use = re.match(r"((?:pub )?use [^{]*\{)([^}]*)\}$", line)
        if use:
            left = [it for it in re.split(r",\s*", use[2]) if is_used(it)]
            line = use[1] + ", ".join(left) + "}" if left else None
        if line is not None:
            out.append(line)
    return "\n".join(out)


def part(move):
    """Parts a file: what is kept stays, the rest goes."""
    paragraphs = re.split(r"\n\n+", read(move.old).rstrip("\n"))
    head = []
    while paragraphs and all(re.match(r"--|(pub )?use |\s*$", it) for it in paragraphs[0].split("\n")):
        head.append(paragraphs.pop(0))
    stays, go = parted(head, paragraphs, move.keep)
    own = f"use Rattle.{move.crate}.specs.{move.module}.{{{', '.join(sorted(move.keep))}}}"
    write(move.new, "\n\n".join([*head[:-1], f"{head[-1]}\n{own}", *go]) + "\n")
    write(move.old, stays)


# ---- imports


def turned(text, moves):
    """The text with its imports turned to where the names stand now."""
    for move in moves:
        module = rf"Rattle\.{move.crate}\.specs\.{re.escape(move.module)}"
        if not move.keep:
            text = re.sub(module + r"(?![\w-])", f"Rattle.{move.crate}.proofs.{move.module}", text)
            continue

        def lines(found):
            words = re.split(r",\s*", found[2].strip())
            out = []
            for side, is_here in (("specs", True), ("proofs", False)):
                some = [it for it in words if (it.split(" as ")[0] in move.keep) == is_here]
                if some:
                    out.append(f"{found[1]}use Rattle.{move.crate}.{side}.{move.module}.{{{', '.join(some)}}}{found[3]}")
            return "\n".join(out)

        text = re.sub(rf"(?m)^(\s*(?:pub |ghost )?)use {module}\.\{{([^}}]*)\}}(;?)$", lines, text)
    return text


def main(root):
    lines = [re.sub(r"#.*", "", it).strip() for it in read(f"{HERE}/moves.txt").split("\n")]
    moves = [Move(root, it) for it in lines if it]
    for move in moves:
        if move.is_done():
            continue
        if move.keep:
            part(move)
        else:
            os.makedirs(os.path.dirname(move.new), exist_ok=True)
            os.rename(move.old, move.new)
            undeclare(move.top, move.file)
            if not os.listdir(os.path.dirname(move.old)):
                os.rmdir(os.path.dirname(move.old))
        declare(move.top, move.file)
        print(f"{move.crate}: {move.file} is in proofs/" + (f"; kept in specs/: {', '.join(sorted(move.keep))}" if move.keep else ""))
    count = 0
    for ends in ("specs/**/*.antt", "proofs/**/*.antt", "src/**/*.rt"):
        for path in sorted(glob.glob(f"{root}/crates/*/{ends}", recursive=True)):
            text = read(path)
            new = turned(text, [it for it in moves if path not in (it.old, it.new) or not it.keep])
            if new != text:
                write(path, new)
                count += 1
            crate = os.path.relpath(path, f"{root}/crates").split("/")[0]
            if "/proofs/" not in os.path.relpath(path, root) and re.search(rf"use Rattle\.{crate}\.proofs\.", new):
                print(f"mend by hand: {os.path.relpath(path, root)} names its own crate's proofs/")
    print(f"imports turned in {count} files")
    # pages say `CRATE/specs/Theorems`
    for path in sorted(glob.glob(f"{root}/docs/*.md") + glob.glob(f"{root}/*.md")):
        text = new = read(path)
        for move in moves:
            at = rf"\b{move.crate}/specs/{re.escape(move.file[: -len('.antt')])}(?![\w/-])"
            if move.keep:
                for line in re.findall(rf"(?m)^.*{at}.*$", new):
                    print(f"look: {os.path.relpath(path, root)} names {move.crate}/specs/{move.file}, which was parted: {line[:120]}")
            else:
                new = re.sub(at, f"{move.crate}/proofs/{move.file[: -len('.antt')]}", new)
        if new != text:
            write(path, new)
            print(f"paths turned in {os.path.relpath(path, root)}")


main(sys.argv[1] if len(sys.argv) > 1 else os.path.dirname(HERE))
