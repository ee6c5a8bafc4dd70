"""Counts what docs/DESIGN-PASS.md counts in the Rattle code of crates/*/src, in the checkout or at a commit.

    python3 tools/design_counts.py [COMMIT] [--list]

Point 2 looks for functions whose bodies are the same but for types, sizes and constants; point 5 for clauses of three or more functions and for parameters that travel
together in three or more; the others are searches of lines.
"""

import re
import subprocess
import sys
from collections import defaultdict


def sources(commit):
    """The path and text of each Rattle file of crates/*/src."""
    listed = ["git", "ls-tree", "-r", "--name-only", commit] if commit else ["git", "ls-files", "-co", "--exclude-standard"]
    paths = subprocess.run(listed, capture_output=True, text=True, check=True).stdout.split("\n")
    for path in paths:
        if re.fullmatch(r"crates/\w+/src/.*\.rt", path):
            if commit:
                text = subprocess.run(["git", "show", f"{commit}:{path}"], capture_output=True, text=True, check=True).stdout
            else:
                try:
                    text = open(path).read()
                except FileNotFoundError:
                    continue
            yield path, text


def functions(text):
    """Name, parameters, clauses and body of each function."""
    for found in re.finditer(r"(?m)^(?: *)(?:pub )?(?:extern \"C\" )?fn (\w+)", text):
        start = found.end()
        open_at = text.find("(", start)
        depth, at = 0, open_at
        while at < len(text):
            depth += {"(": 1, ")": -1}.get(text[at], 0)
            at += 1
            if depth == 0:
                break
        parameters = text[open_at + 1 : at - 1]
        behind = text[at:]
        body = re.search(r"(?m)^ *\{$|\{\n", behind)
        if not body:
            continue
        clauses = re.findall(r"(?m)^ +(requires|ensures)( \w+)? \{ (.*) \}$", behind[: body.start() + 1])
        rest = behind[body.end() :]
        depth, end = 1, 0
        for end, letter in enumerate(rest):
            depth += {"{": 1, "}": -1}.get(letter, 0)
            if depth == 0:
                break
        yield found.group(1), parameters, [(kind, fact) for kind, _, fact in clauses], rest[:end]


def fronts(text):
    """Local arrays of which a part from the start on is taken later, and arrays in a struct beside a count of theirs."""
    for found in re.finditer(r"let mut (\w+)(?:: \[\w+; \d+\])? = (?:\[\w+; \d+\]|\w+\(\));", text):
        if re.search(rf"\b{found.group(1)}\[\.\.\w", text[found.end() :].split("\n}\n")[0]):
            yield found.group(1)
    for found in re.finditer(r"(?m)^pub struct (\w+) \{\n((?:    .*\n)+)\}", text):
        if re.search(r"(?:count|months): usize", found.group(2)):
            for field in re.findall(r"pub (\w+): \[\w+; \d+\]", found.group(2)):
                yield f"{found.group(1)}.{field}"


TYPES = r"\b(?:u8|u16|u32|u64|usize|i8|i16|i32|i64|bool|[A-Z]\w*)\b"


def shape(body):
    """A body without comments, in which each number and type is one word, and each name is told only by where it comes first."""
    body = re.sub(r"//[^\n]*", "", body)
    body = re.sub(r"\b\d[\d_]*(?:[iu]\d+)?\b", "9", body)
    body = re.sub(TYPES, "Type", body)
    names = {}
    words = {"let", "mut", "if", "else", "return", "match", "for", "in", "while", "as", "Type", "9", "len", "true", "false"}

    def named(found):
        word = found.group(0)
        return word if word in words else names.setdefault(word, f"n{len(names)}")

    return re.sub(r"\s+", " ", re.sub(r"\b[a-z_]\w*\b", named, body)).strip()


SEARCHES = {
    "1 own enums of the shape of Result or Option": r"^\s*(?:pub )?enum (?:\w*Answer|Check|Judged)\b",
    "1 a flag with a value beside it": r"^\s*(?:pub )?(?:check: Check|good: bool),$",
    "1 numbers for refusals": r"^\s*pub number: u8,|^pub const \w+: Refusal\b|number: u8[,)]",
    "3 loops that count an index by hand": r"^\s*while ",
    "4 equality, order or printing written by hand": r"\.\w+ == \w+\.\w+ && |fn print_(?:refusal|bad|number)\w*\(|impl (?:PartialEq|Ord|Clone)\b",
    "6 sorted lists searched by hand": r"^\s*while low",
    "7 switches on steps, tables of functions": r"\bfn\(|\bmatch step\b|\[fn",
}


def main():
    arguments = [a for a in sys.argv[1:] if a != "--list"]
    listing = "--list" in sys.argv
    files = list(sources(arguments[0] if arguments else None))
    for name, pattern in SEARCHES.items():
        hits = [f"{path}:{number}: {line.strip()}" for path, text in files for number, line in enumerate(text.split("\n"), 1) if re.search(pattern, line) and not line.lstrip().startswith("//")]
        print(f"{name}: {len(hits)}")
        if listing:
            print("\n".join("    " + hit for hit in hits))
    rooms = [f"{path}: {name}" for path, text in files for name in fronts(text)]
    print(f"6 arrays of which a front counts, whose length stands beside them: {len(rooms)}")
    if listing:
        print("\n".join("    " + room for room in rooms))
    shapes, clauses, groups = defaultdict(list), defaultdict(set), defaultdict(set)
    for path, text in files:
        for name, parameters, facts, body in functions(text):
            where = f"{path}::{name}"
            if len([line for line in body.split("\n") if line.strip()]) >= 3:
                shapes[shape(body)].append(where)
            for kind, fact in facts:
                clauses[fact].add(where)
            listed = [re.sub(r"\s+", " ", p.strip()) for p in re.sub(r"//[^\n]*", "", parameters).split(",") if p.strip()]
            for at in range(len(listed)):
                for end in range(at + 2, len(listed) + 1):
                    groups[tuple(listed[at:end])].add(where)
    twins = {k: v for k, v in shapes.items() if len(v) > 1}
    print(f"2 functions whose body another one has, but for types, sizes, constants and names: {sum(len(v) for v in twins.values())} in {len(twins)} groups")
    if listing:
        for members in twins.values():
            print("    " + "; ".join(members))
    often = {k: v for k, v in clauses.items() if len(v) >= 3}
    print(f"5 facts that stand in the contracts of three or more functions: {len(often)}, in {sum(len(v) for v in often.values())} places")
    if listing:
        for fact, members in sorted(often.items(), key=lambda item: -len(item[1])):
            print(f"    {len(members)}: {fact}")
    together = {k: v for k, v in groups.items() if len(v) >= 3}
    widest = [k for k in together if not any(k != o and len(o) > len(k) and together[o] == together[k] and any(o[i : i + len(k)] == k for i in range(len(o))) for o in together)]
    print(f"5 runs of parameters that travel together through three or more functions: {len(widest)}")
    if listing:
        for run in sorted(widest, key=lambda r: -len(together[r])):
            print(f"    {len(together[run])}: {', '.join(run)}")


if __name__ == "__main__":
    main()
