#!/usr/bin/env python3
"""Writes the proofs of a crate in today's form: a Proof.antt that hands its answers to `tie.spec` becomes Invariants.antt and Answers.antt.

usage: tools/to_answers.py NAMES CRATE..

NAMES is the folder of names.json files, NAMES/CRATE/names.json, which `rt check --generated NAMES/CRATE --old-names` writes in crates/CRATE.
Answers that only search are left out: the check finds them. What it cannot turn it leaves, and says so.
"""
import json
import os
import re
import sys

NAME = r"[^\s(){}.;,@\"«»:]+"
TOKEN = re.compile(r"[^\s(){}.;,@\"«»]+")
OWN = {"type-inv": "type_inv", "well-formed": "well_formed", "x-is": "x-is", "len-below": "len_below", "len-at-least": "len_at_least"}
TRIVIAL = re.compile(r"^\s*(?:let [^=]* = [^=]* in\s*)?(?:search rules(?: depth \d+)?|search \(rules\)|tt)\s*$")


def norm(name):
    return name.replace("_", "-")


def blocks(text):
    """The declarations of a file: (comment, name, signature, clauses), uses and other text apart."""
    uses, out, comment, cur = [], [], [], None
    for line in text.splitlines():
        if re.match(r"(pub )?use ", line):
            uses.append(line)
            cur = None
            continue
        if line.startswith("--"):
            comment.append(line)
            cur = None
            continue
        if not line.strip():
            continue
        m = re.match(r"((?:abbrev |pub |unfoldable |opaque )*)(" + NAME + r") :(?: (.*)|)$", line)
        if m and not line.startswith(" "):
            cur = {"comment": comment, "mods": m.group(1), "name": m.group(2), "lines": [line], "sig": m.group(3) or ""}
            comment = []
            out.append(cur)
            continue
        if cur is None:
            cur = {"comment": comment, "mods": "", "name": "", "lines": [line], "sig": ""}
            comment = []
            out.append(cur)
            continue
        cur["lines"].append(line)
    for d in out:
        if d["name"] and not d["sig"]:
            more = []
            for line in d["lines"][1:]:
                if not line.startswith(" "):
                    break
                more.append(line.strip())
            d["sig"] = " ".join(more)
    return uses, out, comment


def split_args(text):
    """The arguments of an application, by parentheses."""
    args, depth, cur = [], 0, ""
    for c in text:
        if c in "({[":
            depth += 1
        if c in ")}]":
            depth -= 1
        if c.isspace() and depth == 0:
            if cur:
                args.append(cur)
            cur = ""
        else:
            cur += c
    if cur:
        args.append(cur)
    return args


def tuple_parts(text):
    """The parts of a tuple `(a, b)`, or None."""
    text = text.strip()
    if not text.startswith("("):
        return None
    parts, depth, cur = [], 0, ""
    for i, c in enumerate(text):
        if c in "({[":
            depth += 1
            if depth == 1:
                continue
        if c in ")}]":
            depth -= 1
            if depth == 0:
                if text[i + 1 :].strip():
                    return None
                break
        if c == "," and depth == 1:
            parts.append(cur.strip())
            cur = ""
        else:
            cur += c
    parts.append(cur.strip())
    parts = [p for p in parts if p]
    return parts if len(parts) > 1 else None


def named(body, fields):
    """A tuple at the end of a body as a record of the clauses' names."""
    m = list(re.finditer(r"(?:^|\s)in(?=\s)", body))
    at = 0
    for k in reversed(m):
        head = body[: k.end()]
        if head.count("(") == head.count(")"):
            at = k.end()
            break
    tail = body[at:]
    parts = tuple_parts(tail)
    begin = ""
    if not parts:
        # `rw L (a, b)`: the tuple is the last argument
        m = re.match(r"\s*(?:rw|simp) ", tail)
        s = tail.rstrip()
        if m and s.endswith(")"):
            depth = 0
            for i in range(len(s) - 1, -1, -1):
                depth += (s[i] in ")}]") - (s[i] in "({[")
                if depth == 0:
                    break
            parts = tuple_parts(s[i:])
            begin = s[:i]
    if parts:
        while len(parts) < len(fields):
            more = tuple_parts(parts[-1])
            if not more:
                return None
            parts = parts[:-1] + more
        if len(parts) != len(fields):
            return None
    elif re.match(r"\s*(?:rw|simp|search|elim|λ|omega|cc|grind)\b", tail):
        return None
    else:
        t = tail.strip()
        parts = [f"({t})" + ".1" * i + (".0" if i + 1 < len(fields) else "") for i in range(len(fields))]
    made = "record { " + "; ".join(f"{f} = {p}" for f, p in zip(fields, parts)) + " }"
    return body[:at] + (begin + "(" + made + ")" if begin else " " + made)


TOLD = re.compile(r"_told\d*(?:-|$)|shared_slice_known|_known\d*(?:-|$)")


class Function:
    def __init__(self, names, crate, path, ensures):
        self.ensures, self.given = ensures
        d = names.get(f"Rattle-{crate}-proofs.{path}.Lts")
        self.known = d is not None
        if d is None:
            return
        self.needs = {norm(a): b for a, b in d["needs"]}
        self.cited = {}
        self.order = d["needs"]
        self.asked = d.get("asked") or {}
        self.steps, self.places, self.clauses = {}, {}, {}
        self.parent = {norm(p[0]): norm(p[1]) if p[1] else None for p in d["places"]}
        self.steps_of = {norm(p[0]): p[2][1] for p in d["places"] if p[2]}
        self.arm = {norm(p[0]): arm[0] if arm else None for p, arm in zip(d["places"], d["arms"])}
        self.raw = {norm(p[0]): p[0] for p in d["places"]}
        self.params = {p[2][1]: (d.get("params") or {}).get(p[3]) for p in d["places"] if p[3]}
        self.by_lts = False
        self.short = {}
        self.arms = sorted({("." + norm(step) + "." + ".".join(way), f".{arm[0]}.{new}") for arm in d["arms"] if arm for new, step, way in arm[2] if way and not new.endswith("-own")}, key=lambda x: -len(x[0]))
        calls = any(p[3] for p in d["places"])
        named = self.asked or any(d["clauses"]) or d.get("pre")
        self.claims = (" tie.the-claims" if calls else "") + " reads.Pre reads.Post" + "".join(f" goal.the-invariant-{b} goal.the-decreases-{b}" for (a, b), v in d["loops"]) + (" tie.handed_clauses" if named else "")
        self.viewed = {norm(p[0]): bool(v) for p, v in zip(d["places"], d["typed"])}
        self.at = {b: norm(a[0]) for (_, b), a in zip(d["needs"], d["asked_at"])}
        for i, p in enumerate(d["places"]):
            self.places[norm(p[0])] = d["places_by_name"][i]
            if p[2] and p[2][0]:
                if not re.search(r"-1$", p[2][1]):
                    self.steps[norm(p[2][0])] = p[2][1]
                if d["clauses"][i] and d["clauses"][i].get("fields"):
                    self.clauses[p[2][1]] = d["clauses"][i]["fields"]
        self.loops = [(a, b, v, d["changed"][i]) for i, ((a, b), v) in enumerate(d["loops"])]
        self.bits = {(p[2][1], a): b for p in d["places"] for a, b in p[4] if b == a + "-bits"}
        self.pre = (d.get("pre") or {}).get("fields")
        self.args = {a: b for a, b in d["args"]} if d["args"] and isinstance(d["args"][0], list) else {}

    def chain(self, text, env, goal=None):
        """Paths by `.before`: a field is named at once, and a place is reached over the places that are left."""
        # a name for a place is written out, so that each path begins at the goal
        for _ in range(99):
            m = next((m for m in reversed(list(re.finditer(r"(?<![\w'])let ([^\s(){}.;,:]+) = ([A-Za-z_][\w'-]*)((?:\.before(?![\w'-]))+) in(?: |(\n) *)", text))) if m.group(2) in env), None)
            if not m:
                break
            head, rest = text[: m.start()], text[m.end() :]
            rest = re.sub(r"(?<![\w.'₀-])" + re.escape(m.group(1)) + r"(?![\w'₀-])(?! : )", lambda _m: m.group(2) + m.group(3), rest)
            text = head + rest

        def up(at, k):
            for _ in range(k):
                at = self.parent.get(at) if at else None
            return at

        def steps(a, b):
            n = 1 if goal and self.viewed.get(a) and (a != b or self.by_lts) else 0
            while a and a != b:
                at, a = self.arm.get(a), self.parent.get(a)
                n += not (at and at == self.arm.get(a))
            return n

        def one(m):
            name, befores, rest = m.group(1), m.group(2), m.group(3)
            if name not in env:
                return m.group(0)
            line = text[text.rfind("\n", 0, m.start()) + 1 : m.start()]
            after = text[m.end() : m.end() + 40]
            if not befores and not rest and re.match(r"[^\s(){}:=]+(?: [^\s(){}:=]+)* $", line) and re.match(r"(?: [^\s(){}:=]+)* =\s", after):
                return m.group(0)
            for old, new in self.arms:
                if rest and (norm(rest) == old or norm(rest).startswith(old + ".")):
                    rest = new + rest[len(old) :]
                    return name + rest
            if rest and re.search(r"\.given\.1$", rest):
                arm = env[name]
                while arm and not re.match(r"in[-_]", self.steps_of.get(arm, "")):
                    arm = self.parent.get(arm)
                if arm:
                    return f"{name}.{self.steps_of[arm]}.is"
            if rest and re.search(r"\.given$", rest):
                return "(omega arith)"
            q = up(env[name], befores.count(".before"))
            if not q:
                return m.group(0)
            if rest:
                return name + rest
            while TOLD.search(self.places.get(q, "")) and self.parent.get(q):
                q = self.parent[q]
            return name + ".before" * steps(env[name] if goal else self.standing(env[name]), q)

        return re.sub(r"(?<![\w.'₀-])([A-Za-z_][\w'-]*)((?:\.before(?![\w'-]))*)((?:\.[^\s(){}.;,]+)*)(?![\w'])(?! :)", one, text)

    def standing(self, n):
        """A place that holds something: one at which Rattle was told of a value only is none."""
        while n and TOLD.search(self.places.get(n, "")) and self.parent.get(n):
            n = self.parent[n]
        return n

    def binders(self, text):
        """The variables of a declaration that stand for places."""
        env = {}
        for m in re.finditer(r"\(([^\s(){}:]+) : ([^\s(){}.;,]+)\)", text):
            if m.group(2) in self.short:
                env[m.group(1)] = self.short[m.group(2)]
        for m in re.finditer(r"\(([^\s(){}:]+) : (?:lts|tie)\.([^\s(){}.;,]+)", text):
            if norm(m.group(2)) in self.places:
                env[m.group(1)] = norm(m.group(2))
        for m in re.finditer(r"^(?:abbrev |pub )*([^\s(){}:]+) : (?:(?:lts|tie)\.)?([^\s(){}.;,]+)[^→\n]*→", text, re.M):
            place = norm(m.group(2)) if norm(m.group(2)) in self.places else self.short.get(m.group(2))
            clause = re.search(r"^" + re.escape(m.group(1)) + r" ([A-Za-z][\w']*)", text, re.M)
            if place and clause:
                env[clause.group(1)] = place
        for m in re.finditer(r"^\s+(?:abbrev |pub )*([^\s(){}:]+) : (?:lts|tie)\.([^\s(){}.;,]+)", text, re.M):
            if norm(m.group(2)) in self.places:
                env[m.group(1)] = norm(m.group(2))
        return env

    def terms(self, text, env, goal=None):
        """A term with today's names."""
        used = set()
        text = self.chain(text, env, goal)

        def place(m):
            n = norm(m.group(1))
            while n and TOLD.search(self.places.get(n, "")) and self.parent.get(n):
                n = self.parent[n]
            raw = self.raw.get(n)
            n = self.places.get(n)
            if not n:
                return m.group(0)
            if self.by_lts:
                return f"lts.{raw}{self.claims}"
            used.add(n)
            return n

        text = re.sub(r"\b(?:lts|tie)\.((?:At|In|After|Then|Else|Start|Joined|Case)[^\s(){}.;,]*)((?: called)?(?: \([^()]*\))?(?: reads\.Pre reads\.Post)?(?: (?:invariant|decreases)[^\s(){}.;,]*)*)", place, text)

        def step(m):
            w, i = m.group(0), m.start()
            if not (i and text[i - 1] == "."):
                return self.cited.get(w, w)
            n = norm(w)
            m2 = re.search(r"([.]?)([^\s(){}.;,]+)\.$", text[:i])
            before = m2.group(2) if m2 and m2.group(1) else ""
            if before in ("args", "ranges", "new", "initial", "auto", "entry", "type_inv", "type-inv") or before in self.steps.values() or norm(before) in self.steps:
                return OWN.get(n, w)
            if n in OWN:
                return OWN[n]
            if n in self.args:
                return self.args[n]
            if n in self.steps and (text[m.end() : m.end() + 1] == "." or n.startswith(("loop", "if")) or re.search(r"let [^\s(){}]+ = (?:[^\s(){};,]+\.)$", text[:i])):
                return self.steps[n]
            return w

        text = TOKEN.sub(step, text)
        path = r"(?:[^\s(){}.;,]+\.)*[^\s(){}.;,]+"
        text = re.sub(r"(\.loop[^\s(){}.;,]*)\.inv\b", r"\1.invariant", text)
        text = re.sub(r"\.pre(?= )", ".requires", text)
        text = re.sub(r"\.fits\.(?=[a-z])", ".ranges.", text)
        text = re.sub(r"(?<![\w.'-])([A-Za-z][\w'-]*)(?:\.before)+\.(args|ranges|requires)\b", r"\1.\2", text)
        text = re.sub(r"\.args\.(\w+)-1\b", r".args.\1", text)

        def lent(m):
            params = self.params.get(m.group(1)) or []
            k = m.group(3).count(".1")
            return f".{m.group(1)}.{m.group(2)}.{params[k]}" if k < len(params) else m.group(0)

        text = re.sub(r"\.([^\s(){}.;,]+)\.(new|auto)((?:\.1)*)\.0(?![\w.'-]*\w)", lent, text)
        text = re.sub(r"\bfits_of (" + path + r") " + path + r"told[^\s(){};,]*\.given[^\s(){};,]*", r"fits_of \1 (omega arith)", text)
        text = re.sub(r"(?<=\.args\.)t(\d+)\b", lambda m: self.given[int(m.group(1)) - 1] if int(m.group(1)) <= len(self.given) else m.group(0), text)
        text = re.sub(r"\bap not \(sym (" + path + r")\) ∙ (" + path + r"\.if-not-[^\s(){}.;,]+\.(?:true|false))", r"ap not (sym \1 ∙ \2)", text)
        tested = path + r"\.if-not-[^\s(){}.;,]+\.(?:true|false)"
        text = re.sub(r"\bnot-(?:true|false) " + path + r" (\(" + tested + r"\)|" + tested + r")(?![\w.'-])", lambda m: m.group(1).strip("()"), text)
        text = re.sub(r"\bback (" + path + r") " + path + r"told[^\s(){};,]*\.given[^\s(){};,]*", r"back \1 (omega arith)", text)
        text = re.sub(r"\((fits_of _ )?" + path + r"\.given\)", r"(\1(omega arith))", text) if False else text
        for (s, a), b in self.bits.items():
            path = r"(?:[^\s(){}.;,]+\.)+" + re.escape(s) + r"\." + re.escape(a) + r"(?![\w'-])"
            text = re.sub(path, lambda m: m.group(0)[: -len(a)] + b, text)
        text = re.sub(r"\bto_z-of_z \(", r"to_z-of_z {w = w64} (", text)
        if self.pre:
            text = re.sub(r"\.(?:requires|pre)((?:\.[01](?![\w-]))+)", lambda m: ".requires" + chain(m.group(1), self.pre), text)
        for s, fields in self.clauses.items():
            text = re.sub(r"\." + re.escape(s) + r"\.ensures((?:\.[01](?![\w-]))+)", lambda m: f".{s}.ensures" + chain(m.group(1), fields), text)
        return text, used


def chain(text, fields):
    """`.1.0` among three clauses a, b, c is `.b`; what is left goes on."""
    digits = [int(x) for x in text.split(".")[1:]]
    at = 0
    while digits and at < len(fields) - 1:
        d = digits.pop(0)
        if d == 0:
            return "." + fields[at] + "".join(f".{x}" for x in digits)
        at += 1
    return "." + fields[at] + "".join(f".{x}" for x in digits)


def contracts(crate):
    """The names of each function's `ensures`, and of its parameters, by the function's path."""
    out = {}
    src = os.path.join("crates", crate, "src")
    for folder, _, names in os.walk(src):
        for n in names:
            if not n.endswith(".rt"):
                continue
            p = os.path.relpath(os.path.join(folder, n), src)[:-3]
            mod = "" if p in ("lib", "main") else p.replace("/", ".").removesuffix(".mod") + "."
            text = open(os.path.join(folder, n), encoding="utf-8").read()
            for m in re.finditer(r"^(?:pub )?(?:extern \"C\" )?fn (\w+)[^\n]*((?:\n(?!\{|\}|fn|pub).*)*)", text, re.M):
                head = re.split(r"\n    (?:requires|ensures)", m.group(0))[0]
                out[mod + m.group(1)] = (re.findall(r"ensures (\w+) \{", m.group(0)), re.findall(r"[(,]\s*(?:mut )?(\w+): ", head))
    return out


def turn(names, crate, folder, said, ensures):
    path = os.path.relpath(folder, os.path.join("crates", crate, "proofs")).replace("/", ".")
    text = open(os.path.join(folder, "Proof.antt"), encoding="utf-8").read()
    if "tie.spec" not in text:
        said.append(f"left: {folder}: a walk by hand")
        return
    f = Function(names, crate, path, ensures.get(path, ([], [])))
    if not f.known:
        said.append(f"left: {folder}: no names")
        return
    uses, decls, _ = blocks(text)
    head = []
    for line in text.splitlines():
        if not line.startswith("--"):
            break
        head.append(line)
    if decls and decls[0]["comment"][: len(head)] == head:
        decls[0]["comment"] = decls[0]["comment"][len(head) :]
    invariants, answers, used, helpers = [], [], set(), []
    spec_args = None
    def goal_of(d):
        m = re.match(r"tie\.Need-(\S+)", d["sig"])
        if not m:
            return None
        n = norm(m.group(1))
        return f.needs.get(n) or f.needs.get(re.sub(r"^(overflow|nonzero)-", "", n))

    # a lemma over a place that holds structs by value is stated over the place itself
    for d in decls:
        m = re.search(r"^" + re.escape(d["name"] or "-") + r" = (?:lts|tie)\.([^\s(){}.;,]+)", "\n".join(d["lines"]), re.M)
        if m and norm(m.group(1)) in f.places:
            f.short[d["name"]] = norm(m.group(1))
            f.by_lts |= bool(f.viewed.get(norm(m.group(1))))
        if not goal_of(d):
            for m in re.finditer(r"\((?:[^\s(){}:]+) : (?:lts|tie)\.([^\s(){}.;,]+)", "\n".join(d["lines"])):
                f.by_lts |= bool(f.viewed.get(norm(m.group(1))))
    words = set()
    for d in decls:
        if "tie.spec" in "\n".join(d["lines"]):
            continue
        for x in d["lines"]:
            words.update(w for w in TOKEN.findall(x) if w != d["name"])
    f.cited = {d["name"]: goal_of(d) for d in decls if goal_of(d) and d["name"] in words}
    for d in decls:
        body = "\n".join(d["lines"])
        sig = " ".join(x.strip() for x in d["lines"] if True)
        comment = [c for c in d["comment"] if not re.match(r"-- -+", c)]
        m = re.match(r"tie\.(invariant|decreases)-(\S+)", d["sig"])
        if m:
            loop = next((x for x in f.loops if norm(x[0]) == norm(m.group(2))), None)
            if not loop:
                said.append(f"left: {folder}: {d['name']}")
                continue
            _, new, variables, changed = loop
            clause = re.search(r"^" + re.escape(d["name"]) + r"((?: \S+)*) =(?=\s)(.*)", body, re.M | re.S)
            if not clause:
                said.append(f"left: {folder}: {d['name']} has another form")
                continue
            params = clause.group(1).split()
            term = clause.group(2).strip()
            bits = {v: f.bits.get((new, v), v) for v in variables}
            values = [("l.initial." if c else "l.") + v for v, c in zip(variables, changed)] + ["l." + v for v, c in zip(variables, changed) if c]
            raw = [v if bits[x] == x else f"(of_z w64 {v})" for v, x in zip(values, variables + [x for x, c in zip(variables, changed) if c])]
            if len(values) != len(params):
                said.append(f"look: {folder}: {d['name']} has {len(params)} parameters, and {len(values)} were expected: {values}")
            for p, v, b in sorted(zip(params, values, raw), key=lambda x: -len(x[0])):
                if p != "_":
                    term = re.sub(r"\bto_z w\d+ " + re.escape(p) + r"(?![\w'₀-])", v, term)
                    term = re.sub(r"(?<![\w.'₀-])" + re.escape(p) + r"(?![\w'₀-])", b, term)
            n = f"{m.group(1)}-{new}"
            sep = "\n    " if "\n" in term else " "
            invariants.append("\n".join(comment + [f"abbrev pub {n} : goal.{n}", f"{n} l ={sep}{term}"]))
            continue
        m = re.match(r"tie\.Need-(\S+)", d["sig"])
        if m:
            new = goal_of(d)
            if not new:
                said.append(f"left: {folder}: {d['name']} : Need-{m.group(1)} has no goal")
                continue
            if TOLD.search(new) and d["name"] not in f.cited:
                continue
            unf = [x for x in d["lines"] if x.startswith("unfolding")]
            clause = re.search(r"^" + re.escape(d["name"]) + r" (\S+)((?: \S+)*?) =(?=\s)(.*)", body, re.M | re.S)
            if not clause:
                clause = re.search(r"^" + re.escape(d["name"]) + r"() ?((?: \S+)*?)=(?=\s)(.*)", body, re.M | re.S)
            if not clause:
                said.append(f"left: {folder}: {d['name']} has another form")
                continue
            term = clause.group(3)
            if TRIVIAL.match(term) and not unf and d["name"] not in f.cited:
                continue
            term, u = f.terms(term, {clause.group(1): f.at.get(new)}, new)
            used |= u
            fields = f.asked.get(m.group(1)) or f.asked.get(norm(m.group(1))) or next((v for k, v in f.asked.items() if norm(k) == norm(m.group(1))), None)
            if new.startswith("returns") and len(f.ensures) > 1:
                fields = f.ensures
            if fields and len(fields) > 1:
                other = named(term, fields)
                if other:
                    term = other
                else:
                    said.append(f"look: {folder}: {new} has the clauses {fields}")
            more = clause.group(2)
            more = re.sub(r" κs$", "", more)
            answers.append("\n".join(comment + [f"pub {new} : goal.{new}"] + unf + [f"{new} {clause.group(1)}{more} ={term.rstrip()}"]))
            continue
        if "statement" in d["sig"] or re.search(r"\btie\.spec\b", body):
            t = body[body.index("tie.spec") + 8 :]
            t = re.sub(r"--[^\n]*", "", t)
            while t.count(")") > t.count("("):
                t = t.rstrip()[:-1]
            spec_args = split_args(t)
            continue
        if d["name"] == "called" or re.match(r"lts\.Claims", d["sig"]):
            continue
        body, u = f.terms(body, f.binders(body))
        used |= u
        if d["name"] in u and re.search(r"^" + re.escape(d["name"]) + r" = " + re.escape(d["name"]) + r"\s*$", body, re.M):
            continue
        helpers.append((d["name"], "\n".join(comment + [body]), u, d["mods"]))
        answers.append(helpers[-1])
    if spec_args:
        rest = [a for a in spec_args if not re.match(r"(invariant|decreases)", a) and a != "called"]
        if len(rest) != len(f.order):
            said.append(f"look: {folder}: tie.spec has {len(rest)} answers, and there are {len(f.order)} goals")
        for a, (_, new) in zip(rest, f.order):
            m = re.match(r"\(λ (\S+)\.(.*)\)$", a, re.S)
            if m and not TRIVIAL.match(m.group(2)):
                term, u = f.terms(m.group(2), {m.group(1): f.at.get(new)}, new)
                used |= u
                fields = next((v for k, v in f.asked.items() if norm(k) == norm(_)), None)
                if fields and len(fields) > 1:
                    term = named(term, fields) or term
                term = re.sub(r"^ λ κs\. ", " ", term) if not re.search(r"κs", term[6:]) else term
                answers.append(f"pub {new} : goal.{new}\n{new} {m.group(1)} ={term}")
    # a definition that an invariant names stands beside the invariants
    shared, grown = set(), True
    while grown:
        grown = False
        text_now = "\n".join(invariants) + "\n".join(h[1] for h in helpers if h[0] in shared)
        for h in helpers:
            if h[0] not in shared and not h[2] and h[0] in set(TOKEN.findall(text_now)):
                shared.add(h[0])
                grown = True
    public = lambda h: h[1] if "pub" in h[3] else re.sub(r"^((?:abbrev |unfoldable )*)(" + re.escape(h[0]) + " :)", lambda m: (m.group(1) or "abbrev ") + "pub " + m.group(2) if "abbrev" in m.group(1) or not m.group(1) else m.group(1) + "pub " + m.group(2), h[1], count=1, flags=re.M)
    invariants = [public(h) for h in helpers if h[0] in shared] + invariants
    answers = [a if isinstance(a, str) else a[1] for a in answers if isinstance(a, str) or a[0] not in shared]
    brought = sorted(n for n in shared if n in set(TOKEN.findall("\n".join(answers))))
    for kind, parts in (("Invariants", invariants), ("Answers", answers)):
        if not parts:
            continue
        own = f"Rattle.{crate}.proofs.{path}"
        lines = list(head)
        for u in uses:
            if re.search(re.escape(own) + r"\.(Statement|Tie|Reads|Lts|Code)\b", u):
                continue
            lines.append(u)
        lines.append(f"use {own}.{'Given' if kind == 'Invariants' else 'Goals'} as goal")
        if kind == "Answers" and brought:
            lines.append(f"use {own}.Invariants.{{{', '.join(brought)}}}")
        if kind == "Answers" and f.by_lts:
            lines += [f"use {own}.Lts as lts", f"use {own}.Reads as reads", f"use {own}.Tie as tie"]
        if kind == "Answers" and used:
            lines.append(f"use {own}.Goals.{{{', '.join(sorted(used))}}}")
        body = "\n\n".join(parts)
        if re.search(r"\bw64\b", body) and not any(re.search(r"\bw64\b", x) for x in lines):
            lines.append("use mir.Syntax.{w64}")
        if re.search(r"\barith\b", body) and not any(re.search(r"\barith\b", x) for x in lines):
            lines.append("use native.Mathlib.Omega.{arith}")
        if re.search(r"\bof_z\b", body) and not any(re.search(r"\bof_z\b", x) for x in lines):
            lines.append("use mir.Val.{of_z}")
        lines = [x for x in lines if not x.startswith("use ") or needed(x, body)]
        with open(os.path.join(folder, kind + ".antt"), "w", encoding="utf-8") as out:
            out.write("\n".join(lines) + "\n\n" + body + "\n")
    os.remove(os.path.join(folder, "Proof.antt"))


def needed(use, body):
    """Whether a `use` line brings a word that the text has; a list of names is kept whole."""
    words = set(TOKEN.findall(body))
    m = re.search(r" as (\S+)$", use)
    if m:
        return re.search(r"(?<![\w.-])" + re.escape(m.group(1)) + r"\.", body) is not None
    m = re.search(r"\{([^}]*)\}", use)
    if not m:
        return True
    for n in m.group(1).split(","):
        n = n.strip().split(" as ")[-1]
        parts = [p for p in n.split("◌") if p]
        if "◌" in n:
            if all(any(p in w for w in words) for p in parts):
                return True
        elif n in words:
            return True
    return False


def main(argv):
    top, said = argv[0], []
    for crate in argv[1:]:
        with open(os.path.join(top, crate, "names.json")) as f:
            names = json.load(f)
        ensures = contracts(crate)
        for folder, _, files in sorted(os.walk(os.path.join("crates", crate, "proofs"))):
            if "Proof.antt" in files:
                turn(names, crate, folder, said, ensures)
    print("\n".join(said))
    return 0


if __name__ == "__main__":
    raise SystemExit(main(sys.argv[1:]))
