#!/usr/bin/env python3
"""Turns proofs that walk the code (Proof.antt over a function's Tie) into Invariants.antt and Answers.antt.

usage: python3 tools/answers.py NAMES CRATE [FUNCTION ..]

NAMES is the names.json that 'rt check --generated DIR --old-names' writes in the folder of the crate; CRATE is that folder.
Each goal gets the name that it has today, and each step that an answer cites too. An answer that was a bare search is left
out, since the check tries that itself. What it cannot turn it says, with the path; such a file keeps its name with .old
behind it for reading, and is no part of the crate.
"""

import json
import os
import re
import sys

NAME = r"[^\s(){}.;,@\"«»]+"
PLAIN = {"args", "ranges", "requires", "utf8", "well_formed", "type_inv", "auto"}


def norm(name):
    return re.sub(r"_lem$", "", re.sub(r"[-_]", "_", name).lower())


def split_terms(text):
    """The arguments of a call, at the top level of parentheses."""
    out, depth, now = [], 0, ""
    for ch in text:
        if ch in "([{":
            depth += 1
        if ch in ")]}":
            depth -= 1
            if depth < 0:
                break
        if ch.isspace() and depth == 0:
            if now:
                out.append(now)
            now = ""
        else:
            now += ch
    if now:
        out.append(now)
    return out


def nested(labels, parts):
    """Clause and rest of a path into pairs that nest to the right: 0 is the first, 1.0 the second, 1.1 the last of three."""
    k, n = 0, len(labels)
    parts = list(parts)
    while k < n - 1:
        if not parts or parts[0] not in ("0", "1"):
            return None
        first = parts.pop(0)
        if first == "0":
            return labels[k], parts
        k += 1
    return labels[k], parts


def commas(text):
    """The parts between commas at the top level of a tuple's inside."""
    out, depth, now = [], 0, ""
    for ch in text:
        if ch in "([{":
            depth += 1
        if ch in ")]}":
            depth -= 1
        if ch == "," and depth == 0:
            out.append(now)
            now = ""
        else:
            now += ch
    if now.strip():
        out.append(now)
    return [x.strip() for x in out]


def last_tuple(text):
    """Where the parentheses that end a text begin."""
    text = text.rstrip()
    if not text.endswith(")"):
        return None
    depth = 0
    for i in range(len(text) - 1, -1, -1):
        if text[i] in ")]}":
            depth += 1
        if text[i] in "([{":
            depth -= 1
            if depth == 0:
                return i
    return None


def as_record(text, labels):
    """An answer that ends in a tuple, as a record of the clauses with these names."""
    at = last_tuple(text)
    if at is None:
        return None
    before = text[:at].rstrip()
    if not (before.endswith("=") or re.search(r"(?:^|\s)in$", before)):
        return None
    items = commas(text.rstrip()[at + 1 : -1])
    n = len(labels)
    while len(items) == 2 and len(items) < n or (1 < len(items) < n):
        inner = items[-1]
        if not (inner.startswith("(") and last_tuple(inner) == 0):
            return None
        more = commas(inner[1:-1])
        if len(more) < 2:
            return None
        items = items[:-1] + more
    if len(items) < n:
        return None
    if len(items) > n:
        items = items[: n - 1] + ["(" + ", ".join(items[n - 1 :]) + ")"]
    fields = "; ".join(f"{a} = {b}" for a, b in zip(labels, items))
    return text[:at] + "record { " + fields + " }"


def open_lets(text):
    """A name for an earlier record of facts, as in 'let s = c.before.before in', goes: its facts are c's."""
    while True:
        m = re.search(r"let (\w+) = (c(?:\.before)+) in\s*", text)
        if not m:
            return text
        name, rest = m.group(1), text[m.end() :]
        if re.search(r"(?<![\w.\-])" + name + r"(?![\w.\-])", rest):
            return text
        rest = re.sub(r"(?<![\w.\-])" + name + r"(?=\.)", m.group(2), rest)
        text = text[: m.start()] + rest


def declarations(text):
    """(comment, head line, body lines) of each declaration of a file, its uses and its first comment."""
    text = re.sub(r"(?m)^(use [^\n{]*\{)\n((?:  [^\n]*\n)+)\}", lambda m: m.group(1) + ", ".join(x.strip().rstrip(",") for x in m.group(2).split("\n") if x.strip()) + "}", text)
    uses, decls, head = [], [], []
    now = None
    pending = []
    for line in text.split("\n"):
        if line.startswith("use "):
            if not uses:
                head += pending
            uses.append(line)
            pending = []
            continue
        if not line.strip():
            if pending and now is None and not uses and not decls:
                head += pending
                pending = []
            continue
        if line.startswith("--"):
            pending.append(line)
            continue
        m = re.match(r"(?:abbrev |unfoldable )?(?:pub )?(?:abbrev |unfoldable )?(" + NAME + r"(?: \{[^}]*\})*) :(?: |$)", line)
        if m and not line.startswith(" "):
            now = {"name": m.group(1).split(" ")[0], "lines": [line], "comment": pending}
            decls.append(now)
            pending = []
            continue
        if re.match(r"(?:pub )?(?:module|data|record|ruleset|infix[lr]?) ", line):
            now = {"name": line, "lines": [line], "comment": pending}
            decls.append(now)
            pending = []
            continue
        if now is None:
            head.append(line)
            continue
        if pending and line.startswith(" "):
            now["lines"] += pending
            pending = []
        now["lines"].append(line)
    if pending and not decls:
        head += pending
    return head, uses, decls


class Function:
    def __init__(self, crate, folder, info, labels):
        self.crate, self.folder, self.info, self.labels = crate, folder, info, labels
        self.said = []
        self.cycle = False
        self.places = {p[0]: (i, p) for i, p in enumerate(info["places"])}

    def chain(self, place):
        """The steps before a place, the newest first: (index, old step, new step, callee)."""
        out = []
        while place in self.places:
            i, p = self.places[place]
            if p[2][0]:
                out.append((i, p[2][0], p[2][1], p[3]))
            place = p[1]
            if place is None:
                break
        return out

    def turn_paths(self, text, place, var="c"):
        steps = self.chain(place)

        def one(m):
            befores, step, rest = m.group(1).count(".before"), m.group(2), m.group(3)
            if step == "requires" and self.cycle:
                if rest == ".0":
                    return f"{var}.decreases"
                if rest == ".1" or rest.startswith(".1."):
                    return f"{var}{self.own(step, rest[2:])}"
            if step == "requires":
                own = (self.info.get("pre") or {}).get("fields") or []
                if len(own) > 1 and all(own) and rest:
                    to = nested(own, rest.strip(".").split("."))
                    if to:
                        return ".".join([var, step, to[0]] + to[1])
            if step == "fits" and not any(norm(x[1]) == "fits" for x in steps):
                step = "ranges"
            if re.match(r"if|loop\d*_test", norm(step)):
                rest = re.sub(r"\.taken$", ".true", re.sub(r"\.left$", ".false", rest))
            if norm(step) in PLAIN:
                if step == "requires":
                    return f"{var}{self.own(step, rest)}"
                return f"{var}.{norm(step)}{norm(rest) if norm(step) == 'args' else rest}"
            arm = self.arm(steps, step, rest)
            if arm:
                return f"{var}.{arm}"
            fits = [s for s in steps if norm(s[1]) == norm(step)] or [s for s in steps if norm(s[1]).lower() == norm(step).lower()]
            if not fits:
                bare = re.sub(r"\d+$", "", norm(step))
                self.said.append(f"no step {step} before {place}")
                return f"{var}.{step}{rest}"
            it = fits[0]
            for a, b in self.info["places"][it[0]][4]:
                if rest == "." + a or rest.startswith("." + a + "."):
                    rest = "." + b + rest[len(a) + 1 :]
                    break
            if it[2].startswith("known_told"):
                # what the types say of an arm's values is of that arm's step today
                arms = [s for s in steps if s[2].startswith("in") and s[0] < it[0]]
                if arms:
                    return f"{var}.{arms[0][2]}.{it[2]}-own{rest}"
            if it[2].startswith("in") and re.match(r"\.(keys\d+|rest)\b", rest):
                return f"{var}.{it[2]}.{it[2]}-own{rest}"
            rest = re.sub(r"^\.(type-inv|auto-\d+)\b", lambda m: m.group(0).replace("-", "_"), rest)
            if re.search(r"-arg-\d+$", it[2]):
                rest = re.sub(r"^\.given\.0$", ".given", rest)
            return f"{var}.{it[2]}{self.clause(it[3], self.new_of(it[3], rest), it[0])}"

        # a name that a 'let' gives to a call's step or to its clauses
        for m in list(re.finditer(r"let (\w+) = " + re.escape(var) + r"(?:\.before)*\.(?!before)(" + NAME + r")(\.ensures)? in\b", text)):
            fits = [s for s in steps if norm(s[1]) == norm(m.group(2)) and s[3]]
            if not fits or len(re.findall(r"let " + m.group(1) + r" = ", text)) > 1:
                continue
            i, callee, part = fits[0][0], fits[0][3], m.group(3) or ""

            def named(n):
                whole = self.clause(callee, self.new_of(callee, part + n.group(1)), i)
                return m.group(1) + whole[len(part) :]

            at = m.end()
            text = text[:at] + re.sub(r"(?<![\w.\-])" + m.group(1) + r"((?:\.[^\s(){}.;,@\"«»]+)+)", named, text[at:])

        pattern = r"(?<![^\s(){};,←])" + re.escape(var) + r"((?:\.before)*)\.(?!before)(" + NAME + r")((?:\.[^\s(){}.;,@\"«»]+)*)"
        return re.sub(pattern, one, text)

    def arm(self, steps, step, rest):
        parts = rest.strip(".").split(".") if rest else []
        for i, *_ in steps:
            arms = self.info["arms"]
            if i < len(arms) and arms[i]:
                new, _, fields = arms[i]
                for field, old, path in fields:
                    if norm(old) == norm(step) and parts[: len(path)] == path and path:
                        more = parts[len(path) :]
                        return ".".join([new, field] + more)
        return None

    def label(self, callee):
        return self.labels.get(callee) or self.labels.get(callee.split("::")[-1]) or {}

    def me(self):
        return "::".join([os.path.basename(self.crate)] + self.folder.replace("+", "").split("/"))

    def own(self, step, rest):
        labels = self.label(self.me()).get(step, [])
        m = re.match(r"\.(\d+)(.*)", rest)
        if m and int(m.group(1)) < len(labels) and labels[int(m.group(1))]:
            return f".{step}.{labels[int(m.group(1))]}{m.group(2)}"
        return f".{step}{rest}"

    def by_clauses(self, new, text):
        """An answer to what a call requires, or to what is promised, as a record where its clauses have names."""
        m = re.match(r"(.+?)-requires(?:$|-)", new)
        kind = "requires" if m else "ensures" if new.startswith("returns") else None
        if not kind:
            return text
        if kind == "ensures":
            names = [self.me()]
        else:
            called = [p[3] for p in self.info["places"] if p[3]] + list(self.info["params"])
            names = [c for n in (m.group(1), m.group(1).split("-")[0]) for c in called if c.split("::")[-1] == n] or [m.group(1).split("-")[0]]
        labels = self.label(names[0]).get(kind, [])
        if len(labels) < 2 or not all(labels):
            return text
        lines = text.split("\n")
        whole = "\n".join(lines)
        at = whole.find("=")
        head, body = whole[: at + 1], whole[at + 1 :]
        tail = body.rstrip()
        k = tail.rfind("\n    (") + 5 if "\n    (" in tail else len(tail) - len(tail.lstrip())
        term = tail[k:]
        if not (term.startswith("(") and term.endswith(")")):
            return text
        parts, depth, now = [], 0, ""
        for ch in term[1:-1]:
            if ch in "([{":
                depth += 1
            if ch in ")]}":
                depth -= 1
            if depth < 0:
                return text
            if ch == "," and depth == 0:
                parts.append(now.strip())
                now = ""
            else:
                now += ch
        parts.append(now.strip())
        if parts and parts[-1] == "tt" and len(parts) == len(labels) + 1:
            parts.pop()
        if len(parts) != len(labels):
            return text
        return head + tail[:k] + "record { " + "; ".join(f"{n} = {x}" for n, x in zip(labels, parts)) + " }"

    def new_of(self, callee, rest):
        """What a call left in a place that it was lent, which goes by the parameter's name."""
        m = re.match(r"\.(new|auto)((?:\.1)*)\.0((?:\..*)?)$", rest)
        names = (self.info.get("params") or {}).get(callee)
        if m and names and m.group(2).count("1") < len(names):
            return f".{m.group(1)}.{names[m.group(2).count('1')]}{m.group(3)}"
        return rest

    def clause(self, callee, rest, place=None):
        m = re.match(r"\.(ensures|requires)\.(\d+)(.*)", rest)
        if m and callee:
            labels = self.label(callee).get(m.group(1), [])
            known = (self.info.get("clauses") or [])
            if m.group(1) == "ensures" and place is not None and place < len(known) and known[place] and known[place].get("fields"):
                labels = known[place]["fields"]
            if len(labels) > 1 and all(labels):
                to = nested(labels, [m.group(2)] + [x for x in m.group(3).split(".") if x])
                if to:
                    return "." + ".".join([m.group(1), to[0]] + to[1])
        return rest

    def finish(self, new, text, uses):
        text = re.sub(r"not-(true|false) (?:_|\([^()]*\)|" + NAME + r"(?:\." + NAME + r")*) (" + NAME + r"(?:\." + NAME + r")*)\.\1-raw(?![\w.-])", r"\2.\1", text)
        text = re.sub(r"(?<![\w.])(c\.(in_default[\w-]*)\.\2-own\.keys\d*)(?![\w.-])", r"(opened \1)", text)
        if "(opened c." in text and "use borrow.Enum.Refused.{opened}" not in uses:
            uses.append("use borrow.Enum.Refused.{opened}")
        return text

    def asked_of(self, new):
        """The names of the clauses that a goal asks, where they have names."""
        old = next((o for o, n in self.info["needs"] if n == new), None)
        by = self.info.get("asked") or {}
        if old in by or new in by:
            return by.get(old) or by.get(new) or []
        if re.match(r"returns(-|$)", new):
            return self.label(self.me()).get("ensures", [])
        return []

    def turn(self, text):
        head, uses, decls = declarations(text)
        info = self.info
        spec = [d for d in decls if d["name"].endswith(("-spec", "_spec")) or "statement M" in d["lines"][0]]
        if not spec or "tie.spec" not in "\n".join(spec[0]["lines"]):
            return None
        body = "\n".join(spec[0]["lines"][1:])
        unfolds = [l for l in spec[0]["lines"][1:] if l.startswith("unfolding ")]
        at = body.index("tie.spec") + len("tie.spec")
        args = split_terms(body[at:])
        needs = info["needs"]
        first = len(args) - len(needs)
        by_name = {d["name"]: d for d in decls if d is not spec[0]}
        loops = info["loops"]
        used = set()
        inv_out, ans_out = [], []

        # invariants and measures
        for d in decls:
            m = re.match(r"abbrev (?:pub )?(\S+) : tie\.(invariant|decreases|InvT|MeasureT)-?(\S*)", d["lines"][0])
            if not m:
                continue
            kind = "invariant" if m.group(2) in ("invariant", "InvT") else "decreases"
            which = m.group(3)
            fits = [j for j, it in enumerate(loops) if norm(it[0][0]) == norm(which)]
            used.add(d["name"])
            if not fits:
                self.said.append(f"no loop {which}")
                continue
            j = fits[0]
            new = loops[j][0][1]
            names, changed = loops[j][1], info["changed"][j]
            slots = [(f"l.initial.{v}" if ch else f"l.{v}") for v, ch in zip(names, changed)] + [f"l.{v}" for v, ch in zip(names, changed) if ch]
            eq = "\n".join(d["lines"][1:])
            lhs, rhs = eq.split("=", 1)
            params = lhs.split()[1:]
            if names and names[0] in ("system", "rt") or len(params) != len(slots):
                # an argument that the old code did not have, or a value of the old loop that is none now: by name
                bases = [p.rstrip("₀").replace("-", "_") for p in params]
                named = [f"l.initial.{b}" if p.endswith("₀") else f"l.{b}" for p, b in zip(params, bases)]
                if all(b in names or re.fullmatch(r"t\d+", b) for b in bases):
                    slots = named
            if len(params) != len(slots):
                self.said.append(f"the invariant of {which} has {len(params)} names, and the loop {len(slots)}: {names} {changed}")
            sub = dict(zip(params, slots))
            rhs = re.sub(NAME, lambda m: m.group(0) if rhs[: m.start()].endswith(".") or (re.search(r"[{;]\s*$", rhs[: m.start()]) and re.match(r" = ", rhs[m.end() :])) else sub.get(m.group(0), m.group(0)), rhs)
            label = f"{kind}-{new}"
            if kind == "invariant" and re.fullmatch(r"\s*Unit(?: \{0\})?\s*", rhs):
                continue
            inv_out.append(d["comment"] + [f"abbrev pub {label} : goal.{label}", f"{label} l ={rhs}"])

        # answers by position
        done = {}
        if first < 0:
            self.said.append(f"{len(args)} arguments for {len(needs)} goals: matched by name")
        named = {norm(o): n for o, n in needs}

        def goal_of(decl):
            m = re.search(r" : tie\.Need-(\S+)", decl["lines"][0])
            if not m:
                return None
            old = norm(m.group(1))
            for o, n in needs:
                if norm(o) == old or norm("overflow-" + o) == old:
                    return n
            return None

        for k, (old, new) in enumerate(needs):
            arg = args[first + k] if first >= 0 and first + k < len(args) else None
            if arg is None:
                continue
            if re.fullmatch(r"\(λ c(?: κs)?\. search rules\)", arg) and unfolds and re.match(r"returns|.*-(requires|preserved|init)", new):
                done[new] = (None, None, f"{new} c = search rules", False)
                continue
            if re.fullmatch(r"\(λ c(?: κs)?\. (?:search rules|omega arith|simp c(?:\.before)*\.[^\s.]+\.is|search)\)", arg):
                continue
            if arg in by_name and re.fullmatch(re.escape(arg) + r" c = (?:search rules|omega arith|simp c(?:\.before)*\.[^\s.]+\.is)", "\n".join(l for l in by_name[arg]["lines"][1:] if not l.startswith("unfolding"))) and " : tie.Need-" in by_name[arg]["lines"][0] and not any(l.startswith("unfolding") for l in by_name[arg]["lines"]):
                used.add(arg)
                continue
            place = info["asked_at"][k][0] if k < len(info["asked_at"]) else None
            m = re.fullmatch(r"\(λ (c|_)( κs)?\. (.*)\)", arg, re.S)
            if m:
                done[new] = (None, place, f"{new} c = {m.group(3)}", "κs" in m.group(3))
                continue
            if arg in by_name:
                d = by_name[arg]
                if arg in used and d["lines"][0].find("tie.Need") < 0:
                    continue
                own = goal_of(d)
                target = new
                if own and own != new and own in {n for _, n in needs}:
                    target = own
                    place = info["asked_at"][[n for _, n in needs].index(own)][0]
                if " : tie.Need-" in d["lines"][0]:
                    used.add(arg)
                done[target] = (d, place, None, False)
                continue
            done[new] = (None, place, f"{new} c = {arg} c", False)
        # those that the positions did not reach
        for d in decls:
            if d is spec[0] or d["name"] in used or " : tie.Need-" not in d["lines"][0]:
                continue
            own = goal_of(d)
            if own and own not in done:
                k = [n for _, n in needs].index(own)
                done[own] = (d, info["asked_at"][k][0], None, False)
                used.add(d["name"])
            elif not own:
                self.said.append(f"no goal for {d['name']}: {d['lines'][0]}")
                used.add(d["name"])
                ans_out.append(["-- left: " + l for l in d["lines"]])
        # helpers stay, in their order, above
        helpers = []
        for d in decls:
            if d is spec[0] or d["name"] in used or any(x[0] is d for x in done.values()):
                continue
            if re.match(r"abbrev (?:pub )?\S+ : tie\.", d["lines"][0]):
                continue
            if "tie." in "\n".join(d["lines"]):
                self.said.append(f"the helper {d['name']} speaks of tie")
            helpers.append(d["comment"] + d["lines"])
        order = [n for _, n in needs]
        for new in sorted(done, key=lambda n: order.index(n) if n in order else 999):
            d, place, line, ks = done[new]
            if d is None:
                lines = [line]
                sign = [f"pub {new} : goal.{new}"] + unfolds
            else:
                eqs = d["lines"][1:]
                sign = d["comment"] + [f"pub {new} : goal.{new}"]
                lines = []
                for l in eqs:
                    l = re.sub(r"^(" + re.escape(d["name"]) + r" (?:c|_)) κs(?= )", r"\1", l)
                    lines.append(l)
                ks = any("κs" in l for l in lines)
            if ks:
                self.said.append(f"{new} uses κs")
            text_ = "\n".join(lines)
            # other goals of this function that an answer cites keep their new names
            to = {x[0]["name"]: n for n, x in done.items() if x[0] is not None}
            if d is not None:
                to[d["name"]] = new
            text_ = re.sub(r"(?<![^\s(){},;])" + NAME + r"(?![^\s(){},;])", lambda m: to.get(m.group(0), m.group(0)), text_)
            text_ = open_lets(text_)
            if place:
                text_ = self.turn_paths(text_, place)
            asked = self.asked_of(new)
            if len(asked) > 1 and all(asked):
                text_ = as_record(text_, asked) or text_
            text_ = self.finish(new, text_, uses)
            text_ = self.by_clauses(new, text_)
            if re.search(r"c(?:\.before)+(?![.\w])", text_):
                self.said.append(f"{new} passes on a whole record")
            if ".branch" in text_:
                self.said.append(f"{new} goes by a branch")
            if re.fullmatch(re.escape(new) + r" (?:c|_) = (?:search rules|omega arith|simp c\.[^\s.]+\.is)", text_.strip()) and not unfolds:
                continue
            ans_out.append(sign + text_.split("\n"))
        path = "Rattle." + os.path.basename(self.crate) + ".proofs." + self.folder.replace("/", ".")
        uses = [u for u in dict.fromkeys(uses) if not re.search(r"\.Statement\.\{statement\}|\.Tie as tie", u)]
        out = {}
        if inv_out:
            out["Invariants.antt"] = head + uses + [f"use {path}.Given as goal"] + [l for d in inv_out for l in [""] + d]
        if ans_out or helpers:
            out["Answers.antt"] = head + uses + [f"use {path}.Goals as goal"] + [l for d in helpers + ans_out for l in [""] + d]
        return out


def turn_cycle(crate, rel, text, infos, labels):
    """The two files of a folder of functions that call each other or themselves, and what is left to look at."""
    head, uses, decls = declarations(text)
    spec = [d for d in decls if d["name"].startswith("+") and d["name"].endswith(("-spec", "_spec"))]
    if not spec or "lts.spec" not in "\n".join(spec[0]["lines"]):
        return None, []
    body = "\n".join(spec[0]["lines"][1:])
    unfolds = [l for l in spec[0]["lines"][1:] if l.startswith("unfolding ")]
    by_name = {d["name"]: d for d in decls if d is not spec[0]}
    params = {}
    for i in infos.values():
        params.update({k.split("::")[-1]: v for k, v in i["params"].items()})
    used, said, inv, ans, goals = set(), [], [], [], []
    for d in decls:
        m = re.match(r"abbrev (?:pub )?(\S+) : Measures ", d["lines"][0])
        if m:
            fn = norm(d["name"].split("-", 1)[1])
            used.add(d["name"])
            eq = "\n".join(d["lines"][1:]).split("=", 1)[1]
            names = params.get(fn, [])
            eq = re.sub(r"(?<![\w.])a((?:\.1)*)\.0(?![\w])", lambda m: "l." + names[len(m.group(1)) // 2] if len(m.group(1)) // 2 < len(names) else m.group(0), eq)
            inv.append([f"abbrev pub decreases-{fn} : goal.decreases-{fn}", f"decreases-{fn} l ={eq}"])
        elif re.search(r" : (?:ℕ → )?In \d|\.Claims$|borrow\.Fn", d["lines"][0]) or d["name"].endswith(("-at", "_at", "-below", "_below", "-calls", "_calls")):
            used.add(d["name"])
    plans = []
    for m in re.finditer(r"(\S+?)[-_]lts\.spec", body):
        fn = norm(m.group(1).lstrip("("))
        if fn not in infos:
            said.append(f"no function {fn} in names.json")
            continue
        info = infos[fn]
        f = Function(crate, os.path.dirname(rel) + "/" + fn if "/" in rel else fn, info, labels)
        f.cycle = True
        args = split_terms(body[m.end() :])[3:]
        first = len(args) - len(info["needs"])
        if first:
            f.said.append(f"{fn}: {len(args)} arguments for {len(info['needs'])} goals")
        stem = info["stem"]
        for k, (old, new) in enumerate(info["needs"]):
            arg = args[first + k] if 0 <= first + k < len(args) else None
            if arg is None or re.fullmatch(r"\(λ (?:c|_)(?: (?:κs|_))?\. (?:search rules|omega arith|search)\)", arg) and not unfolds:
                continue
            plans.append((f, stem, new, arg, info["asked_at"][k][0]))
    to = {}
    for f, stem, new, arg, place in plans:
        m = re.fullmatch(r"\((\S+) t\)", arg)
        if m:
            to[m.group(1)] = stem + new
    for f, stem, new, arg, place in plans:
        goal = stem + new
        m = re.fullmatch(r"\((\S+) t\)", arg)
        if m and m.group(1) in by_name:
            d = by_name[m.group(1)]
            used.add(d["name"])
            k = next(i for i, l in enumerate(d["lines"]) if l.startswith(d["name"] + " t "))
            sign = d["comment"] + [f"pub {goal} : goal.{goal}"] + [l for l in d["lines"][1:k] if l.startswith("unfolding ")]
            lines = "\n".join(d["lines"][k:])
            lines = re.sub(r"^" + re.escape(d["name"]) + r" t (\S+)(?: (?:κs|_))?(?= )", goal + r" t \1", lines)
        else:
            m = re.fullmatch(r"\(λ (c|_)(?: (?:κs|_))?\. (.*)\)", arg, re.S)
            if not m:
                f.said.append(f"{goal}: {arg[:60]}")
                continue
            sign = [f"pub {goal} : goal.{goal}"] + unfolds
            lines = f"{goal} t {m.group(1)} = {m.group(2)}"
        at, rest = lines.index("="), lines
        rest = re.sub(r"(?<![^\s(){},;])" + NAME + r"(?![^\s(){},;])", lambda m: to.get(m.group(0), m.group(0)), lines[at:])
        text_ = f.finish(goal, f.turn_paths(open_lets(rest), place), uses)
        ans.append(sign + (lines[:at] + text_).split("\n"))
        for s in f.said:
            if s not in said:
                said.append(s)
    helpers = [d["comment"] + d["lines"] for d in decls if d is not spec[0] and d["name"] not in used]
    for d in decls:
        if d is not spec[0] and d["name"] not in used and re.search(r"-lts\.|\.Reads|\.Need-", "\n".join(d["lines"])):
            said.append(f"the helper {d['name']} speaks of steps")
    gone = r"\.(?:Reads|Kinds|Lts-\S+) as |\.\{\s*statement,?\s*\}|\.Tie\.\{|borrow\.Fn\."
    uses = [u for u in dict.fromkeys(uses) if not re.search(gone, u)]
    path = "Rattle." + os.path.basename(crate) + ".proofs." + rel.replace("/", ".")
    out = {}
    if inv:
        out["Invariants.antt"] = head + uses + [f"use {path}.Given as goal"] + [l for d in inv for l in [""] + d]
    if ans or helpers:
        out["Answers.antt"] = head + uses + [f"use {path}.Goals as goal"] + [l for d in helpers + ans for l in [""] + d]
    return out, said


def labels_of(crate):
    """The names of the clauses of each function, in their order, under its path and, where no other has it, its bare name."""
    found = {}
    top = os.path.dirname(crate.rstrip("/"))
    mine = os.path.basename(crate.rstrip("/"))
    for c in [mine] + sorted(x for x in os.listdir(top) if x != mine):
        src = os.path.join(top, c, "src")
        for folder, _, files in os.walk(src):
            for f in files:
                if not f.endswith(".rt"):
                    continue
                path = os.path.relpath(os.path.join(folder, f), src)[:-3].split("/")
                path = [c] + [x for x in path if x not in ("lib", "main", "mod")]
                text = open(os.path.join(folder, f), encoding="utf-8").read()
                for m in re.finditer(r"\bfn (\w+)[^;{]*?(?=\{|;|requires|ensures)", text):
                    rest = text[m.end() : m.end() + 6000]
                    stop = re.search(r"\n\s*\{\s*\n", "\n" + rest)
                    clauses = rest[: stop.start() if stop else 0]
                    it = {"ensures": [], "requires": []}
                    for k, label in re.findall(r"(?m)^\s*(ensures|requires)(?:\s+(\w+))?\s*\{", "\n" + clauses):
                        it[k].append(label)
                    found.setdefault("::".join(path + [m.group(1)]), it)
                    found.setdefault(m.group(1), it)
    return found


def main(words):
    if len(words) < 2:
        print(__doc__)
        return 2
    names = json.load(open(words[0], encoding="utf-8"))
    crate = words[1].rstrip("/")
    only = set(words[2:])
    labels = labels_of(os.path.abspath(crate))
    turned = left = 0
    base = os.path.join(crate, "proofs")
    for folder, dirs, files in os.walk(base):
        if "Proof.antt" not in files:
            continue
        rel = os.path.relpath(folder, base)
        if only and rel not in only and rel.split("/")[-1] not in only:
            continue
        key = f"Rattle-{os.path.basename(os.path.abspath(crate))}-proofs." + rel.replace("/", ".") + ".Lts"
        path = os.path.join(folder, "Proof.antt")
        text = open(path, encoding="utf-8").read()
        cyclic = {k[len(key) - 4 :].split(".Lts-", 1)[1].replace("-", "_"): v for k, v in names.items() if k.startswith(key + "-")}
        if rel.split("/")[-1].startswith("+") and cyclic:
            try:
                out, said = turn_cycle(os.path.abspath(crate), rel, text, cyclic, labels)
            except Exception as e:
                print(f"left: {rel}: {type(e).__name__} {e}")
                left += 1
                continue
            if out is None:
                print(f"left: {rel}: no call of spec")
                left += 1
                continue
            for s in said:
                print(f"look: {rel}: {s}")
            for name, lines in out.items():
                with open(os.path.join(folder, name), "w", encoding="utf-8") as it:
                    it.write("\n".join(lines).rstrip("\n") + "\n")
            os.rename(path, path + ".old")
            turned += 1
            continue
        if key not in names:
            print(f"left: {rel}: names.json has no such function")
            left += 1
            continue
        f = Function(os.path.abspath(crate), rel, names[key], labels)
        try:
            out = f.turn(text)
        except Exception as e:  # what cannot be read is said, and left as it is
            print(f"left: {rel}: {type(e).__name__} {e}")
            left += 1
            continue
        if out is None:
            print(f"left: {rel}: no call of tie.spec")
            left += 1
            continue
        for s in dict.fromkeys(f.said):
            print(f"look: {rel}: {s}")
        for name, lines in out.items():
            with open(os.path.join(folder, name), "w", encoding="utf-8") as it:
                it.write("\n".join(lines).rstrip("\n") + "\n")
        os.rename(path, path + ".old")
        turned += 1
    print(f"answers: {turned} turned, {left} left")
    return 0


if __name__ == "__main__":
    raise SystemExit(main(sys.argv[1:]))
