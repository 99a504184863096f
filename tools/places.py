#!/usr/bin/env python3
"""Counts the places of docs/DESIGN-PASS.md in crates/*/src, by text. `python3 tools/places.py` prints a table (a row a crate),
`python3 tools/places.py POINT` lists each place of a point (1a 1b 1c 2 3 4a 4b 5a 5b 6a 6b 7 8 kept). A second word is the folder of another checkout.

1a  enums where one variant carries what was sought, and another says that there is none, or why not; not those that are the error of a `Result`
1b  numbers for kinds: constants of a module or impl that has three or more of one number type
1c  structs with a flag beside other fields
2   functions that are the same text but for types, numbers, names of constants and of functions
3   loops that count by hand: a `while` but for `while let`, or a `loop` whose body adds or takes away a number
4a  functions to `bool` that only tell variants or bytes apart (a `match` to true and false, a chain of `<` against numbers)
4b  functions that only turn one enum or number into another (a `match` of three arms or more, each a plain value)
5a  `requires` facts that stand in three or more functions of a crate
5b  three or more parameters (name and type) that travel together through five or more functions of a crate
6a  arrays or slices with a length beside them in one parameter list, or in one struct
6b  parameter lists with two or more arrays that are read at one index (told by three or more arrays of numbers)
7   `match` of five arms or more whose arms are all calls
8   answers in proof files
kept  lines that say why a place stays"""
import collections, os, re, sys

FLAGS = r"(?:Not|Nothing|Unknown|None|Below|Stray|Bad|Refused|Refuse|FirstRefused|Wrong|Short|Full|TooMany|Large|Misfit)"
NUMBER = r"(?:u8|u16|u32|u64|usize|i32|i64)"


def sources(top):
    for crate in sorted(os.listdir(f"{top}/crates")):
        for at, _, files in sorted(os.walk(f"{top}/crates/{crate}/src")):
            for name in sorted(files):
                if name.endswith(".rt"):
                    path = os.path.join(at, name)
                    yield crate, os.path.relpath(path, f"{top}/crates/{crate}/src"), open(path).read()


def block(text, at):
    """The text between the brace at `at` and the one that closes it."""
    deep, i = 0, at
    while i < len(text):
        deep += (text[i] == "{") - (text[i] == "}")
        if deep == 0:
            return text[at + 1 : i]
        i += 1
    return text[at + 1 :]


def bare(text):
    """The text without comments, strings and byte characters."""
    text = re.sub(r"//[^\n]*", "", text)
    text = re.sub(r"b?\"(?:\\.|[^\"\\])*\"", '""', text)
    return re.sub(r"b?'(?:\\.|[^'\\])'", "' '", text)


FN = re.compile(r"(?m)^[ ]*(?:#\[[^\n]*\]\s*)*(?:pub(?:\([a-z]+\))? )?(?:const )?fn (\w+)(<[^(]*>)?\(")


def functions(text):
    """Name, parameters, result, clauses, body of each function."""
    for m in FN.finditer(text):
        i, deep = m.end() - 1, 0
        while True:
            deep += (text[i] == "(") - (text[i] == ")")
            if deep == 0:
                break
            i += 1
        given, rest = text[m.end() : i], text[i + 1 :]
        head = re.match(r"\s*(?:->\s*([^\n{]+?))?\s*(?=\{|\n|;|requires|ensures)", rest)
        result = (head.group(1) or "").strip() if head else ""
        j = i + 1
        clauses = []
        while True:
            c = re.compile(r"\s*(?:->\s*[^\n{]+?)?\s*(requires|ensures)\*?\s*(\w+)?\s*\{").match(text, j)
            if not c:
                break
            inside = block(text, c.end() - 1)
            clauses.append((c.group(1), inside.strip()))
            j = c.end() + len(inside) + 1
        k = text.find("{", j)
        if k < 0:
            continue
        yield m.group(1), given, result, clauses, block(text, k)


def split(given):
    """Parameters as name and type."""
    parts, deep, now = [], 0, ""
    for c in given:
        deep += (c in "(<[") - (c in ")>]")
        if c == "," and deep == 0:
            parts.append(now)
            now = ""
        else:
            now += c
    return [re.sub(r"\s+", " ", p).strip() for p in parts + [now] if p.strip()]


def enums(top):
    errors = {(crate, e) for crate, _, text in sources(top) for e in re.findall(r"Result<[^;{}]*?, (\w+)>", text)}
    for crate, name, text in sources(top):
        for m in re.finditer(r"(?m)^(?:pub(?:\([a-z]+\))? )?enum (\w+)(?:<[^{]*>)? \{", text):
            variants = [re.sub(r"\s+", " ", v).strip() for v in re.split(r",\s*\n", bare(block(text, m.end() - 1)))]
            variants = [v for v in variants if v]
            carries = [v for v in variants if re.search(r"[({]", v)]
            lacks = [v for v in variants if re.match(FLAGS + r"\b", v)]
            if (crate, m.group(1)) in errors:
                continue
            two = len(variants) == 2 and carries
            if two or (carries and lacks and len(variants) <= 5):
                yield "1a", crate, name, f"{m.group(1)}: {' | '.join(variants)}"


def numbers(top):
    for crate, name, text in sources(top):
        found = re.findall(rf"(?m)^\s*pub(?:\([a-z]+\))? const (\w+): ({NUMBER}) =", text)
        by = collections.Counter(t for _, t in found)
        for n, t in found:
            if by[t] >= 3:
                yield "1b", crate, name, f"{n}: {t}"


def flags(top):
    for crate, name, text in sources(top):
        for m in re.finditer(r"(?m)^(?:pub(?:\([a-z]+\))? )?struct (\w+)(?:<[^{]*>)? \{", text):
            fields = re.findall(r"(\w+): ([^,\n]+)", bare(block(text, m.end() - 1)))
            if any(t == "bool" for _, t in fields) and len(fields) > 1:
                yield "1c", crate, name, m.group(1)


def twins(top):
    groups = collections.defaultdict(list)
    for crate, name, text in sources(top):
        for fn, given, result, clauses, body in functions(text):
            code = bare(body).strip()
            if code.count("\n") < 2:
                continue
            shape = re.sub(r"\s+", " ", code)
            shape = re.sub(rf"\b{NUMBER}\b", "T", shape)
            shape = re.sub(r"\b\d[\d_]*\w*\b", "N", shape)
            shape = re.sub(r"\b[A-Z][A-Z_0-9]+\b", "C", shape)
            shape = re.sub(r"\b[A-Z]\w*::\w+", "V", shape)
            shape = re.sub(r"\b[a-z_]\w*(?=\()", "f", shape)
            kinds = re.sub(rf"\b{NUMBER}\b", "T", ", ".join(split(given)))
            groups[crate, shape, re.sub(r"\d+", "N", kinds)].append((crate, name, fn))
    for key, members in groups.items():
        for crate, name, fn in members[1:]:
            yield "2", crate, name, f"{fn} is as {members[0][2]} ({members[0][1]})"


def loops(top):
    for crate, name, text in sources(top):
        text = bare(text)
        for m in re.finditer(r"(?m)^\s*(while (?!let )[^\n]*|loop) \{", text):
            inside = block(text, m.end() - 1)
            if m.group(1) != "loop" or re.search(r"\w+ [+-]= ", inside):
                yield "3", crate, name, m.group(1)


def tellers(top):
    for crate, name, text in sources(top):
        for fn, given, result, clauses, body in functions(text):
            code = bare(body).strip()
            arms = re.findall(r"=>\s*([^,\n]+)", code)
            only = code.startswith("match") and arms and all(a.strip() in ("true", "false") for a in arms)
            chain = re.findall(r"if \w+ <=? \d+|if \d+ <=? \w+", code)
            if result == "bool" and (only or len(chain) >= 2):
                yield "4a", crate, name, fn


def turners(top):
    for crate, name, text in sources(top):
        for fn, given, result, clauses, body in functions(text):
            code = bare(body).strip()
            if not code.startswith("match") or result == "bool" or block(code, code.find("{")).count("{") > 1 + code.count("=> "):
                continue
            arms = re.findall(r"=>\s*(\{)?\s*([^,\n]+)", code)
            plain = [a for _, a in arms if re.fullmatch(r"[\w:]+|[\w:]+\(\w*\)|\d+|\"\"|[A-Z]\w* \{.*", a.strip())]
            calls = [a for _, a in arms if re.fullmatch(r"[a-z_]\w*\(.*", a.strip())]
            if len(arms) >= 3 and len(plain) == len(arms) and not calls:
                yield "4b", crate, name, fn


def facts(top):
    by = collections.defaultdict(list)
    for crate, name, text in sources(top):
        for fn, given, result, clauses, body in functions(text):
            for kind, said in clauses:
                if kind == "requires":
                    for part in re.split(r" × ", re.sub(r"\s+", " ", said)):
                        by[crate, part.strip("() ")].append((name, fn))
    for (crate, said), where in sorted(by.items()):
        if len(where) >= 3:
            yield "5a", crate, where[0][0], f"{len(where)} times: {said}"


def travellers(top):
    by = collections.defaultdict(lambda: collections.defaultdict(set))
    for crate, name, text in sources(top):
        for fn, given, result, clauses, body in functions(text):
            parts = [p for p in split(given) if ":" in p]
            for i in range(len(parts) - 2):
                for j in range(i + 3, len(parts) + 1):
                    by[crate][tuple(parts[i:j])].add((name, fn))
    for crate, runs in sorted(by.items()):
        big = {k: v for k, v in runs.items() if len(v) >= 5}
        for k, v in sorted(big.items(), key=lambda it: -len(it[0])):
            if not any(k != o and set(k) <= set(o) and len(big[o]) >= 0.8 * len(v) for o in big):
                yield "5b", crate, sorted(v)[0][0], f"{len(v)} functions: {', '.join(k)}"


def lengths(top):
    for crate, name, text in sources(top):
        for fn, given, result, clauses, body in functions(text):
            parts = split(given)
            if any(re.search(r"\[", p) for p in parts) and any(re.fullmatch(r"(?:n|m|count|len|length|size|used|end)\w*: (?:usize|u16|u32)", p) for p in parts):
                yield "6a", crate, name, fn
        for m in re.finditer(r"(?m)^(?:pub(?:\([a-z]+\))? )?struct (\w+)(?:<[^{]*>)? \{", text):
            inside = bare(block(text, m.end() - 1))
            if "[" in inside and re.search(r"\b(?:n|count|len|length|size|used|end): (?:usize|u16|u32)", inside):
                yield "6a", crate, name, m.group(1)


def parallel(top):
    for crate, name, text in sources(top):
        for fn, given, result, clauses, body in functions(text):
            if len([p for p in split(given) if re.search(rf"\[{NUMBER}", p)]) >= 3:
                yield "6b", crate, name, fn


def switches(top):
    for crate, name, text in sources(top):
        for fn, given, result, clauses, body in functions(text):
            for m in re.finditer(r"\bmatch [^\n{]*\{", bare(body)):
                inside = block(bare(body), m.end() - 1)
                arms = re.findall(r"(?m)=>\s*(?:\{\s*)?([^\n]+)", inside)
                if len(arms) >= 5 and all(re.match(r"[a-z_][\w:]*\(", a) for a in arms):
                    yield "7", crate, name, f"{fn}: {len(arms)} arms"


def answers(top):
    for crate in sorted(os.listdir(f"{top}/crates")):
        for at, _, files in sorted(os.walk(f"{top}/crates/{crate}/proofs")):
            for name in files:
                if name in ("Answers.antt", "Invariants.antt"):
                    text = open(os.path.join(at, name)).read()
                    for m in re.finditer(r"(?m)^(?:abbrev )?pub ([^\s:]+) : goal\.", text):
                        yield "8", crate, os.path.relpath(os.path.join(at, name), f"{top}/crates/{crate}"), m.group(1)


def kept(top):
    for crate, name, text in sources(top):
        for m in re.finditer(r"// Kept: ([^\n]*)", text):
            yield "kept", crate, name, m.group(1)


POINTS = {"1a": enums, "1b": numbers, "1c": flags, "2": twins, "3": loops, "4a": tellers, "4b": turners, "5a": facts, "5b": travellers, "6a": lengths, "6b": parallel, "7": switches, "8": answers, "kept": kept}


def main():
    words = sys.argv[1:]
    point = words[0] if words and words[0] in POINTS else None
    top = words[-1] if words and words[-1] not in POINTS else "."
    if point:
        for _, crate, name, said in POINTS[point](top):
            print(f"{crate}/{name}: {said}")
        return
    table = {p: collections.Counter(crate for _, crate, _, _ in it(top)) for p, it in POINTS.items()}
    crates = sorted({c for t in table.values() for c in t})
    print("| crate | " + " | ".join(POINTS) + " |\n|---|" + "---|" * len(POINTS))
    for crate in crates:
        print(f"| `{crate}` | " + " | ".join(str(table[p][crate] or "") for p in POINTS) + " |")
    print("| all | " + " | ".join(str(sum(table[p].values())) for p in POINTS) + " |")


main()
