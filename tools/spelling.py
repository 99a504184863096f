#!/usr/bin/env python3
"""Spells this repository's own definitions, lemmas, fields and constructors in snake case.

usage: python3 tools/spelling.py [--check]        in a checkout that the port.py of the kit has just turned

It goes by text: it reads which names the files of specs/ and the lemma files of proofs/ declare, and writes each anew
where it is declared, imported from this repository, or named by a path: in .antt, .rt and .edit files, and between
backquotes in .md files. A name whose new spelling another name of one of its files has gets '_lem' behind it.
Names of src/, of Rattle's libraries and of modules stay. --check writes nothing and prints the names.
"""

import collections
import os
import re
import sys

NAME = r"[^\s(){}.;,@\"«»]+"
TOKEN = re.compile(NAME)
OWN = re.compile(r"Rattle\.(\w+)\.(?:specs|proofs)\b")
USE = re.compile(r"^(?:pub )?(?:ghost )?use (Rattle\.[^\s;{]+?)(?:\.\{([^}]*)\})?(?: as (\S+?))?;?\s*$")
HEAD = re.compile(r"(?:abbrev |unfoldable )?(?:pub )?(data|record) (" + NAME + r")(?=[ (])")
SIGN = re.compile(r"(?:abbrev |unfoldable )?(?:pub )?((?:[^\s(){}.;,@\"«»:]+ )+): (.*)")
TYPE = re.compile(r"Type (?:\d|\{\d\}|ℓ\S*)$")
# two constructors of one file whose spellings would meet those of two others
CHOSEN = {"byName": "by_name_mode", "byValue": "by_value_mode"}
FUNCTION = ("Proof.antt", "Answers.antt", "Invariants.antt")


def is_odd(name):
    return "-" in name or re.search(r"[a-z0-9][A-Z]", name)


def spelled(name, kind):
    if kind == "type":
        words = re.split(r"[-_]", name)
        return "".join(w[:1].upper() + w[1:] for w in words)
    name = re.sub(r"(?<=[a-z0-9])([A-Z]+)(?=[-_]|$|[a-z0-9])", lambda m: "_" + m.group(1).lower(), name)
    name = re.sub(r"(?<=[a-z0-9])[A-Z]", lambda m: "_" + m.group(0).lower(), name)
    name = name.replace("-", "_")
    head, *rest = name.split("_")
    return "_".join([head] + [r.lower() for r in rest]) if head[:1].islower() or not head[:1].isalpha() else "_".join([head.lower()] + [r.lower() for r in rest])


def declared(text):
    """The names that a file of specs/ or proofs/ declares, each with its kind."""
    found, block = [], None
    for line in text.split("\n"):
        said = line.strip()
        if not said or said.startswith("--"):
            continue
        indent = len(line) - len(line.lstrip())
        if block and indent <= block[1]:
            block = None
        it = HEAD.match(said)
        if it:
            found.append((it.group(2), "type"))
            block = (it.group(1), indent)
            continue
        it = SIGN.match(said)
        if not it or said.startswith(("use ", "let ", "|", "λ", "(", "module", "open", "mod ", "pub mod", "ruleset")):
            continue
        names = it.group(1).split()
        if names[0] in ("data", "record", "let", "in", "elim"):
            continue
        if block:
            if indent == block[1] + 2:
                found += [(n, "field" if block[0] == "record" else "constructor") for n in names]
        elif len(names) == 1:
            found.append((names[0], "type" if TYPE.search(said) else "function"))
    return found


class Repository:
    def __init__(self, root):
        self.root = root
        self.texts = {}
        for folder, dirs, files in os.walk(root):
            dirs[:] = sorted(d for d in dirs if d not in (".git", "out", "target", "drafts", "tools"))
            for f in sorted(files):
                if f.endswith((".antt", ".rt", ".edit", ".md")):
                    path = os.path.join(folder, f)
                    with open(path, encoding="utf-8") as it:
                        self.texts[path] = it.read()
        crates = os.path.join(root, "crates")
        self.crates = set(os.listdir(crates))
        self.kinds = collections.defaultdict(set)
        self.by_file = {}
        for path, text in self.texts.items():
            if path.endswith(".antt") and not ("/proofs/" in path and os.path.basename(path) in FUNCTION):
                self.by_file[path] = declared(text)
                for name, kind in self.by_file[path]:
                    self.kinds[name].add(kind)

    def seen(self, path, text):
        """The names of this repository that a file declares or imports, and the aliases of its modules."""
        names, aliases = {n for n, _ in self.by_file.get(path, [])}, set()
        brought = set()
        for line in text.split("\n"):
            it = USE.match(line.strip())
            if not it:
                continue
            own = it.group(1).split(".")[1] in self.crates
            items = [w.split(" as ") for w in (it.group(2) or "").split(", ") if w]
            if own:
                names.update(w[0].strip() for w in items)
                if it.group(2) is None:
                    aliases.add(it.group(3) or it.group(1).split(".")[-1])
            else:
                brought.update(w[-1].strip() for w in items)
        for line in text.split("\n"):
            it = re.match(r"use (?!Rattle)([^\s;{]+)\.\{([^}]*)\}", line)
            if it:
                brought.update(w.split(" as ")[-1].strip() for w in it.group(2).split(", "))
        return names, aliases, brought

    def bare(self, text):
        """The words of a file, but for those of paths, of fields and of comments."""
        text = re.sub(r"(?m)^\s*--(?=\s|$).*$", "", text)
        text = re.sub(r"(?m)^((?:pub )?use )\S+?(?=\.\{| as |$)", r"\1", text)
        return {m.group(0) for m in TOKEN.finditer(text) if m.string[m.start() - 1 : m.start()] != "."}

    def plan(self):
        """The new spelling of each name: one for the whole repository."""
        odd = {}
        for name, kinds in self.kinds.items():
            kind = "type" if "type" in kinds else sorted(kinds)[0]
            if kind == "type" and not name[0].islower() and not re.search(r"[-_]", name):
                continue
            if kind != "type" and name[:1].isupper() and "-" not in name:
                continue
            if kind == "type" and not name[0].islower() and "-" not in name:
                continue
            if kind == "type" and name.islower() and "-" not in name and "_" in name and kinds != {"type"}:
                continue
            if kind != "type" and not is_odd(name):
                continue
            odd[name] = spelled(name, kind)
        tokens = {}
        for path, text in self.texts.items():
            if path.endswith(".antt"):
                tokens[path] = self.bare(text)
            elif path.endswith(".rt"):
                tokens[path] = set(TOKEN.findall(text))
        owners = collections.defaultdict(set)
        for old, new in odd.items():
            owners[new].add(old)
        sees = {}
        for path, text in self.texts.items():
            if path.endswith((".antt", ".rt")):
                sees[path] = self.seen(path, text)
        clash = set()
        for path, (names, _, brought) in sees.items():
            mine = [n for n in tokens[path] if n in odd and n in names]
            for n in mine:
                if path.endswith(".rt"):
                    taken = re.search(rf"(?<![\w.]){re.escape(odd[n])}\s*:(?!:)", self.texts[path])
                else:
                    taken = odd[n] in tokens[path]
                if taken:
                    clash.add(n)
        # where a lemma has a definition's new spelling already, the lemma gives way
        for n in sorted(clash):
            new = odd[n]
            if "-" in n or new in odd or new not in self.kinds:
                continue
            where = [p for p, found in self.by_file.items() if new in (f for f, _ in found)]
            if where and all("/specs/" not in p for p in where):
                odd[new] = new + "_lem"
                clash.discard(n)
        # of several names of one new spelling the definition keeps it
        for new, olds in owners.items():
            if len(olds) > 1:
                keep = min(olds, key=lambda o: ("-" in o, o))
                clash.update(o for o in olds if o != keep)
        for n in clash & set(CHOSEN):
            odd[n] = CHOSEN[n]
        for n in clash - set(CHOSEN):
            odd[n] += "_lem" if "type" not in self.kinds[n] else "Lem"
        again = collections.defaultdict(set)
        for old, new in odd.items():
            again[new].add(old)
        for new, olds in again.items():
            for i, o in enumerate(sorted(olds)[1:], 2):
                odd[o] += str(i)
        self.sees = sees
        self.clash = clash
        return odd

    def turned(self, path, text, odd):
        if path.endswith(".md"):
            return re.sub(r"`([^`\n]+)`", lambda m: "`" + (odd[m.group(1)] if m.group(1) in odd and is_odd(m.group(1)) else m.group(1)) + "`", text)
        if path.endswith(".edit"):
            target = re.search(r"(?m)^file: (\S+)", text)
            of = os.path.join(os.path.dirname(os.path.dirname(path)), target.group(1)) if target else None
            names, aliases, brought = self.sees.get(of, (set(), set(), set()))
        else:
            names, aliases, brought = self.sees[path]
        fields = {n for n in odd if self.kinds[n] & {"field", "constructor"}}
        rust = not path.endswith(".antt") and not (path.endswith(".edit") and of and of.endswith(".antt"))

        def one(m):
            name = m.group(0)
            if name not in odd:
                return name
            before = m.string[: m.start()]
            if before.endswith("."):
                head = re.search(r"([^\s(){};,@\"«»]+)\.$", before)
                path_ = head.group(1) if head else ""
                if OWN.match(path_) and path_.split(".")[1] in self.crates:
                    return odd[name]
                if path_.split(".")[0] in aliases:
                    return odd[name]
                return odd[name] if name in fields and "-" in name or name in fields and not rust else name
            if name in names and name not in brought or (name in names and name not in brought):
                return odd[name]
            if name in fields and re.match(r"\s*=(?!=)", m.string[m.end() :]) and re.search(r"(?:record [^{}]*\{|;)\s*$", before[-400:]):
                return odd[name]
            if name in fields and re.search(r"open \S+ use \{[^}]*$", before[-300:]):
                return odd[name]
            return name

        def code(part):
            return TOKEN.sub(one, part)

        out = []
        for line in text.split("\n"):
            mark = "//" if rust else "-- "
            at = line.find(mark) if not line.lstrip().startswith(mark) else 0
            if line.lstrip().startswith("--") and not rust or line.lstrip().startswith("//") and rust:
                out.append(re.sub(r"`([^`\n]+)`", lambda m: "`" + odd.get(m.group(1), m.group(1)) + "`", line))
            else:
                out.append(line)
        joined = "\n".join(out)
        # comments stay, but for what stands between backquotes
        pieces = re.split(r"(?m)(^\s*(?://|--(?=\s|$)).*$)", joined)
        return "".join(p if i % 2 else code(p) for i, p in enumerate(pieces))


def main(words):
    root = os.getcwd()
    if not os.path.isdir(os.path.join(root, "crates")):
        print(__doc__)
        return 2
    it = Repository(root)
    odd = it.plan()
    if "--check" in words:
        for old in sorted(odd):
            print(old, odd[old], ",".join(sorted(it.kinds[old])), "CLASH" if old in it.clash else "")
        return 0
    changed = 0
    for path, text in it.texts.items():
        new = it.turned(path, text, odd)
        if new != text:
            changed += 1
            with open(path, "w", encoding="utf-8") as f:
                f.write(new)
    print(f"spelling: {len(odd)} names, {len(it.clash)} of them with _lem; {changed} files")
    return 0


if __name__ == "__main__":
    raise SystemExit(main(sys.argv[1:]))
