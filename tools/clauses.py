#!/usr/bin/env python3
"""Writes the clauses for impossible cases that a check says are missing in lemma files.

usage: rt check > LOG 2>&1; python3 ../../tools/clauses.py LOG        in the folder of a crate

It reads 'write the clause `..`' and 'write the clauses' with the lines below, takes those that end in 'elim x [ ]', and writes
them before the first clause of the declaration. Names with a path in front are written bare.
"""

import re
import sys


def main(words):
    said = [l for l in open(words[0], encoding="utf-8").read().split("\n") if not l.startswith("so far")]
    found, wanted = {}, {}
    k = 0
    while k < len(said):
        m = re.match(r"(\./\S+?):(\d+):\d+: error: `([^`]+)`: write the clauses?(?: `([^`]*)`)?", said[k])
        if not m:
            k += 1
            continue
        path, line, name, one = m.group(1), int(m.group(2)), m.group(3), m.group(4)
        rows = [one] if one else []
        k += 1
        while k < len(said) and said[k].startswith("  "):
            if not one and said[k].strip().startswith(name + " ") and re.search(r"= elim \S+ \[ \]$", said[k]):
                rows.append(said[k].strip())
            k += 1
        for r in rows:
            for q in re.finditer(r"(?<![\w.])((?:[A-Za-z_]\w*\.)+)([a-z_A-Z◌][^\s(){}.;,]*)", r):
                wanted.setdefault(path, {})[q.group(2)] = q.group(1)[:-1]
        rows = [re.sub(r"(?<![\w.])(?:[A-Za-z_]\w*\.)+(?=[a-z_A-Z◌])", "", r) for r in rows if re.search(r"= elim \S+ \[ \]$", r)]
        if rows:
            found.setdefault(path, {})[(line, name)] = rows
    for path, marks in found.items():
        lines = open(path, encoding="utf-8").read().split("\n")
        for (line, name), rows in sorted(marks.items(), reverse=True):
            k = line - 1
            first = None
            while k >= 0 and first is None:
                if re.match(r"\s*(?:pub )?" + re.escape(name) + r" :", lines[k]):
                    first = k + 1
                k -= 1
            if first is None:
                print(f"{path}:{line}: no signature of {name}")
                continue
            while not re.match(r"\s*" + re.escape(name) + r" ", lines[first]):
                first += 1
            pad = re.match(r"\s*", lines[first]).group(0)
            lines[first:first] = [pad + r for r in rows]
            print(f"{path}: {name}: {len(rows)}")
        text = "\n".join(lines)
        head = "\n".join(l for l in lines if l.startswith("use "))
        for short, module in wanted.get(path, {}).items():
            if not re.search(r"(?<=[{ ])" + re.escape(short) + r"(?=[,}])", head):
                text = re.sub(r"(?m)^use ", f"use {module}.{{{short}}}\nuse ", text, count=1)
        open(path, "w", encoding="utf-8").write(text)
    return 0


if __name__ == "__main__":
    raise SystemExit(main(sys.argv[1:]))
