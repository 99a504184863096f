#!/usr/bin/env python3
"""Writes the 'unfolding' lines that a check says would let a refused declaration through.

usage: rt check > LOG 2>&1; python3 ../../tools/unfoldings.py LOG        in the folder of a crate

It reads the notes 'a trial run of this declaration was admitted by the kernel', writes each line under the signature,
and imports what the file does not have.
"""

import re
import sys


def main(words):
    said = open(words[0], encoding="utf-8").read()
    seen = {}
    for m in re.finditer(r"^(\./\S+?):(\d+):\d+: note: a trial run of this declaration was admitted by the kernel\. That run had the line `(unfolding [^`]*)` under its signature\.(.*)$", said, re.M):
        names = dict(re.findall(r"`([^`]+)` \(`([^`]+)`\)", m.group(4)))
        seen[(m.group(1), int(m.group(2)))] = (m.group(3), names)
    files = {}
    for (path, line), it in seen.items():
        files.setdefault(path, []).append((line, it))
    for path, marks in files.items():
        lines = open(path, encoding="utf-8").read().split("\n")
        wanted = {}
        for line, (unfold, names) in sorted(marks, reverse=True):
            k = line
            pad = re.match(r" *", lines[line - 1]).group(0)
            while k < len(lines) and lines[k].startswith(pad + " "):
                k += 1
            if lines[k].strip().startswith("unfolding "):
                lines[k] = pad + unfold
            else:
                lines.insert(k, pad + unfold)
            for short, full in names.items():
                if "." not in short:
                    wanted[short] = full
        text = "\n".join(lines)
        head = "\n".join(l for l in lines if l.startswith("use "))
        for short, full in wanted.items():
            module = full[: -len(short) - 1]
            if re.search(re.escape("use " + module + ".{") + r"[^}]*(?<=[{ ])" + re.escape(short) + r"(?=[,}])", head):
                continue
            if re.search(r"(?<=[{ ])" + re.escape(short) + r"(?=[,}])", head):
                continue
            text = re.sub(r"(?m)^use ", f"use {module}.{{{short}}}\nuse ", text, count=1)
        open(path, "w", encoding="utf-8").write(text)
        print(f"{path}: {len(marks)}")
    return 0


if __name__ == "__main__":
    raise SystemExit(main(sys.argv[1:]))
