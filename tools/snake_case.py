#!/usr/bin/env python3
"""Spells the repository's own definitions and lemmas in today's style: words in snake case, facts and records in camel case.

usage: python3 tools/snake_case.py      at the top of the repository, once, after port.py

A name with a dash that a file of specs/ or a file of lemmas declares, and a bound name in specs/, gets underscores (`day-of` is
`day_of`); one with a capital at its
head is a fact or a record, and gets capitals (`Date-step` is `DateStep`). Whole words turn: in .antt files, in the clauses, ghost items and
comments' code spans of .rt files, and in the code spans of README.md and docs/. Rust's own text, strings and the names that Rattle makes
(those that only Answers.antt and Invariants.antt declare) stay. Where two names would fall together, nothing is written.
"""

import os
import re
import sys

WORD = re.compile(r"[^\s(){}.;,@\"«»:\[\]|`]+")
DECLARED = re.compile(
    r"^\s*(?:abbrev |unfoldable |pub |record )*([^\s(){}.;,@\"«»:]+)"
    r"(?: \{[^{}\n]*\})*(?: \([^()\n]*(?:\([^()\n]*\)[^()\n]*)*\))* :(?: |$)",
    re.M,
)
MADE = ("Answers.antt", "Invariants.antt")
QUIET = re.compile(r"--[^\n]*")
LIBRARY = re.compile(r"^use Rattle\.std\.[^\n]*", re.M)
SPAN = re.compile(r"`[^`\n]+`")
RUST = re.compile(r'//[^\n]*|b?"(?:\\.|[^"\\])*"|b?\'(?:\\.|[^\'\\])\'|ghost\s+use\b[^;]*;|(?:requires|ensures|ghost)\b[^{};\n]*\{', re.S)


def files(root, ending):
    for folder, dirs, names in os.walk(root):
        dirs[:] = sorted(d for d in dirs if d not in ("out", ".git", "target"))
        yield from (os.path.join(folder, n) for n in sorted(names) if n.endswith(ending))


def read(path):
    with open(path, encoding="utf-8") as f:
        return f.read()


def spelled(name):
    if name[0].isupper():
        return "".join(part[0].upper() + part[1:] for part in name.split("-"))
    return name.replace("getD", "get_or").replace("-", "_")


def declared(root):
    names = set()
    for path in files(os.path.join(root, "crates"), ".antt"):
        if "/proofs/" in path and os.path.basename(path) in MADE:
            continue
        text = QUIET.sub("", read(path))
        found = [m[1] for m in DECLARED.finditer(text)]
        if "/specs/" in path:
            found += WORD.findall(LIBRARY.sub("", text))
        names.update(n for n in found if re.search(r"\w-\w", n) and n[0].isalpha())
    return names


def turn(text, table):
    return WORD.sub(lambda m: table.get(m[0], m[0]), text)


def spans(text, table):
    return SPAN.sub(lambda m: turn(m[0], table), text)


def antt(text, table):
    out, at = [], 0
    for m in QUIET.finditer(text):
        out += [turn(text[at : m.start()], table), spans(m[0], table)]
        at = m.end()
    return "".join(out) + turn(text[at:], table)


def closing(text, at):
    deep = 0
    for i in range(at, len(text)):
        deep += (text[i] == "{") - (text[i] == "}")
        if deep == 0:
            return i + 1
    return len(text)


def rust(text, table):
    out, at = [], 0
    while m := RUST.search(text, at):
        out.append(text[at : m.start()])
        end = m.end()
        if m[0].startswith("//"):
            out.append(spans(m[0], table))
        elif m[0][0] in "b\"'":
            out.append(m[0])
        elif m[0].endswith(";"):
            out.append(turn(m[0], table))
        else:
            end = closing(text, m.end() - 1)
            out.append(turn(text[m.start() : end], table))
        at = end
    return "".join(out) + text[at:]


def main():
    root = os.getcwd()
    table = {n: spelled(n) for n in declared(root)}
    taken = {}
    for old, new in table.items():
        taken.setdefault(new, []).append(old)
    meet = [v for v in taken.values() if len(v) > 1]
    if meet:
        sys.exit(f"these names would fall together, and nothing was written: {meet}")
    jobs = [(p, antt) for p in files(os.path.join(root, "crates"), ".antt")]
    jobs += [(p, rust) for p in files(os.path.join(root, "crates"), ".rt")]
    jobs += [(p, spans) for p in files(os.path.join(root, "docs"), ".md")]
    jobs += [(p, spans) for p in [os.path.join(root, "README.md")] if os.path.exists(p)]
    changed = 0
    for path, how in jobs:
        old = read(path)
        new = how(old, table)
        if new != old:
            changed += 1
            with open(path, "w", encoding="utf-8") as f:
                f.write(new)
    print(f"{len(table)} names, {changed} files changed")


if __name__ == "__main__":
    main()
