#!/usr/bin/env python3
"""Lists places of src/ that may be written in a plainer form: places.py POINT [CRATE..]

Each line is FILE:LINE: TEXT; the last line is the count. It goes by the text, so each line is to be read.

  codes        1 fields and results that are a flag or a number beside a value, enums, numbers of kinds
  twins        2 functions of one crate whose bodies differ in names and numbers only, and structs with the same fields
  loops        3 loops over a range, by `while`, or with an index or a count kept by hand
  conversions  4 conversions, comparisons and printing written by hand
  facts        5 clauses that stand in three or more functions, and parameters that travel together in three or more
  buffers      6 a slice, array or list with a length beside it, and searches by hand
  switches     7 a `match` whose arms are calls, and types of closures and functions
  proofs       8 answers and lemmas of proofs/
"""
import collections
import pathlib
import re
import sys

ROOT = pathlib.Path(__file__).resolve().parent.parent


def files(crates, folder, names):
    for crate in sorted((ROOT / "crates").iterdir()):
        if crates and crate.name not in crates:
            continue
        for path in sorted((crate / folder).rglob(names)):
            yield path, path.read_text().split("\n")


def sources(crates):
    return files(crates, "src", "*.rt")


def code_sources(crates):
    return ((path, lines) for path, lines in sources(crates) if not is_test(path))


def is_test(path):
    return path.name == "tests.rt" or path.parts[-3].endswith("_tests")


def by_patterns(patterns):
    def search(crates):
        for path, lines in sources(crates):
            for n, line in enumerate(lines, 1):
                code = line.split("//")[0]
                if re.match(r"\s*(ghost|requires|ensures)\b", code):
                    continue
                if any(re.search(p, code) for p in patterns):
                    yield path, n, line.strip()
    return search


def functions(path, lines):
    """Each function of a file: its line, its name, its head with the clauses, and its body."""
    n = 0
    while n < len(lines):
        found = re.match(r"(\s*)(pub(\([a-z]+\))? )?(const )?fn (\w+)", lines[n])
        if not found:
            n += 1
            continue
        indent, start = found.group(1), n
        while n < len(lines) and not (lines[n].rstrip() == indent + "{" or lines[n].rstrip().endswith(" {")
                                      and not re.match(r"\s*(requires|ensures)", lines[n]) or lines[n].rstrip().endswith(";")):
            n += 1
        head = lines[start:n + 1]
        body = []
        if n < len(lines) and not lines[n].rstrip().endswith(";"):
            n += 1
            while n < len(lines) and lines[n].rstrip() != indent + "}":
                body.append(lines[n])
                n += 1
        yield start + 1, found.group(5), head, body
        n += 1


def shape(body):
    text = " ".join(line.split("//")[0].strip() for line in body)
    text = re.sub(r"0x[0-9A-Fa-f_]+|\b\d[\d_]*\b", "0", text)
    return re.sub(r"\b[A-Za-z_]\w*\b", lambda m: m.group(0) if m.group(0) in KEPT else "x", text)


KEPT = {"if", "else", "match", "for", "in", "while", "let", "mut", "return", "self", "Some", "None", "Ok", "Err", "as"}


def twins(crates):
    shapes = collections.defaultdict(list)
    structs = collections.defaultdict(list)
    for path, lines in code_sources(crates):
        for n, name, _, body in functions(path, lines):
            if body:
                shapes[(path.parts[-3], shape(body))].append((path, n, name))
        text = "\n".join(lines)
        for found in re.finditer(r"struct (\w+)[^{;\n]*\{\n(.*?)\n\}", text, re.S):
            fields = tuple(line.strip() for line in found.group(2).split("\n") if re.match(r"\s*(pub )?\w+:", line))
            if len(fields) > 1:
                structs[fields].append((path, text[:found.start()].count("\n") + 1, "struct " + found.group(1)))
    for group in list(shapes.values()) + list(structs.values()):
        if len(group) > 1:
            yield from group
            yield None


def clause_key(clause):
    clause = re.sub(r"^\s*(requires|ensures) (\w+ )?\{\s*|\s*\}\s*$", "", clause)
    return re.sub(r"\.(old|new|now)\b", "", clause)


def facts(crates):
    clauses = collections.defaultdict(set)
    pairs = collections.defaultdict(set)
    for path, lines in code_sources(crates):
        for n, name, head, _ in functions(path, lines):
            place = (path, n, name)
            for line in head:
                if re.match(r"\s*(requires|ensures)", line):
                    clauses[(path.parts[-3], clause_key(line))].add(place)
            text = " ".join(part.strip() for part in head if not re.match(r"\s*(requires|ensures)", part))
            params = re.findall(r"(\w+): ([^,()]+?)(?=[,)])", text)
            names = sorted({f"{a}: {b}" for a, b in params})
            for i, a in enumerate(names):
                for b in names[i + 1:]:
                    pairs[(path.parts[-3], a + ", " + b)].add(place)
    for kind in (clauses, pairs):
        for (crate, key), places in sorted(kind.items()):
            if len(places) >= 3:
                for path, n, name in sorted(places):
                    yield path, n, f"{name}  --  {key}"
                yield None


def proofs(crates):
    for path, lines in files(crates, "proofs", "*.antt"):
        for n, line in enumerate(lines, 1):
            found = re.match(r"(?:abbrev )?(?:pub )?([\w'-]+) : ", line)
            if found and not line.startswith(" "):
                yield path, n, found.group(1)


POINTS = {
    "codes": by_patterns([
        r"\benum \w+", r"^\s*(pub(\([a-z]+\))? )?\w+: bool,", r"fn \w*number\w*\(", r"-> Option<u\d+>", r"\bstage: u8",
        r"^\s*(pub )?(number|fault|area|register): u\d+,", r"\(bool, |, bool\)"]),
    "twins": twins,
    "loops": by_patterns([r"\bfor \w+ in .*\.\.", r"\bwhile\b", r"\.enumerate\(\)", r"\+= 1;", r"\bloop\b"]),
    "conversions": by_patterns([
        r"fn (from_\w+|bytes|byte|of_\w+|\w+_of|of|number|\w+_number|named|encode|decode|word|clock)\b", r"\{ 1 \} else \{ 0 \}|\{ 0 \} else \{ 1 \}",
        r"\bas (u8|u16|u32|u64|usize)\b", r"Ok\((\w+)\) => \1\b", r"None => None\b", r"Err\((\w+)\) => return Err", r"Err\(_\) => 0",
        r"=> (true|false),$", r"\bimpl .*(PartialEq|Clone|Copy|Ord) for", r"\{ true \} else|\{ false \} else"]),
    "facts": facts,
    "buffers": by_patterns([
        r"\b(used|count|len|length): (usize|u\d+)\b", r"\[\w+; \w+\]", r"if \w+ < \w+\.len\(\)", r"split_at\("]),
    "switches": by_patterns([r"=> (self\.|return self\.|\w+\()\w*\(?.*\(", r"\bdyn\b", r"impl Fn", r"\bfn\("]),
    "proofs": proofs,
}


def main():
    if len(sys.argv) < 2 or sys.argv[1] not in POINTS:
        sys.exit(__doc__)
    count = 0
    for place in POINTS[sys.argv[1]](sys.argv[2:]):
        if place is None:
            print()
            continue
        path, n, text = place
        print(f"{path.relative_to(ROOT)}:{n}: {text}")
        count += 1
    print(count)


if __name__ == "__main__":
    main()
