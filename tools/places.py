#!/usr/bin/env python3
"""Counts the places of docs/DESIGN-PASS.md in crates/*/src, point by point.

    tools/places.py            the counts
    tools/places.py POINT      the places of one point, as file:line text
"""
import collections
import glob
import re
import sys


def sources():
    for path in sorted(glob.glob("crates/*/src/*.rt")):
        yield path, open(path, encoding="utf-8").read()


def lines(pattern):
    """The lines of code that a pattern meets."""
    found = []
    for path, text in sources():
        for number, line in enumerate(text.split("\n"), 1):
            if not line.lstrip().startswith("//") and re.search(pattern, line):
                found.append(f"{path}:{number} {line.strip()}")
    return found


FUNCTION = re.compile(r"^( *)(pub )?(extern \"C\" )?fn (\w+)(.*?)^\1\}$", re.M | re.S)


def functions():
    for path, text in sources():
        for m in FUNCTION.finditer(text):
            head, _, body = m.group(5).partition("\n{\n" if not m.group(1) else "\n" + m.group(1) + "{\n")
            if not body:
                head, _, body = m.group(5).partition("{")
            yield path, text.count("\n", 0, m.start()) + 1, m.group(4), head, body


def parameters(head):
    inner = head[head.index("(") + 1 :]
    depth, out, word = 0, [], ""
    for c in inner:
        if c in "([<{":
            depth += 1
        if c in ")]>}":
            depth -= 1
            if depth < 0:
                break
        if c == "," and depth == 0:
            out.append(word.strip())
            word = ""
        else:
            word += c
    return [p for p in out + [word.strip()] if p]


def clauses(head):
    """The facts of a contract, at each × outside of brackets."""
    facts = []
    for block in re.findall(r"(?:requires|ensures)\*?(?: \w+)? \{(.*?)\}(?=\n|$)", head, re.S):
        depth, word = 0, ""
        for c in block:
            depth += c in "([{"
            depth -= c in ")]}"
            if c == "×" and depth == 0:
                facts.append(word)
                word = ""
            else:
                word += c
        facts.append(word)
    return {re.sub(r"\s+", " ", f).strip().strip("()") for f in facts}


def twins():
    """Functions of one crate whose bodies differ in names, types and numbers alone."""
    shapes = collections.defaultdict(list)
    for path, number, name, head, body in functions():
        tokens = re.findall(r"\w+|[^\w\s]", re.sub(r"//.*", "", body))
        keep = {"if", "else", "for", "in", "while", "loop", "match", "let", "mut", "return", "true", "false", "as"}
        shape = tuple(t if not re.match(r"\w", t) or t in keep else "1" if t.isdigit() else "x" for t in tokens)
        if len(shape) >= 12:
            shapes[(path, shape)].append(f"{path}:{number} {name}")
    return [" | ".join(group) for group in shapes.values() if len(group) > 1]


def together(count, size):
    """Runs of parameters that stand next to one another in at least `count` functions."""
    where = collections.defaultdict(set)
    for path, number, name, head, body in functions():
        names = [re.sub(r"&('\w+ )?(mut )?", "", p) for p in parameters(head)]
        for i in range(len(names) - size + 1):
            where[tuple(names[i : i + size])].add(f"{path}:{name}")
    return [f"{len(w)} {', '.join(k)}" for k, w in sorted(where.items(), key=lambda x: -len(x[1])) if len(w) >= count]


def repeated(count):
    where = collections.defaultdict(set)
    for path, number, name, head, body in functions():
        for fact in clauses(head):
            if not fact.startswith(("result", "out.new", "state.new", "ports.new", "places.new")):
                where[fact].add(f"{path}:{name}")
    return [f"{len(w)} {k}" for k, w in sorted(where.items(), key=lambda x: -len(x[1])) if len(w) >= count]


POINTS = {
    "1 own enums of the shape of Result": lambda: lines(r"^    Refused\(u32\)"),
    "1 a flag or a refusal beside a value": lambda: lines(r"^    (pub )?(refusal|found|whole): (u32|bool),|: &mut u32\b.*number|\bnumber: &mut u32"),
    "1 refusals answered as numbers": lambda: lines(r"fn (\w*(refusal|answer)\w*|answer_to|of_(table|plain|memory|state|start|window|ready|result))\(.*-> u32")
    + lines(r"^    pub (still|leap|onward|back): u32"),
    "1 kinds as numbers": lambda: lines(r"\bkind: u32"),
    "2 twins": twins,
    "3 loops that count by hand": lambda: lines(r"^\s*('\w+: )?(while|loop)\b"),
    "4 conversions, comparisons and copies by hand": lambda: lines(
        r"fn (flag|wide|signed|bits_of|magnitude|least|capped|copy|store|zero2|put_decimal|put_signed|print_signed|show|mix_signed|filled)\("
    ),
    "4 widening casts": lambda: lines(r"\bas (u64|i64|u32|i32|usize|u16)\b"),
    "5 facts in three contracts or more": lambda: repeated(3),
    "5 parameters that travel together": lambda: together(4, 3),
    "6 buffers with a length beside": lambda: lines(r"page: &mut \[u8; PAGE\], at: usize|page: &mut \[u8; PAGE\],$|^    at: usize,$|words: &\[u32\], count: usize|bytes: &\[u8\], count: usize"),
    "6 lists of words that hold a table": lambda: lines(r"let mut \w+ = \[(0|false)(u8|u16|u32|u64|i8)?; [A-Z]"),
    "7 matches on which step to run": lambda: lines(r"\bmatch (kind|op|c|i|calls|list|step)\b"),
}


def main():
    if len(sys.argv) > 1:
        for name, find in POINTS.items():
            if name.startswith(sys.argv[1]):
                print("#", name)
                print("\n".join(find()))
        return
    for name, find in POINTS.items():
        print(f"{len(find()):5}  {name}")
    proofs = [p for p in glob.glob("crates/*/proofs/*/*.antt")]
    answers = sum(len(re.findall(r"^pub ", open(p, encoding="utf-8").read(), re.M)) for p in proofs if p.endswith("Answers.antt"))
    size = sum(open(p, encoding="utf-8").read().count("\n") for p in proofs)
    print(f"{answers:5}  8 answers in proofs/F/Answers.antt\n{size:5}  8 lines of proofs/F")


main()
