#!/usr/bin/env python3
"""Brings the repository's own definitions and lemmas to one spelling: words in snake case, types and modules in camel case, a dash only beside a type.

usage: tools/respell.py [--check] [TOP]

It collects the names that the .antt files under TOP/crates declare, works out each one's spelling, and turns whole words: in .antt files all code and
those comments that speak of a name of their file's code; in .rt files `ghost use` items and clauses; in must-fail edits the lines of .antt files;
in .md files code spans. Names that would fall together with another word of some file are listed and get the spelling that TAKEN gives.
"""
import collections
import os
import re
import sys

WORD = re.compile(r'[^\s(){}.;,@"«»`\[\]|]+')
DECLARED = re.compile(r"^\s*(?:abbrev |unfoldable |opaque |private )*(?:pub )?(?:abbrev |unfoldable |opaque )*(?:record |data )?(\S+)(?: [({⟨].*?)? :(?: |$)")
CLAUSE = re.compile(r"\b(?:requires|ensures)\b\s*\*?\s*(?:\w+\s*)?\{|\bghost\s+\w+\s*:\s*\{|ghost\s+use\b")

# A lemma that would have its function's name gets _lem: these were spelled like the function already, in the files that a path here begins.
LEMMAS = {
    "count_at": ("addresses/specs", "port_fits/specs", "port_rows/specs", "wired/specs", "guarantee/specs"),
    "ends_words": ("port_fill/specs",),
    "in_order": ("network/specs", "clockwork/specs", "step_order/specs"),
    "list_length": ("geometry/specs/PipeOrder", "window/specs", "port_fits/specs", "start/specs", "result/specs", "wired/specs", "guarantee/specs"),
    "move_down": ("network/specs/Links",),
    "no_line": ("decode/specs/Ranged",),
    "no_stream": ("decode/specs/Ranged",),
    "own_line": ("walk/",),
    "ready_call": ("bits/specs", "ready/specs"),
    "runs_of": ("wired/specs/Instances", "guarantee/specs/Instances", "addresses/specs/Ports"),
    "word_count": ("addresses/specs", "port_fits/specs", "run_steps/specs"),
}

# The others that would.
ALSO = "end-at in-range line-at line-of or-else put-end row-at run-at size-of stop-at up-to"
TAKEN = {o: o.replace("-", "_") + "_lem" for o in ALSO.split()}


def spelled(name):
    if not name[0].isalpha() or name.startswith("◌") or "◌" in name:
        return name
    name = name.replace("′", "'")
    parts = name.split("-")
    if any(p[:1].isupper() for p in parts):
        return "-".join(p if p[:1].isupper() else snake(p) for p in parts)
    return "_".join(snake(p) for p in parts)


def snake(part):
    return re.sub(r"(?<=[a-z0-9])[A-Z]", lambda m: "_" + m[0].lower(), part)


def files(top, ending):
    for folder, dirs, names in os.walk(os.path.join(top, "crates")):
        dirs[:] = sorted(d for d in dirs if d != "out")
        for n in sorted(names):
            if n.endswith(ending):
                yield os.path.join(folder, n)


def read(path):
    with open(path, encoding="utf-8") as f:
        return f.read()


def declared(top):
    found = set()
    for path in files(top, ".antt"):
        for line in read(path).splitlines():
            if line.lstrip().startswith(("--", "use ", "where", "λ")):
                continue
            m = DECLARED.match(line)
            if m and WORD.fullmatch(m[1]):
                found.add(m[1])
    return found


def split_comment(line):
    m = re.search(r"(?<!\S)--(?=\s|$|-)", line)
    return (line[: m.start()], line[m.start() :]) if m else (line, "")


def turn_words(text, table):
    return WORD.sub(lambda m: table.get(m[0], m[0]), text)


USE = re.compile(r"use (\S+?)\.\{([^}]*)\}")


def borrowed(text, crates):
    """The names that a file imports from libraries: these stay there."""
    out = set()
    for m in USE.finditer(text):
        steps = m[1].split(".")
        if not (steps[0] == "Rattle" and len(steps) > 1 and steps[1] in crates):
            out |= set(WORD.findall(m[2]))
    return out


def without(table, names):
    return {o: n for o, n in table.items() if o not in names}


def turn_antt(text, table):
    lines = text.split("\n")
    code = {w for line in lines for w in WORD.findall(split_comment(line)[0])}
    told = {o: n for o, n in table.items() if o in code and re.search(r"[a-z0-9][A-Z]|-.*-|′", o)}
    out = []
    for line in lines:
        a, b = split_comment(line)
        out.append(turn_words(a, table) + (turn_words(b, told) if b else ""))
    return "\n".join(out)


def turn_rt(text, table):
    out, at = [], 0
    for m in CLAUSE.finditer(text):
        if m.start() < at:
            continue
        if m[0].startswith("ghost") and m[0].endswith("use"):
            end = text.index(";", m.end())
        else:
            depth, end = 1, m.end()
            while depth:
                depth += {"{": 1, "}": -1}.get(text[end], 0)
                end += 1
        out += [text[at : m.end()], turn_words(text[m.end() : end], table)]
        at = end
    out.append(text[at:])
    camel = {o: n for o, n in table.items() if re.search(r"[a-z0-9][A-Z]", o)}
    return re.sub(r"//[^\n]*", lambda m: turn_words(m[0], camel), "".join(out))


def turn_edit(text, table):
    return "\n".join(turn_words(l, table) if l.startswith(("old:", "new:")) else l for l in text.split("\n")) if ".antt" in text.split("\n")[0] or re.search(r"file: \S+\.antt", text) else text


def turn_md(text, table):
    return re.sub(r"`[^`\n]+`", lambda m: turn_words(m[0], table), text)


def main(argv):
    check = "--check" in argv
    argv = [a for a in argv if a != "--check"]
    top = argv[0] if argv else os.path.join(os.path.dirname(os.path.abspath(__file__)), "..")
    names = declared(top)
    crates = set(os.listdir(os.path.join(top, "crates")))
    camel = {spelled(n) for n in names if "-" not in n and spelled(n) != n}
    table = {}
    for name in sorted(names):
        new = TAKEN.get(name, spelled(name))
        if "-" in name and new in camel:
            new += "_lem"
        if new != name:
            table[name] = new
    words = {p: set(WORD.findall(read(p))) for p in list(files(top, ".antt")) + list(files(top, ".rt"))}
    meets = collections.defaultdict(list)
    sources = collections.defaultdict(set)
    for o, n in table.items():
        sources[n].add(o)
    for p, ws in words.items():
        for w in ws:
            if w in table and table[w] in ws:
                meets[w, table[w]].append(os.path.relpath(p, top))
        for n, os_ in sources.items():
            if len(os_) > 1 and len(os_ & ws) > 1:
                meets[tuple(sorted(os_)), n].append(os.path.relpath(p, top))
    for (o, n), ps in sorted(meets.items(), key=str):
        print(f"meets: {o} -> {n} in {ps[:4]}{'..' if len(ps) > 4 else ''}")
    print(f"{len(table)} names, {len(meets)} meetings")
    if check:
        return
    for path in files(top, ".antt"):
        here = os.path.relpath(path, os.path.join(top, "crates"))
        own = {o: o + "_lem" for o, beginnings in LEMMAS.items() if here.startswith(beginnings)}
        t = read(path)
        new = turn_antt(t, own) if own else t
        if new != t:
            with open(path, "w", encoding="utf-8") as f:
                f.write(new)
    for ending, turn in ((".antt", turn_antt), (".rt", turn_rt), (".edit", turn_edit)):
        for p in files(top, ending):
            t = read(p)
            new = turn(t, without(table, borrowed(t, crates)))
            if new != t:
                with open(p, "w", encoding="utf-8") as f:
                    f.write(new)
    for folder in (top, os.path.join(top, "docs")):
        for n in sorted(os.listdir(folder)):
            if n.endswith(".md"):
                p = os.path.join(folder, n)
                t = read(p)
                new = turn_md(t, table)
                if new != t:
                    with open(p, "w", encoding="utf-8") as f:
                        f.write(new)


if __name__ == "__main__":
    main(sys.argv[1:])
