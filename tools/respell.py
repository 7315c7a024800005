#!/usr/bin/env python3
"""Turns this repository's own antt names to snake case, as maxWidth and bounded-waiting to max_width and bounded_waiting.

usage: respell.py [--check] [--pages] [FOLDER]     FOLDER is the repository's top, the current folder if none is named

It goes over the definitions and lemmas of specs/ and proofs/, wherever .antt files and the clauses of .rt files name them, and over code
spans in comments. Names that Rattle makes of a function's code keep their dashes, and so do a library's. --check writes nothing and lists
names that would fall together. --pages goes over the code spans of README.md and docs/ alone, once the names themselves have turned.
"""
import collections
import os
import re
import sys

NAME = r'[^\s(){}.;,@"«»]+'
WORD = re.compile(NAME)
DECLARED = re.compile(rf"(?m)^ *(?:(?:pub|abbrev|unfoldable|record|data) +)*({NAME})(?: +\{{[^{{}}\n]*\}})* +: +(.*)$")
COMMENT = re.compile(r"(?<![^\s(){}.;,@\"«»])--[^\n]*")
SPAN = re.compile(r"`[^`\n]+`")
CLAUSE = re.compile(r"\b(?:requires|ensures)\b[^{;\n]*\{")
GHOST_USE = re.compile(r"ghost\s+use\b[^;]*;")


# A lemma that would have its function's name gets _lem, everywhere or in this file alone.
LEMMAS = {
    "if-passed": "if_passed_lem",
    "one-pick": "one_pick_lem",
    "nodes-length": "nodes_length_lem",
    "is-code": "is_code_lem",
}
LEMMAS_OF = {
    "crates/snapshot/proofs/RoundTrips.antt": {"two_bytes": "two_bytes_lem"},
    "crates/snapshot/specs/Calls/Laws.antt": {"head_bytes": "head_bytes_lem"},
}


def snake(name):
    if name in LEMMAS:
        return LEMMAS[name]
    name = re.sub(r"(?<=[a-z0-9])[A-Z]", lambda m: "_" + m[0].lower(), name)
    return re.sub(r"(?<=[a-zA-Z0-9_'])-(?=[a-zA-Z0-9_'])", "_", name)


def turns(name):
    """Whether a name is one of words that snake case joins otherwise: no type or module, no operator."""
    return bool(re.fullmatch(r"[a-z][A-Za-z0-9_'-]*", name)) and snake(name) != name


def files(top, *endings):
    for folder, dirs, names in os.walk(os.path.join(top, "crates")):
        dirs[:] = sorted(d for d in dirs if d not in ("out", "target"))
        for it in sorted(names):
            if it.endswith(endings):
                yield os.path.join(folder, it)


def read(path):
    with open(path, encoding="utf-8") as f:
        return f.read()


def made(path, type):
    """Whether a declaration is of a name that Rattle makes: a need of a function's proof, or the proof."""
    return bool(re.search(r"/proofs/.+/(Proof|Answers|Invariants)\.antt$", path)) and bool(
        re.match(r"(tie|goal)\.|\{M : Type 1\} → statement", type)
    )


def declared(top):
    """The names of our own, and those that Rattle makes."""
    ours, theirs = set(), set()
    for path in files(top, ".antt"):
        for m in DECLARED.finditer(COMMENT.sub("", read(path))):
            (theirs if made(path, m[2]) else ours).add(m[1])
    return {n for n in ours if turns(n)}, theirs


def fields_of(text):
    """The names that stand in records, as their fields."""
    found, deep = set(), None
    for line in text.split("\n"):
        here = len(line) - len(line.lstrip())
        if line.strip() and deep is not None and here <= deep:
            deep = None
        if re.match(r" *(?:(?:pub|abbrev) +)*record ", line):
            deep = here
        elif deep is not None and (m := DECLARED.match(line)):
            found.add(m[1])
    return found


def respell(text, table, fields):
    """antt's text with its names turned. A name behind a dot turns if a module stands before it, or if it is a field of ours."""

    def turn(m):
        old = m[0]
        if old not in table:
            return old
        at = m.start()
        if at and text[at - 1] == ".":
            head = re.search(rf'({NAME}(?:\.{NAME})*)\.$', text[:at])
            first = head[1].split(".")[-1] if head else ""
            if not first[:1].isupper() and old not in fields:
                return old
        return table[old]

    return WORD.sub(turn, text)


def spans(text, table, fields):
    return SPAN.sub(lambda m: respell(m[0][1:-1], table, fields).join("``"), text)


def in_antt(text, table, fields):
    out, at = [], 0
    for m in COMMENT.finditer(text):
        out += [respell(text[at : m.start()], table, fields), spans(m[0], table, fields)]
        at = m.end()
    return "".join(out + [respell(text[at:], table, fields)])


def in_rt(text, table, fields):
    text = GHOST_USE.sub(lambda m: respell(m[0], table, fields), text)
    out, at = [], 0
    for m in CLAUSE.finditer(text):
        if m.start() < at:
            continue
        deep, end = 1, m.end()
        while deep:
            deep += {"{": 1, "}": -1}.get(text[end], 0)
            end += 1
        out += [text[at : m.end()], respell(text[m.end() : end], table, fields)]
        at = end
    text = "".join(out + [text[at:]])
    return re.sub(r"//[^\n]*", lambda m: spans(m[0], table, fields), text)


def borrowed(text):
    """The names that a file imports from a library."""
    found = set()
    for m in re.finditer(r"(?m)^ *(?:ghost )?use ([^\s;{]+?)\.?\{([^}]*)\}", text):
        path = m[1].split(".")
        if path[0] != "Rattle" or path[1] in ("std", "core", "io", "os", "libc"):
            found |= set(re.findall(r"[^\s,]+", m[2]))
    return found


def turn_pages(top):
    names = set()
    for path in files(top, ".antt"):
        names |= {m[1] for m in DECLARED.finditer(COMMENT.sub("", read(path)))}
    turn = lambda m: snake(m[0]) if turns(m[0]) and snake(m[0]) in names else m[0]
    pages = [os.path.join(d, f) for d, _, fs in os.walk(os.path.join(top, "docs")) for f in fs if f.endswith(".md") and f != "PORT.md"]
    for path in [os.path.join(top, "README.md")] + pages:
        text = read(path)
        with open(path, "w", encoding="utf-8") as f:
            f.write(SPAN.sub(lambda m: WORD.sub(turn, m[0][1:-1]).join("``"), text))


def main(words):
    check = "--check" in words
    rest = [w for w in words if not w.startswith("--")]
    top = rest[0] if rest else "."
    if "--pages" in words:
        return turn_pages(top)
    ours, theirs = declared(top)
    table = {n: snake(n) for n in ours}
    fields = set()
    for path in files(top, ".antt"):
        fields |= fields_of(COMMENT.sub("", read(path)))
    together = collections.defaultdict(set)
    for old, new in table.items():
        together[new].add(old)
    for path in files(top, ".antt", ".rt"):
        text = read(path)
        mine = {o: n for o, n in {**table, **LEMMAS_OF.get(os.path.relpath(path, top), {})}.items() if o not in borrowed(text)}
        seen = set(WORD.findall(COMMENT.sub("", text)))
        for old in sorted(seen & set(mine)):
            others = {o for o in together[mine[old]] if o != old} & seen
            if mine[old] in seen or others:
                print(f"look: {path}: {old} and {mine[old]} {sorted(others) or ''}")
        new = (in_antt if path.endswith(".antt") else in_rt)(text, mine, fields)
        if new != text and not check:
            with open(path, "w", encoding="utf-8") as f:
                f.write(new)
    print(f"{len(table)} names")


main(sys.argv[1:])
