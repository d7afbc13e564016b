#!/usr/bin/env python3
"""Brings the repository's own names in specs/ and proofs/ to one spelling: facts, types and records in upper camel case,
functions, lemmas, fields and constructors in snake case. A dash stays where it joins two names of functions.

usage: python3 tools/respell.py [--list]      at the top of the repository; --list prints the names and writes nothing

It was run once, after the kit's own script for older repositories; docs/PORT.md says on what.
"""

import os
import re
import sys

TOKEN = re.compile(r"[^\s(){}\[\].,;«»⌜⌝@\"`]+")
DECLARED = re.compile(r"^(\s*)(?:(?:abbrev|unfoldable|pub)\s+)*(?:(record|data)\s+)?([^\s:(){}\[\].,;«»\"`=]+)((?:\s*[({].*?[)}])*)\s*:\s(.*)$")
RESERVED = {"where", "module", "use", "let", "in", "unfolding", "elim", "as"}
# Names that would be those of the library's words.
OTHERWISE = {
    "Is-true": "IsModelTrue",
    "Is-false": "IsModelFalse",
    "Is-undefined": "IsModelUndefined",
    "Holds-at": "HasItemAt",
    "bit-and": "bit-bit_and",
    "bit-or": "bit-bit_or",
}
# The model's own word for 'one of these', in the files that have it.
SOME = (re.compile(r"use Rattle\.model\.specs\.Clauses\.\{[^}]*\bSome\b|abbrev pub Some :"), re.compile(r"(?<![\w.'-])Some(?![\w'-])"), "AnyOf")
WORDS = {"length", "map", "drop", "take", "append", "sum", "replicate", "set", "get_or"}


def files(top):
    for folder, dirs, names in os.walk(os.path.join(top, "crates")):
        dirs[:] = sorted(d for d in dirs if d != "out")
        for name in sorted(names):
            if name.endswith((".rt", ".antt")):
                yield os.path.join(folder, name)


def crates(top):
    return {c for c in os.listdir(os.path.join(top, "crates"))}


def is_answer(path):
    return os.path.basename(path) in ("Answers.antt", "Invariants.antt", "Proof.antt")


def signatures(text):
    """Each declaration with a type: its indent, kind, name and whole type."""
    lines = text.split("\n")
    for k, line in enumerate(lines):
        if line.strip().startswith(("--", "use ", "let ", "module ", "λ")):
            continue
        m = DECLARED.match(line)
        if not m or m.group(3) in RESERVED or m.group(3).startswith("--"):
            continue
        whole = m.group(5)
        for more in lines[k + 1:]:
            if not more.strip() or len(more) - len(more.lstrip()) <= len(m.group(1)) or more.strip().startswith("--"):
                break
            whole += " " + more.strip()
        yield len(m.group(1)), m.group(2), m.group(3), whole


def is_fact(kind, whole):
    return bool(kind) or re.search(r"(?:^|→ |\) )Type(?: 0)?(?: where)?$", whole.split(" -- ")[0].strip()) is not None


def camel(name):
    return "".join(p[:1].upper() + p[1:] for p in re.split(r"[-_]", name) if p)


def low(part):
    """One part between dashes, in snake case; a capital that stands alone names a verdict and stays."""
    return re.sub(r"(?<=[a-z0-9])([A-Z])(?=[a-z])", lambda m: "_" + m.group(1).lower(), part)


def snake(name, functions):
    parts = [low(p) for p in name.split("-")]
    joins = len(parts) == 2 and all(p in functions for p in parts)
    return ("-" if joins else "_").join(parts)


def declared(top):
    """Old names: facts, functions of specs/, and all others."""
    facts, functions, others = set(), set(), set()
    for path in files(top):
        if not path.endswith(".antt"):
            continue
        with open(path) as f:
            text = f.read()
        for _, kind, name, whole in signatures(text):
            if is_answer(path) and re.match(r"(goal|given|need)\.", whole):
                continue
            if is_fact(kind, whole) and name[:1].isupper():
                facts.add(name)
            elif "/specs/" in path:
                functions.add(name)
            else:
                others.add(name)
    return facts, functions, others


def renamings(top):
    facts, functions, others = declared(top)
    known = {low(f).replace("-", "_") for f in functions} | WORDS
    new = {n: camel(n) for n in facts}
    new |= {n: low(n).replace("-", "_") for n in functions - facts}
    taken = {b for a, b in new.items() if a != b}
    for n in others - functions - facts:
        b = snake(n, known)
        new[n] = b + "_lem" if b in taken else b
    new |= {a: b for a, b in OTHERWISE.items() if a in new}
    return {a: b for a, b in new.items() if a != b and a not in OTHERWISE.values()}, facts | functions | others


def foreign(text, own):
    """Names that a file has from elsewhere, or that its proof files must answer under."""
    out = set()
    for m in re.finditer(r"^\s*(?:ghost )?(?:pub )?use ([^\s{;]+)\.\{([^}]*)\}", text, re.M):
        path = m.group(1).split(".")
        if not (path[0] == "Rattle" and path[1] in own):
            out |= {re.sub(r" as .*", "", n.strip()) for n in m.group(2).split(",")}
    for m in re.finditer(r"^(?:abbrev )?(?:pub )?(\S+) : (?:goal|given|need)\.", text, re.M):
        out.add(m.group(1))
    return out


def turn(path, text, new, own):
    keep = foreign(text, own)
    if SOME[0].search(text):
        text = SOME[1].sub(SOME[2], text)
    out = []
    for line in text.split("\n"):
        mark = "//" if path.endswith(".rt") else "--"
        at = re.search(r"(?:^|\s)" + mark + r"(?:\s|$)", line)
        code, rest = (line[:at.start()], line[at.start():]) if at else (line, "")
        pieces = re.split(r'("(?:[^"\\]|\\.)*")', code)
        for k in range(0, len(pieces), 2):
            pieces[k] = TOKEN.sub(lambda m: m.group(0) if m.group(0) in keep else new.get(m.group(0), m.group(0)), pieces[k])
        out.append("".join(pieces) + rest)
    return "\n".join(out)


def clashes(new, names):
    """New names that two old ones share, or that stood before."""
    by = {}
    for a, b in new.items():
        by.setdefault(b, []).append(a)
    return {b: a for b, a in by.items() if len(a) > 1 or b in names}


def main(argv):
    new, names = renamings(".")
    if "--list" in argv:
        for a, b in sorted(new.items()):
            print(f"{a} -> {b}")
        for b, a in sorted(clashes(new, names).items()):
            print(f"together: {b} <- {', '.join(sorted(a))}{' and a name that stood' if b in names else ''}")
        return 0
    own = crates(".")
    for path in files("."):
        with open(path) as f:
            text = f.read()
        turned = turn(path, text, new, own)
        if turned != text:
            with open(path, "w") as f:
                f.write(turned)
    return 0


if __name__ == "__main__":
    raise SystemExit(main(sys.argv[1:]))
