#!/usr/bin/env python3
"""Finds the places that docs/DESIGN-PASS.md counts: forms of an older Rattle for which there may be a better one today.

usage: python3 tools/places.py [-v] [CRATE..]      at the top of the repository; -v prints every place

What it prints are candidates, by their shape. docs/DESIGN-PASS.md says which of them are places, and of those which stay and why.
"""

import collections
import os
import re
import sys

VERBOSE = "-v" in sys.argv[1:]
CRATES = [name for name in sys.argv[1:] if name != "-v"] or sorted(os.listdir("crates"))
WORD = re.compile(r"[A-Za-z_][A-Za-z0-9_]*|\d[\d_]*|b?'.'|\"[^\"]*\"")
KEPT = {"if", "else", "match", "for", "in", "let", "mut", "return", "while", "loop", "Ok", "Err", "Some", "None", "self", "fn", "as"}


def sources():
    for crate in CRATES:
        for folder, _, names in os.walk(os.path.join("crates", crate, "src")):
            for name in sorted(names):
                if name.endswith(".rt"):
                    path = os.path.join(folder, name)
                    yield path, open(path, encoding="utf-8").read()


def functions(text):
    """The functions of a file: name, parameters, clauses and body."""
    for found in re.finditer(r"^( *)(?:pub(?:\(crate\))? )?(?:final )?(?:extern \"C\" )?fn (\w+)[^\n]*", text, re.M):
        end = re.search(rf"^{found.group(1)}\}}|^{found.group(1)}\{{\}}|;$", text[found.start() :], re.M)
        whole = text[found.start() : found.start() + end.end()] if end else found.group(0)
        signature = re.split(r"^ *(?:requires|ensures)\b|^ *\{", whole, maxsplit=1, flags=re.M)[0]
        clauses = re.findall(r"^ *((?:requires|ensures)\*?(?: \w+)? \{.*\})$", whole, re.M)
        code = [line for line in whole.split("\n") if not re.match(r" *(requires|ensures|//|\(|×|&&)", line)]
        yield found.group(2), signature, clauses, "\n".join(code[1:])


def shape(body):
    """A body with its names and literals blanked."""
    return WORD.sub(lambda m: m.group(0) if m.group(0) in KEPT else "_", re.sub(r"\s+", " ", body))


def lines(pattern):
    for path, text in sources():
        for number, line in enumerate(text.split("\n"), 1):
            if re.search(pattern, line) and not line.lstrip().startswith("//"):
                yield f"{path}:{number}: {line.strip()}"


def say(title, found):
    found = list(found)
    print(f"{len(found):4}  {title}")
    if VERBOSE:
        for place in found:
            print(f"        {place}")


def twins():
    groups = collections.defaultdict(list)
    for path, text in sources():
        for name, _, _, body in functions(text):
            if body.count("\n") > 2 or len(body) > 60:
                groups[shape(body)].append(f"{path} {name}")
    return ["; ".join(names) for names in groups.values() if len(names) > 1]


def repeated_facts():
    groups = collections.defaultdict(set)
    for path, text in sources():
        for name, _, clauses, _ in functions(text):
            for clause in clauses:
                for fact in re.findall(r"length [\w.]+ [≡≤] \d+|\([^()]*[≡<≤][^()]*\)|viewed [^()]*", clause):
                    groups[re.sub(r"\b(old|new|now)\b", "_", re.sub(r"length [\w.]+", "length _", fact))].add(f"{path} {name}")
    return [f"{len(names)} times: {fact}" for fact, names in groups.items() if len(names) > 2]


def together():
    groups = collections.Counter()
    for _, text in sources():
        for _, signature, _, _ in functions(text):
            names = re.findall(r"(\w+): ([&\w\[\]; ']+)", signature)
            for i, first in enumerate(names):
                for second in names[i + 1 :]:
                    groups[(first, second)] += 1
    return [f"{count} functions: {a[0]}: {a[1]}, {b[0]}: {b[1]}" for (a, b), count in groups.items() if count > 2]


def parallel():
    for path, text in sources():
        for name, fields in re.findall(r"struct (\w+)[^{;]*\{(.*?)^\}", text, re.S | re.M):
            kinds = re.findall(r"^ *(?:pub(?:\(crate\))? )?(\w+): ([^,]+),", fields, re.M)
            many = [n for n, kind in kinds if re.search(r"\[.*; ?\w+\]|Vec<", kind)]
            if len(many) > 1 or (many and any(kind in ("usize", "bool") for _, kind in kinds)):
                yield f"{path} {name}: {', '.join(n for n, _ in kinds)}"


say("1  enums", lines(r"^\s*(pub(\(crate\))? )?enum \w"))
say("1  flags as parameters or fields", lines(r"\b[a-z_]+: bool\b"))
say("1  bytes for verdicts", lines(r"b'[TFU]'"))
say("1  numbers of refusals", lines(r"Option<u8>|refusal\.number\(\)"))
say("2  groups of functions of one shape", twins())
say("3  loops over a range or without an iterator", lines(r"^\s*(while|loop)\b|^\s*for .* in .*\.\."))
say("4  equality, copies, conversions and printing by hand", lines(r"^impl.* (PartialEq|Eq|Ord|PartialOrd|Clone|Hash) for|fn \w*(letter|byte)\w*\(|\.number\(\) as |if let Err\(\w+\) = .*|\.owner\.number\(\) =="))
say("5  facts in three contracts or more", repeated_facts())
say("5  parameters together in three functions or more", together())
say("6  arrays with a length, a flag or another array beside them", parallel())
say("7  switches on the step to run, tables of functions", lines(r"match \(?\*?(self, )?(call|turn|want|task|step)\b|\bfn\("))
say("8  files of answers", (os.path.join(f, n) for c in CRATES for f, _, ns in os.walk(os.path.join("crates", c, "proofs")) for n in ns if n == "Answers.antt"))
