#!/usr/bin/env python3
"""Respells the repository's own definitions and lemmas as today's Rattle does: words in snake case, types in camel case.

    python3 tools/respell.py        in the top folder, once, right after port.py

A name is taken where a file of specs/ or proofs/ declares it with a dash. It is then respelled in specs/ and proofs/,
in the `ghost` lines and clauses of src/, and in backquotes in docs/. Names of goals and of their steps, which Rattle
makes, keep their dashes. Comments of specs/ and proofs/ name definitions, so they are respelled too; those of src/ are not.
"""
import glob
import re
import sys

DECLARED = re.compile(r"\s*(?:abbrev |unfoldable |pub |data |record |ruleset )*([A-Za-z][\w']*(?:-[\w']+)+)\s*[:({]")
RECORD = re.compile(r"\s*(?:pub )?(?:record|data) ([A-Za-z][\w']*(?:-[\w']+)+)\b")
# Several names before one colon, and the variables that a binder or a `let` names.
BOUND = re.compile(r"(?:^\s*(?:pub )?|[({]|\blet |λ )((?:[\w']+(?:-[\w']+)* )*[a-z][\w']*(?:-[\w']+)+(?: [\w']+(?:-[\w']+)*)*) ?(?=[:=.] )")
# What Rattle makes in a function's folder: goals, invariants and measures.
MADE = re.compile(r"(returns|invariant|decreases|overflow|bounds|loop|ghost|slice|offset|nonzero)(-|$)|.*-(requires|init|preserved|smaller)(-\d+)?$")
WORD = re.compile(r"(?<![\w'-])[A-Za-z][\w']*(?:-[\w']+)+(?![\w'])")


def respelled(name):
    parts = name.split("-")
    if name[0].isupper():
        return "".join(p[0].upper() + p[1:] for p in parts)
    return "_".join(p[0].lower() + p[1:] if i else p for i, p in enumerate(parts))


def antt_files():
    for top in ("specs", "proofs"):
        yield from glob.glob(f"crates/*/{top}/**/*.antt", recursive=True)


def declared_names():
    names = set()
    for path in antt_files():
        made = path.endswith(("/Answers.antt", "/Invariants.antt"))
        for line in open(path):
            if line.lstrip().startswith("--"):
                continue
            for found in (DECLARED.match(line), RECORD.match(line)):
                if found and not (made and MADE.match(found.group(1))):
                    names.add(found.group(1))
            if not made:
                for bound in BOUND.finditer(line):
                    names.update(w for w in bound.group(1).split() if "-" in w and not MADE.match(w))
    return names


def replace_words(text, names):
    return WORD.sub(lambda m: respelled(m.group(0)) if m.group(0) in names else m.group(0), text)


def antt_line(line, names):
    return replace_words(line, names)


def rust_line(line, names):
    code, slashes, comment = line.partition("//")
    if re.match(r"\s*(ghost|requires|ensures)\b", code):
        code = replace_words(code, names)
    return code + slashes + comment


def main():
    names = declared_names()
    spelled = {}
    for name in names:
        spelled.setdefault(respelled(name), set()).add(name)
    clashes = [sorted(group) for group in spelled.values() if len(group) > 1]
    if clashes:
        sys.exit(f"names that fall together: {clashes}")
    for path in antt_files():
        text = open(path).read()
        for name in names:
            new = respelled(name)
            if re.search(rf"(?<![\w'-]){re.escape(new)}(?![\w'-])", text) and re.search(rf"(?<![\w'-]){re.escape(name)}(?![\w'-])", text):
                print(f"look: {path} has both {name} and {new}")
    jobs = [(list(antt_files()), antt_line), (glob.glob("crates/*/src/**/*.rt", recursive=True), rust_line)]
    for paths, turn in jobs:
        for path in paths:
            old = open(path).read()
            new = "".join(turn(line, names) for line in old.splitlines(keepends=True))
            if new != old:
                open(path, "w").write(new)
    for path in glob.glob("docs/*.md") + ["README.md"]:
        old = open(path).read()
        new = re.sub(r"`[^`\n]+`", lambda m: replace_words(m.group(0), names), old)
        if new != old:
            open(path, "w").write(new)
    print(f"{len(names)} names respelled")


main()
