#!/usr/bin/env python3
"""Brings the repository's own definitions and lemmas to the spelling of today's Rattle: words in snake case, types in camel case.

usage: python3 tools/respell.py [FOLDER] [--list]

It was run once, after the toolchain's own porting script, and is kept so that the renaming can be done again on an older
commit. Names are found where specs/ and proofs/ declare them; functions of src/, strings, comments, inputs and outputs
keep theirs. Names that the checker makes (goals, steps) are left alone. --list prints the renaming and changes nothing.
It stops where two names would fall together.
"""
import re
import sys
from pathlib import Path

DECLARED = re.compile(r"^\s*(?:(?:abbrev|pub|unfoldable|data|record|infixl \d+|infixr \d+) )*([^\s:(){}.,;«»\[\]]+)(?: \([^)]*\)| \{[^}]*\})*\s*:(?!:)")
BINDER = re.compile(r"^\s*(?:pub )?(?:abbrev )?(?:pub )?(?:data|record) (?:pub )?([^\s:(){}.,;]+)")
GOAL = re.compile(r":\s*(?:goal|goals|need|needs|given)\.")
MADE = re.compile(r"^(returns|loop|invariant|decreases|overflow|bounds|cast|store|slice)(-|_)")
TOKEN = re.compile(r"[^\s(){}\[\].,;:«»\"`]+")
# names that the rule would bring together with another name: a lemma beside the word that it is about, mostly
APART = {
    "both-text": "both_text_lem",
    "last-child": "last_child_lem",
    "lists-text": "lists_text_lem",
    "loose-text": "loose_text_lem",
    "names-text": "names_text_lem",
    "part-text": "part_text_lem",
    "room_of": "room_of_lem",
    "row-in": "row_in_lem",
    "hasRoom": "has_enough_room",
}


def snake(name):
    name = name.replace("′", "'")
    name = re.sub(r"(?<=[a-z0-9])([A-Z])", lambda m: "_" + m.group(1).lower(), name)
    return name.replace("-", "_")


def camel(name):
    return "".join(p[:1].upper() + p[1:] for p in name.split("-"))


def respelled(name):
    if name in APART:
        return APART[name]
    if name[0].isupper():
        return camel(name) if "-" in name else name
    return snake(name)


def declared(root):
    names = {}
    for f in sorted(root.glob("crates/*/specs/**/*.antt")) + sorted(root.glob("crates/*/proofs/**/*.antt")):
        if "out" in f.relative_to(root).parts:
            continue
        for line in f.read_text().split("\n"):
            code = line.split("--")[0]
            if GOAL.search(code):
                continue
            for m in (DECLARED.match(code), BINDER.match(code)):
                if m and not (f.name in ("Answers.antt", "Invariants.antt") and MADE.match(m.group(1))):
                    names.setdefault(m.group(1), f)
    return names


def words(line, renamed):
    return TOKEN.sub(lambda m: renamed.get(m.group(0), m.group(0)), line)


def turned(line, comment, renamed):
    """The line with its names respelled, but for strings and the comment at its end."""
    out, rest = "", line
    while rest:
        at = min((i for i in (rest.find('"'), rest.find(comment)) if i >= 0), default=-1)
        if at < 0:
            return out + words(rest, renamed)
        out += words(rest[:at], renamed)
        if rest.startswith(comment, at):
            return out + rest[at:]
        end = rest.find('"', at + 1)
        if end < 0:
            return out + rest[at:]
        out += rest[at : end + 1]
        rest = rest[end + 1 :]
    return out


def main():
    args = [a for a in sys.argv[1:] if not a.startswith("--")]
    root = Path(args[0] if args else ".")
    names = declared(root)
    renamed = {n: respelled(n) for n in names if respelled(n) != n}
    by_new = {}
    for n in names:
        by_new.setdefault(renamed.get(n, n), []).append(n)
    clashes = {k: v for k, v in by_new.items() if len(v) > 1}
    if "--list" in sys.argv:
        for n in sorted(renamed):
            print(n, "->", renamed[n], " ", names[n])
        for k, v in sorted(clashes.items()):
            print("TOGETHER", k, [(n, str(names[n])) for n in v])
        return
    if clashes:
        sys.exit(f"these names fall together: {clashes}")
    for f in sorted(root.glob("crates/**/*")):
        if f.suffix not in (".rt", ".antt") or "out" in f.relative_to(root).parts:
            continue
        comment = "//" if f.suffix == ".rt" else "--"
        text = f.read_text()
        new = "\n".join(turned(l, comment, renamed) for l in text.split("\n"))
        if new != text:
            f.write_text(new)


main()
