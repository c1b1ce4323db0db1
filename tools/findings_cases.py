#!/usr/bin/env python3
"""Trials of the two analyses whose answers are written by hand: findings_cases.txt.

Each case there has a name, a tree in the notation of notation.py and its answer, with a line for each list that is not
empty:

    bindings e=x            CommonJS: the variable and the specifier bound to it
    exports a b             CommonJS, in the order of the list
    re-exports x            CommonJS
    unsafe c                CommonJS
    refused at Assign       CommonJS: refusal 6, and the row it is placed at
    es exports a (default)  ES; `(default)` is the one without a place
    es re-exports x         ES
    es refused at KIND      ES: refusal 6, and the row it is placed at
    script                  a module that is treated as a script; a script is one without this line
    sizes B E R U           rows of the four tables; 65,536 each if left out
    fault 3 layer 2 ...     the block is refused with this line
    nothing                 all lists are empty

Where a text stands at more than one place of the tree, `a#2` is the second; so is `Assign#2` for rows of a kind. The
words of a list are written loosely read. A line `let NAME = TREE` gives a name to a part of trees, which `$NAME` stands for.

    findings_cases.py                 compares the model with the answers, and writes stdin and stdout of findings_trials and
                                      of tight_trials, whose tables have other sizes
    findings_cases.py --run PROGRAM   compares a program with the answers, too
    findings_cases.py --list          prints the number, the name and the line of each case
"""
import pathlib
import re
import struct
import subprocess
import sys

sys.dont_write_bytecode = True  # leave no cache beside the tools

from findings_model import AMPLE, TEXTLESS, answers_line, findings_line
from mktree import announced, flat, pack
from notation import NotATree, tree_of, unescaped
from tree_model import KINDS, NUMBER

TABLE = pathlib.Path(__file__).resolve().with_suffix(".txt")
CRATES = TABLE.parent.parent / "crates"
ITEM = re.compile(r'(\(default\)|"(?:[^"\\]|\\.)*"|[^\s="#]+)(?:#(\d+))?')
LISTS = ("bindings", "exports", "re-exports", "unsafe", "es exports", "es re-exports")
LINE = re.compile("(" + "|".join(LISTS) + r"|sizes|fault|refused at|es refused at|script|nothing)(?: (.+))?")


class NotACase(Exception):
    """The table of cases does not say what the case is."""


# ---------------------------------------------------------------------------------------------------------------
# The table


class Case:
    """One case as it is written."""

    def __init__(self, name, tree, answer):
        self.name, self.answer = name, answer
        self.rows, self.text = flat(tree_of(tree))
        self.block = pack(self.rows, self.text)
        self.sizes = tuple(map(int, answer["sizes"].split())) if "sizes" in answer else AMPLE


def with_parts(words, named):
    """The words of a tree with the parts that `$NAME` stands for."""
    while "$" in words:
        words, before = re.sub(r"\$(\w+)", lambda match: named[match.group(1)], words), words
        if words == before:
            break
    return words


def read_answer(lines, name):
    answer = {}
    for line in lines:
        match = LINE.fullmatch(line)
        if match is None or match.group(1) in answer:
            raise NotACase(f"{name}: {line}")
        answer[match.group(1)] = match.group(2) or ""
    told = set(answer) - {"sizes"}
    if not told or "nothing" in told and len(told) > 1:
        raise NotACase(f"{name}: no answer, or two")
    return answer


def read_case(lines, named):
    """A case from its lines: the name, then further in the tree and the answer."""
    name, body = lines[0], [line.strip() for line in lines[1:]]
    count = next((at for at, line in enumerate(body) if LINE.fullmatch(line)), len(body))
    try:
        return Case(name, with_parts(" ".join(body[:count]), named), read_answer(body[count:], name))
    except (NotATree, KeyError, struct.error) as why:
        raise NotACase(f"{name}: {why}") from why


def read_cases(table):
    """All cases of the table in order."""
    cases, named = [], {}
    for paragraph in re.split(r"\n\s*\n", table):
        lines = [line for line in paragraph.splitlines() if line.strip() and not line.startswith("# ")]
        while lines and lines[0].startswith("let "):
            name, tree = lines.pop(0)[len("let "):].split(" = ", 1)
            named[name] = with_parts(tree, named)
        if lines:
            cases.append(read_case(lines, named))
    return cases


def all_cases():
    cases = read_cases(TABLE.read_text("utf-8"))
    names = [case.name for case in cases]
    twice = {name for name in names if names.count(name) > 1}
    if twice:
        raise NotACase(f"two cases have one name: {twice}")
    return cases


# ---------------------------------------------------------------------------------------------------------------
# From the written answer to lines, without the model


def read_loosely(data):
    points = data.decode("utf-8", "surrogatepass")
    return "".join("\uFFFD" if 0xD800 <= ord(point) <= 0xDFFF else point for point in points).encode()


def items(words):
    """The texts of a list with their numbers: None where one place is enough."""
    if ITEM.sub("", words).strip(" ="):
        raise NotACase(f"{words} is no list")
    for word, number in ITEM.findall(words):
        if word == "(default)":
            yield None, None
        else:
            yield unescaped(word.strip('"') if word[0] == '"' else word), int(number) if number else None


def one_of(places, number, what):
    if number is None and len(set(places)) == 1:
        return places[0]
    if number is None or number > len(places):
        raise NotACase(f"{what} stands at {len(places)} places")
    return places[number - 1]


def place_of(case, text, number):
    """The place of a text in the tree."""
    if text is None:
        return TEXTLESS
    places = []
    for kind, _, offset, length, _ in case.rows:
        if KINDS[kind].text is not None and read_loosely(case.text[offset:offset + length]) == text:
            places.append((offset, length))
    return one_of(places, number, f"{case.name}: {text}")


def row_of(case, words):
    """The number of the row that a refusal is placed at."""
    kind, _, number = words.partition("#")
    places = [at for at, row in enumerate(case.rows) if row[0] == NUMBER[kind]]
    return one_of(places, int(number) if number else None, f"{case.name}: {kind}")


def shown_list(case, name):
    """One list by its places."""
    shown = []
    for text, number in items(case.answer.get(name, "")):
        shown.append("%d:%d" % place_of(case, text, number))
    if name == "bindings":
        shown = [f"{key}={value}" for key, value in zip(shown[::2], shown[1::2])]
    return ",".join(shown) or "-"


def shown_part(case, refused, *names):
    if refused in case.answer:
        return f"fault 6 layer 3 module 0 place {row_of(case, case.answer[refused])}"
    return " ".join(f"{letter} {shown_list(case, name)}" for letter, name in zip("beru", names))


def is_script(case):
    return int("script" in case.answer or case.rows[0][1] == 1)


def written_findings(case):
    """The line of `findings` as the written answer has it."""
    if "fault" in case.answer:
        return "fault " + case.answer["fault"]
    cjs = shown_part(case, "refused at", "bindings", "exports", "re-exports", "unsafe")
    es = shown_part(case, "es refused at", "none", "es exports", "es re-exports", "none")
    return f"{is_script(case)} | {cjs} | {es}"


def written_answers(case):
    """The line of `answers` as the written answer has it; only for cases whose tables have their full size."""
    if "fault" in case.answer:
        return "fault " + case.answer["fault"]
    words = [str(is_script(case))]
    for name in "exports", "re-exports", "es exports", "es re-exports":
        texts = [b"default" if text is None else text for text, _ in items(case.answer.get(name, ""))]
        words.append(",".join("." + text.hex() for text in texts) or "-")
    return " ".join(words)


# ---------------------------------------------------------------------------------------------------------------
# The model, the program, the files


def differences(cases, line_of_findings, line_of_answers):
    """Prints the cases in which the lines are not the written ones, and gives how many there are."""
    wrong = 0
    for case in cases:
        pairs = [(written_findings(case), line_of_findings(case))]
        if case.sizes == AMPLE:
            pairs.append((written_answers(case), line_of_answers(case)))
        for written, line in pairs:
            if written != line:
                wrong += 1
                print(f"{case.name}\n  written {written}\n  given   {line}")
    return wrong


def check_model(cases):
    return differences(cases, lambda case: findings_line(case.block, case.sizes), lambda case: answers_line(case.block))


def run(program, arguments, cases):
    """The line that a program prints for each case."""
    data = b"".join(announced(case.block) for case in cases)
    done = subprocess.run([program, *arguments], input=data, stdout=subprocess.PIPE, check=True, timeout=600)
    lines = done.stdout.decode("ascii").splitlines()
    if len(lines) != len(cases):
        raise NotACase(f"{len(lines)} lines for {len(cases)} blocks")
    return dict(zip(cases, lines))


def check_program(program, cases):
    """Runs the program once for the cases of each four sizes."""
    findings = {}
    for sizes in sorted({case.sizes for case in cases}):
        findings |= run(program, ["findings", *map(str, sizes)], [case for case in cases if case.sizes == sizes])
    answers = run(program, ["answers"], [case for case in cases if case.sizes == AMPLE])
    return differences(cases, findings.get, answers.get)


def write(crate, stdin, lines):
    """Writes the input of a crate of trials, and the lines that it has to print."""
    (CRATES / crate / "stdin").write_bytes(b"".join(stdin))
    (CRATES / crate / "stdout").write_text("".join(line + "\n" for line in lines))


def write_files(cases):
    """One stream for tables of full size with the lines of both commands. For other tables a stream in which each block
    stands after five numbers: the four sizes and its length."""
    ample = [case for case in cases if case.sizes == AMPLE]
    tight = [case for case in cases if case.sizes != AMPLE]
    write(
        "findings_trials",
        [announced(case.block) for case in ample],
        [*map(written_findings, ample), *map(written_answers, ample)],
    )
    write(
        "tight_trials",
        [struct.pack("<4I", *case.sizes) + announced(case.block) for case in tight],
        map(written_findings, tight),
    )
    print(f"{len(ample)} cases with tables of full size, {len(tight)} with others")


def main(arguments):
    cases = all_cases()
    if arguments == ["--list"]:
        for number, case in enumerate(cases):
            print(f"{number}\t{case.name}\t{written_findings(case)}")
    elif arguments == [] or len(arguments) == 2 and arguments[0] == "--run":
        wrong = check_model(cases)
        if arguments:
            wrong += check_program(arguments[1], cases)
        else:
            write_files(cases)
        print(f"{len(cases)} cases, {wrong} lines differ")
        sys.exit(1 if wrong else 0)
    else:
        sys.exit(__doc__)


if __name__ == "__main__":
    main(sys.argv[1:])
