#!/usr/bin/env python3
"""Compares a program with the model of findings_model.py on random tree blocks.

    soak.py PROGRAM COUNT SEED

makes COUNT blocks from SEED: trees close to the rules of the findings, other lawful trees, damaged blocks, random numbers,
now and then a large or a deep tree. It hands them in chunks to `PROGRAM findings B E R U`, with other table sizes for each
chunk, and to `PROGRAM answers`, and compares each line. The first differences are printed with their blocks in hexadecimal
and the smallest tree that still shows them. The status is 1 if there are any. `tools/findings_model.py` will do as PROGRAM.

    soak.py --self-test
"""
import pathlib
import random
import struct
import subprocess
import sys
import tempfile
import time
import zlib

sys.dont_write_bytecode = True  # leave no cache beside the tools

from findings_model import Opened
from mktree import (announced, block, damaged, deep_block, random_block, random_bytes, random_ends, random_kinds,
                    random_text, random_texts)
from notation import tree_in, words_of
from rule_trees import near, rule_tree
from shrink import expected, shrunk, weight
from tree_model import MOST_BYTES, ROW_BYTES, answer

CHUNK = 4000
FEW = 500
CHUNK_BYTES = 8_000_000
SHOWN = 10
SHOWN_BYTES = 4000
SHRUNK_BYTES = 20_000
TIME_LIMIT = 600

# ---------------------------------------------------------------------------------------------------------------
# Blocks


def small_lawful(rng, texts):
    return random_block(rng, rng.randint(1, 20), rng.choice(texts), wide=rng.choice((2, 3, 4)))


def small_damaged(rng, texts):
    block = damaged(rng, small_lawful(rng, texts))
    if rng.random() < 0.15 and len(block) >= 36 and not answer(block).startswith("fault 1"):
        block = damaged(rng, block)
    return block


def deep(rng):
    """A block at the bound of the depth, at times damaged."""
    block = deep_block(rng, rng.choice((255, 256, 256, 257, 257, 258, 300)))
    return damaged(rng, block) if rng.random() < 0.4 else block


def large(rng, texts):
    """Some thousand rows, at times damaged."""
    block = random_block(rng, rng.choice((1000, 5000, 20000)), rng.choice(texts), wide=rng.choice((2, 6, 30)))
    return damaged(rng, block) if rng.random() < 0.7 else block


def many_rules(rng):
    """The rows of many trees under one Program."""
    trees = [rule_tree(rng) for _ in range(rng.choice((20, 100, 300)))]
    mark = rng.choice((0, 0, 1))
    children = [part for tree in trees if mark == 0 or tree[1] == 1 for part in tree[1:] if isinstance(part, tuple)]
    return block(("Program", mark, *children))


def long_lists(rng):
    """Some thousand names, specifiers, unsafe texts and bindings under one Program, in rising, falling or any order."""
    count = rng.choice((50, 500, 4000))
    numbers = [rng.randrange(count) for _ in range(count)] if rng.random() < 0.5 else list(range(count))
    numbers.sort(reverse=rng.random() < 0.5) if rng.random() < 0.5 else rng.shuffle(numbers)
    names = [b"%d" % number for number in numbers]
    required = [("Call", ("Ident", b"require"), ("Str", name)) for name in names]
    properties = [("Shorthand", name) if rng.random() < 0.7 else ("Setter", ("Ident", name)) for name in names]
    return block(("Program", 0,
                  ("VarDecl", *(("Declarator", ("Ident", name), call) for name, call in zip(names, required))),
                  ("Assign", ("Ident", b"exports"), ("Object", *properties, *(("Spread", call) for call in required))),
                  ("ExportNamed", *(("NamedSpec", ("Ident", name)) for name in names)),
                  *(("ExportAll", ("Str", name)) for name in names[:count // 2])))


def widest(rng):
    """At the bound of the row number: one row fewer, as many as allowed, or one more, all children of row 0."""
    count = rng.choice((65535, 65536, 65537))
    rows = b"".join(struct.pack("<5I", 0, 0, 0, 0, row + 1) for row in range(1, count))
    rows = struct.pack("<5I", 1, rng.randint(0, 1), 0, 0, count) + rows
    return struct.pack("<4I", 16, ROW_BYTES * count, 16 + ROW_BYTES * count, 0) + rows


def longest(rng, texts):
    """At the bound of the length: a small block with bytes after it, or with one long text."""
    size = MOST_BYTES + rng.choice((-1, 0, 0, 1, 1, 1000))
    if rng.random() < 0.5:
        block = small_lawful(rng, texts)
        return block + bytes(size - len(block))
    rows = struct.pack("<10I", 1, 0, 0, 0, 2, 3, 0, 0, size - 56, 2)
    text = (b"ab\xC3\xA9\xED\xA0\x80" * (size // 7 + 1))[:size - 56]  # the last cut decides whether it is sound
    return struct.pack("<4I", 16, 40, 56, size - 56) + rows + text


def make_any(rng, texts):
    """One block for the check of trees."""
    die = rng.random()
    if die < 0.0005:
        return longest(rng, texts) if die < 0.00025 else widest(rng)
    if die < 0.003:
        return large(rng, texts)
    if die < 0.01:
        return deep(rng)
    if die < 0.40:
        return small_lawful(rng, texts)
    if die < 0.75:
        return small_damaged(rng, texts)
    if die < 0.82:
        return random_ends(rng)
    if die < 0.88:
        return random_kinds(rng)
    if die < 0.97:
        return random_texts(rng)
    return random_bytes(rng)


def make(rng, texts):
    """One block, mostly one close to the rules of the findings."""
    die = rng.random()
    if die < 0.0005:
        return many_rules(rng) if die < 0.0004 else long_lists(rng)
    if die < 0.60:
        return block(rule_tree(rng))
    if die < 0.75:
        return block(near(rng, rule_tree(rng)))
    if die < 0.85:
        return damaged(rng, block(rule_tree(rng)))
    return make_any(rng, texts)


def sizes(rng):
    """The sizes of the four tables for one run: ample, or mostly too few rows."""
    if rng.random() < 0.4:
        return [str(rng.choice((20, 64, 200)))] * 4
    return [str(rng.choice((0, 0, 1, 1, 2, 3, 4, 5, 6, 7, 8, 64))) for _ in range(4)]


def commands(rng):
    """Commands with the number of blocks that each is run on: fewer where the tables are large, as they cost time."""
    yield ["findings", *sizes(rng)], CHUNK
    yield ["findings", *sizes(rng)], CHUNK
    yield ["findings", *sizes(rng)], CHUNK
    yield rng.choice((["findings"], ["findings", "65536", "1", "65536", "1"], ["answers"], ["answers"])), FEW


def chunks(count, seed):
    """Lists of blocks, `count` blocks in all, each with the number of bytes to cut off its stream, and a generator."""
    rng = random.Random(seed)
    while count > 0:
        texts = [random_text(rng) for _ in range(300)]
        blocks, size = [], 0
        while count > 0 and len(blocks) < CHUNK and size < CHUNK_BYTES:
            blocks.append(make(rng, texts))
            size += len(blocks[-1])
            count -= 1
        last = len(blocks[-1])
        cut = rng.randint(1, last + 3) if rng.random() < 0.25 and last <= MOST_BYTES else 0
        yield blocks, cut, rng


# ---------------------------------------------------------------------------------------------------------------
# Comparison


def runner(program):
    """What gives the lines that the program prints for a command and a stream."""
    def run(command, data):
        done = subprocess.run([program, *command], input=data, stdout=subprocess.PIPE, timeout=TIME_LIMIT)
        if done.returncode < 0:
            print(f"the program was ended by signal {-done.returncode}")
        return done.stdout.decode("ascii", "replace").splitlines()
    return run


def shown(data):
    if len(data) <= SHOWN_BYTES:
        return data.hex()
    path = pathlib.Path(tempfile.gettempdir()) / f"soak-{zlib.crc32(data)}.tree"
    path.write_bytes(data)
    return f"{data[:SHOWN_BYTES].hex()}... ({len(data)} bytes, whole in {path})"


def told_lines(run, command, data):
    program = ", ".join(run(command, announced(data))) or "nothing"
    return f"  the model says `{expected(command, Opened(data))}`, the program `{program}`"


def report(run, command, data):
    """Prints a difference. For a lawful block it prints and gives the smallest tree with one, too."""
    print(f"{' '.join(command)} on {shown(data)}")
    print(told_lines(run, command, data))
    if Opened(data).fault or len(data) > SHRUNK_BYTES:
        return None
    tree = tree_in(data)
    if run(command, announced(block(tree))) == [expected(command, Opened(block(tree)))]:
        print(f"  {words_of(tree)} (shows no difference when put together anew)")
        return None
    tree = shrunk(run, command, tree)
    print(f"  {words_of(tree)}")
    print(told_lines(run, command, block(tree)))
    return tree


def tally_of(line):
    """What a line is counted as."""
    if "|" not in line:
        return line.split(" layer")[0] if line.startswith("fault") else "answers"
    parts = [part.strip() for part in line.split("|")]
    full = [name for name, part in zip(("CommonJS", "ES"), parts[1:]) if part.startswith("fault")]
    return "fault 6 in " + " and ".join(full) if full else "with names" if ":" in line else "no names"


class Soak:
    """Compares chunk by chunk and counts. `smallest` are the trees that show the first differences."""

    def __init__(self, program, most_shown):
        self.run, self.most_shown = runner(program), most_shown
        self.compared = self.wrong = 0
        self.tally, self.smallest = {}, []

    def command(self, command, blocks, opened, cut):
        data = b"".join(map(announced, blocks))
        got = self.run(command, data[:len(data) - cut])
        wanted = [expected(command, each) for each in opened]
        if cut:
            wanted[-1] = "short"
        self.compared += len(wanted)
        for at in range(max(len(wanted), len(got))):
            want, have = (lines[at] if at < len(lines) else "no line" for lines in (wanted, got))
            name = tally_of(want)
            self.tally[name] = self.tally.get(name, 0) + 1
            if want == have:
                continue
            self.wrong += 1
            if self.wrong <= self.most_shown and at < len(blocks) - bool(cut):
                self.smallest.append(report(self.run, command, blocks[at]))
            elif self.wrong <= self.most_shown:
                print(f"{' '.join(command)}, line {at} of {len(wanted)}: the model says `{want}`, the program `{have}`")


def soak(program, count, seed, most_shown=SHOWN):
    soaked, start = Soak(program, most_shown), time.time()
    for blocks, cut, rng in chunks(count, seed):
        opened = [Opened(data) for data in blocks]
        for command, most in commands(rng):
            soaked.command(command, blocks[:most], opened[:most], cut if most >= len(blocks) else 0)
    print(f"{count} blocks, {soaked.compared} lines, {soaked.wrong} differ, {time.time() - start:.0f} seconds")
    print(", ".join(f"{name}: {number}" for name, number in sorted(soaked.tally.items())))
    return soaked


# ---------------------------------------------------------------------------------------------------------------

STAND_IN = """#!/usr/bin/env python3
import sys
sys.dont_write_bytecode = True
sys.path.insert(0, {tools!r})
import findings_model, tree_model
{mistake}
findings_model.main(sys.argv[1:])
"""

MISTAKES = [  # and the number of rows that the smallest tree needs which shows it
    ("", 0),
    ("tree_model.DEEPEST = 257", 0),
    ("findings_model.Table.clear = lambda table: None", 11),
    ("findings_model.is_export_word = lambda row: findings_model.is_ident(row, b'__export')", 6),
    ("findings_model.CommonJs.drop_unsafe = lambda walk: None", 7),
    ("findings_model.TEXTLESS = (0, 7)", 3),
]


def self_test():
    """The model agrees with itself, and with no model that has a mistake; small trees show the mistakes."""
    tools = str(pathlib.Path(__file__).resolve().parent)
    with tempfile.TemporaryDirectory() as place:
        for number, (mistake, rows) in enumerate(MISTAKES):
            program = pathlib.Path(place) / str(number)
            program.write_text(STAND_IN.format(tools=tools, mistake=mistake))
            program.chmod(0o755)
            done = soak(str(program), 4000, 1, most_shown=2 if rows else 0)
            assert (done.wrong > 0) == (mistake != ""), mistake
            smallest = min((weight(tree)[0] for tree in done.smallest if tree), default=0)
            assert smallest == rows, (mistake, smallest)
    print("soak: self-test passed")


def main(arguments):
    if arguments == ["--self-test"]:
        self_test()
    elif len(arguments) == 3:
        sys.exit(1 if soak(arguments[0], int(arguments[1]), int(arguments[2])).wrong else 0)
    else:
        sys.exit(__doc__)


if __name__ == "__main__":
    main(sys.argv[1:])
