#!/usr/bin/env python3
"""Writes the stream trials: crates/stream_trials/stdin, a stream of tree blocks, and crates/stream_trials/stdout,
the lines that the model of findings_model.py gives for it. The same bytes come out at every run.

    tree_cases.py               writes the trials
    tree_cases.py --data        writes driver.tree, module.tree and damaged.tree, the data of export_names
    tree_cases.py --self-test   makes the cases and compares both ways of the model on each, without writing
    tree_cases.py --list        prints number, name and line of each case
"""
import itertools
import pathlib
import random
import struct
import sys

sys.dont_write_bytecode = True  # leave no cache beside the tools

from findings_model import findings_line, stream
from mktree import (TOP, announced, block, damaged, flat, least, pack, plain_choice, put, random_block,
                    random_ends, random_kinds, random_texts, with_children)
from tree_model import (ANY, COUNT, EXAMPLE, KINDS, MODULE_ITEMS, NUMBER, PROGRAM, answer, answer_by_definition,
                        sections)

ROOT = pathlib.Path(__file__).resolve().parent.parent
TRIALS = ROOT / "crates" / "stream_trials"
DATA = ROOT / "crates" / "export_names" / "data"
SEED = 20
MOST_STDIN = 600_000
RANDOM_CASES = 920  # half of them lawful

MODULE = ("Program", ("Ident", b"a"))


def program(*children, mark=0):
    return ("Program", mark, *children)


def kind_name(kind):
    return KINDS[kind].name if kind < COUNT else str(kind)


# ---------------------------------------------------------------------------------------------------------------
# Header: each case is a name and a block


def header_block(rows_offset, rows_length, text_offset, text_length, size):
    """A block of this size whose bytes, read from byte 16 on, are the row of an empty module, then `a` bytes."""
    head = struct.pack("<4I", rows_offset, rows_length, text_offset, text_length)
    row = struct.pack("<5I", PROGRAM, 0, 0, 0, 1)
    return (head + row + b"a" * size)[:size]


def short_blocks():
    for size in (0, 1, 4, 15, 16, 17, 19, 20, 35):
        yield f"{size} bytes", header_block(16, 20, 36, 0, size)
    yield "16 zero bytes", bytes(16)
    yield "36 bytes", header_block(16, 20, 36, 0, 36)
    yield "worked example", EXAMPLE
    yield "worked example, a byte short", EXAMPLE[:-1]
    yield "worked example, a byte more", EXAMPLE + b"\0"


def header_bounds():
    numbers = [
        ("rows offset 15", 15, 20, 36, 0), ("rows offset 16", 16, 20, 36, 0), ("rows offset 0", 0, 20, 36, 0),
        ("rows offset 17", 17, 20, 37, 0), ("rows length 0", 16, 0, 36, 0), ("rows length 1", 16, 1, 36, 0),
        ("rows length 19", 16, 19, 36, 0), ("rows length 21", 16, 21, 37, 0), ("rows length 40", 16, 40, 56, 0),
        ("rows length 20 and text apart", 16, 20, 40, 0), ("rows past the text offset", 16, 20, 35, 0),
        ("rows past the text offset, with text", 16, 20, 35, 1), ("text offset 0", 16, 20, 0, 0),
        ("text offset 16", 16, 20, 16, 20), ("text to the end", 16, 20, 36, 28), ("text past the end", 16, 20, 36, 29),
        ("empty text at the end", 16, 20, 64, 0), ("empty text past the end", 16, 20, 65, 0),
        ("one byte at the end", 16, 20, 63, 1), ("one byte past the end", 16, 20, 64, 1),
        ("bytes after the text", 16, 20, 36, 5), ("rows past the end", 16, 60, 76, 0),
        ("rows past the end, text inside", 16, 60, 36, 0), ("rows offset past the end", 64, 20, 84, 0),
    ]
    wide = [
        ("rows offset top", TOP, 20, 36, 0), ("rows sum wraps to 3", TOP - 16, 20, 36, 0),
        ("rows sum wraps to 0", TOP - 19, 20, 36, 0), ("rows sum is top", TOP - 20, 20, TOP, 0),
        ("rows length top", 16, TOP, 36, 0), ("rows length, sum wraps to 0", 16, TOP - 15, 36, 0),
        ("rows length, sum wraps to 20", 36, TOP - 15, 36, 0), ("rows length 1310720", 16, 1310720, 36, 0),
        ("rows length 1310740", 16, 1310740, 36, 0), ("text offset top", 16, 20, TOP, 0),
        ("text sum wraps to 0", 16, 20, TOP, 1), ("text sum wraps to 10", 16, 20, TOP - 9, 20),
        ("text length top", 16, 20, 36, TOP), ("text length, sum wraps to 28", 16, 20, 36, TOP - 7),
        ("text length, sum wraps to 0", 16, 20, 36, TOP - 35), ("text length half", 16, 20, 36, 1 << 31),
        ("both top", 16, 20, TOP, TOP), ("all top", TOP, TOP, TOP, TOP), ("text offset half", 16, 20, 1 << 31, 1 << 31),
        ("rows offset half", 1 << 31, 20, 36, 0), ("rows length half", 16, 1 << 31, 36, 0),
    ]
    for name, *four in numbers + wide:
        yield name, header_block(*(number & TOP for number in four), 64)


def gaps():
    rows, text = flat(program(("Ident", b"ab"), ("Str", b"c"), mark=1))
    for before, between, after in itertools.product((b"", b"\xff", b"\xff" * 7), repeat=3):
        yield f"gaps {len(before)} {len(between)} {len(after)}", pack(rows, text, before, between, after)


# ---------------------------------------------------------------------------------------------------------------
# Ends and depth


def ends_block(ends, kinds=None):
    kinds = kinds or [PROGRAM] + [0] * (len(ends) - 1)
    return pack([[kind, 0, 0, 0, end & TOP] for kind, end in zip(kinds, ends)])


def all_small_ends():
    for count in (1, 2, 3):
        for ends in itertools.product(range(count + 2), repeat=count):
            yield f"ends {ends}", ends_block(ends)
    for ends in itertools.product(range(2, 6), repeat=3):
        yield f"ends 4 {ends}", ends_block((4, *ends))


def chosen_ends():
    lists = [
        (TOP,), (1 << 31,), (256,), (257, 2), (2, TOP), (2, 1 << 31), (2, 258), (3, TOP, 3), (3, 0, TOP),
        (5, 3, 3, 5, 5), (5, 3, 4, 5, 5), (5, 3, 3, 6, 5), (5, 3, 3, 5, 6), (5, 3, 4, 6, 4), (5, 5, 2, 3, 5),
        (6, 4, 4, 5, 6, 6), (6, 4, 5, 4, 6, 6), (6, 4, 4, 4, 7, 5), (6, 5, 4, 5, 5, 6), (6, 3, 3, 6, 6, 5),
        (7, 5, 4, 6, 7, 6, 7), (7, 5, 4, 4, 6, 6, 7), (7, 5, 4, 4, 5, 6, 8), (7, 7, 7, 7, 7, 7, 7),
        (1, 2, 3), (4, 2, 3, 4), (3, 2, 3, 4), (5, 2, 3, 4), (4, 2, 3, 0), (4, 4, 4, 3), (4, 4, 3, 3),
    ]
    for ends in lists:
        yield f"ends {ends}", ends_block(ends)


def chain(depth):
    """The ends of a Program and `depth` rows, each inside the one before."""
    return [depth + 1] * (depth + 1)


def depth_cases():
    yield "depth 256", ends_block(chain(256))
    # the chain reaches depth 257 at row 257; three leaves inside it and one row apart follow
    yield "depth 257, not the last row", ends_block([262, *[261] * 257, 259, 260, 261, 262])
    yield "depth 257 and a wrong kind before it", ends_block(chain(257), [PROGRAM, 99, *[0] * 256])
    yield "depth 257 and a wrong end after it", ends_block([260, *[259] * 257, 259, 261])
    yield "two chains, the second too deep", ends_block([311, *[51] * 50, *[311] * 260])
    yield "row 260 is not deep", ends_block([261, *range(2, 262)])


# ---------------------------------------------------------------------------------------------------------------
# Kinds: numbers of children, places of children, marks


def child_numbers():
    """Every kind with the fewest children, one too few, the most and one too many."""
    for kind, line in enumerate(KINDS):
        most = line.fewest + 3 if line.unlimited else line.most
        for count in sorted({line.fewest - 1, line.fewest, most, *([] if line.unlimited else [most + 1])} - {-1}):
            row = with_children(kind, count)
            yield f"{line.name} with {count}", block(row if kind == PROGRAM else program(row))
            if not line.fewest <= count <= line.most:
                # again deeper and in a script, so that the place is not always 1
                yield f"{line.name} with {count}, inside", block(program(("Num",), ("Other", row), mark=1))


def slot(line, place, count):
    """Which entry a child is tested by; a child that is first and last has a slot of its own."""
    if line.last is not None and place == count - 1:
        return "only" if place == 0 else "last"
    return "first" if place == 0 else "other"


def slots(line):
    """Each slot that a line has, with the smallest number of children and the place among them that reach it."""
    found = {}
    for count in range(max(line.fewest, 1), min(line.most, 3) + 1):
        for place in range(count):
            found.setdefault(slot(line, place, count), (count, place))
    return found


SOME_KINDS = [0, 2, 3, 14, 23, 27, 31, 40, 50]


def misfits():
    """Every kind at every place that it does not fit, one a block. Below it all is lawful."""
    for kind, line in enumerate(KINDS):
        if kind == PROGRAM:
            continue
        reached = [(*reach, range(COUNT + 1)) for reach in slots(line).values()]
        if line.unlimited and line.other is not ANY:
            reached.append((4, 2, SOME_KINDS))
        for count, place, children in reached:
            for child in children:
                if child in line.entry(place, count) and child != PROGRAM and child < COUNT:
                    continue
                row = with_children(kind, count, place, least(child))
                yield f"{line.name} with {count}, at {place} {kind_name(child)}", block(program(row))


class Weaver:
    """Makes lawful trees that together have every kind at every place that it fits."""

    def __init__(self):
        self.missing = {}
        for kind, line in enumerate(KINDS):
            for name, (count, place) in slots(line).items():
                entry = line.entry(place, count)
                self.missing[kind, name] = [child for child in range(COUNT) if child in entry and child != PROGRAM]
        self.room = 0

    def wanting(self, kind):
        """How many children the kind has still to be tried with."""
        return sum(len(self.missing.get((kind, name), ())) for name in ("only", "first", "other", "last"))

    def number_of_children(self, kind):
        line = KINDS[kind]
        reached = [count for name, (count, _) in slots(line).items() if self.missing[kind, name]]
        count = max(reached, default=line.fewest)
        return count + 2 if line.unlimited and self.missing.get((kind, "other")) else count

    def child(self, kind, name):
        """The child for a slot: one that has not been there yet, best one that has itself much to try."""
        missing = self.missing[kind, name]
        if not missing:
            return None
        child = max(missing, key=self.wanting)
        missing.remove(child)
        return child

    def weave(self, kind, depth=0):
        line, count = KINDS[kind], self.number_of_children(kind)
        children = []
        for place in range(count):
            child = self.child(kind, slot(line, place, count))
            if child is None:
                children.append(least(plain_choice(line.entry(place, count))))
            elif depth > 40 or self.room <= 0:
                children.append(least(child))
            else:
                self.room -= 1
                children.append(self.weave(child, depth + 1))
        return (kind, *children)

    def trees(self):
        """Modules of a hundred rows or so until nothing is missing."""
        others = [kind for kind in range(COUNT) if kind != PROGRAM]
        while any(map(self.wanting, others)):
            self.room, children = 50, []
            while self.room > 0 and any(map(self.wanting, others)):
                self.room -= 1
                children.append(self.weave(max(others, key=self.wanting)))
            yield program(*children)


def woven():
    for at, tree in enumerate(Weaver().trees()):
        yield f"woven {at}", block(tree)


def program_places():
    for child in range(COUNT + 1):
        for mark in (0, 1):
            yield f"Program {mark} with {kind_name(child)}", block(program(least(child), mark=mark))
        inner = program(("Num",), least(child), ("Num",), mark=1)
        yield f"Program 1 with {kind_name(child)} in the middle", block(inner)


def wrong_kinds():
    for kind in (50, 51, 255, 256, 257, 306, 1 << 31, TOP):
        yield f"kind {kind} alone", block((kind,))
        yield f"kind {kind} as a child", block(program((kind,)))
        yield f"kind {kind} with children", block(program(("Num",), (kind, ("Other",), ("Program",))))
        yield f"kind {kind} in a Function, not last", block(program(("Function", (kind,), ("Block",))))
        yield f"kind {kind} in an Object", block(program(("Num",), ("Object", (kind,))))
    for kind in range(COUNT):
        yield f"row 0 is {kind_name(kind)}", block(least(kind))
    for tree in (("Program",), ("Program", 1), ("Program", 2), ("Program", ("Import",)), ("Program", 1, ("Import",))):
        yield f"{tree} at row 1", block(program(tree))
        yield f"{tree} at row 3", block(program(("Num",), ("Other", tree)))
        yield f"{tree} in a VarDecl", block(program(("Num",), ("VarDecl", tree)))


def marks():
    for kind in range(COUNT):
        for mark in (0, 1, 2, TOP):
            row = (kind, mark, *least(kind)[1:])
            yield f"{kind_name(kind)} mark {mark}", block(row if kind == PROGRAM else program(row))
    for mark in (256, 257, 65536, 65537, 1 << 31):
        yield f"Program mark {mark}", block(("Program", mark))
        yield f"Num mark {mark}", block(program(("Num", mark)))


def chosen_shapes():
    ident, function, body = ("Ident", b"f"), ("Function",), ("Block",)
    spec, text = ("NamedSpec", ("Ident", b"a")), ("Str", b"m")
    trees = [
        ("Function", body), ("Function", ident, body), ("Function", body, ident), ("Function", body, body),
        ("Function", ident, body, body), ("Function", ident, body, ident), ("Function", ident, ident),
        ("Function", ("Other", body), body), ("Function", ("Other", body), ("Other",)),
        ("FnExpr",), ("FnExpr", function), ("FnExpr", ident), ("FnExpr", ident, function), ("FnExpr", function, ident),
        ("FnExpr", function, function), ("FnExpr", ident, ident), ("FnExpr", ident, ident, function),
        ("FnExpr", ("Str", b"f"), function), ("FnExpr", ("Other", function)), ("FnExpr", ident, ("Other", function)),
        ("ExportNamed",), ("ExportNamed", text), ("ExportNamed", spec), ("ExportNamed", spec, text),
        ("ExportNamed", text, spec), ("ExportNamed", text, text), ("ExportNamed", spec, text, spec),
        ("ExportNamed", spec, spec, text), ("ExportNamed", spec, ident), ("ExportNamed", ident, text),
        ("ExportNamed", ("NamespaceSpec", ident), ("DefaultSpec", ident), spec, text),
        ("Arrow",), ("Arrow", body), ("Arrow", body, body), ("Arrow", ident, ident), ("Arrow", ident, body, ident),
        ("Getter", ident), ("Getter", ident, body), ("Getter", body), ("Getter", ident, ident), ("Getter", body, ident),
        ("Method", ident, function), ("Method", function, ident), ("Member", ident, ident), ("Member", ident, text),
    ]
    for tree in trees:
        yield f"{tree}", block(program(tree))
        yield f"{tree} in a script", block(program(("Num",), tree, mark=1))


def script_children():
    for kind in MODULE_ITEMS:
        row = least(kind)
        yield f"script with {kind_name(kind)}", block(program(row, mark=1))
        yield f"script with {kind_name(kind)} as the third", block(program(("Num",), ("Other",), row, ("Num",), mark=1))
        yield f"script with {kind_name(kind)} as a grandchild", block(program(("Other", row), mark=1))
        yield f"module with {kind_name(kind)} as a grandchild", block(program(("Other", row)))
        yield f"script with {kind_name(kind)} and a wrong row", block(program(("Ident", ("Num",)), row, mark=1))


def pass_order():
    """Blocks that break several rules: the earliest pass tells, and in it the lowest row."""
    def rows_with(*changes):
        rows, text = flat(program(("Ident", b"ab"), ("Other", ("Str", b"c"), ("Num",)), ("Call", ("Num",))))
        for row, field, number in changes:
            rows[row][field] = number
        return pack(rows, text)

    kind, mark, offset, length, end = range(5)
    changes = [
        [(1, kind, 50), (6, end, 9)], [(6, end, 9), (5, end, 9)], [(1, length, 9), (6, kind, 50)],
        [(6, kind, 50), (5, kind, 50)], [(1, length, 9), (3, length, 9)], [(3, length, 9), (1, offset, 3)],
        [(6, mark, 2), (4, mark, 2)], [(6, mark, 2), (4, kind, 1)], [(0, kind, 0), (4, mark, 2)],
        [(0, end, 6), (1, kind, 50)], [(0, end, 8), (0, kind, 50)], [(0, length, 1), (6, mark, 2)],
        [(0, length, 1), (6, end, 6)], [(2, kind, 2), (3, kind, 50)], [(2, kind, 14), (3, kind, 50)],
        [(3, kind, 50), (2, kind, 6)], [(4, offset, 1), (1, offset, 3)], [(0, mark, 1), (5, kind, 34)],
        [(0, mark, 1), (5, kind, 34), (1, mark, 1)], [(0, mark, 2), (6, end, 8)],
    ]
    for change in changes:
        yield f"changes {change}", rows_with(*change)
    broken = rows_with((1, kind, 50), (6, end, 9), (3, length, 9))
    yield "header before all", put(broken, 0, 15)


# ---------------------------------------------------------------------------------------------------------------
# Texts

TEXT_KINDS = ["Ident", "Str", "PrivateName", "Shorthand"]
WITHOUT_TEXT = [kind for kind, line in enumerate(KINDS) if line.text is None]


def text_row(kind, text, offset=0, length=None, mark=0):
    """A module with one row of a kind with text, at a place of a text section."""
    length = len(text) if length is None else length
    return pack([[PROGRAM, mark, 0, 0, 2], [NUMBER[kind], 0, offset & TOP, length & TOP, 2]], text)


def text_places():
    places = [(0, 4), (0, 5), (1, 3), (1, 4), (4, 0), (5, 0), (3, 1), (4, 1), (5, TOP), (TOP, 0), (TOP, 1), (TOP, 2),
              (TOP, 5), (TOP, TOP), (1, TOP), (0, TOP), (4, TOP), (TOP - 3, 4), (TOP - 3, 8), (1 << 31, 1 << 31),
              (1 << 31, 0), (0, 1 << 31), (256, 0), (0, 256), (2, 2), (0, 0)]
    for kind in TEXT_KINDS:
        for offset, length in places:
            yield f"{kind} place {offset} {length} of 4", text_row(kind, b"abcd", offset, length)
        for offset, length in ((0, 0), (1, 0), (0, 1), (TOP, 1)):
            yield f"{kind} place {offset} {length} of 0", text_row(kind, b"", offset, length)


def texts_not_allowed():
    """Rows of kinds without text that have a pair."""
    for kind in WITHOUT_TEXT:
        rows, _ = flat(least(kind) if kind == PROGRAM else program(least(kind)))
        row = 0 if kind == PROGRAM else 1
        for offset, length in ((0, 1), (1, 0), (5, 0)):
            changed = [list(numbers) for numbers in rows]
            changed[row][2:4] = offset, length
            yield f"{kind_name(kind)} with pair {offset} {length}", pack(changed, b"abcdef")
    for offset, length in ((TOP, 0), (0, TOP), (TOP, 1), (1 << 24, 0), (0, 1 << 24)):
        rows = [[PROGRAM, 0, 0, 0, 3], [0, 0, 0, 0, 2], [4, 0, offset, length, 3]]
        yield f"Num with pair {offset} {length}", pack(rows, b"abcdef")


FORMS = [  # the ranges of each form of a code point
    [(0x00, 0x7F)], [(0xC2, 0xDF), (0x80, 0xBF)],
    [(0xE0, 0xE0), (0xA0, 0xBF), (0x80, 0xBF)], [(0xE1, 0xEC), (0x80, 0xBF), (0x80, 0xBF)],
    [(0xED, 0xED), (0x80, 0x9F), (0x80, 0xBF)], [(0xEE, 0xEF), (0x80, 0xBF), (0x80, 0xBF)],
    [(0xF0, 0xF0), (0x90, 0xBF), (0x80, 0xBF), (0x80, 0xBF)], [(0xF1, 0xF3), (0x80, 0xBF), (0x80, 0xBF), (0x80, 0xBF)],
    [(0xF4, 0xF4), (0x80, 0x8F), (0x80, 0xBF), (0x80, 0xBF)],
    [(0xED, 0xED), (0xA0, 0xAF), (0x80, 0xBF)], [(0xED, 0xED), (0xB0, 0xBF), (0x80, 0xBF)],
]


def form_texts():
    """Each form at the bounds of its ranges and one past them, and cut short."""
    texts = []
    for form in FORMS:
        lowest, highest = (bytes(pair[side] for pair in form) for side in (0, 1))
        texts += [lowest, highest]
        for at, (low, high) in enumerate(form):
            for byte in (low - 1, high + 1):
                if 0 <= byte <= 255:
                    texts += [lowest[:at] + bytes([byte]) + lowest[at + 1:]]
            if at:
                texts += [lowest[:at], highest[:at] + b"a", lowest[:at] + b"\xC3\xA9"]
    return texts


LEAD, LEAD_TOP, TRAIL, TRAIL_TOP = b"\xED\xA0\x80", b"\xED\xAF\xBF", b"\xED\xB0\x80", b"\xED\xBF\xBF"
ASTRAL = "\U0001F680".encode()


def damaged_texts():
    texts = form_texts()
    texts += [bytes([byte]) for byte in b"\x80\x8F\x90\xA0\xBF\xC0\xC1\xC2\xDF\xE0\xED\xEF\xF0"]
    texts += [bytes([byte]) + b"\x80\x80\x80" for byte in range(0xF4, 0x100)]
    texts += [b"\xC0\x80", b"\xC1\xBF", b"\xE0\x80\x80", b"\xE0\x9F\xBF", b"\xF0\x80\x80\x80", b"\xF0\x8F\xBF\xBF",
              b"\xF8\x88\x80\x80\x80", b"\xFC\x84\x80\x80\x80\x80", b"\xF4\x90\x80\x80", b"\xF5\x80\x80\x80",
              b"\xFE", b"\xFF", b"\xFE\xFF", b"\xEF\xBB\xBF", b"\xEF\xBF\xBE", b"\xC3\xA9\x80", b"a\x80b", b"ab\xC3"]
    texts += [LEAD, TRAIL, LEAD_TOP, TRAIL_TOP, LEAD + TRAIL, TRAIL + LEAD, LEAD + LEAD + TRAIL, LEAD + TRAIL + TRAIL,
              TRAIL + LEAD + TRAIL, LEAD + LEAD, TRAIL + TRAIL, LEAD_TOP + TRAIL_TOP, LEAD + TRAIL_TOP,
              LEAD_TOP + TRAIL, LEAD + b"a" + TRAIL, LEAD + b"\x00" + TRAIL, LEAD + ASTRAL + TRAIL, ASTRAL + TRAIL, LEAD + ASTRAL,
              b"a" + LEAD, b"a" + TRAIL, b"ab" + LEAD + TRAIL, LEAD + TRAIL + b"ab", LEAD[:2], LEAD[:1], LEAD + b"\xED",
              LEAD + TRAIL[:2], LEAD + b"\xED\x9F\xBF", LEAD + b"\xEE\x80\x80", b"\xED\x9F\xBF" + TRAIL,
              b"\xEC\xA0\x80" + TRAIL, b"\xEE\xA0\x80" + TRAIL, b"\xC3\xA9" + LEAD + b"\xC3\xA9" + TRAIL,
              TRAIL + TRAIL + LEAD + LEAD, TRAIL + TRAIL + LEAD + LEAD + TRAIL, ASTRAL * 2 + LEAD + LEAD_TOP + TRAIL]
    return list(dict.fromkeys(texts))


def broken_texts():
    for text in damaged_texts():
        for kind in ("Ident", "Str"):
            yield f"{kind} {text.hex()}", text_row(kind, text)
    for text in (b"ab", b"\xC3\xA9", ASTRAL, LEAD, TRAIL, b"\x80", b"\xC3", LEAD + TRAIL, TRAIL + LEAD):
        for kind in ("PrivateName", "Shorthand"):
            yield f"{kind} {text.hex()}", text_row(kind, text)


def cut_texts():
    """Each part of two texts: cut inside code points and between surrogates."""
    for name, text in (("mixed", "aé\uffff\U0001F680".encode()), ("surrogates", LEAD + TRAIL + b"a")):
        for offset in range(len(text) + 1):
            for length in sorted({0, 1, 2, 3, 4, len(text) - offset}):
                if offset + length <= len(text):
                    for kind in ("Ident", "Str"):
                        yield f"{kind} {name} cut {offset} {length}", text_row(kind, text, offset, length)


def shared_texts():
    rows = lambda *pairs: [[PROGRAM, 0, 0, 0, len(pairs) + 1]] + [
        [kind, 0, offset, length, at + 2] for at, (kind, offset, length) in enumerate(pairs)]
    yield "overlapping texts", pack(rows((2, 0, 4), (3, 1, 3), (9, 2, 4), (16, 0, 6)), b"abcdef")
    yield "the same text four times", pack(rows((2, 0, 6), (3, 0, 6), (9, 0, 6), (16, 0, 6)), b"abcdef")
    yield "surrogates under a Str, the rest under an Ident", pack(rows((3, 0, 7), (2, 3, 4)), TRAIL + b"abcd")
    yield "surrogates under both", pack(rows((3, 0, 7), (2, 2, 4)), TRAIL + b"abcd")
    yield "the third text is wrong", pack(rows((2, 0, 3), (3, 0, 6), (2, 3, 3), (2, 3, 3)), b"abc" + LEAD)
    yield "bytes of no row are not read", pack(rows((2, 1, 3), (3, 1, 3)), b"\xFFabc\xFF")
    yield "text before its section is not reached", pack(rows((2, 0, 3)), b"abc", b"\xFF" * 4, b"\xFF" * 4, b"\xFF" * 4)
    yield "text after its section is not reached", pack(rows((2, 0, 4)), b"abc", b"", b"", b"abc")
    yield "no names", pack([[PROGRAM, 1, 0, 0, 1]], b"\xFF\xFF")


# ---------------------------------------------------------------------------------------------------------------
# The script test


def script_tests():
    yes, no, open_ = ("TsImportEquals",), ("Import",), ("TsNamespaceExport",)
    for kind in (*MODULE_ITEMS, NUMBER["Other"], NUMBER["FnDecl"], NUMBER["VarDecl"]):
        for row in (yes, no, open_, ("TsExportAssignment",), ("Num",)):
            yield f"module with {kind_name(kind)}, then {row[0]}", block(program(least(kind), row))
            yield f"module with {row[0]}, then {kind_name(kind)}", block(program(row, least(kind)))
    for three in itertools.product((yes, no, open_), repeat=3):
        yield f"module with {[row[0] for row in three]}", block(program(*three))
    for row in (yes, no, ("TsExportAssignment", no), ("Import", yes)):
        yield f"{row} below an Other", block(program(("Other", row)))
        yield f"{row} below an Other, then Import", block(program(("Other", row), no))
        yield f"{row} below an Other, then import assignment", block(program(("Other", row), yes))
        yield f"{row} below a Block in a script", block(program(("Block", row), mark=1))
    yield "empty module", block(program())
    yield "empty script", block(program(mark=1))


# ---------------------------------------------------------------------------------------------------------------
# Random blocks


def random_cases():
    rng = random.Random(SEED)
    for at in range(RANDOM_CASES // 2):
        lawful = random_block(rng, rng.choice((1, 2, 2, 3, 4, 5)), wide=2)
        yield f"random {at}", lawful
        yield f"random {at} damaged", damaged(rng, lawful)
    for at in range(RANDOM_CASES // 40):
        for make in (random_ends, random_kinds, random_texts):
            yield f"{make.__name__} {at}", make(rng)
    yield "larger", random_block(rng, 60)


SECTIONS = [short_blocks, header_bounds, gaps, all_small_ends, chosen_ends, depth_cases, child_numbers, misfits, woven,
            program_places, wrong_kinds, marks, chosen_shapes, script_children, pass_order, text_places,
            texts_not_allowed, broken_texts, cut_texts, shared_texts, script_tests, random_cases]


def cases():
    """All cases in order, each as section, name and block."""
    return [(section.__name__, name, data) for section in SECTIONS for name, data in section()]


def trial_stream(made):
    """The stream of the cases. It ends with a block cut short."""
    return b"".join(announced(data) for _, _, data in made) + announced(EXAMPLE)[:-1]


# ---------------------------------------------------------------------------------------------------------------
# The blocks of the data directory


def ident(text):
    return ("Ident", text)


def member(*names):
    """a.b.c: a Member of a Member, the last name outermost."""
    tree = ident(names[0])
    for name in names[1:]:
        tree = ("Member", tree, ident(name))
    return tree


def driver():
    """const clock = require("clock");
    exports.slew = 40;
    exports.track = function (pass) { return clock.now(); };
    module.exports.default = exports.slew;"""
    required = ("Call", ident(b"require"), ("Str", b"clock"))
    body = ("Block", ("Return", ("Call", member(b"clock", b"now"))))
    function = ("FnExpr", ("Function", ident(b"pass"), body))
    return program(
        ("VarDecl", ("Declarator", ident(b"clock"), required)),
        ("Assign", member(b"exports", b"slew"), ("Num",)),
        ("Assign", member(b"exports", b"track"), function),
        ("Assign", member(b"module", b"exports", b"default"), member(b"exports", b"slew")),
        mark=1,
    )


def module():
    """import clock from "clock";
    export const slew = 40;
    export default function track(pass) {}"""
    return program(
        ("Import", ("Other", ident(b"clock")), ("Str", b"clock")),
        ("ExportDecl", ("VarDecl", ("Declarator", ident(b"slew"), ("Num",)))),
        ("ExportDefault", ("FnDecl", ident(b"track"), ("Function", ident(b"pass"), ("Block",)))),
    )


DAMAGED_ROW = 4  # the call of require in the driver


def damaged_driver():
    """The driver, with the end of one row past the end of the row around it."""
    rows, text = flat(driver())
    rows[DAMAGED_ROW][4] += 1
    return pack(rows, text)


DATA_BLOCKS = [
    ("driver.tree", lambda: block(driver()), "1 | b 0:5=0:5 e 41:7,19:4,23:5 r - u - | b - e - r - u -"),
    ("module.tree", lambda: block(module()), "0 | b - e - r - u - | b - e 5:4,0:4294967295 r - u -"),
    ("damaged.tree", damaged_driver, f"fault 2 layer 2 module 0 place {DAMAGED_ROW}"),
]


# ---------------------------------------------------------------------------------------------------------------


def write_data():
    DATA.mkdir(exist_ok=True)
    for name, make, line in DATA_BLOCKS:
        data = make()
        assert findings_line(data) == line, (name, findings_line(data))
        (DATA / name).write_bytes(data)
        print(f"{name}: {len(data)} bytes, {line}")


def write_trials():
    made = cases()
    data = trial_stream(made)
    lines = list(stream(data, findings_line))
    assert len(lines) == len(made) + 1 and lines[-1] == "short"
    assert len(data) < MOST_STDIN, len(data)
    TRIALS.mkdir(parents=True, exist_ok=True)
    (TRIALS / "stdin").write_bytes(data)
    (TRIALS / "stdout").write_text("".join(line + "\n" for line in lines))
    print(f"{len(made)} cases and one cut short, {len(data)} bytes")


def uncovered(made):
    """Kinds at places where they fit, of which no lawful case has one: should be none."""
    seen = set()
    for _, _, data in made:
        if answer(data).startswith("fault"):
            continue
        rows, _ = sections(data)
        for number, (kind, _, _, _, end) in enumerate(rows):
            children, at = [], number + 1
            while at < end:
                children.append(rows[at][0])
                at = rows[at][4]
            seen |= {(kind, slot(KINDS[kind], place, len(children)), child) for place, child in enumerate(children)}
    wanted = {(kind, name, child) for (kind, name), fits in Weaver().missing.items() for child in fits}
    return wanted - seen


def self_test():
    assert block(("Program", 1, ("Assign", member(b"exports", b"a"), ("Num",)))) == EXAMPLE
    for kind in range(COUNT):
        tree = least(kind) if kind == PROGRAM else program(least(kind))
        assert answer(block(tree)) in ("0", "1"), kind
    assert plain_choice(None) == 0
    made = cases()
    tally = {}
    for section, name, data in made:
        line = answer(data)
        assert line == answer_by_definition(data), (section, name)
        numbers = tally.setdefault(section, {})
        kind = line.split(" layer")[0]
        numbers[kind] = numbers.get(kind, 0) + 1
        numbers["bytes"] = numbers.get("bytes", 0) + len(data) + 4
    for section, name, data in made:
        if section == "random_cases" and name.split()[0] in ("random", "larger") and not name.endswith("damaged"):
            assert not answer(data).startswith("fault"), name
    assert not uncovered(made), uncovered(made)
    for section, numbers in tally.items():
        print(section, dict(sorted(numbers.items())))
    print(f"tree_cases: self-test passed, {len(made)} cases, {len(trial_stream(made))} bytes")


def main(arguments):
    if arguments == ["--self-test"]:
        self_test()
    elif arguments == ["--data"]:
        write_data()
    elif arguments == ["--list"]:
        for number, (section, name, data) in enumerate(cases()):
            print(f"{number}\t{section}\t{name}\t{findings_line(data)}")
    elif not arguments:
        write_trials()
    else:
        sys.exit(__doc__)


if __name__ == "__main__":
    main(sys.argv[1:])
