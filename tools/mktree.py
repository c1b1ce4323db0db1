"""Makes tree blocks: a small notation, smallest lawful trees, random lawful trees and damage to blocks.

A tree is written as a tuple: its kind (a name or a number), then in any order its mark (a number), its text (bytes)
and its children (tuples). What is left out is 0, empty and none:

    ("Program", 1, ("Assign", ("Member", ("Ident", b"exports"), ("Ident", b"a")), ("Num",)))

Equal texts share their bytes, but a text of the class `Own` has bytes of its own. notation.py has a form in words for
the same trees.
"""
import functools
import itertools
import struct

from tree_model import ANY, COUNT, KINDS, MODULE_ITEMS, NUMBER, PROGRAM, ROW_BYTES

TOP = 0xFFFFFFFF

# ---------------------------------------------------------------------------------------------------------------
# From a tree to bytes


def number_of(kind):
    return NUMBER[kind] if isinstance(kind, str) else kind


class Own(bytes):
    """A text that gets bytes of its own, also where an equal one stands in the text section."""


def flat(tree):
    """The rows of a tree, each a list of five numbers, and its text section. A text that is not `Own` shares the bytes
    of the last equal text before it."""
    rows, text, known = [], bytearray(), {b"": 0}

    def add(node):
        row = [number_of(node[0]), 0, 0, 0, 0]
        rows.append(row)
        for part in node[1:]:
            if isinstance(part, tuple):
                add(part)
            elif isinstance(part, bytes):
                if isinstance(part, Own) or part not in known:
                    known[part] = len(text)
                    text.extend(part)
                row[2:4] = known[part], len(part)
            else:
                row[1] = part
        row[4] = len(rows)

    add(tree)
    return rows, bytes(text)


def pack(rows, text=b"", before=b"", between=b"", after=b""):
    """The block of these rows and this text, with bytes of no section before, between and after the two."""
    length = ROW_BYTES * len(rows)
    offset = 16 + len(before)
    header = struct.pack("<4I", offset, length, offset + length + len(between), len(text))
    body = struct.pack(f"<{5 * len(rows)}I", *itertools.chain.from_iterable(rows))
    return header + before + body + between + text + after


def block(tree):
    return pack(*flat(tree))


def announced(data):
    """A block as it stands in a stream: after its length."""
    return struct.pack("<I", len(data)) + data


# ---------------------------------------------------------------------------------------------------------------
# Smallest lawful trees

PLAIN = [NUMBER[name] for name in ("Other", "Ident", "Str", "Function", "Block", "VarDecl", "Declarator",
                                   "AssignPatProp", "NamedSpec")]


def plain_choice(entry):
    """A kind for an entry of the table; Other where there is none."""
    return next((kind for kind in PLAIN if kind in entry), None) if entry is not None else 0


@functools.lru_cache(maxsize=None)
def least(kind):
    """The smallest lawful tree of a kind. Numbers that are no kind get no children."""
    return with_children(kind, KINDS[kind].fewest) if kind < COUNT else (kind,)


def with_children(kind, count, place=None, child=None):
    """A row with so many children, each as small as its place allows, except that `child` stands at `place`."""
    line = KINDS[kind]
    entries = [line.entry(at, count) for at in range(count)]
    return (kind, *(child if at == place else least(plain_choice(entry)) for at, entry in enumerate(entries)))


# ---------------------------------------------------------------------------------------------------------------
# Random lawful trees

UTF8_PIECES = [b"", b"a", b"exports", b"x1", b"default", "é".encode(), "\u07ff".encode(), "\u0800".encode(),
               "\ud7ff".encode(), "\ue000".encode(), "\uffff".encode(), "\U00010000".encode(), "\U0010ffff".encode(),
               b"\x00", b"\x7f"]
LEADS = [b"\xED\xA0\x80", b"\xED\xAF\xBF", b"a\xED\xA5\x90"]
TRAILS = [b"\xED\xB0\x80", b"\xED\xBF\xBF", b"\xED\xB7\x91b"]


def random_text(rng):
    """A text section and two lists of places in it: those of UTF-8 and those of WTF-8 texts."""
    text, utf8, wtf8 = bytearray(), [], []
    run_start = 0  # where the present run of UTF-8 pieces began
    for _ in range(rng.randint(0, 5)):
        start = len(text)
        if rng.random() < 0.75:
            text += rng.choice(UTF8_PIECES)
            utf8 += [(start, len(text) - start), (run_start, len(text) - run_start)]
        else:
            # a trail surrogate may follow only where no lead one stands directly before
            lead_before = start >= 3 and text[start - 3] == 0xED and 0xA0 <= text[start - 2] <= 0xAF
            text += rng.choice(LEADS if lead_before or rng.random() < 0.5 else TRAILS)
            run_start = len(text)
        wtf8 += [(start, len(text) - start), (0, len(text))]
    utf8.append((len(text), 0))
    return bytes(text), utf8, wtf8 + utf8


COMMON = [0, 0, 2, 3, 4, 6, 8, 13, 14, 20, 21, 22, 23, 25]
CHEAP_ANY = [0, 2, 3, 4, 5, 9, 14, 16, 20, 23, 24, 25, 28, 29, 34, 37, 49]
EVERY_CHILD = [kind for kind in range(COUNT) if kind != PROGRAM]


@functools.lru_cache(maxsize=None)
def choices(entry):
    """All kinds that fit an entry, and those that need few rows below."""
    fits = [kind for kind in EVERY_CHILD if kind in entry]
    cheap = [kind for kind in CHEAP_ANY if kind in entry] or [plain_choice(entry)]
    return fits, cheap


class Grower:
    """Grows one random lawful tree of about `size` rows. `wide` is how many children more than the fewest a row
    may get; `deep` is a depth past which only small rows are taken."""

    def __init__(self, rng, size, places, wide=4, deep=200):
        self.rng, self.left, self.wide, self.deep = rng, size, wide, deep
        self.text, self.utf8, self.wtf8 = places
        self.rows = []

    def tree(self):
        mark = int(self.rng.random() < 0.3)
        self.grow(PROGRAM, 0, mark)
        return self.rows

    def place(self, kind):
        form = KINDS[kind].text
        if form is None:
            return 0, 0
        return self.rng.choice(self.utf8 if form == "utf-8" else self.wtf8)

    def number_of_children(self, line, depth):
        if self.left <= 0 or depth > self.deep:
            return line.fewest
        if depth == 0:
            return self.rng.randint(0, self.wide)
        return self.rng.randint(line.fewest, min(line.most, line.fewest + self.wide))

    def choose(self, entry, depth):
        rng = self.rng
        fits, cheap = choices(entry)
        if self.left <= 0 or depth > self.deep:
            return rng.choice(cheap)
        if entry is ANY and depth > 0 and rng.random() < 0.5:
            return rng.choice(COMMON)
        return rng.choice(fits)

    def top_choice(self, script):
        """A child of the Program: often a module item if it is a module, never one if it is a script."""
        if not script and self.rng.random() < 0.4:
            return self.rng.choice(MODULE_ITEMS)
        while True:
            kind = self.choose(ANY, 0)
            if not (script and kind in MODULE_ITEMS):
                return kind

    def grow(self, kind, depth, mark):
        line = KINDS[kind]
        row = [kind, mark, *self.place(kind), 0]
        self.rows.append(row)
        self.left -= 1
        count = self.number_of_children(line, depth)
        for at in range(count):
            child = self.top_choice(mark) if depth == 0 else self.choose(line.entry(at, count), depth)
            self.grow(child, depth + 1, self.rng.randint(0, KINDS[child].mark))
        # a child more, as long as the tree has not its size
        while depth == 0 and self.left > 0:
            self.grow(self.top_choice(mark), 1, 0)
        row[4] = len(self.rows)


def random_block(rng, size, places=None, **shape):
    """A lawful block of about `size` rows."""
    grower = Grower(rng, size, places or random_text(rng), **shape)
    rows = grower.tree()
    if rng.random() < 0.1:
        return pack(rows, grower.text, *(bytes(rng.randint(0, 5)) for _ in range(3)))
    return pack(rows, grower.text)


SINGLE = [0, 6, 7, 10, 11, 12, 22, 23, 24, 28, 32, 34, 41, 42, 49]  # kinds that can hold one child of any kind
MANY = [0, 6, 12, 22, 23, 28, 49]  # kinds that can hold two of any kind


def deep_block(rng, depth):
    """A chain of rows whose last one has this depth, with a few small rows in and after it. It is lawful if the
    depth is at most 256."""
    rows, chain = [[PROGRAM, 0, 0, 0, 0]], [0]
    beside = {rng.randrange(1, depth) for _ in range(rng.randint(0, 3))}
    for level in range(1, depth + 1):
        chain.append(len(rows))
        kind = 0 if level == depth else rng.choice(MANY if level in beside else SINGLE)
        rows.append([kind, 0, 0, 0, 0])
        if level in beside:
            rows.append([NUMBER["Num"], 0, 0, 0, len(rows) + 1])
    for row in chain:
        rows[row][4] = len(rows)
    for _ in range(rng.randint(0, 2)):
        rows.append([NUMBER["OtherLit"], 0, 0, 0, len(rows) + 1])
    rows[0][4] = len(rows)
    return pack(rows)


# ---------------------------------------------------------------------------------------------------------------
# Damage


def put(data, at, number):
    return data[:at] + struct.pack("<I", number & TOP) + data[at + 4:]


def damage_byte(rng, data):
    at = rng.randrange(len(data))
    return data[:at] + bytes([data[at] ^ rng.randint(1, 255)]) + data[at + 1:]


def damage_header(rng, data):
    at = rng.choice((0, 4, 8, 12))
    old, = struct.unpack_from("<I", data, at)
    near = [old + 1, old - 1, old + 20, old - 20, 0, 15, 16, len(data), TOP, TOP - old, TOP - 19]
    return put(data, at, rng.choice(near))


def damage_row(rng, data):
    """Another number in some row. Works on blocks with a lawful header."""
    rows_offset, rows_length, _, text_length = struct.unpack_from("<4I", data)
    count = rows_length // ROW_BYTES
    row, field = rng.randrange(count), rng.choice((0, 0, 1, 2, 3, 4, 4))
    at = rows_offset + ROW_BYTES * row + 4 * field
    old, = struct.unpack_from("<I", data, at)
    if field == 0:
        new = rng.randint(0, 50)
    elif field == 1:
        new = rng.choice((0, 1, 1, 2, TOP))
    elif field in (2, 3):
        new = rng.choice((0, 1, old + 1, old - 1, text_length, text_length + 1, TOP, TOP - old))
    else:
        new = rng.choice((old + 1, old - 1, row, row + 1, row + 2, count, count + 1, 0, TOP, old + 256))
    return put(data, at, new)


def damage_text(rng, data):
    """Another byte in the text section, if there is one."""
    _, _, text_offset, text_length = struct.unpack_from("<4I", data)
    if not text_length:
        return damage_row(rng, data)
    at = text_offset + rng.randrange(text_length)
    new = rng.choice(b"\x00\x7f\x80\x8f\x90\x9f\xa0\xaf\xb0\xbf\xc0\xc1\xc2\xdf\xe0\xed\xef\xf0\xf4\xf5\xff")
    return data[:at] + bytes([new]) + data[at + 1:]


def damage_swap(rng, data):
    """Two rows change their kinds, or one row is written over another."""
    rows_offset, rows_length, _, _ = struct.unpack_from("<4I", data)
    a, b = (rows_offset + ROW_BYTES * rng.randrange(rows_length // ROW_BYTES) for _ in range(2))
    size = rng.choice((4, 4, 16, ROW_BYTES))
    out = bytearray(data)
    out[a:a + size] = data[b:b + size]
    if size == 4:
        out[b:b + size] = data[a:a + size]
    return bytes(out)


def damage_length(rng, data):
    return data[:-rng.randint(1, 20)] if rng.random() < 0.7 else data + bytes(rng.randint(1, 20))


DAMAGES = [damage_byte, damage_byte, damage_header, damage_row, damage_row, damage_row, damage_row, damage_row,
           damage_text, damage_text, damage_swap, damage_swap, damage_length]


def damaged(rng, data):
    """A lawful block with one thing changed."""
    return rng.choice(DAMAGES)(rng, data)


# ---------------------------------------------------------------------------------------------------------------
# Blocks of random numbers


def random_bytes(rng):
    return rng.randbytes(rng.choice((0, 4, 15, 16, 17, 36, rng.randint(0, 200))))


def random_ends(rng):
    """A Program over Others, with ends that are often lawful."""
    count = rng.randint(1, 10)
    rows = [[int(row == 0), 0, 0, 0, rng.randint(row + (rng.random() < 0.9), count)] for row in range(count)]
    if rng.random() < 0.8:
        rows[0][4] = count
    return pack(rows)


def random_kinds(rng):
    """Lawful ends over kinds that mostly do not fit each other."""
    count = rng.randint(1, 6)
    rows, open_ends = [], []
    for row in range(count):
        while open_ends and open_ends[-1] <= row:
            open_ends.pop()
        end = rng.randint(row + 1, open_ends[-1]) if open_ends else count
        rows.append([rng.randint(0, 50) if row else 1, rng.choice((0, 0, 0, 0, 0, 1)), 0, 0, end])
        open_ends.append(end)
    return pack(rows)


EDGES = b"\x00\x61\x7f\x80\x8f\x90\x9f\xa0\xaf\xb0\xbf\xc1\xc2\xdf\xe0\xe1\xec\xed\xed\xee\xef\xf0\xf1\xf3\xf4\xf5\xff"
PIECES = UTF8_PIECES + LEADS + TRAILS + [bytes([edge]) for edge in EDGES]


def random_texts(rng):
    """Rows with texts made of sound and broken pieces."""
    text = b"".join(rng.choice(PIECES) for _ in range(rng.randint(1, 5)))
    rows = [[PROGRAM, rng.randint(0, 1), 0, 0, 0]]
    for _ in range(rng.randint(1, 2)):
        start = rng.choice((0, 0, rng.randint(0, len(text))))
        length = rng.choice((len(text) - start, rng.randint(0, len(text) - start)))
        rows.append([rng.choice((2, 3, 3, 9, 16)), 0, start, length, len(rows) + 1])
    rows[0][4] = len(rows)
    return pack(rows, text)
