#!/usr/bin/env python3
"""A model of the check of a tree block and of the script test, written from docs/TREE.md, docs/TEXT.md,
docs/FAULTS.md and the script test of docs/FINDINGS.md, without sight of the program.

`answer` gives the line of a refused block, and of a lawful one the script answer, 0 or 1, with which its line begins.
findings_model.py has the rest of the line.

The rules are written twice. `answer_by_definition` asks of every row what the pages ask of it and goes over all
pairs of rows. `answer` goes over the rows once with a stack and takes children by their ends; it serves large
blocks. The self-test and tree_cases.py compare the two.

    tree_model.py FILE...     the answer for each block file
    tree_model.py --self-test
"""
import itertools
import pathlib
import random
import re
import struct
import sys

MOST_BYTES = 4_194_304
MOST_ROWS_LENGTH = 1_310_720
ROW_BYTES = 20
DEEPEST = 256
PROGRAM = 1
LAYOUT, END, DEPTH, SHAPE, TEXT = 1, 2, 3, 4, 5

# ---------------------------------------------------------------------------------------------------------------
# The table of kinds, as the page has it: number, name, text, highest mark, fewest and most children, and the
# entries for the first child, the other children and the last child.

TABLE = """
| 0 | Other | none | 0 | 0 | no limit | any | any | - |
| 1 | Program | none | 1 | 0 | no limit | any | any | - |
| 2 | Ident | UTF-8 | 0 | 0 | 0 | - | - | - |
| 3 | Str | WTF-8 | 0 | 0 | 0 | - | - | - |
| 4 | Num | none | 1 | 0 | 0 | - | - | - |
| 5 | OtherLit | none | 0 | 0 | 0 | - | - | - |
| 6 | Call | none | 0 | 1 | no limit | any | any | - |
| 7 | Spread | none | 0 | 1 | 1 | any | - | - |
| 8 | Member | none | 0 | 2 | 2 | any | member property | - |
| 9 | PrivateName | UTF-8 | 0 | 0 | 0 | - | - | - |
| 10 | Computed | none | 0 | 1 | 1 | any | - | - |
| 11 | Paren | none | 0 | 1 | 1 | any | - | - |
| 12 | Seq | none | 0 | 1 | no limit | any | any | - |
| 13 | Assign | none | 1 | 2 | 2 | any | any | - |
| 14 | Object | none | 0 | 0 | no limit | property | property | - |
| 15 | KeyValue | none | 0 | 2 | 2 | key | any | - |
| 16 | Shorthand | UTF-8 | 0 | 0 | 0 | - | - | - |
| 17 | Getter | none | 0 | 1 | 2 | key | Block | - |
| 18 | Setter | none | 0 | 1 | no limit | key | any | - |
| 19 | Method | none | 0 | 2 | 2 | key | Function | - |
| 20 | Function | none | 0 | 0 | no limit | any but Block | any but Block | any |
| 21 | FnExpr | none | 0 | 1 | 2 | Ident | - | Function |
| 22 | Arrow | none | 0 | 1 | no limit | any | any | - |
| 23 | Block | none | 0 | 0 | no limit | any | any | - |
| 24 | Return | none | 0 | 0 | 1 | any | - | - |
| 25 | VarDecl | none | 0 | 0 | no limit | Declarator | Declarator | - |
| 26 | UsingDecl | none | 0 | 0 | no limit | Declarator | Declarator | - |
| 27 | Declarator | none | 0 | 1 | 2 | any | any | - |
| 28 | ArrayPat | none | 0 | 0 | no limit | any | any | - |
| 29 | ObjectPat | none | 0 | 0 | no limit | pattern property | pattern property | - |
| 30 | KeyValuePat | none | 0 | 2 | 2 | key | any | - |
| 31 | AssignPatProp | none | 0 | 1 | 2 | Ident | any | - |
| 32 | RestPat | none | 0 | 1 | 1 | any | - | - |
| 33 | AssignPat | none | 0 | 2 | 2 | any | any | - |
| 34 | Import | none | 0 | 0 | no limit | any | any | - |
| 35 | ExportAll | none | 0 | 1 | 1 | Str | - | - |
| 36 | ExportDecl | none | 0 | 1 | 1 | declaration | - | - |
| 37 | ExportNamed | none | 0 | 0 | no limit | specifier | specifier | specifier or Str |
| 38 | NamespaceSpec | none | 0 | 1 | 1 | name | - | - |
| 39 | DefaultSpec | none | 0 | 1 | 1 | Ident | - | - |
| 40 | NamedSpec | none | 0 | 1 | 2 | name | name | - |
| 41 | ExportDefault | none | 0 | 1 | 1 | any | - | - |
| 42 | TsImportEquals | none | 0 | 0 | no limit | any | any | - |
| 43 | TsExportAssignment | none | 0 | 0 | no limit | any | any | - |
| 44 | TsNamespaceExport | none | 0 | 0 | no limit | any | any | - |
| 45 | ClassDecl | none | 0 | 1 | no limit | Ident | any | - |
| 46 | FnDecl | none | 0 | 1 | no limit | Ident | any | - |
| 47 | TsEnum | none | 0 | 1 | no limit | Ident | any | - |
| 48 | TsModule | none | 0 | 1 | no limit | name | any | - |
| 49 | TypeDecl | none | 0 | 0 | no limit | any | any | - |
"""

GROUPS = """
| key | 2 Ident, 3 Str, 4 Num, 5 OtherLit, 10 Computed |
| name | 2 Ident, 3 Str |
| member property | 2 Ident, 9 PrivateName, 10 Computed |
| property | 0 Other, 7 Spread, 15 KeyValue, 16 Shorthand, 17 Getter, 18 Setter, 19 Method |
| pattern property | 30 KeyValuePat, 31 AssignPatProp, 32 RestPat |
| declaration | 25 VarDecl, 26 UsingDecl, 45 ClassDecl, 46 FnDecl, 47 TsEnum, 48 TsModule, 49 TypeDecl |
| specifier | 38 NamespaceSpec, 39 DefaultSpec, 40 NamedSpec |
"""


class Every:
    """The entry `any`, less the numbers in `but`. It covers numbers that are no kind, too."""

    def __init__(self, *but):
        self.but = frozenset(but)

    def __contains__(self, number):
        return number not in self.but


ANY = Every()


class Kind:
    """One line of the table. An entry is a set of numbers, or None where the table has a dash."""

    def __init__(self, name, text, mark, fewest, most, first, other, last):
        self.name = name
        self.text = {"none": None, "UTF-8": "utf-8", "WTF-8": "wtf-8"}[text]
        self.mark = int(mark)
        self.fewest = int(fewest)
        self.most = MOST_ROWS_LENGTH if most == "no limit" else int(most)
        self.unlimited = most == "no limit"
        self.first, self.other, self.last = (entry(words) for words in (first, other, last))

    def entry(self, place, count):
        """What child `place` of `count` has to fit."""
        if self.last is not None and place == count - 1:
            return self.last
        return self.first if place == 0 else self.other


def cells(line):
    return [cell.strip() for cell in line.strip().strip("|").split("|")]


def lines(table):
    return [cells(line) for line in table.strip().splitlines()]


NUMBER = {row[1]: int(row[0]) for row in lines(TABLE)}
GROUP = {row[0]: frozenset(int(kind.split()[0]) for kind in row[1].split(",")) for row in lines(GROUPS)}


def entry(words):
    if words == "-":
        return None
    if words == "any":
        return ANY
    if words.startswith("any but "):
        return Every(NUMBER[words[len("any but "):]])
    fits = set()
    for part in words.replace("(never used)", "").split(" or "):
        part = part.strip()
        fits |= GROUP[part] if part in GROUP else {NUMBER[part]}
    return frozenset(fits)


KINDS = [Kind(*row[1:]) for row in lines(TABLE)]
COUNT = len(KINDS)
MODULE_ITEMS = range(34, 45)  # what a script must not have as a child
TELLS_NO = {34, 35, 36, 37, 41}
TELLS_YES = {42, 43}

# ---------------------------------------------------------------------------------------------------------------
# Texts

PAIR = re.compile("[\ud800-\udbff][\udc00-\udfff]")


def is_utf8(data):
    try:
        data.decode("utf-8", "strict")
    except UnicodeDecodeError:
        return False
    return True


def is_wtf8(data):
    """Surrogates pass, but a lead one must not stand directly before a trail one."""
    try:
        points = data.decode("utf-8", "surrogatepass")
    except UnicodeDecodeError:
        return False
    return PAIR.search(points) is None


# ---------------------------------------------------------------------------------------------------------------
# What both ways of the model share: header, the fit of one row, the text of one row, the script test


class Refused(Exception):
    def __init__(self, number, place):
        self.line = f"fault {number} layer 2 module 0 place {place}"


def sections(block):
    """The rows, each as its five numbers, and the bytes of the text section."""
    if not 16 <= len(block) <= MOST_BYTES:
        raise Refused(LAYOUT, 0)
    rows_offset, rows_length, text_offset, text_length = struct.unpack_from("<4I", block)
    lawful = (
        rows_offset >= 16
        and rows_length % ROW_BYTES == 0
        and 0 < rows_length <= MOST_ROWS_LENGTH
        and rows_offset + rows_length <= text_offset
        and text_offset + text_length <= len(block)
    )
    if not lawful:
        raise Refused(LAYOUT, 0)
    rows = list(struct.iter_unpack("<5I", block[rows_offset:rows_offset + rows_length]))
    return rows, block[text_offset:text_offset + text_length]


def children_fit(kind, children):
    """Do children of these kinds fit the line of `kind`?"""
    line = KINDS[kind]
    count = len(children)
    if not line.fewest <= count <= line.most:
        return False
    for place, child in enumerate(children):
        fits = line.entry(place, count)
        if fits is not ANY and child not in fits:
            return False
    return True


def row_fits(number, kind, mark, children):
    """Kind, mark and children of a row; `children` are the kinds of its children."""
    if kind >= COUNT or (kind == PROGRAM) != (number == 0):
        return False
    if mark > KINDS[kind].mark or not children_fit(kind, children):
        return False
    if kind == PROGRAM and mark == 1:
        return not any(child in MODULE_ITEMS for child in children)
    return True


def text_fits(kind, offset, length, text):
    form = KINDS[kind].text
    if form is None:
        return offset == 0 and length == 0
    if offset + length > len(text):
        return False
    part = text[offset:offset + length]
    return is_utf8(part) if form == "utf-8" else is_wtf8(part)


def is_script(mark, children):
    """The script test on a Program's mark and the kinds of its children."""
    if mark == 1:
        return True
    for child in children:
        if child in TELLS_NO:
            return False
        if child in TELLS_YES:
            return True
    return False


# ---------------------------------------------------------------------------------------------------------------
# Pointwise, by the definitions


def answer_by_definition(block):
    try:
        rows, text = sections(block)
        count = len(rows)
        ends = [row[4] for row in rows]

        def encloses(i, j):
            return i < j < ends[i]

        def end_lawful(j):
            return (
                ends[j] > j
                and all(ends[j] <= ends[i] for i in range(count) if encloses(i, j))
                and (j != 0 or ends[0] == count)
            )

        def depth(j):
            return sum(encloses(i, j) for i in range(count))

        def is_child(i, j):
            return encloses(i, j) and not any(encloses(i, m) and encloses(m, j) for m in range(i + 1, j))

        def children(i):
            return [rows[j][0] for j in range(count) if is_child(i, j)]

        def look(number, lawful):
            for row in range(count):
                if not lawful(row):
                    raise Refused(number, row)

        look(END, end_lawful)
        look(DEPTH, lambda row: depth(row) <= DEEPEST)
        look(SHAPE, lambda row: row_fits(row, rows[row][0], rows[row][1], children(row)))
        look(TEXT, lambda row: text_fits(rows[row][0], rows[row][2], rows[row][3], text))
        return str(int(is_script(rows[0][1], children(0))))
    except Refused as refused:
        return refused.line


# ---------------------------------------------------------------------------------------------------------------
# In one go over the rows


def depths(ends):
    """Refuses the lowest unlawful end, else gives the lowest row that is too deep, or None.

    As long as no end is unlawful, the ends of the enclosing rows never rise from the outer to the inner, so that
    the innermost one decides."""
    open_ends = []
    too_deep = None
    for row, end in enumerate(ends):
        while open_ends and open_ends[-1] <= row:
            open_ends.pop()
        if end <= row or (end > open_ends[-1] if open_ends else end != len(ends)):
            raise Refused(END, row)
        if too_deep is None and len(open_ends) > DEEPEST:
            too_deep = row
        open_ends.append(end)
    return too_deep


def child_kinds(rows, row):
    """The first child is the next row, and the next child stands at a child's end."""
    end = rows[row][4]
    at = row + 1
    kinds = []
    while at < end:
        kinds.append(rows[at][0])
        at = rows[at][4]
    return kinds


def checked(block):
    """The rows and the text section of a lawful block. Any other block is refused."""
    rows, text = sections(block)
    too_deep = depths([row[4] for row in rows])
    if too_deep is not None:
        raise Refused(DEPTH, too_deep)
    for number, (kind, mark, _, _, _) in enumerate(rows):
        if not row_fits(number, kind, mark, child_kinds(rows, number)):
            raise Refused(SHAPE, number)
    for number, (kind, _, offset, length, _) in enumerate(rows):
        if not text_fits(kind, offset, length, text):
            raise Refused(TEXT, number)
    return rows, text


def answer(block):
    try:
        rows, _ = checked(block)
        return str(int(is_script(rows[0][1], child_kinds(rows, 0))))
    except Refused as refused:
        return refused.line


# ---------------------------------------------------------------------------------------------------------------
# Self-test

EXAMPLE = bytes.fromhex(
    "10000000 78000000 88000000 08000000"
    "01000000 01000000 00000000 00000000 06000000"
    "0d000000 00000000 00000000 00000000 06000000"
    "08000000 00000000 00000000 00000000 05000000"
    "02000000 00000000 00000000 07000000 04000000"
    "02000000 00000000 07000000 01000000 05000000"
    "04000000 00000000 00000000 00000000 06000000"
    "6578706f 72747361"
)

# the forms of docs/TEXT.md as patterns, a second opinion beside Python's codec
UTF8_FORMS = (
    rb"[\x00-\x7F]|[\xC2-\xDF][\x80-\xBF]|\xE0[\xA0-\xBF][\x80-\xBF]|[\xE1-\xEC][\x80-\xBF]{2}"
    rb"|\xED[\x80-\x9F][\x80-\xBF]|[\xEE-\xEF][\x80-\xBF]{2}|\xF0[\x90-\xBF][\x80-\xBF]{2}"
    rb"|[\xF1-\xF3][\x80-\xBF]{3}|\xF4[\x80-\x8F][\x80-\xBF]{2}"
)
LEAD, TRAIL = rb"\xED[\xA0-\xAF][\x80-\xBF]", rb"\xED[\xB0-\xBF][\x80-\xBF]"
UTF8 = re.compile(rb"(?:" + UTF8_FORMS + rb")*", re.DOTALL)
WTF8 = re.compile(rb"(?:" + UTF8_FORMS + rb"|" + LEAD + rb"(?!" + TRAIL + rb")|" + TRAIL + rb")*", re.DOTALL)
EDGES = bytes.fromhex("00 7F 80 8F 90 9F A0 AF B0 BF C0 C1 C2 DF E0 E1 EC ED EE EF F0 F1 F3 F4 F5 FF")


def test_table():
    """The table and the groups stand in the page as they stand here."""
    page = pathlib.Path(__file__).resolve().parent.parent / "docs" / "TREE.md"
    assert [row[0] for row in lines(TABLE)] == [str(number) for number in range(50)]
    assert all(NUMBER[words.split()[1]] == int(words.split()[0])
               for row in lines(GROUPS) for words in row[1].split(", "))
    if page.exists():
        text = page.read_text()
        for line in (TABLE + GROUPS).strip().splitlines():
            assert line.strip() == "" or line in text, line


def test_texts(rng):
    texts = [bytes(part) for size in range(4) for part in itertools.product(EDGES, repeat=size)]
    pieces = [b"a", b"\xC3\xA9", b"\xED\xA0\x80", b"\xED\xB0\x80", b"\xED\x9F\xBF", b"\xF0\x9F\x98\x80",
              b"\xED", b"\x80"]
    texts += [b"".join(part) for size in range(5) for part in itertools.product(pieces, repeat=size)]
    texts += [bytes(rng.choice(EDGES) for _ in range(rng.randint(4, 9))) for _ in range(20000)]
    for text in texts:
        assert is_utf8(text) == (UTF8.fullmatch(text) is not None), text.hex()
        assert is_wtf8(text) == (WTF8.fullmatch(text) is not None), text.hex()


def bare(ends):
    """A block of a Program and Others with these ends."""
    rows = b"".join(struct.pack("<5I", row == 0, 0, 0, 0, end) for row, end in enumerate(ends))
    return struct.pack("<4I", 16, len(rows), 16 + len(rows), 0) + rows


def test_ends(rng):
    assert answer(bare([1])) == "0"
    assert answer(bare([2])) == "fault 2 layer 2 module 0 place 0"
    assert answer(bare([3, 2, 4])) == "fault 2 layer 2 module 0 place 2"
    assert answer(bare([257] * 257)) == "0"
    assert answer(bare([258] * 258)) == "fault 3 layer 2 module 0 place 257"
    for count in range(1, 5):
        for ends in itertools.product(range(count + 2), repeat=count):
            assert answer(bare(ends)) == answer_by_definition(bare(ends)), ends
    for _ in range(3000):
        count = rng.randint(1, 9)
        ends = [count] + [rng.randint(row + 1, count) for row in range(1, count)]
        assert answer(bare(ends)) == answer_by_definition(bare(ends)), ends


def self_test():
    rng = random.Random(1)
    test_table()
    test_texts(rng)
    test_ends(rng)
    print("tree_model: self-test passed")


def main(arguments):
    if arguments == ["--self-test"]:
        self_test()
    else:
        for name in arguments:
            print(answer(pathlib.Path(name).read_bytes()))


if __name__ == "__main__":
    main(sys.argv[1:])
