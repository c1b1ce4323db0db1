#!/usr/bin/env python3
"""A model of the two analyses and of the lines that tell their lists, written from docs/FINDINGS.md, docs/TEXT.md and
docs/PROGRAM.md, without sight of the program.

`findings_line` and `answers_line` give the line for one block, `stream` the lines for a stream of blocks.

    findings_model.py findings [B E R U] < STREAM     lines with places; the tables have 65,536 rows each if left out
    findings_model.py answers < STREAM                lines with the texts of the names
    findings_model.py --self-test
"""
import re
import struct
import sys

sys.dont_write_bytecode = True  # leave no cache beside the tools

from tree_model import EXAMPLE, KINDS, MOST_BYTES, Refused, checked, child_kinds, is_script

AMPLE = (65_536,) * 4
NAMES = [kind.name for kind in KINDS]
WITH_TEXT = {number for number, kind in enumerate(KINDS) if kind.text is not None}
TEXTLESS = (0, 0xFFFF_FFFF)
DEFAULT = b"default"

# ---------------------------------------------------------------------------------------------------------------
# Trees


class Row:
    """One row of a lawful tree. `text` is None where the kind has none."""

    __slots__ = ("number", "kind", "mark", "place", "text", "children")

    def __init__(self, number, kind, mark, place, text):
        self.number, self.kind, self.mark, self.place, self.text = number, kind, mark, place, text
        self.children = []


def tree(rows, text):
    """The Program of a lawful block with the rows below it."""
    made = []
    for number, (kind, mark, offset, length, _) in enumerate(rows):
        own = text[offset:offset + length] if kind in WITH_TEXT else None
        made.append(Row(number, NAMES[kind], mark, (offset, length), own))
    for row, (_, _, _, _, end) in zip(made, rows):
        at = row.number + 1
        while at < end:
            row.children.append(made[at])
            at = rows[at][4]
    return made[0]


# ---------------------------------------------------------------------------------------------------------------
# Texts

SURROGATE = re.compile(rb"\xED[\xA0-\xBF][\x80-\xBF]")


def loose(text):
    return SURROGATE.sub(b"\xEF\xBF\xBD", text) if b"\xED" in text else text


def is_plain(text):
    return b"\xED" not in text or SURROGATE.search(text) is None


# ---------------------------------------------------------------------------------------------------------------
# Tables


class Full(Exception):
    """A new entry found no free row."""


class Table:
    """Entries under keys, no more than `size` of them. The first entry of a key stays."""

    def __init__(self, size):
        self.size, self.rows = size, {}

    def add(self, key, entry):
        if key not in self.rows:
            self.put(key, entry)

    def put(self, key, entry):
        """As `add`, but the last entry of a key stays."""
        if key not in self.rows and len(self.rows) == self.size:
            raise Full
        self.rows[key] = entry

    def add_text(self, row):
        self.add(loose(row.text), row.place)

    def clear(self):
        self.rows.clear()

    def drop(self, keys):
        self.rows = {key: entry for key, entry in self.rows.items() if key not in keys}

    def entries(self):
        return [entry for _, entry in sorted(self.rows.items())]


class Repeats:
    """A list in the order of its entries, no more than `size` of them. Nothing is left out."""

    def __init__(self, size):
        self.size, self.rows = size, []

    def add(self, place):
        if len(self.rows) == self.size:
            raise Full
        self.rows.append(place)

    def entries(self):
        return self.rows


# ---------------------------------------------------------------------------------------------------------------
# What the CommonJS rules ask of a row. A text is given as the row that has it.


def is_ident(row, word):
    return row.kind == "Ident" and row.text == word


def property_text(row):
    """The text of a Member's property."""
    if row.kind == "Ident":
        return row
    if row.kind == "Computed" and row.children[0].kind == "Str" and is_plain(row.children[0].text):
        return row.children[0]
    return None


def is_exports_object(row):
    if row.kind == "Member":
        owner, name = row.children
        text = property_text(name)
        return is_ident(owner, b"module") and text is not None and text.text == b"exports"
    return is_ident(row, b"exports")


def require_value(row):
    """The specifier that a Call requires."""
    if row.kind != "Call" or row.children[0].kind != "Ident" or len(row.children) < 2:
        return None
    callee, first = row.children[:2]
    if callee.text == b"require":
        return first if first.kind == "Str" and is_plain(first.text) else None
    return require_value(first) if callee.text == b"_interopRequireWildcard" else None


def computed_ident(row):
    """The Ident in the brackets of a property."""
    return row.children[0] if row.kind == "Computed" and row.children[0].kind == "Ident" else None


def called_member(callee):
    """The Member that is called, also in the form `(0, member)(..)`."""
    if callee.kind == "Paren" and callee.children[0].kind == "Seq":
        parts = callee.children[0].children
        if len(parts) != 2 or parts[0].kind != "Num" or parts[0].mark != 1:
            return None
        callee = parts[1]
    return callee if callee.kind == "Member" else None


def is_object_define(call):
    member, arguments = called_member(call.children[0]), call.children[1:]
    if member is None or not is_ident(member.children[0], b"Object"):
        return False
    if not is_ident(member.children[1], b"defineProperty") or len(arguments) < 3:
        return False
    return is_exports_object(arguments[0]) and "Spread" not in (arguments[1].kind, arguments[2].kind)


def is_export_word(row):
    return is_ident(row, b"__exportStar") or is_ident(row, b"__export")


def is_export_callee(callee):
    member = called_member(callee)
    if member is None:
        return is_export_word(callee)
    return member.children[0].kind == "Ident" and is_export_word(member.children[1])


def property_name(row):
    """The name of a property of an Object."""
    if row.kind == "Shorthand":
        return row
    if row.kind not in ("KeyValue", "Getter", "Setter", "Method"):
        return None
    key = row.children[0]
    return key if key.kind == "Ident" or key.kind == "Str" and is_plain(key.text) else None


# ---------------------------------------------------------------------------------------------------------------
# Getters and harmless expressions


def is_harmless(row):
    if row.kind == "Member":
        owner, name = row.children
        return is_harmless(owner) and (name.kind != "Computed" or is_harmless(name.children[0]))
    return row.kind in ("Ident", "Str", "Num", "OtherLit", "Object")


def returned(block):
    """The expression of a Block that is one Return of something."""
    if block is None or len(block.children) != 1 or block.children[0].kind != "Return":
        return None
    return block.children[0].children[0] if block.children[0].children else None


def body(function):
    """The Block of a Function."""
    last = function.children[-1] if function.children else None
    return last if last is not None and last.kind == "Block" else None


def getter(descriptor):
    """The first property `get` of an Object."""
    for row in descriptor.children:
        name = property_name(row)
        if name is not None and name.text == b"get":
            return row
    return None


def got(row):
    """The expression that a property `get` returns."""
    if row.kind == "Method":
        return returned(body(row.children[1]))
    if row.kind != "KeyValue":
        return None
    value = row.children[1]
    if value.kind == "FnExpr":
        return returned(body(value.children[-1]))
    if value.kind == "Arrow":
        last = value.children[-1]
        return returned(last) if last.kind == "Block" else last
    return None


def gives_harmlessly(expression):
    return expression is not None and is_harmless(expression)


def is_valid_descriptor(row):
    if row.kind != "Object":
        return False
    get = getter(row)
    return get is None or gives_harmlessly(got(get))


def is_supported(row):
    """Is a property of an Object one that is exported?"""
    if row.kind == "Getter":
        return gives_harmlessly(returned(row.children[1] if len(row.children) == 2 else None))
    return row.kind in ("Method", "KeyValue", "Shorthand")


# ---------------------------------------------------------------------------------------------------------------
# CommonJS


class CommonJs:
    """The walk over a tree with its four tables."""

    def __init__(self, sizes):
        self.bindings, self.exports, self.reexports, self.unsafe = map(Table, sizes)

    def walk(self, row):
        if row.kind == "Assign" and row.mark == 1:
            return
        try:
            self.act(row)
        except Full:
            raise Refused6(row) from None
        for child in row.children:
            self.walk(child)

    def act(self, row):
        if row.kind == "VarDecl":
            for declarator in row.children:
                self.declarator(declarator.children)
        elif row.kind == "Call":
            self.call(row)
        elif row.kind == "Assign":
            self.assign(*row.children)

    def reexport(self, text):
        if text is not None:
            self.reexports.add_text(text)

    def declarator(self, parts):
        value = require_value(parts[1]) if len(parts) == 2 and parts[0].kind == "Ident" else None
        if value is not None:
            self.bindings.put(parts[0].text, (parts[0].place, value))

    def bound(self, row):
        """The specifier that an Ident is bound to."""
        entry = self.bindings.rows.get(row.text) if row.kind == "Ident" else None
        return None if entry is None else entry[1]

    def keyed_value(self, row, key):
        """What `e[key]` gives for a bound `e`."""
        if row.kind != "Member":
            return None
        inner = computed_ident(row.children[1])
        return self.bound(row.children[0]) if inner is not None and inner.text == key else None

    def call(self, row):
        if is_object_define(row):
            self.define(row.children[2], row.children[3])
        elif is_export_callee(row.children[0]):
            self.reexport(self.export_argument(row.children[1:]))

    def define(self, name, descriptor):
        if name.kind == "Str":
            (self.exports if is_valid_descriptor(descriptor) else self.unsafe).add_text(name)
        elif name.kind == "Ident" and descriptor.kind == "Object":
            get = getter(descriptor)
            expression = None if get is None else got(get)
            if expression is not None:
                self.reexport(self.keyed_value(expression, name.text))

    def export_argument(self, arguments):
        """The specifier that the arguments of `__export` name."""
        if any(row.kind == "Spread" for row in arguments):
            return None
        if len(arguments) != 1 and not (len(arguments) == 2 and is_ident(arguments[1], b"exports")):
            return None
        value = require_value(arguments[0])
        return self.bound(arguments[0]) if value is None else value

    def assign(self, target, right):
        if is_exports_object(target):
            self.assign_whole(right)
        elif target.kind == "Member" and is_exports_object(target.children[0]):
            text, key = property_text(target.children[1]), computed_ident(target.children[1])
            if text is not None:
                self.exports.add_text(text)
            elif key is not None:
                self.reexport(self.keyed_value(right, key.text))

    def assign_whole(self, right):
        """What becomes the exports object."""
        if right.kind == "Object":
            for row in right.children:
                self.property(row)
        elif right.kind == "Call":
            value = require_value(right)
            if value is not None:
                self.reexports.clear()
                self.reexport(value)
        elif right.kind == "Assign" and right.mark == 0:
            self.assign_whole(right.children[1])

    def property(self, row):
        if row.kind == "Spread":
            self.reexport(require_value(row.children[0]))
        else:
            name = property_name(row)
            if name is not None:
                (self.exports if is_supported(row) else self.unsafe).add_text(name)

    def drop_unsafe(self):
        self.exports.drop(self.unsafe.rows)
        self.reexports.drop(self.unsafe.rows)


# ---------------------------------------------------------------------------------------------------------------
# ES


def bound_names(row):
    """The Idents that a pattern binds."""
    if row.kind == "Ident":
        return [row]
    if row.kind in ("RestPat", "AssignPat"):
        return bound_names(row.children[0])
    if row.kind == "ArrayPat":
        return [name for child in row.children for name in bound_names(child)]
    if row.kind == "ObjectPat":
        return [name for child in row.children for name in bound_names_of_property(child)]
    return []


def bound_names_of_property(row):
    if row.kind == "KeyValuePat":
        return bound_names(row.children[1])
    if row.kind == "AssignPatProp":
        return [row.children[0]]
    return bound_names(row)


def declared_names(row):
    """The Idents that an exported declaration names."""
    if row.kind in ("VarDecl", "UsingDecl"):
        return [name for declarator in row.children for name in bound_names(declarator.children[0])]
    if row.kind in ("ClassDecl", "FnDecl", "TsEnum", "TsModule") and row.children[0].kind == "Ident":
        return [row.children[0]]
    return []


def specified_places(row):
    """The places of the names that one specifier of an export list exports; the Str after them exports none."""
    if row.kind == "DefaultSpec":
        return [TEXTLESS]
    return [row.children[-1].place] if row.kind in ("NamespaceSpec", "NamedSpec") else []


def exported_places(row):
    """The places of the names that a child of the Program exports."""
    if row.kind == "ExportDecl":
        return [name.place for name in declared_names(row.children[0])]
    if row.kind == "ExportDefault":
        return [] if row.children[0].kind == "TypeDecl" else [TEXTLESS]
    if row.kind == "ExportNamed":
        return [place for child in row.children for place in specified_places(child)]
    return []


# ---------------------------------------------------------------------------------------------------------------
# The two analyses


class Refused6(Exception):
    def __init__(self, row):
        self.line = f"fault 6 layer 3 module 0 place {row.number}"


class Lists:
    """What an analysis leaves: bindings as pairs of places, the other three lists as places."""

    def __init__(self, bindings, exports, reexports, unsafe):
        self.bindings, self.exports, self.reexports, self.unsafe = bindings, exports, reexports, unsafe


def cjs_lists(program, sizes):
    found = CommonJs(sizes)
    found.walk(program)
    found.drop_unsafe()
    bindings = [(key, value.place) for key, value in found.bindings.entries()]
    return Lists(bindings, found.exports.entries(), found.reexports.entries(), found.unsafe.entries())


def es_lists(program, sizes):
    exports, reexports = Repeats(sizes[1]), Repeats(sizes[2])
    for row in program.children if program.mark == 0 else []:
        try:
            if row.kind == "ExportAll":
                reexports.add(row.children[0].place)
            for place in exported_places(row):
                exports.add(place)
        except Full:
            raise Refused6(row) from None
    return Lists([], exports.entries(), reexports.entries(), [])


# ---------------------------------------------------------------------------------------------------------------
# Lines


def joined(parts):
    return ",".join(parts) if parts else "-"


def shown_place(place):
    return "%d:%d" % place


def shown_lists(lists):
    """One part of the line of `findings`."""
    bindings = joined([shown_place(key) + "=" + shown_place(value) for key, value in lists.bindings])
    exports, reexports, unsafe = (joined([shown_place(place) for place in places])
                                  for places in (lists.exports, lists.reexports, lists.unsafe))
    return f"b {bindings} e {exports} r {reexports} u {unsafe}"


class Opened:
    """A block: `fault` is the line of its refusal or None, the rest is what a lawful one holds."""

    def __init__(self, block):
        self.fault = None
        try:
            rows, self.text = checked(block)
        except Refused as refused:
            self.fault = refused.line
            return
        self.program = tree(rows, self.text)
        self.script = int(is_script(rows[0][1], child_kinds(rows, 0)))


def part(analysis, program, sizes):
    try:
        return shown_lists(analysis(program, sizes))
    except Refused6 as refused:
        return refused.line


def findings_of(opened, sizes):
    if opened.fault:
        return opened.fault
    cjs, es = (part(analysis, opened.program, sizes) for analysis in (cjs_lists, es_lists))
    return f"{opened.script} | {cjs} | {es}"


def findings_line(block, sizes=AMPLE):
    return findings_of(Opened(block), sizes)


def read(place, text):
    """The loose reading of a listed place."""
    offset, length = place
    return DEFAULT if place == TEXTLESS else loose(text[offset:offset + length])


def answers_of(opened):
    if opened.fault:
        return opened.fault
    words = [str(opened.script)]
    for lists in cjs_lists(opened.program, AMPLE), es_lists(opened.program, AMPLE):
        for places in lists.exports, lists.reexports:
            words.append(joined(["." + read(place, opened.text).hex() for place in places]))
    return " ".join(words)


def answers_line(block):
    return answers_of(Opened(block))


def stream(data, line):
    """One line a block, as `line` gives it, then `short` if the data end inside a length or inside a block."""
    at = 0
    while at < len(data):
        start = at + 4
        at = start + int.from_bytes(data[at:start], "little")
        if start > len(data) or at > len(data):
            yield "short"
            return
        yield line(data[start:at])


# ---------------------------------------------------------------------------------------------------------------


def self_test():
    """A few lines by hand; findings_cases.py has the many."""
    nothing = "b - e - r - u -"
    full = "fault 6 layer 3 module 0 place 1"
    layout = "fault 1 layer 2 module 0 place 0"
    assert findings_line(EXAMPLE) == f"1 | b - e 7:1 r - u - | {nothing}"
    assert findings_line(EXAMPLE, (0, 1, 0, 0)) == f"1 | b - e 7:1 r - u - | {nothing}"
    assert findings_line(EXAMPLE, (9, 0, 9, 9)) == f"1 | {full} | {nothing}"
    assert answers_line(EXAMPLE) == "1 .61 - - -"
    assert findings_line(b"") == answers_line(b"") == layout
    announced = struct.pack("<I", len(EXAMPLE)) + EXAMPLE
    assert list(stream(b"", answers_line)) == []
    assert list(stream(announced + b"\0\0\0\0" + announced[:-1], answers_line)) == ["1 .61 - - -", layout, "short"]
    assert list(stream(b"\0\0\0", answers_line)) == ["short"]
    too_long = struct.pack("<I", MOST_BYTES + 1) + bytes(MOST_BYTES + 1)
    assert list(stream(too_long, findings_line)) == [layout]
    print("findings_model: self-test passed")


def main(arguments):
    command, numbers = arguments[:1], arguments[1:]
    if arguments == ["--self-test"]:
        self_test()
    elif command == ["findings"] and len(numbers) in (0, 4):
        sizes = tuple(map(int, numbers)) or AMPLE
        for line in stream(sys.stdin.buffer.read(), lambda block: findings_line(block, sizes)):
            print(line)
    elif arguments == ["answers"]:
        for line in stream(sys.stdin.buffer.read(), answers_line):
            print(line)
    else:
        sys.exit(__doc__)


if __name__ == "__main__":
    main(sys.argv[1:])
