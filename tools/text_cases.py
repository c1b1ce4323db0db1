#!/usr/bin/env python3
"""Writes crates/text_trials/stdout: what the program has to print, worked out by Python's own codecs.

The cases are the tables in the program's sources, `texts.rt` and `cases.rt`."""
import ast
import pathlib
import re

CRATE = pathlib.Path(__file__).resolve().parent.parent / "crates" / "text_trials"
SURROGATE = re.compile("[\ud800-\udfff]")
PAIR = re.compile("[\ud800-\udbff][\udc00-\udfff]")


def decoded(data, errors):
    try:
        return data.decode("utf-8", errors)
    except UnicodeDecodeError:
        return None


def wtf8(data):
    """The code points of well-formed WTF-8, or None."""
    points = decoded(data, "surrogatepass")
    return None if points is None or PAIR.search(points) else points


def loose(data):
    points = wtf8(data)
    if points is not None:
        return SURROGATE.sub("\ufffd", points).encode("utf-8")
    # damaged text: byte by byte, a surrogate being ED and a byte of A0 or more
    return re.sub(rb"\xED[\xA0-\xFF].?", lambda m: b"\xEF\xBF\xBD"[: len(m[0])], data, flags=re.DOTALL)


def plain(data):
    points = wtf8(data)
    if points is not None:
        return not SURROGATE.search(points)
    return not re.search(rb"\xED[\xA0-\xFF]", data)


def shown(value):
    if isinstance(value, bytes):
        return value.hex().upper() or "-"
    return str(value).lower() if isinstance(value, bool) else str(value)


def text(data):
    return [data, decoded(data, "strict") is not None, wtf8(data) is not None, plain(data), loose(data)]


def order(a, b):
    x, y = loose(a), loose(b)
    return [a, b, "less" if x < y else "greater" if y < x else "equal", x == y]


def writing(data, size, at):
    room = b"#" * size
    if at + len(data) > size:
        return [data, size, at, "none", room]
    end = at + len(data)
    return [data, size, at, end, room[:at] + loose(data) + room[end:]]


def number(data, at):
    return [data, at, int.from_bytes(data[at : at + 4].ljust(4, b"\0"), "little")]


def part(data, offset, length):
    stretch = data[offset : offset + length]
    return [data, offset, length, stretch, stretch]


def word(data, other):
    return [data, other, data == other]


def cases(name):
    """The tables of a source: the name of each, and its rows."""
    source = (CRATE / "src" / name).read_text().replace("usize::MAX", str(2**64 - 1))
    for table, rows in re.findall(r"static (\w+): .*? = (\[.*?^\]);", source, re.MULTILINE | re.DOTALL):
        yield table, ast.literal_eval(rows)


KINDS = {"ORDERS": order, "WRITINGS": writing, "NUMBERS": number, "PARTS": part, "WORDS": word}
lines = [["text", *text(row)] for _, rows in cases("texts.rt") for row in rows]
for table, rows in cases("cases.rt"):
    kind = KINDS[table]
    lines += [[kind.__name__, *kind(*row)] for row in rows]
(CRATE / "stdout").write_text("".join(" ".join(map(shown, line)) + "\n" for line in lines))
