#!/usr/bin/env python3
"""Makes crates/host_trials/stdin, shelves with questions, and stdout, the answers by a model of docs/HOSTS.md of its own:
the joined path is made as a list of names, in memory."""
import pathlib
import struct

TRIALS = pathlib.Path(__file__).resolve().parent.parent / "crates" / "host_trials"
SHELF_REFUSED = "fault 7 layer 1 module 0 place 0"


def u32(*numbers):
    return struct.pack(f"<{len(numbers)}I", *numbers)


def at(data, offset):
    return int.from_bytes(data[offset : offset + 4], "little")


def sized(data):
    return u32(len(data)) + data


class Refused(Exception):
    pass


def need(condition):
    if not condition:
        raise Refused


def pairs(data, start, count):
    return [(at(data, start + 8 * i), at(data, start + 8 * i + 4)) for i in range(count)]


def bytes_of(data, places):
    for offset, length in places:
        need(offset + length <= len(data))
    return [data[offset : offset + length] for offset, length in places]


def blocks_of(data, start, count):
    places = pairs(data, start, count)
    blocks = bytes_of(data, places)
    for (offset, length), (following, _) in zip(places, places[1:]):
        need(offset + length <= following)
    return blocks


class Link:
    def __init__(self, data):
        need(len(data) >= 8)
        count, links = at(data, 0), at(data, 4)
        need(1 <= count <= 64 and links <= 4096 and len(data) >= 8 + 8 * count + 16 * links)
        self.blocks = blocks_of(data, 8, count)
        self.leads = {}
        for i in range(links):
            row = 8 + 8 * count + 16 * i
            module, target = at(data, row), at(data, row + 12)
            need(module < count and target < count)
            [specifier] = bytes_of(data, [(at(data, row + 4), at(data, row + 8))])
            self.leads.setdefault((module, specifier), target)

    def lead(self, module, specifier):
        return self.leads.get((module, specifier))


class Path:
    def __init__(self, data):
        need(len(data) >= 4)
        count = at(data, 0)
        need(1 <= count <= 64 and len(data) >= 4 + 16 * count)
        self.blocks = blocks_of(data, 4, count)
        self.paths = bytes_of(data, pairs(data, 4 + 8 * count, count))
        for path in self.paths:
            need(not any(segment in (b"", b".", b"..") for segment in path.split(b"/")))

    def lead(self, module, specifier):
        if not specifier.startswith((b"./", b"../")):
            return None
        names = self.paths[module].split(b"/")[:-1]
        for segment in specifier.split(b"/"):
            if segment == b"" or (segment == b".." and not names):
                return None
            if segment == b"..":
                names.pop()
            elif segment != b".":
                names.append(segment)
        if not names:
            return None
        for ending in (b"", b".js", b"/index.js"):
            wanted = b"/".join(names) + ending
            if wanted in self.paths:
                return self.paths.index(wanted)
        return None


def shown(data):
    return data.hex().upper() or "-"


def answers(kind, data, alias, questions):
    try:
        shelf = (Path if kind else Link)(data)
    except Refused:
        return [SHELF_REFUSED]
    count = len(shelf.blocks)
    lines = [f"count {count}"]
    for module, specifier in questions:
        if module >= count:
            fault = f"fault 16 layer 1 module {module} place 0"
            lines.append(f"{module} {shown(specifier)}: {fault}, {fault}, {fault}")
            continue
        lead = shelf.lead(module, alias[1] if specifier == alias[0] else specifier)
        there = module if lead is None else lead
        lines.append(f"{module} {shown(specifier)}: {shown(shelf.blocks[module])}, {'none' if lead is None else lead}, {shown(shelf.blocks[there])}")
    return lines


def shelf(header, count, blocks, tail, texts):
    """A shelf: `header` numbers, the pairs of the blocks, what `tail` makes of the places of the texts, the blocks, the texts."""
    size = 4 * len(header) + 8 * count + len(tail([(0, 0)] * len(texts)))
    places, offset = [], size
    for data in list(blocks) + list(texts):
        places.append((offset, len(data)))
        offset += len(data)
    head = u32(*header) + b"".join(u32(*place) for place in places[: len(blocks)])
    return head + tail(places[len(blocks) :]) + b"".join(blocks) + b"".join(texts)


def link_shelf(blocks, links):
    def rows(places):
        return b"".join(u32(module, *place, target) for (module, _, target), place in zip(links, places))

    return shelf((len(blocks), len(links)), len(blocks), blocks, rows, [specifier for _, specifier, _ in links])


def path_shelf(paths, blocks=None):
    blocks = [b"%d" % i for i in range(len(paths))] if blocks is None else blocks
    return shelf((len(paths),), len(paths), blocks, lambda places: b"".join(u32(*place) for place in places), paths)


def patched(data, offset, number):
    return data[:offset] + u32(number) + data[offset + 4 :]


NO_ALIAS = (b"\0none", b"")
LARGE = 0xFFFFFFFF


def link_cases():
    blocks = [b"a", b"bc", b"", b"d"]
    links = [(0, b"x", 1), (1, b"x", 2), (0, b"x", 3), (0, b"", 2), (3, b"\xed\xa0\x80\xff", 0), (0, b"xy", 0), (3, b"x\0", 3)]
    data = link_shelf(blocks, links)
    asked = [(m, s) for m in (0, 1, 2, 3) for s in (b"x", b"", b"xy", b"y", b"\xed\xa0\x80\xff", b"x\0", b"\xed\xa0\x80")]
    asked += [(4, b"x"), (LARGE, b""), (64, b"x")]
    yield data, asked
    yield data + b"more", [(0, b"x")]
    rows = 8 + 8 * 4
    # Every number of the layout at its bounds.
    for offset in (0, 4):
        for number in (0, 1, 3, 4, 5, 6, 7, 8, 63, 64, 65, 4095, 4096, 4097, 1 << 28, LARGE):
            yield patched(data, offset, number), [(0, b"x"), (3, b"\xed\xa0\x80\xff")]
    ends = (0, 1, len(data) - 2, len(data) - 1, len(data), len(data) + 1, LARGE - 1, LARGE)
    for i in range(4):
        for offset in (8 + 8 * i, 12 + 8 * i):
            for number in ends + tuple(at(data, offset) + step for step in (-1, 1, 2)):
                if 0 <= number <= LARGE:
                    yield patched(data, offset, number), [(m, b"x") for m in range(4)]
    for i in (0, 3, 6):
        for part, numbers in ((0, (3, 4, LARGE)), (4, ends), (8, ends), (12, (3, 4, LARGE))):
            for number in numbers:
                yield patched(data, rows + 16 * i + part, number), [(m, s) for m in (0, 3) for s in (b"x", b"")]
    for length in (0, 1, 4, 7, 8, 9, 15, 16, 39, 40, rows + 16 * 7 - 1, rows + 16 * 7, len(data) - 1):
        yield data[:length], [(0, b"x")]
    yield link_shelf([b"one"], []), [(0, b""), (0, b"x"), (1, b"")]
    yield u32(1, 0, 16, 0), [(0, b"")]
    yield u32(1, 0, 16, 1), [(0, b"")]
    yield u32(1, 0, 0, 16), [(0, b"")]
    yield u32(2, 0, 0, 8, 8, 8) + b"", [(0, b""), (1, b"")]
    yield u32(2, 0, 0, 9, 8, 8) + b"", [(0, b""), (1, b"")]
    yield u32(2, 0, 8, 8, 0, 8) + b"", [(0, b""), (1, b"")]
    # Empty blocks: in order, out of order, within another.
    yield u32(3, 0, 4, 4, 8, 0, 8, 4) + b"", [(1, b"")]
    yield u32(3, 0, 4, 4, 7, 0, 8, 4) + b"", [(1, b"")]
    yield u32(3, 0, 4, 0, 4, 0, 4, 4) + b"", [(1, b""), (2, b"")]
    yield u32(3, 0, 4, 4, 32, 0, 32, 0) + b"", [(1, b""), (2, b"")]
    yield u32(3, 0, 4, 4, 33, 0, 33, 0) + b"", [(1, b""), (2, b"")]
    for count in (63, 64, 65):
        yield link_shelf([b"%d" % i for i in range(count)], [(count - 1, b"last", count - 1)]), [(count - 1, b"last"), (count, b"")]
    for count in (4095, 4096, 4097):
        yield link_shelf([b"m", b"n"], [(0, b"s%d" % i, i % 2) for i in range(count)]), [(0, b"s4094"), (0, b"s4095"), (0, b"s4096")]


def path_cases():
    paths = [b"lib/a.js", b"lib/b.js", b"index.js", b"lib/sub/index.js", b"lib/sub/deep/x", b"a", b"lib/b.js", b"lib/.js/..x", b"\xff/\xed\xa0\x80"]
    data = path_shelf(paths)
    specifiers = [
        b"", b".", b"..", b"/", b"./", b"../", b"x", b"/x", b"b.js", b"./b.js", b"./b", b"./sub", b"./sub/../b", b"../index.js", b"../index",
        b"./.", b"../.", b"../..", b"../../lib/b.js", b"./sub/", b".//b", b"./b//", b"./././b", b"./../lib/./b", b"./../lib/../lib/b.js",
        b"../lib/sub/deep/../../b", b"../lib/sub/deep/../../../lib/b", b"../lib/sub/deep/../../../../lib/b", b"./...", b"./..x", b"./.js",
        b"./.js/..x", b"../.js/..x", b"./x", b"./x/..", b"./x/../..", b"./x/../../a", b"./x/../../../a", b"../a", b"./a", b"../a.js", b"../x",
        b"../\xff/\xed\xa0\x80", b"../\xff", b"./\xff", b"...", b".../b", b"./sub/index", b"./sub/index.js", b"./sub/deep", b"./sub/deep/x",
        b"./sub/deep/x/../../../b", b"./\0", b"../sub", b"../../index", b"../../../index", b"../b", b"../../b", b"./lib", b"./lib/b", b"././",
        b"./b.js/.", b"./b.js/..", b"./b.js/../b", b"..//", b"../lib", b"../lib/", b"./index.js", b"./index", b"./sub/.././b.js",
    ]
    yield data, [(m, s) for m in range(len(paths)) for s in specifiers] + [(len(paths), b"./b"), (LARGE, b"")]
    # The three tries in every order of the modules.
    tries = [b"f", b"f.js", b"f/index.js", b"f.js", b"f"]
    for first in range(3):
        for second in range(3):
            for third in range(3):
                yield path_shelf([b"main", tries[first], tries[second], tries[third]]), [(0, b"./f"), (0, b"./f.js"), (0, b"./f/index"), (0, b"./f/index.js")]
    yield path_shelf(tries), [(0, b"./f"), (1, b"./f"), (2, b"./f"), (2, b"../f"), (2, b"../f.js")]
    for path in (b"", b"/", b"a/", b"/a", b"a//b", b".", b"..", b"./a", b"a/.", b"../a", b"a/..", b"a/./b", b"a/../b", b"...", b"a/...", b".a", b"..a", b"a.", b"a..", b"a/.b", b"a b", b"\0", b"\xff"):
        yield path_shelf([b"ok", path]), [(0, b"./ok"), (1, b"./ok")]
    start = 4 + 8 * len(paths)
    for number in (0, 1, 8, 10, 63, 64, 65, 1 << 28, LARGE):
        yield patched(data, 0, number), [(0, b"./b")]
    ends = (0, 1, len(data) - 1, len(data), len(data) + 1, LARGE - 1, LARGE)
    for i in (0, 1, 8):
        for offset in (4 + 8 * i, 8 + 8 * i, start + 8 * i, start + 4 + 8 * i):
            for number in ends + tuple(at(data, offset) + step for step in (-1, 1)):
                yield patched(data, offset, number), [(0, b"./b"), (1, b"./a"), (8, b"../a")]
    for length in (0, 3, 4, 5, 12, 19, 20, start, start + 8 * len(paths) - 1, start + 8 * len(paths), len(data) - 1):
        yield data[:length], [(0, b"./b")]
    # Paths in any order, overlapping, and over the pairs themselves.
    overlap = u32(2, 4, 0, 4, 0, 36, 3, 38, 1) + b"a/b"
    yield overlap, [(0, b"./b"), (0, b"../b"), (1, b"./b"), (1, b"./a/b")]
    yield u32(2, 4, 0, 4, 0, 38, 1, 36, 3) + b"a/b", [(1, b"./b"), (1, b"../b"), (0, b"./b")]
    for count in (63, 64, 65):
        yield path_shelf([b"p/%d" % i for i in range(count)]), [(0, b"./%d" % (count - 1)), (count - 1, b"../p/0"), (count, b"./0")]
    long = b"/".join([b"seg"] * 400)
    yield path_shelf([long, b"seg.js", b"z"]), [(0, b"../" * 399 + b"seg"), (0, b"../" * 399 + b"z"), (0, b"../" * 400 + b"z"), (2, b"./" + b"x/../" * 500 + b"z"), (2, b"./" + b"x/" * 300 + b"../" * 300 + b"z"), (2, b"./" + b"x/" * 300 + b"../" * 301 + b"z")]


def main():
    cases = [(0, data, NO_ALIAS, asked) for data, asked in link_cases()] + [(1, data, NO_ALIAS, asked) for data, asked in path_cases()]
    # Another name for one specifier, over both kinds.
    cases.append((0, link_shelf([b"a", b"b"], [(0, b"to", 1)]), (b"from", b"to"), [(0, b"from"), (0, b"to"), (1, b"from"), (2, b"from"), (0, b"")]))
    cases.append((1, path_shelf([b"a", b"b.js"]), (b"~", b"./b"), [(0, b"~"), (0, b"./b"), (1, b"~"), (2, b"~"), (0, b"~~")]))
    stream, lines = [u32(len(cases))], []
    for kind, data, alias, asked in cases:
        said = answers(kind, data, alias, asked)
        asked = [] if said == [SHELF_REFUSED] else asked
        stream += [u32(kind), sized(data), sized(alias[0]), sized(alias[1])]
        if said != [SHELF_REFUSED]:
            stream += [u32(len(asked))] + [u32(module) + sized(specifier) for module, specifier in asked]
        lines += said
    (TRIALS / "stdin").write_bytes(b"".join(stream))
    (TRIALS / "stdout").write_text("".join(line + "\n" for line in lines))
    print(len(cases), "cases,", len(lines), "lines,", sum(line == SHELF_REFUSED for line in lines), "refused")


if __name__ == "__main__":
    main()
