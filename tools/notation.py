#!/usr/bin/env python3
r"""A notation in words for trees.

    Program:1(Assign(Member(exports, a), Num))

A row is its kind, then `:` and its mark if that is not 0, then its text in quotes, then its children in parentheses.
Two short forms: a word that begins with a small letter, `_` or `$` is an Ident, and a text in quotes alone is a Str.
So `a` is `Ident"a"`, and `"a"` is `Str"a"`; the variable `Object` has to be written `Ident"Object"`. A long chain is
written `Assign*3(a, b)` for `Assign(a, Assign(a, Assign(a, b)))`.

In a text, `\"` `\\` `\n` `\t` `\r` stand for one character, and `\uD800` or `\u{1F600}` for a code point by its
hexadecimal number; it may be a surrogate, and a lead surrogate before a trail one is one code point. Every text has
bytes of its own; `@` before a row says that its text shares the bytes of the last equal text before it.

    notation.py TREE            prints the tree block in hexadecimal
    notation.py --block HEX     prints the tree of a lawful block, given in hexadecimal
    notation.py --self-test
"""
import functools
import random
import re
import sys

sys.dont_write_bytecode = True  # leave no cache beside the tools

from mktree import Own, block, flat, random_block
from tree_model import EXAMPLE, KINDS, NUMBER, checked

TOKEN = re.compile(r'\s*(?:([(),:@*])|([\w$]+)|"((?:[^"\\]|\\.)*)"|(\S))', re.DOTALL)
ESCAPE = re.compile(r"\\(?:u\{([0-9A-Fa-f]+)\}|u([0-9A-Fa-f]{4})|(.))", re.DOTALL)
CHARACTERS = {"n": "\n", "t": "\t", "r": "\r", '"': '"', "\\": "\\"}
WORD = re.compile(r"[a-z_$][A-Za-z0-9_$]*")


class NotATree(Exception):
    """What is written is no tree in this notation."""


# ---------------------------------------------------------------------------------------------------------------
# Texts


def unescaped(text):
    """The bytes of a text: UTF-8, and WTF-8 where surrogates stand alone."""
    def character(match):
        wide, narrow, sign = match.groups()
        if sign is None:
            return chr(int(wide or narrow, 16))
        if sign not in CHARACTERS:
            raise NotATree(f"\\{sign} stands for nothing")
        return CHARACTERS[sign]

    points = ESCAPE.sub(character, text)
    paired = points.encode("utf-16-le", "surrogatepass").decode("utf-16-le", "surrogatepass")
    return paired.encode("utf-8", "surrogatepass")


def escaped(data):
    """A text as the notation writes it."""
    signs = {character: "\\" + sign for sign, character in CHARACTERS.items()}
    out = []
    for character in data.decode("utf-8", "surrogatepass"):
        shown = signs.get(character, character)
        out.append(shown if shown.isprintable() and shown != "\uFFFD" else f"\\u{{{ord(character):X}}}")
    return "".join(out)


# ---------------------------------------------------------------------------------------------------------------
# From words to a tree


class Reader:
    """Reads a tree from left to right."""

    def __init__(self, words):
        self.tokens = [match.groups() for match in TOKEN.finditer(words.strip())]
        self.at = 0

    def sign(self, wanted):
        """Takes this sign if it comes next."""
        if self.at < len(self.tokens) and self.tokens[self.at][0] == wanted:
            self.at += 1
            return True
        return False

    def take(self):
        if self.at == len(self.tokens):
            raise NotATree("a row is missing at the end")
        self.at += 1
        return self.tokens[self.at - 1]

    def number(self):
        return int(self.take()[1])

    def quoted(self):
        """Takes a text if one comes next."""
        if self.at < len(self.tokens) and self.tokens[self.at][2] is not None:
            return self.take()[2]
        return None

    def row(self):
        shared = self.sign("@")
        _, word, quoted, _ = self.take()
        if quoted is not None:
            kind, mark = "Str", 0
        elif word is not None and WORD.fullmatch(word):
            kind, mark, quoted = "Ident", 0, word
        elif word in NUMBER:
            kind, mark = word, self.number() if self.sign(":") else 0
            quoted = self.quoted()
        else:
            raise NotATree(f"no row begins with {word or self.tokens[self.at - 1]}")
        text = [] if quoted is None else [(bytes if shared else Own)(unescaped(quoted))]
        times = self.number() if self.sign("*") else 1
        made = (kind, mark, *text, *self.children())
        return functools.reduce(lambda inside, _: (*made[:-1], inside), range(times - 1), made)

    def children(self):
        if not self.sign("("):
            return
        while True:
            yield self.row()
            if self.sign(")"):
                return
            if not self.sign(","):
                raise NotATree(f"`,` or `)` is missing before token {self.at + 1}")


def tree_of(words):
    """The tree that the words write, as mktree.py has it."""
    reader = Reader(words)
    made = reader.row()
    if reader.at != len(reader.tokens):
        raise NotATree(f"the tree ends before token {reader.at + 1}")
    return made


def block_of(words):
    return block(tree_of(words))


# ---------------------------------------------------------------------------------------------------------------
# From a tree to words


def parts(tree):
    """Kind, mark, text or None, and children of a tree as mktree.py has it."""
    kind, mark, text, children = tree[0], 0, None, []
    for part in tree[1:]:
        if isinstance(part, tuple):
            children.append(part)
        elif isinstance(part, bytes):
            text = part
        else:
            mark = part
    return (kind if isinstance(kind, str) else KINDS[kind].name), mark, text, children


def head(kind, mark, text):
    """A row without its children."""
    shared = "@" if text is not None and not isinstance(text, Own) else ""
    words = "" if text is None else escaped(text)
    if kind == "Ident" and WORD.fullmatch(words):
        return shared + words
    if kind == "Str":
        return f'{shared}"{words}"'
    return shared + kind + (f":{mark}" if mark else "") + ("" if text is None else f'"{words}"')


def words_of(tree):
    """The words that write a tree."""
    kind, mark, text, children = parts(tree)
    inside = ", ".join(map(words_of, children))
    return head(kind, mark, text) + (f"({inside})" if children else "")


def tree_in(data):
    """The tree of a lawful block. A text that stands where the last equal one before it stands shares its bytes."""
    rows, text = checked(data)
    last = {b"": 0}

    def row(at):
        kind, mark, offset, length, end = rows[at]
        own = []
        if KINDS[kind].text is not None:
            part = text[offset:offset + length]
            own = [part if last.get(part) == offset else Own(part)]
            last[part] = offset
        children, at = [], at + 1
        while at < end:
            children.append(row(at))
            at = rows[at][4]
        return (KINDS[kind].name, mark, *own, *children)

    return row(0)


# ---------------------------------------------------------------------------------------------------------------


def test_words():
    example = "Program:1(Assign(Member(exports, a), Num))"
    assert block_of(example) == EXAMPLE
    assert words_of(tree_in(EXAMPLE)) == example
    same = r'Program(a, @a, Ident"a", "a\uD800", Str"\uD83D\uDE00\"\\", Shorthand"Ä", Num:1, Assign:1(@"a", Ident"Object"))'
    texts = b"a" + b"a" + b"a\xED\xA0\x80" + "\U0001F600\"\\Ä".encode() + b"Object"
    assert flat(tree_of(same))[1] == texts
    shown = 'Program(a, @a, a, "a\\u{D800}", "\U0001F600\\"\\\\", Shorthand"Ä", Num:1, Assign:1(@"a", Ident"Object"))'
    assert words_of(tree_of(same)) == shown and block_of(shown) == block_of(same)
    assert tree_of("Assign*3(a, b)") == tree_of("Assign(a, Assign(a, Assign(a, b)))")


def test_no_tree():
    for words in ("", "Program(", "Program()", "Program(a", "Program(a b)", "Program a", "Object(Foo)", "Ident(,)",
                  '"a', r'"\q"', "Num:", "1", "Program)"):
        try:
            tree_of(words)
        except (NotATree, TypeError, ValueError):
            continue
        raise AssertionError(words)


def test_random_trees():
    rng = random.Random(1)
    for _ in range(2000):
        made = tree_in(random_block(rng, rng.randint(1, 30)))
        again = tree_of(words_of(made))
        assert block(again) == block(made), words_of(made)
        assert block(tree_in(block(again))) == block(again)


def main(arguments):
    if arguments == ["--self-test"]:
        test_words()
        test_no_tree()
        test_random_trees()
        print("notation: self-test passed")
    elif len(arguments) == 2 and arguments[0] == "--block":
        print(words_of(tree_in(bytes.fromhex(arguments[1]))))
    elif len(arguments) == 1 and not arguments[0].startswith("-"):
        print(block_of(arguments[0]).hex())
    else:
        sys.exit(__doc__)


if __name__ == "__main__":
    main(sys.argv[1:])
