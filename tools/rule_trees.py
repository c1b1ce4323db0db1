#!/usr/bin/env python3
"""Random lawful trees that come close to the rules of the findings: their words and shapes, each with its near misses, and
few different texts, so that equal texts, replaced bindings, clearings and unsafe names occur often.

    rule_trees.py COUNT SEED     prints so many trees, one a line
    rule_trees.py --self-test
"""
import random
import sys

sys.dont_write_bytecode = True  # leave no cache beside the tools

from findings_model import findings_line
from mktree import block
from notation import tree_of, words_of
from tree_model import KINDS, NUMBER, Refused, checked

# Each symbol with its alternatives in the notation of notation.py, and how often each is taken beside the others (once if
# nothing is said). `$name` stands for a row of that symbol, `$$name` for none to three. The first alternative is the one
# that is taken when a tree has grown enough.
GRAMMAR = r"""
program
    4 Program:1($$statement, $statement, $$statement)
    5 Program($$item, $item, $$item)
item
    10 $statement
    16 $export
    TsExportAssignment($$value)
    TsImportEquals($$value)
    TsNamespaceExport($name)
    Import($$spec, $text)

statement
    Other
    8 Assign(Member($exports, $property), $value)
    10 Assign($exports, $whole)
    6 Assign(Member($exports, Computed($key_variable)), $keyed)
    12 $variables
    10 $star_call
    10 $define_call
    Assign:1($target, $value)
    Assign:1($target, $statement)
    5 $around
    $value
around
    Other($$statement)
    Block($$statement)
    Call($name, $statement)
    Call($name, Spread($statement))
    Arrow(Block($$statement))
    FnDecl($name, Function($name, Block($$statement)))
    ClassDecl($name, Other(Method($key, Function(Block($$statement)))))
    Paren($statement)
    TypeDecl($$statement)
    Seq($statement, $statement)
    UsingDecl(Declarator($name, $statement))
    Assign($target, $statement)
    Object(KeyValue(Computed($statement), $statement))
    VarDecl(Declarator($pattern, $statement))
target
    3 $exports
    3 $name
    3 Member($exports, $property)
    Member($value, $property)
    $pattern

exports
    40 exports
    18 Member(module, exports)
    6 Member(module, Computed("exports"))
    Paren(exports)
    Member(module, PrivateName"exports")
    Member(module, Computed(exports))
    Member(exports, exports)
    Member(Member(module, exports), exports)
    Member(modules, exports)
    Member("module", exports)
    Member(module, Computed("exports\uD800"))
    Ident"Exports"
    "exports"
    Spread(exports)
property
    8 $name
    4 Computed($text)
    2 Computed($name)
    PrivateName"a"
    Computed($value)

name
    4 a
    2 @a
    3 b
    @b
    2 k
    2 e
    @e
    Ident"\uFFFD"
    Ident""
    exports
    get
    default
text
    4 "a"
    2 @"a"
    2 "b"
    2 "\uD800"
    "\uDFFF"
    "\uFFFD"
    "a\uD800"
    "a\uFFFD"
    "\uD7FF"
    ""
    "x"
    "get"
    "exports"
    "default"
specifier
    5 "x"
    2 @"x"
    3 "y"
    "a"
    "b"
    "\uFFFD"
    "\uD7FF"
    "\uD800"
    ""
key
    6 $name
    3 $text
    Num
    OtherLit
    Computed($name)
    Computed($text)
key_variable
    8 k
    2 @k
    a
    e

value
    3 Num
    2 $name
    2 $text
    Num:1
    OtherLit
    Other($$value)
    Object($$member)
    2 Member($value, $property)
    Call($name, $$value)
    Paren($value)
    2 $require
    $keyed
    Arrow($value)
    FnExpr($function)
    Assign($target, $value)
    Assign:1($target, $value)
    $star_call
    $define_call
whole
    8 Object($$member, $$member)
    6 $require
    4 Assign($target, $whole)
    Assign:1($target, $whole)
    Call(f)
    Paren($whole)
    $value
    $statement

require
    60 Call(require, $specifier)
    9 Call(_interopRequireWildcard, $require)
    Call(require)
    Call(require, Spread($specifier))
    Call(require, $specifier, Spread(b))
    Call(require, $value, $specifier)
    Call(require, Paren($specifier))
    Call(require, $name)
    Call(requires, $specifier)
    Call(Paren(require), $specifier)
    Call(Member(a, require), $specifier)
    Call(_interopRequireWildcard)
    Call(_interopRequireWildcard, Spread($require))
    Call(_interopRequireWildcard, $require, Spread(e))
    Call(_interopRequireWildcard, $specifier)
    Call(_interopRequireWildcard, $bound)
    Call(_interopRequireDefault, $require)
    Call(Member(a, _interopRequireWildcard), $require)
    Call($require, $specifier)
    Member($require, $property)
    Paren($require)
    Spread($require)
keyed
    40 Member($bound, Computed($key_variable))
    Member($bound, $name)
    Member($bound, Computed($text))
    Member(Paren($bound), Computed(k))
    Member("e", Computed(k))
    Member($bound, Computed(Paren(k)))
    Member(Member($bound, a), Computed(k))
    Member($require, Computed(k))
    Paren($keyed)
    Call($keyed)
bound
    9 e
    4 @e
    2 a
    b
    k
    exports

member
    3 Shorthand"a"
    Shorthand"b"
    Shorthand"\uFFFD"
    4 KeyValue($key, $value)
    4 Getter($key, $body)
    Getter($key)
    2 Setter($key, $name, Block)
    3 Method($key, $function)
    4 Spread($require)
    Spread($value)
    Other($name)
function
    24 Function($body)
    Function
    Function($name, $body)
    Function($name)
    Function(Other($body))
    Function(Return($returned))
    Function(Other(Return($returned)))
body
    30 Block(Return($returned))
    Block
    Block(Return)
    Block($statement)
    Block(Other, Return($returned))
    Block(Return($returned), Other)
    Block(Block(Return($returned)))
    Block(Other($returned))
returned
    6 $harmless
    6 $keyed
    2 $value
    Call(f)
    $statement
harmless
    3 $name
    $text
    Num
    OtherLit
    Object($$member)
    3 Member($harmless, $name)
    Member($harmless, PrivateName"p")
    2 Member($harmless, Computed($harmless))
    Member($harmless, Computed($value))
    Member($value, $name)
    Paren($harmless)

variables
    10 VarDecl(Declarator($bound, $require))
    10 VarDecl($declarator, $$declarator)
    VarDecl
    UsingDecl($declarator)
    Other($declarator)
declarator
    16 Declarator($bound, $require)
    Declarator($bound, $value)
    Declarator($bound)
    2 Declarator($bound, $star_call)
    Declarator($bound, $statement)
    Declarator($pattern, $require)

star_call
    20 Call($star, $require)
    10 Call($star, $require, exports)
    16 Call($star, $bound)
    8 Call($star, $bound, exports)
    Call($star)
    Call($star, Spread($require))
    Call($star, $require, Spread(exports))
    Call($star, $bound, $exports)
    Call($star, $require, exports, $value)
    Call($star, exports, $require)
    Call($star, "e")
    Call($star, Shorthand"e")
    Call($star, $value)
star
    25 __export
    25 __exportStar
    15 Member(tslib, $star_word)
    20 Paren(Seq(Num:1, Member(tslib, $star_word)))
    Paren(Seq(Num, Member(tslib, $star_word)))
    Paren(Seq(OtherLit, Member(tslib, $star_word)))
    Paren(Seq(Assign:1(a, b), Member(tslib, $star_word)))
    Paren(Seq(Num:1, Num:1, Member(tslib, $star_word)))
    Paren(Seq(Member(tslib, $star_word), Num:1))
    Paren(Seq(Num:1, $star_word))
    Paren(Seq(Member(tslib, $star_word)))
    Paren(Member(tslib, $star_word))
    Seq(Num:1, Member(tslib, $star_word))
    Member(Member(a, tslib), $star_word)
    Member(Other, $star_word)
    Member(tslib, Computed($star_word))
    Member(tslib, PrivateName"__export")
    Member(__export, a)
    Paren($star)
    __exports
    "__export"
star_word
    6 __export
    6 __exportStar
    _export

define_call
    20 Call($define, $exports, $text, $descriptor)
    16 Call($define, $exports, $key_variable, $descriptor)
    Call($define, $exports, $name, $descriptor)
    Call($define, $exports, $text)
    Call($define, $exports, Spread($text), $descriptor)
    Call($define, $exports, $text, Spread($descriptor))
    Call($define, $exports, $text, $descriptor, $value)
    Call($define, $exports, $text, $descriptor, Spread($name))
    Call($define, Spread($exports), $text, $descriptor)
    Call($define, $exports, Shorthand"k", $descriptor)
    Call($define, $exports, PrivateName"a", $descriptor)
    Call($define, $exports, $value, $descriptor)
define
    40 Member(Ident"Object", defineProperty)
    12 Paren(Seq(Num:1, Member(Ident"Object", defineProperty)))
    Paren(Seq(Num, Member(Ident"Object", defineProperty)))
    Paren(Member(Ident"Object", defineProperty))
    Member(Ident"Object", Computed("defineProperty"))
    Member(Ident"Object", defineProperties)
    Member(object, defineProperty)
    Member(Member(a, Ident"Object"), defineProperty)
    Member(Ident"Object", __export)
    defineProperty
descriptor
    3 Object
    8 Object($getter)
    4 Object($getter, $getter)
    Object($$member)
    Object(Spread($value), $getter)
    2 $value
    Paren($descriptor)
    Other($getter)
getter
    5 KeyValue($get, FnExpr($function))
    KeyValue($get, FnExpr($name, $function))
    2 KeyValue($get, Arrow($returned))
    2 KeyValue($get, Arrow($body))
    KeyValue($get, Arrow($name, $returned))
    KeyValue($get, Arrow($body, $body))
    4 Method($get, $function)
    Shorthand"get"
    Getter($get, $body)
    Setter($get, $name, $body)
    KeyValue($get, $value)
    KeyValue($get, Paren(FnExpr($function)))
    KeyValue($get, $function)
    2 KeyValue(enumerable, OtherLit)
    Other(get)
get
    40 get
    6 "get"
    Computed(get)
    Computed("get")
    gets
    set
    "get\uD800"

export
    4 ExportAll($text)
    4 ExportAll($specifier)
    5 ExportNamed($$spec, $$spec)
    3 ExportNamed($$spec, $text)
    8 ExportDecl($exported)
    4 ExportDefault($defaulted)
spec
    NamedSpec($word)
    2 NamedSpec($word, $word)
    NamespaceSpec($word)
    DefaultSpec($name)
word
    3 $name
    $text
exported
    6 VarDecl($es_declarator, $$es_declarator)
    2 UsingDecl($es_declarator, $$es_declarator)
    $variables_alone
    ClassDecl($name, $$statement)
    FnDecl($name, $function)
    TsEnum($name, $$name)
    TsModule($word, $$statement)
    TypeDecl($$value)
variables_alone
    VarDecl($declarator, $$declarator)
    UsingDecl($declarator)
    VarDecl
es_declarator
    2 Declarator($pattern)
    Declarator($pattern, $value)
pattern
    5 $name
    2 ArrayPat($$pattern)
    3 ObjectPat($$pattern_member, $$pattern_member)
    RestPat($pattern)
    AssignPat($pattern, $value)
    Member($value, $property)
    Paren($pattern)
    KeyValuePat($key, $pattern)
    AssignPatProp($name)
    Object($$member)
    Assign($pattern, $value)
    Declarator($pattern)
    Other($$pattern)
    $text
pattern_member
    AssignPatProp($name)
    AssignPatProp($name, $value)
    3 KeyValuePat($key, $pattern)
    RestPat($pattern)
defaulted
    2 $value
    2 TypeDecl($$name)
    ClassDecl($name)
    FnDecl($name, $function)
    Function($body)
    $statement
    Paren(TypeDecl)
    TsEnum($name)
"""

# ---------------------------------------------------------------------------------------------------------------
# The grammar as data


class Symbol:
    """A place in an alternative for a row of this symbol, or for none to three."""

    def __init__(self, words):
        self.name, self.many = words.lstrip("$"), words.startswith("$$")


class Open:
    """An alternative, or a part of one, in which a symbol stands."""

    def __init__(self, parts):
        self.parts = parts


def alternative(tree):
    """A tree as the grammar has it: a Symbol, an Open one, or the tree itself where no symbol stands in it."""
    if tree[0] == "Ident" and tree[2].startswith(b"$"):
        return Symbol(tree[2].decode())
    parts = [alternative(part) if isinstance(part, tuple) else part for part in tree]
    return Open(parts) if any(isinstance(part, (Symbol, Open)) for part in parts) else tree


def read_grammar(text):
    symbols = {}
    for line in text.splitlines():
        if line.startswith(" "):
            count, _, words = line.strip().partition(" ")
            if not count.isdigit():
                count, words = "1", line.strip()
            symbols[name] += [alternative(tree_of(words))] * int(count)
        elif line:
            name = line
            symbols[name] = []
    return symbols


SYMBOLS = read_grammar(GRAMMAR)


class Growth:
    """Grows one tree; `left` is how many more symbols may take an alternative at random."""

    def __init__(self, rng, left):
        self.rng, self.left = rng, left

    def symbol(self, name):
        self.left -= 1
        choices = SYMBOLS[name]
        return self.fill(choices[int(self.rng.random() * len(choices))] if self.left > 0 else choices[0])

    def several(self, name):
        count = int(self.rng.random() * 4) if self.left > 0 else 0
        return [self.symbol(name) for _ in range(count)]

    def fill(self, made):
        if isinstance(made, Symbol):
            return self.symbol(made.name)
        if not isinstance(made, Open):
            return made
        parts = []
        for part in made.parts:
            if isinstance(part, Symbol) and part.many:
                parts += self.several(part.name)
            else:
                parts.append(self.fill(part))
        return tuple(parts)


# ---------------------------------------------------------------------------------------------------------------
# Another tree close by

WRAPPERS = ["Paren", "Spread", "Computed", "Other", "Seq", "Return", "Block", "Arrow", "ExportDefault", "RestPat"]
WORDS = [b"a", b"b", b"e", b"k", b"x", b"get", b"exports", b"module", b"require", b"_interopRequireWildcard", b"Object",
         b"defineProperty", b"__export", b"__exportStar", b"default", b"", "\uFFFD".encode(), b"\xED\xA0\x80"]
TEXT_KINDS = [kind.name for kind in KINDS if kind.text is not None]
PLAIN_KINDS = [kind.name for kind in KINDS if kind.text is None and kind.name != "Program"]


def rows_below(tree, path=()):
    """The paths from a tree to all rows in it: the places among the parts of each row on the way."""
    for at, part in enumerate(tree):
        if isinstance(part, tuple):
            yield (*path, at)
            yield from rows_below(part, (*path, at))


def at_path(tree, path):
    for at in path:
        tree = tree[at]
    return tree


def replaced(tree, path, parts):
    """The tree with these rows in the place of the one at the path."""
    if len(path) == 1:
        return (*tree[:path[0]], *parts, *tree[path[0] + 1:])
    inside = replaced(tree[path[0]], path[1:], parts)
    return (*tree[:path[0]], inside, *tree[path[0] + 1:])


def change(rng, row, others):
    """Rows to stand in the place of one row: another kind, mark or text, more or less around it, or another row."""
    die = rng.random()
    text = next((part for part in row if isinstance(part, bytes)), None)
    if die < 0.15:
        return [(rng.choice(WRAPPERS), row)]
    if die < 0.25:
        return [rng.choice(others)]
    if die < 0.35:
        return [part for part in row if isinstance(part, tuple)]
    if die < 0.45:
        return [row, rng.choice((row, rng.choice(others)))]
    if die < 0.5:
        return []
    if die < 0.65:
        return [(row[0], 1 - row[1] if len(row) > 1 and isinstance(row[1], int) else 1, *row[2:])]
    if die < 0.8 and text is not None:
        return [tuple(type(text)(rng.choice(WORDS)) if part is text else part for part in row)]
    if die < 0.9:
        children = [part for part in row if isinstance(part, tuple)]
        rng.shuffle(children)
        return [(*[part for part in row if not isinstance(part, tuple)], *children)]
    return [(rng.choice(PLAIN_KINDS if text is None else TEXT_KINDS), *row[1:])]


def changed(rng, tree):
    """A tree with one row changed; it need not be lawful."""
    paths = list(rows_below(tree))
    if not paths:
        return tree
    path = rng.choice(paths)
    return replaced(tree, path, change(rng, at_path(tree, path), [at_path(tree, other) for other in paths]))


def is_lawful(data):
    try:
        checked(data)
    except Refused:
        return False
    return True


def near(rng, tree):
    """A lawful tree with a few rows changed."""
    for _ in range(rng.choice((1, 1, 2, 3))):
        other = next((made for made in (changed(rng, tree) for _ in range(4)) if is_lawful(block(made))), tree)
        tree = other
    return tree


def rule_tree(rng):
    """One tree as it grew."""
    return Growth(rng, rng.choice((5, 10, 20, 20, 40, 60))).symbol("program")


# ---------------------------------------------------------------------------------------------------------------


def self_test():
    """All trees are lawful, every kind occurs, and the lists are seldom all empty."""
    rng, kinds, told = random.Random(1), set(), 0
    for _ in range(3000):
        tree = rule_tree(rng)
        data = block(near(rng, tree) if rng.random() < 0.3 else tree)
        line = findings_line(data)
        assert not line.startswith("fault"), line
        kinds |= {row[0] for row in checked(data)[0]}
        told += ":" in line
    assert kinds == set(NUMBER.values()), kinds
    assert told > 2000, told
    print(f"rule_trees: self-test passed, {told} of 3000 trees with names")


def main(arguments):
    if arguments == ["--self-test"]:
        self_test()
    elif len(arguments) == 2:
        rng = random.Random(int(arguments[1]))
        for _ in range(int(arguments[0])):
            print(words_of(rule_tree(rng)))
    else:
        sys.exit(__doc__)


if __name__ == "__main__":
    main(sys.argv[1:])
