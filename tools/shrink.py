"""Makes a tree on which a program and the model differ as small as it gets while they still differ."""
from findings_model import AMPLE, Opened, answers_of, findings_of
from mktree import Own, announced, block
from notation import parts
from rule_trees import at_path, replaced, rows_below

LEAVES = [("Other",), ("Num",)]
FEW_ROWS = 25


def expected(command, opened):
    """The line of the model for a command of the program."""
    if command[0] == "answers":
        return answers_of(opened)
    return findings_of(opened, tuple(map(int, command[1:])) or AMPLE)


def weight(tree):
    """What shrinking makes less: rows, then bytes of text and marks, then rows that are no leaves."""
    rows = [tree, *(at_path(tree, path) for path in rows_below(tree))]
    marks = texts = shared = 0
    for _, mark, text, _ in map(parts, rows):
        marks += mark
        if text is not None:
            texts += 1 + len(text)
            shared += not isinstance(text, Own)
    return len(rows), marks + texts + shared, sum(row not in LEAVES for row in rows)


def steps(tree):
    """Trees that are one step smaller. They need not be lawful."""
    paths = list(rows_below(tree))
    for path in paths:
        row = at_path(tree, path)
        kind, mark, text, children = parts(row)
        yield replaced(tree, path, [])
        yield replaced(tree, path, children)
        for child in children:
            yield replaced(tree, path, [child])
        for leaf in LEAVES:
            yield replaced(tree, path, [leaf])
        if mark:
            yield replaced(tree, path, [(kind, *row[2:])])
        if text:
            for shorter in (b"", b"a", text[1:]):
                yield replaced(tree, path, [(kind, mark, type(text)(shorter), *children)])
        if text is not None and not isinstance(text, Own):
            yield replaced(tree, path, [(kind, mark, Own(text), *children)])
    if len(paths) <= FEW_ROWS:
        for path in paths:
            for other in paths:
                yield replaced(tree, path, [at_path(tree, other)])


def differing(run, command, trees):
    """The first of these trees on which the program and the model differ, or None. `run` gives the program's lines."""
    blocks = [block(tree) for tree in trees]
    lines = run(command, b"".join(map(announced, blocks)))
    for at, (tree, data) in enumerate(zip(trees, blocks)):
        if at == len(lines):
            return tree if run(command, announced(data)) != [expected(command, Opened(data))] else None
        if lines[at] != expected(command, Opened(data)):
            return tree
    return None


def shrunk(run, command, tree):
    """The smallest tree that single steps lead to."""
    while True:
        bound = weight(tree)
        smaller = sorted((step for step in steps(tree) if weight(step) < bound), key=weight)
        found = differing(run, command, smaller) if smaller else None
        if found is None:
            return tree
        tree = found
