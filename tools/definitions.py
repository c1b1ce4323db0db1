#!/usr/bin/env python3
"""Checks the two lists of specification files in docs/PROOFS.md against the tree: each file of crates/*/specs/ but Lib.antt
stands in them once, after those that it uses, and each row has the number of lines of its files. Prints what differs; the
status is then 1."""
import pathlib
import re
import sys

ROOT = pathlib.Path(__file__).resolve().parent.parent
CRATES = ROOT / "crates"
SECTION = re.compile(r"^## Definitions to believe\n(.*?)^## ", re.DOTALL | re.MULTILINE)
ROW = re.compile(r"^\| (`[^|]*`) \|[^|]*\| (\d+) \|$", re.MULTILINE)
USE = re.compile(r"^use Rattle\.(\w+)\.specs\.(\w+)", re.MULTILINE)


def listed():
    """The rows: their files, each by its path in crates/, and their number of lines. A name without a folder stands in that of
    the name before it."""
    section = SECTION.search((ROOT / "docs" / "PROOFS.md").read_text())
    for names, count in ROW.findall(section[1]):
        folder, files = "", []
        for name in re.findall(r"`([^`]*)`", names):
            folder = name.rpartition("/")[0] or folder
            files.append(f"{folder}/{name.rpartition('/')[2]}")
        yield files, int(count)


def main():
    texts = {str(path.relative_to(CRATES)): path.read_text() for path in CRATES.glob("*/specs/*.antt") if path.name != "Lib.antt"}
    wrong, seen = [], []
    for files, count in listed():
        lines = sum(texts.get(name, "").count("\n") for name in files)
        if lines != count:
            wrong.append(f"{', '.join(files)}: listed with {count} lines, has {lines}")
        for name in files:
            if name not in texts:
                wrong.append(f"{name}: listed, but no such file")
            if name in seen:
                wrong.append(f"{name}: listed twice")
            used = {f"{crate}/specs/{module}.antt" for crate, module in USE.findall(texts.get(name, ""))} & set(texts)
            wrong += [f"{name}: listed before {other}, which it uses" for other in sorted(used - set(seen))]
            seen.append(name)
    wrong += [f"{name}: missing in the lists" for name in sorted(set(texts) - set(seen))]
    print("\n".join(wrong) if wrong else f"{len(seen)} files, as listed")
    return 1 if wrong else 0


if __name__ == "__main__":
    sys.exit(main())
