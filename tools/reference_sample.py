#!/usr/bin/env python3
"""Writes crates/reference_answers: a stream of blocks, and the lines that the reference gives for them.

The blocks are the lawful trials with tables of full size (crates/findings_trials/stdin) and the trees of
compare/sample.txt, of which each shows one wrong reading. The lines come from `reference answers` of compare/, deno_ast
0.53.3 over stand-in trees. Where it errs, as docs/DIFFERENCES.md says, it is asked about the tree on which it follows the
rules (`trees restate`). Both programs must be built: compare/README.md says how.
"""
import pathlib
import struct
import subprocess

ROOT = pathlib.Path(__file__).resolve().parent.parent
BUILT = ROOT / "compare" / "target" / "release"
TRIALS = ROOT / "crates" / "findings_trials"
SAMPLE = ROOT / "crates" / "reference_answers"


def run(program, command, data):
    return subprocess.run([BUILT / program, command], input=data, stdout=subprocess.PIPE, check=True).stdout


def blocks_of(stream):
    """The blocks of a stream, each with its length before it."""
    blocks = []
    while stream:
        end = 4 + struct.unpack_from("<I", stream)[0]
        blocks.append(stream[:end])
        stream = stream[end:]
    return blocks


def main():
    blocks = blocks_of((TRIALS / "stdin").read_bytes())
    lines = (TRIALS / "stdout").read_text().splitlines()
    lawful = [block for block, line in zip(blocks, lines) if not line.startswith("fault")]
    stream = b"".join(lawful) + run("trees", "assemble", (ROOT / "compare" / "sample.txt").read_bytes())
    told = run("reference", "answers", run("trees", "restate", stream))
    itself = run("reference", "answers", stream)
    (SAMPLE / "stdin").write_bytes(stream)
    (SAMPLE / "stdout").write_bytes(told)
    other = sum(a != b for a, b in zip(told.splitlines(), itself.splitlines()))
    print(f"{len(told.splitlines())} blocks, of which the reference answers {other} otherwise than by the rules")


if __name__ == "__main__":
    main()
