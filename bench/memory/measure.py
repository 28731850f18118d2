#!/usr/bin/env python3
"""Runs the program with one call for memory refused, and with that one and all later ones, for each call in turn.

A run must end with the status for want of memory and write nothing, or, where the program did without what was
refused once, with the whole answer. It ends when no call is left to refuse.
"""
import os
import subprocess
import sys
import tempfile
from pathlib import Path

TOP = Path(__file__).resolve().parents[2]
PROGRAM = Path(sys.argv[1]).resolve() if len(sys.argv) > 1 else TOP / "crates/osposg_cli/out/osposg_cli"
OUT_OF_MEMORY = 8
GAMES = TOP / "games"
# The games that are short enough to be read once for each call for memory, and those that are solved as often.
SHORT = ("guess-the-state", "matching-pennies", "patrol")
SOLVED = ("guess-the-state", "matching-pennies")
THREE_HALVED = b"osposg 1\nsize 1 1 1 1\ntotal 1\ndiscount 1 2\nfirst 1\nstep 0 0 0 3\nout 0 0 1\nend\n"


def run(words, text, **environment):
    """The exit status and what was written, on standard output and error."""
    done = subprocess.run([PROGRAM, *words], input=text, capture_output=True, env={**os.environ, **environment})
    return done.returncode, done.stdout + done.stderr


def refuse_each(shim, words, name, text):
    """Refuses each call for memory of a run on the text, and prints how many runs ended how."""
    command, answer = " ".join(words), run(words, text)
    wanting = (OUT_OF_MEMORY, b"")
    number, without = 1, 0
    while True:
        here = {"LD_PRELOAD": str(shim), "REFUSE": str(number)}
        once, later = run(words, text, **here), run(words, text, **here, REFUSE_LATER="1")
        if later == answer:
            break
        if later != wanting or once not in (wanting, answer):
            sys.exit(f"{command} {name}: call {number} refused: {once}, and all later ones: {later}")
        without += once == answer
        number += 1
    print(f"{command} {name}: {number - 1} calls; refused alone, {without} of them were done without")


def runs():
    """The words, a name and the input of each run."""
    yield ["gen", "--number", "1", "--size", "3"], "", b""
    yield ["gen", "--number", "1", "--size", "2", "--trials", "1"], "", b""
    for path in sorted(GAMES.glob("*.game")):
        if path.stem not in SHORT:
            continue
        game = path.read_bytes()
        for command in ("floor", "show"):
            yield [command], path.name, game
        if path.stem in SOLVED:
            yield ["solve"], path.name, game
            seeds = run(["solve", "--trials", "0", "--gap", "0/1"], game)[1]
            yield ["close", "--rounds", "1", "--gap", "0/1"], f"{path.name} with its seeds", game + seeds
        both = game + path.with_suffix(".cert").read_bytes()
        yield ["check"], f"{path.name} with its certificate", both
        yield ["simulate", "--stages", "3", "--rival", "points"], f"{path.name} with its certificate", both
    solved = run(["solve"], THREE_HALVED)[1]
    yield ["check"], "three halved with what solve writes", THREE_HALVED + solved


def main():
    with tempfile.TemporaryDirectory() as folder:
        shim = Path(folder) / "refuse.so"
        subprocess.run(["cc", "-O2", "-shared", "-fPIC", "-o", shim, Path(__file__).with_name("refuse.c")], check=True)
        for words, name, text in runs():
            refuse_each(shim, words, name, text)


main()
