#!/usr/bin/env python3
"""What `close` makes of the certificates that `solve --trials 20` writes: gaps, time, members, and the checker's yes.

    bench/close/close.py PROGRAM [--rounds N] [--sizes K,K,..] [GAME ..]

PROGRAM is the built program (crates/osposg_cli/out/osposg_cli). Without games it takes all of games/ and the generated
games 1 to 5 of the sizes, 3 to 5 where none are named. Each result is checked, and made twice: both must be the same bytes.
"""
import argparse
import pathlib
import subprocess
import sys
import time
from fractions import Fraction

TOP = pathlib.Path(__file__).resolve().parents[2]


def run(program, words, text):
    """The exit code and the output of a run."""
    done = subprocess.run([program, *words], input=text, stdout=subprocess.PIPE, check=False)
    return done.returncode, done.stdout


def bounds(certificate):
    """The gap between the bounds of a certificate text, and its numbers of nodes and points."""
    lines = [line.split() for line in certificate.decode().splitlines()[:8]]
    said = {line[0]: line[1:] for line in lines}
    gap = Fraction(said["upper"][0]) - Fraction(said["lower"][0])
    return float(gap), said["sizes"]


def games(program, named, sizes):
    """Names and texts of the games."""
    if named:
        for name in named:
            yield pathlib.Path(name).stem, pathlib.Path(name).read_bytes()
        return
    for path in sorted((TOP / "games").glob("*.game")):
        yield path.stem, path.read_bytes()
    for size in sizes:
        for number in range(1, 6):
            yield f"gen {number} {size}", run(program, ["gen", f"--number={number}", f"--size={size}"], b"")[1]


def main():
    parser = argparse.ArgumentParser()
    parser.add_argument("program")
    parser.add_argument("--rounds", default="100")
    parser.add_argument("--sizes", default="3,4,5")
    parser.add_argument("games", nargs="*")
    given = parser.parse_args()
    failed = False
    print("| game | gap of solve | gap of close | seconds | nodes, points | check |")
    print("|---|---|---|---|---|---|")
    for name, game in games(given.program, given.games, given.sizes.split(",")):
        code, first = run(given.program, ["solve", "--trials=20"], game)
        if code not in (0, 2):
            print(f"| {name} | solve ended with {code} | | | | |")
            failed = True
            continue
        words = ["close", f"--rounds={given.rounds}"]
        wall = time.monotonic()
        code, closer = run(given.program, words, game + first)
        wall = time.monotonic() - wall
        before, _ = bounds(first)
        after, sizes = bounds(closer)
        yes = run(given.program, ["check"], game + closer)[1].startswith(b"yes\n")
        same = run(given.program, words, game + first)[1] == closer
        failed = failed or not yes or not same or code not in (0, 2)
        said = "yes" if yes else "no"
        if not same:
            said += ", other bytes the second time"
        closed = "closed, " if code == 0 else ""
        print(f"| {name} | {before:.4f} | {closed}{after:.4f} | {wall:.2f} | {', '.join(sizes)} | {said} |", flush=True)
    sys.exit(1 if failed else 0)


if __name__ == "__main__":
    main()
