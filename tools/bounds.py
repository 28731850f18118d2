#!/usr/bin/env python3
"""Draws how the bounds of `solve` move with its trials, and where `close` then brings them.

    tools/bounds.py PROGRAM GAME PICTURE.png [--most N] [--rounds N]

PROGRAM is ./osposg, or crates/osposg_cli/out/osposg_cli where that is built. It is run for 0, 1, 2, 4, 8, .. trials up
to N (64 where nothing else is said), and `close` once on the last certificate. A table of the trials and the bounds goes
to standard output. The picture needs matplotlib, and proves nothing: the bounds are those that the program printed, and
`check` judges each certificate.
"""
import argparse
import pathlib
import subprocess
import sys
from fractions import Fraction


def certificate(program, words, given):
    """The text that the program writes, which must be a certificate."""
    done = subprocess.run([program, *words], input=given, stdout=subprocess.PIPE, check=False)
    if done.returncode not in (0, 2):
        sys.exit(f"{' '.join(words)} ended with {done.returncode}: {done.stdout.decode().strip()}")
    return done.stdout


def bounds_of(text):
    said = dict(line.split(" ", 1) for line in text.decode().splitlines()[:7])
    return float(Fraction(said["lower"])), float(Fraction(said["upper"]))


def draw(path, name, trials, lower, upper, closed):
    import matplotlib

    matplotlib.use("Agg")
    from matplotlib import pyplot

    figure, axes = pyplot.subplots(figsize=(7, 4))
    places = range(len(trials))
    axes.fill_between(places, lower, upper, color="0.9")
    axes.plot(places, upper, color="tab:red", marker="o", label="upper bound of solve")
    axes.plot(places, lower, color="tab:blue", marker="o", label="lower bound of solve")
    after = len(trials)
    axes.plot([places[-1], after], [upper[-1], closed[1]], color="tab:red", linestyle=":", marker="s", label="after close")
    axes.plot([places[-1], after], [lower[-1], closed[0]], color="tab:blue", linestyle=":", marker="s")
    axes.set_xticks([*places, after], [*map(str, trials), "close"])
    axes.set_xlabel(f"trials of {name}")
    axes.set_ylabel("units of reward")
    axes.legend()
    figure.tight_layout()
    figure.savefig(path, dpi=120)


def main():
    words = argparse.ArgumentParser(description=__doc__, formatter_class=argparse.RawDescriptionHelpFormatter)
    words.add_argument("program")
    words.add_argument("game", type=pathlib.Path)
    words.add_argument("picture")
    words.add_argument("--most", type=int, default=64)
    words.add_argument("--rounds", type=int, default=100)
    words = words.parse_args()
    game = words.game.read_bytes()
    trials = [0] + [2**k for k in range(words.most.bit_length()) if 2**k <= words.most]
    found = [certificate(words.program, ["solve", "--trials", str(number)], game) for number in trials]
    closed = bounds_of(certificate(words.program, ["close", "--rounds", str(words.rounds)], game + found[-1]))
    lower, upper = zip(*map(bounds_of, found))
    print(f"{'trials':>6} {'lower':>12} {'upper':>12} {'gap':>12}")
    for number, low, high in zip([*trials, "close"], [*lower, closed[0]], [*upper, closed[1]]):
        print(f"{number:>6} {low:12.4f} {high:12.4f} {high - low:12.4f}")
    draw(words.picture, words.game.name, trials, lower, upper, closed)


if __name__ == "__main__":
    main()
