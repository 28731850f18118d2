#!/usr/bin/env python3
"""Plays a certificate by many seeds, and shows how the gains spread beside what the certificate guarantees.

    tools/plays.py PROGRAM GAME CERTIFICATE [--seeds N] [--stages N] [--rival uniform|points] [--picture FILE.png]

PROGRAM is crates/osposg_cli/out/osposg_cli where that is built, or ./osposg, which begins each play more slowly. Plays
are at most 64 stages long, and shorter where their exact gain has no room (about 30 stages where the discount is in tenths).
The rival `points` plays the informed half of the certificate, `uniform` every informed action alike.

The table says how many plays there were, their least, mean and greatest gain, the standard deviation, and what the
certificate proves over that many stages: the lower bound less the tail, and against the rival `points` the upper bound
plus the tail. The bounds are proved of *expected* gains; the mean over seeds is a picture of them and proves nothing, and
nothing is claimed of how even the draws are. A picture needs matplotlib.
"""
import argparse
import pathlib
import statistics
import subprocess
import sys
from fractions import Fraction


def gain_of(program, both, words):
    """The gain of one play."""
    done = subprocess.run([program, "simulate", *words], input=both, stdout=subprocess.PIPE, check=False)
    if done.returncode != 0:
        sys.exit(f"simulate ended with {done.returncode}: {done.stdout.decode().strip()}")
    last = done.stdout.decode().splitlines()[-1].split()
    return float(Fraction(last[1])), done.stdout.count(b"stage ")


def bounds(program, both, game, stages):
    """What the certificate proves over so many stages."""
    done = subprocess.run([program, "check"], input=both, stdout=subprocess.PIPE, check=False)
    if done.returncode != 0:
        sys.exit(f"check ended with {done.returncode}: {done.stdout.decode().strip()}")
    said = {line.split()[0]: line.split() for line in done.stdout.decode().splitlines()}
    shown = subprocess.run([program, "show"], input=game, stdout=subprocess.PIPE, check=True).stdout.decode()
    over, under = next(line.split()[1:] for line in shown.splitlines() if line.startswith("discount "))
    tail = Fraction(said["tail"][1]) * Fraction(int(over), int(under)) ** stages
    return float(Fraction(said["lower"][1]) - tail), float(Fraction(said["upper"][1]) + tail)


def draw(path, gains, lower, upper, rival):
    """A picture of the gains and the bounds."""
    import matplotlib

    matplotlib.use("Agg")
    from matplotlib import pyplot

    figure, axes = pyplot.subplots(figsize=(7, 4))
    axes.hist(gains, bins=min(40, max(5, len(gains) // 10)), color="0.75", edgecolor="0.4")
    axes.axvline(statistics.fmean(gains), color="black", label="mean of the plays")
    axes.axvline(lower, color="tab:blue", linestyle="--", label="lower bound less the tail")
    if rival == "points":
        axes.axvline(upper, color="tab:red", linestyle="--", label="upper bound plus the tail")
    axes.set_xlabel("discounted gain of a play")
    axes.set_ylabel("plays")
    axes.legend()
    figure.tight_layout()
    figure.savefig(path, dpi=120)


def main():
    parser = argparse.ArgumentParser(description=__doc__, formatter_class=argparse.RawDescriptionHelpFormatter)
    parser.add_argument("program")
    parser.add_argument("game")
    parser.add_argument("certificate")
    parser.add_argument("--seeds", type=int, default=200)
    parser.add_argument("--stages", type=int, default=30)
    parser.add_argument("--rival", choices=("uniform", "points"), default="points")
    parser.add_argument("--picture")
    given = parser.parse_args()
    game = pathlib.Path(given.game).read_bytes()
    both = game + pathlib.Path(given.certificate).read_bytes()
    words = [f"--stages={given.stages}", f"--rival={given.rival}"]
    plays = [gain_of(given.program, both, [f"--seed={seed}", *words]) for seed in range(given.seeds)]
    gains = [gain for gain, _ in plays]
    stages = plays[0][1]
    lower, upper = bounds(given.program, both, game, stages)
    print(f"plays {len(gains)} of {stages} stages against {given.rival}")
    print(f"least {min(gains):.4f} mean {statistics.fmean(gains):.4f} greatest {max(gains):.4f}")
    print(f"standard deviation {statistics.pstdev(gains):.4f}")
    print(f"guaranteed in expectation: at least {lower:.4f}")
    if given.rival == "points":
        print(f"and against these points no plan can expect more than {upper:.4f}")
    if given.picture:
        draw(given.picture, gains, lower, upper, given.rival)


if __name__ == "__main__":
    main()
