#!/usr/bin/env python3
"""How long stage programs, advice and visits take, by turns with an unproved program of the same bytes.

usage: compare.py STAGER OTHER ROUNDS

STAGER is the program that bench/native/strip.py writes (target/release/stager). OTHER has the commands `gen`, `check`,
`solve` and `stage`, and says on standard error how long it was in the simplex where OSPOSG_STATS is set. All games are
generated. The least time of all rounds counts, since other work on the machine only adds to it.
"""
import os
import re
import resource
import subprocess
import sys

GAMES = [(2, 3, 4), (1, 4, 3), (2, 4, 4), (1, 5, 2), (1, 6, 2), (3, 6, 1)]  # number, size, trials
MEMBERS = 200
BELIEFS = ["1,1,1,1,1,1", "1,2,3,4,5,7", "9,0,0,1,0,0", "0,5,4,0,3,0", "20,3,0,0,1,40"]


def run(words, given, **settings):
    """Output, what was said on standard error, and the processor's seconds."""
    before = worked()
    done = subprocess.run(words, input=given, capture_output=True, env={**os.environ, **settings})
    return done.stdout, done.stderr.decode(), worked() - before


def worked():
    """The processor's seconds of all programs that ended."""
    used = resource.getrusage(resource.RUSAGE_CHILDREN)
    return used.ru_utime + used.ru_stime


def costs(said):
    """The seconds in all, in the simplex and elsewhere."""
    return tuple(float(re.search(rf"{word} ([0-9.]+)", said)[1]) for word in ("total", "simplex", "elsewhere"))


def least(found, more):
    return more if found is None else tuple(map(min, found, more))


def ratios(mine, theirs):
    return ", ".join(
        f"{word} {1e3 * one:.1f} and {1e3 * other:.1f} ms ({one / other:.2f})"
        for word, one, other in zip(("in all", "simplex", "elsewhere"), mine, theirs)
    )


def solving(stager, other, rounds):
    """Solving by turns: the simplex, and all that is not the simplex."""
    sums = [(0, 0, 0), (0, 0, 0)]
    for number, size, trials in GAMES:
        game = run([other, "gen", "--number", str(number), "--size", str(size)], b"")[0]
        mine = theirs = None
        for _ in range(rounds):
            ours, said, _ = run([stager, "solve", str(trials)], game)
            mine = least(mine, costs(said))
            output, said, _ = run([other, "solve", "--trials", str(trials)], game, OSPOSG_STATS="1")
            theirs = least(theirs, costs(said))
            if ours != output:
                sys.exit(f"gen {number} {size}: other bytes")
        sums = [tuple(map(sum, zip(known, new))) for known, new in zip(sums, (mine, theirs))]
        print(f"gen {number} {size}, {trials} trials: {ratios(mine, theirs)}")
    print(f"sum: {ratios(*sums)}")


def visiting(stager, other, rounds):
    """Lower visits on large sets: the processor's time of reading and visiting, less that of reading alone."""
    game = run([other, "gen", "--number", "1", "--size", "6"], b"")[0]
    both = game + run([stager, "sets", str(MEMBERS)], game)[0]
    sums = 0, 0
    for belief in BELIEFS:
        commands = [stager, "lower", "1", belief], [stager, "lower", "1"], [other, "stage", "--belief", belief], [other, "check"]
        seen = [[run(command, both)[2] for command in commands] for _ in range(rounds)]
        visited, read, staged, judged = map(min, zip(*seen))
        mine, theirs = visited - read, staged - judged
        sums = sums[0] + mine, sums[1] + theirs
        print(f"belief {belief}: lower visit {1e3 * mine:.2f} and {1e3 * theirs:.2f} ms ({mine / theirs:.2f})")
    print(f"sum: {sums[0] / sums[1]:.2f} times as long")


def main():
    if len(sys.argv) != 4:
        sys.exit(__doc__)
    stager, other, rounds = sys.argv[1], sys.argv[2], int(sys.argv[3])
    solving(stager, other, rounds)
    visiting(stager, other, rounds)


if __name__ == "__main__":
    main()
