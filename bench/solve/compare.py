#!/usr/bin/env python3
"""Solves games with two programs by turns: are the bytes equal, and how do time and memory compare?

usage: compare.py OURS OTHER ROUNDS TRIALS [GAME..]

OURS and OTHER are programs with the commands `solve` and (OTHER) `gen`. Without GAME files the games are those of
games/ and ten generated ones of sizes 3 to 8. Each game is solved ROUNDS times by each program; the least time counts,
since other work on the machine only adds to it. A line a game: the exit code, both times in milliseconds, their ratio,
and the ratio of the greatest memory where the run is long enough to see it. The last line has the ratio of the sums and
the geometric mean.
"""

import math
import pathlib
import subprocess
import sys
import tempfile
import time

GAMES = pathlib.Path(__file__).resolve().parents[2] / "games"


def solve(program, trials, game):
    """Exit code, bytes and seconds of one run."""
    started = time.perf_counter()
    done = subprocess.run([program, "solve", "--trials", trials], input=game, capture_output=True)
    return done.returncode, done.stdout, time.perf_counter() - started


def memory(program, trials, game):
    """The greatest memory of a run in kilobytes, read again and again until it ends."""
    with tempfile.TemporaryFile() as text:
        text.write(game)
        text.seek(0)
        child = subprocess.Popen([program, "solve", "--trials", trials], stdin=text, stdout=subprocess.DEVNULL)
        most = 0
        while child.poll() is None:
            most = max(most, high_water(child.pid))
        return most


def high_water(pid):
    """The greatest memory of a process so far; 0 where it has just ended."""
    try:
        with open(f"/proc/{pid}/status") as status:
            return next((int(line.split()[1]) for line in status if line.startswith("VmHWM")), 0)
    except OSError:
        return 0


def generated(other):
    """Games of sizes 3 to 8, with their names."""
    for size in range(3, 9):
        for number in (1, 2) if size < 7 else (1,):
            words = [other, "gen", "--number", str(number), "--size", str(size)]
            yield f"gen {number} {size}", subprocess.run(words, capture_output=True, check=True).stdout


def games(other, files):
    if files:
        return [(pathlib.Path(file).name, pathlib.Path(file).read_bytes()) for file in files]
    named = [(file.name, file.read_bytes()) for file in sorted(GAMES.glob("*.game"))]
    return named + list(generated(other))


def compare(ours, other, rounds, trials, name, game):
    """Both least times, where all answers agree."""
    best = {ours: math.inf, other: math.inf}
    for _ in range(rounds):
        answers = {}
        for program in (ours, other):
            code, text, taken = solve(program, trials, game)
            answers[program] = (code, text)
            best[program] = min(best[program], taken)
        if answers[ours] != answers[other]:
            sys.exit(f"{name}: the answers differ")
    mine, its = best[ours], best[other]
    line = f"{name}: code {answers[ours][0]}, {1000 * mine:.1f} and {1000 * its:.1f} ms, {mine / its:.2f} times"
    most, its_most = memory(ours, trials, game), memory(other, trials, game)
    if most and its_most:
        line += f", memory {most / its_most:.2f} times"
    print(line, flush=True)
    return mine, its


def main():
    ours, other, rounds, trials, *files = sys.argv[1:]
    times = [compare(ours, other, int(rounds), trials, *named) for named in games(other, files)]
    total = sum(mine for mine, _ in times) / sum(its for _, its in times)
    mean = math.exp(sum(math.log(mine / its) for mine, its in times) / len(times))
    print(f"{len(times)} games, equal bytes; {total:.2f} times as long in sum, {mean:.2f} in the geometric mean")


if __name__ == "__main__":
    main()
