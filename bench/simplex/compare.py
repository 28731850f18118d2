#!/usr/bin/env python3
"""Runs two solvers over the same programs by turns, and prints how their times compare.

usage: compare.py PROGRAMS ROUNDS OURS OTHER

PROGRAMS is a file that each command reads from its standard input; a command is one shell word list. Each prints a
line `number rows variables end .. ns TIME check SUM ..` for each program. Ends and checks must agree. The least time of
all rounds counts, since other work on the machine only adds to it.
"""
import math
import re
import subprocess
import sys

LINE = re.compile(r"^(\d+) \d+ \d+ (.*?) ns (\d+) check (-?\d+)")


def run(command, programs):
    """The end and check, and the time, of each program."""
    with open(programs) as text:
        output = subprocess.run(command, shell=True, stdin=text, capture_output=True, text=True, check=True).stdout
    lines = [match for match in map(LINE.match, output.splitlines()) if match]
    return {int(m[1]): ((m[2], m[4]), int(m[3])) for m in lines}


def least(best, found):
    """The lesser time of each program, where both answers agree."""
    for number, (answer, time) in found.items():
        known = best.setdefault(number, (answer, time))
        if known[0] != answer:
            sys.exit(f"program {number}: {known[0]} and {answer}")
        best[number] = (answer, min(known[1], time))


def main():
    programs, rounds, ours, other = sys.argv[1:]
    mine, theirs = {}, {}
    for _ in range(int(rounds)):
        least(mine, run(ours, programs))
        least(theirs, run(other, programs))
    if mine.keys() != theirs.keys():
        sys.exit("not the same programs")
    for number in mine:
        if mine[number][0] != theirs[number][0]:
            sys.exit(f"program {number}: {mine[number][0]} and {theirs[number][0]}")
    total = sum(time for _, time in mine.values()) / sum(time for _, time in theirs.values())
    logs = [math.log(mine[number][1] / theirs[number][1]) for number in mine]
    mean = math.exp(sum(logs) / len(logs))
    print(f"{len(mine)} programs, the same answers; {total:.2f} times as long in sum, {mean:.2f} in the geometric mean")


if __name__ == "__main__":
    main()
