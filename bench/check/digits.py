#!/usr/bin/env python3
"""Changes every digit of the example certificates, one at a time and to each other digit, and asks `check`.

usage: digits.py PROGRAM

A yes must come exactly where the rules of docs/FORMATS.md, as judge.py reads them, say so; a refusal and a no likewise.
The last line counts what was asked.
"""

import pathlib
import subprocess
import sys

from judge import judge

GAMES = pathlib.Path(__file__).resolve().parents[2] / "games"
PAIRS = [
    ("matching-pennies.game", "matching-pennies.cert"),
    ("guess-the-state.game", "guess-the-state.cert"),
    ("guess-the-state.game", "guess-two-starts.cert"),
]
ANSWERS = {0: "yes", 1: "no", 4: "refused"}


def ask(program, game, certificate):
    done = subprocess.run([program, "check"], input=(game + certificate).encode(), capture_output=True)
    answer = ANSWERS.get(done.returncode, f"status {done.returncode}")
    first = done.stdout.split(b"\n")[0].split(b" ")[0].decode()
    if {"yes": "yes", "no": "no", "certificate": "refused"}.get(first) != answer:
        answer += f" with '{first}'"
    return answer


def changes(text):
    for place, byte in enumerate(text):
        if byte.isdigit():
            for digit in "0123456789".replace(byte, ""):
                yield place, digit, text[:place] + digit + text[place + 1 :]


def main():
    program = sys.argv[1]
    counts = {"yes": 0, "no": 0, "refused": 0}
    for game_file, certificate_file in PAIRS:
        game = (GAMES / game_file).read_text()
        certificate = (GAMES / certificate_file).read_text()
        for place, digit, changed in changes(certificate):
            expected, answer = judge(game, changed), ask(program, game, changed)
            if expected != answer:
                sys.exit(f"{certificate_file}, byte {place} to {digit}: {answer}, but by the rules {expected}")
            counts[answer] += 1
    print(f"{sum(counts.values())} certificates: {counts['yes']} yes, {counts['no']} no, {counts['refused']} refused")


if __name__ == "__main__":
    main()
