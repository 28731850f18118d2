#!/usr/bin/env python3
"""Runs the program over changed texts: no run may crash, hang or end with a code that its command has not.

Each text is one of the examples with one to three changes: a byte changed, dropped or put in, a line dropped, doubled,
swapped with another or cut short, a number made another, the text cut, its end written twice. A refusal must name a
line of the text, or the one behind its last, and a kind that docs/FORMATS.md has. Where another program is named, its
answers must be the same; it need not have the command `close`. The last lines count the answers.
"""

import argparse
import collections
import concurrent.futures
import pathlib
import random
import re
import subprocess
import sys

GAMES = pathlib.Path(__file__).resolve().parents[2] / "games"
ALONE = ["matching-pennies", "guess-the-state", "patrol"]
CERTIFIED = [
    ("matching-pennies", "matching-pennies"),
    ("guess-the-state", "guess-the-state"),
    ("guess-the-state", "guess-two-starts"),
    ("patrol", "patrol"),
]
LENIENT = b"# five each time\r\nosposg   1\r\n\nsize 1 1 1 1   # all single\ntotal +01\ndiscount 0 1\nfirst 01\nstep 0 0 0 5\nout 0 0 1\nend\n"
# The words of each command, whether a certificate follows the game, and the exit codes that it has for such inputs.
COMMANDS = [
    (["floor"], False, {0, 3}),
    (["show"], False, {0, 3}),
    (["solve", "--trials", "1"], False, {0, 2, 3}),
    (["check"], True, {0, 1, 3, 4}),
    (["simulate", "--stages", "3"], True, {0, 1, 3, 4}),
    (["close", "--rounds", "1"], True, {0, 1, 2, 3, 4}),
]
NUMBERS = [b"0", b"-0", b"+1", b"01", b"-1", b"1", b"2", b"16", b"17", b"1024", b"1025", b"65535", b"65536", b"65537"]
NUMBERS += [b"1048576", b"1048577", b"1073741824", b"-1073741825", b"4294967296", b"9" * 36, b"-" + b"9" * 35, b"9" * 37]
REFUSED = re.compile(rb"(game|certificate) refused: line (\d+) kind (\d+)\n")
# No run of these texts takes longer, in seconds.
LONGEST = 60


def change(chance, text):
    """The text with one change."""
    lines = text.splitlines(keepends=True) or [b"\n"]
    at, byte = chance.randrange(len(text) + 1), bytes([chance.choice([chance.randrange(256), *b"0123456789 -+/#\n\r\t"])])
    one, other = chance.randrange(len(lines)), chance.randrange(len(lines))
    kind = chance.randrange(11)
    if kind == 0:
        return text[:at] + byte + text[at + 1 :]
    if kind == 1:
        return text[:at] + text[at + 1 :]
    if kind == 2:
        return text[:at] + byte + text[at:]
    if kind == 3:
        del lines[one]
    elif kind == 4:
        lines.insert(one, lines[other])
    elif kind == 5:
        lines[one], lines[other] = lines[other], lines[one]
    elif kind == 6:
        lines[one] = lines[one][: chance.randrange(len(lines[one]) + 1)]
    elif kind in (7, 8):
        words = re.split(rb"([ /\n]+)", lines[one])
        words[2 * chance.randrange((len(words) + 1) // 2)] = chance.choice(NUMBERS)
        lines[one] = b"".join(words)
    elif kind == 9:
        return text[:at]
    else:
        lines += lines[one:]
    return b"".join(lines)


def changed(chance, text):
    for _ in range(chance.choice([1, 1, 2, 3])):
        text = change(chance, text)
    return text


def fault_of(text, game_lines, codes, done):
    """What is wrong with an answer; None where nothing is."""
    if done.returncode not in codes:
        return f"exit code {done.returncode}"
    if done.stderr:
        return "something on standard error"
    refused = REFUSED.fullmatch(done.stdout)
    if (done.returncode in (3, 4)) != bool(refused):
        return "a refusal and its exit code do not go together"
    if refused:
        line, kind = int(refused[2]), int(refused[3])
        # A certificate begins behind the game, so its lines are fewer.
        most = text.count(b"\n") + 1 - (game_lines if refused[1] == b"certificate" else 0)
        if not 1 <= line <= most or not 1 <= kind <= 10:
            return f"line {line} of {most}, kind {kind}"
    return None


def answer(program, words, text):
    return subprocess.run([program, *words], input=text, capture_output=True, timeout=LONGEST)


def run(program, other, seed, number):
    """Runs one changed text; answers the command with the code, and what is wrong."""
    chance = random.Random(f"{seed} {number}")
    words, certified, codes = chance.choice(COMMANDS)
    least = 0
    if certified:
        game, certificate = chance.choice(CERTIFIED)
        front, text = (GAMES / f"{game}.game").read_bytes(), (GAMES / f"{certificate}.cert").read_bytes()
        if chance.randrange(4):
            text, least = front + changed(chance, text), front.count(b"\n")
        else:
            text = changed(chance, front) + text
    else:
        text = changed(chance, chance.choice([LENIENT, *[(GAMES / f"{it}.game").read_bytes() for it in ALONE]]))
    try:
        done = answer(program, words, text)
        same = not other or words[0] == "close" or answer(other, words, text).stdout == done.stdout
    except subprocess.TimeoutExpired:
        return words[0], "none", (words, text, f"no answer in {LONGEST} seconds")
    wrong = fault_of(text, least, codes, done) or (None if same else "the other program answers otherwise")
    return words[0], done.returncode, wrong and (words, text, wrong)


def told(number, words, text, wrong):
    """The line that tells a fault; the text is that of the same number and seed."""
    return f"text {number}, {' '.join(words)}: {wrong}; it begins {text[:200]!r}"


def main():
    asked = argparse.ArgumentParser(description=__doc__, formatter_class=argparse.RawDescriptionHelpFormatter)
    asked.add_argument("program")
    asked.add_argument("count", type=int, help="how many texts")
    asked.add_argument("--seed", default="1", help="other texts for each seed")
    asked.add_argument("--jobs", type=int, default=2, help="how many runs side by side")
    asked.add_argument("--other", help="a program to compare with")
    asked = asked.parse_args()
    counts = collections.Counter()
    with concurrent.futures.ThreadPoolExecutor(asked.jobs) as pool:
        for begin in range(0, asked.count, 1000):
            batch = range(begin, min(begin + 1000, asked.count))
            answers = pool.map(lambda number: run(asked.program, asked.other, asked.seed, number), batch)
            for number, (command, code, wrong) in zip(batch, answers):
                counts[command, code] += 1
                if wrong:
                    sys.exit(told(number, *wrong))
    for (command, code), times in sorted(counts.items(), key=str):
        print(f"{command}: exit code {code} {times} times")
    print(f"{asked.count} texts, no fault")


if __name__ == "__main__":
    main()
