#!/usr/bin/env python3
"""What `close` does at the edges of what it is given: full sets, the greatest spans, no future, one state, no certificate.

    bench/close/edges.py PROGRAM

PROGRAM is the built program (crates/osposg_cli/out/osposg_cli). Each certificate that comes out is checked, its bounds
must be no worse than the given ones, and a certificate that fails must get the answer of `check`. It ends with 1 where
something differs.
"""
import pathlib
import subprocess
import sys
from fractions import Fraction

GAMES = pathlib.Path(__file__).resolve().parents[2] / "games"
MOST = 1024
DONE, OPEN = 0, 2


def run(words, text):
    """The exit code and the output of a run."""
    done = subprocess.run([sys.argv[1], *words], input=text, stdout=subprocess.PIPE, check=False)
    return done.returncode, done.stdout


def bounds(certificate):
    """The lower and the upper bound of a certificate text."""
    said = {line.split()[0]: line.split()[1] for line in certificate.decode().splitlines()[:6]}
    return Fraction(said["lower"]), Fraction(said["upper"])


def members(lines, kind):
    """The lines of each member of a kind, without its number."""
    found, here = [], None
    for line in lines:
        word = line.split()[0]
        if word in ("node", "point", "end"):
            here = [] if word == kind else None
            if here is not None:
                found.append(here)
        elif here is not None:
            here.append(line)
    return found


def filled(certificate):
    """The certificate with copies of its last node and of its last point, until there are as many as may be."""
    lines = certificate.decode().splitlines()
    head = [f"sizes {MOST} {MOST}" if line.startswith("sizes") else line for line in lines[: 8]]
    text = head + lines[8 : next(i for i, line in enumerate(lines) if line == "node 0")]
    for kind in ("node", "point"):
        found = members(lines, kind)
        for number in range(MOST):
            text += [f"{kind} {number}"] + found[min(number, len(found) - 1)]
    return ("\n".join(text + ["end"]) + "\n").encode()


def rewarded(states, reward, discount):
    """A game of two actions each in which every row goes everywhere, with rewards of this magnitude."""
    text = [f"osposg 1\nsize {states} 2 2 2\ntotal {states}\ndiscount {discount}\nfirst" + " 1" * states]
    for s in range(states):
        for a in (0, 1):
            for c in (0, 1):
                sign = "" if (s + a + c) % 2 else "-"
                outs = "".join(f"out {(t + c) % 2} {t} 1\n" for t in sorted(range(states), key=lambda t: ((t + c) % 2, t)))
                text.append(f"step {s} {a} {c} {sign}{reward}\n{outs}".rstrip())
    return ("\n".join(text + ["end"]) + "\n").encode()


def inputs():
    """A name, the game, the certificate and the words of each run."""
    tiger = (GAMES / "tiger.game").read_bytes()
    solved = run(["solve", "--trials=5"], tiger)[1]
    yield "1,024 nodes and points", tiger, filled(solved), ["--rounds=2", "--gap=0/1"]
    closed = run(["close", "--rounds=3", "--gap=0/1"], tiger + solved)[1]
    yield "1,024 nodes and points of three rounds", tiger, filled(closed), ["--rounds=2", "--gap=0/1"]
    for name, states, reward, discount in (
        ("the greatest reward", 3, 2**30, "9 10"),
        ("the slowest discount", 3, 1, "1048575 1048576"),
        ("a great span", 2, 2**30, "1023 1024"),
        ("no future", 3, 7, "0 1"),
        ("one state", 1, 7, "9 10"),
        ("no reward", 3, 0, "9 10"),
    ):
        game = rewarded(states, reward, discount)
        yield name, game, run(["solve", "--trials=2"], game)[1], ["--rounds=3", "--gap=1/1000"]


def main():
    failed = False
    for name, game, given, words in inputs():
        checked = run(["check"], game + given)
        if not checked[1].startswith(b"yes\n"):
            sys.exit(f"{name}: the given certificate fails: {checked[1].decode()}")
        code, closer = run(["close", *words], game + given)
        (low, high), (lower, upper) = bounds(given), bounds(closer)
        yes = run(["check"], game + closer)[1].startswith(b"yes\n")
        good = code in (DONE, OPEN) and yes and lower >= low and upper <= high
        failed = failed or not good
        gap = f"{float(high - low):.6g} to {float(upper - lower):.6g}"
        print(f"{name}: {'closed' if code == DONE else 'open'}, gap {gap}: {'as wanted' if good else 'DIFFERS'}", flush=True)
        fails = given.replace(b"\nlower ", b"\nlower 1", 1)
        same = run(["close"], game + fails) == run(["check"], game + fails)
        failed = failed or not same
        print(f"{name}, changed: {'the answer of check' if same else 'DIFFERS'}", flush=True)
    sys.exit(1 if failed else 0)


if __name__ == "__main__":
    main()
