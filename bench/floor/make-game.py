#!/usr/bin/env python3
"""Writes a game text near the largest: 16 states, 6 and 6 actions, 8 observations, full rows.

Every row has a landing for each observation and each next state, with weights that sum to the row total. The numbers
are drawn from a fixed linear congruential generator, so that the text is the same at each run.
"""
import sys

STATES, OWN, INFORMED, OBSERVATIONS = 16, 6, 6, 8
TOTAL = 1 << 30
OVER, UNDER = 19, 20


def numbers(seed):
    while True:
        seed = (seed * 6364136223846793005 + 1442695040888963407) % (1 << 64)
        yield seed >> 33


def main():
    draw = numbers(1)
    write = sys.stdout.write
    write(f"osposg 1\nsize {STATES} {OWN} {INFORMED} {OBSERVATIONS}\ntotal {TOTAL}\ndiscount {OVER} {UNDER}\n")
    write("first" + " 1" * STATES + "\n")
    pairs = OBSERVATIONS * STATES
    for s in range(STATES):
        for a in range(OWN):
            for c in range(INFORMED):
                write(f"step {s} {a} {c} {next(draw) % 2001 - 1000}\n")
                left = TOTAL
                for place in range(pairs):
                    others = pairs - 1 - place
                    weight = left if others == 0 else 1 + next(draw) % (2 * (left // (others + 1)) - 1)
                    weight = min(weight, left - others)
                    left -= weight
                    write(f"out {place // STATES} {place % STATES} {weight}\n")
    write("end\n")


if __name__ == "__main__":
    main()
