#!/usr/bin/env python3
"""Writes the text of the game of a number and a size, by the rules of docs/DEFINITIONS.md and not by the proved code.

    make-game.py NUMBER SIZE          the text
    make-game.py sums NUMBERS SIZES   a checksum (FNV-1a, 64 bits) of all texts of the numbers and sizes, as 1-20 3-8
"""
import sys

MASK64 = (1 << 64) - 1
MASK128 = (1 << 128) - 1
MULTIPLIER = 0x2360ED051FC65DA44385DF649FCCF645


def rotated_right(word, bits, by):
    return ((word >> by) | (word << (bits - by))) & ((1 << bits) - 1)


def seed_bytes(seed):
    """The 32 bytes that a 64-bit seed stands for: eight words of PCG XSH RR 64/32 at a fixed increment."""
    for _ in range(8):
        seed = (seed * 0x5851F42D4C957F2D + 0xA17654E46FBE17F3) & MASK64
        word = (((seed >> 18) ^ seed) >> 27) & 0xFFFFFFFF
        yield from rotated_right(word, 32, seed >> 59).to_bytes(4, "little")


def words(seed):
    """The words of PCG XSL RR 128/64 from a seed."""
    given = bytes(seed_bytes(seed))
    increment = int.from_bytes(given[16:], "little") | 1
    state = (int.from_bytes(given[:16], "little") + increment) & MASK128
    state = (state * MULTIPLIER + increment) & MASK128
    while True:
        state = (state * MULTIPLIER + increment) & MASK128
        yield rotated_right((state >> 64) ^ (state & MASK64), 64, state >> 122)


def game(number, size):
    source = words(number)

    def below(total):
        high = next(source)
        return (high << 64 | next(source)) % total

    actions, observations = min(4, 1 + size // 3), min(3, 1 + size // 4)
    lines = ["osposg 1", f"size {size} {actions} {actions} {observations}", "total 100", "discount 19 20"]
    lines.append("first" + " 1" * size)
    for s in range(size):
        for a in range(actions):
            for c in range(actions):
                lines.append(f"step {s} {a} {c} {below(19) - 9}")
                row = {}
                for _ in range(4):
                    pair = below(observations), below(size)
                    row[pair] = row.get(pair, 0) + 25
                lines += [f"out {seen} {to} {row[seen, to]}" for seen, to in sorted(row)]
    return "\n".join(lines + ["end", ""])


def span(text):
    low, high = text.split("-")
    return range(int(low), int(high) + 1)


def main():
    if sys.argv[1] != "sums":
        sys.stdout.write(game(int(sys.argv[1]), int(sys.argv[2])))
        return
    total = 0xCBF29CE484222325
    for number in span(sys.argv[2]):
        for size in span(sys.argv[3]):
            for byte in game(number, size).encode():
                total = (total ^ byte) * 0x100000001B3 & MASK64
    print(total)


if __name__ == "__main__":
    main()
