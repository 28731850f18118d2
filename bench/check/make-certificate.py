#!/usr/bin/env python3
"""Writes a game of 16 states and a certificate of 1,024 nodes and 1,024 points that stands for it.

Every node is worth minus the span in each state, plays a mix of all own actions and goes on with many nodes. Every
point has the span times its belief's total as its value, so that both rules hold whatever is drawn; its masses are
split over some points and the corners, to the last unit. The numbers come from a fixed generator, so that the text is
the same at each run. The bounds are far apart, so the outcome is `trials`.

Usage: make-certificate.py [NODES POINTS STEPS SHARES]   (members, steps and shares after each pair)
"""
import math
import sys

STATES, OWN, INFORMED, OBSERVATIONS = 16, 6, 6, 8
TOTAL, OVER, UNDER = 1000, 19, 20
UNIT = MIX = 65536


def numbers(seed):
    while True:
        seed = (seed * 6364136223846793005 + 1442695040888963407) % (1 << 64)
        yield seed >> 33


DRAW = numbers(1)


def below(limit):
    return next(DRAW) % limit


def parts(total, count):
    """Positive whole numbers of this count and sum."""
    cuts = sorted({1 + below(total - 1) for _ in range(count - 1)})
    ends = [0] + cuts + [total]
    return [b - a for a, b in zip(ends, ends[1:])]


def make_game(write):
    rewards, rows = {}, {}
    write(f"osposg 1\nsize {STATES} {OWN} {INFORMED} {OBSERVATIONS}\ntotal {TOTAL}\ndiscount {OVER} {UNDER}\n")
    write("first" + " 1" * STATES + "\n")
    for s in range(STATES):
        for a in range(OWN):
            for c in range(INFORMED):
                reward = below(201) - 100
                pairs = sorted({(below(OBSERVATIONS), below(STATES)) for _ in range(24)})
                weights = parts(TOTAL, len(pairs))
                row = [(o, t, w) for (o, t), w in zip(pairs, weights)]
                missing = TOTAL - sum(w for _, _, w in row)
                row[-1] = (row[-1][0], row[-1][1], row[-1][2] + missing)
                rewards[s, a, c], rows[s, a, c] = reward, row
                write(f"step {s} {a} {c} {reward}\n")
                for o, t, w in row:
                    write(f"out {o} {t} {w}\n")
    write("end\n")
    most = max(abs(r) for r in rewards.values())
    return rows, -(-UNIT * most * UNDER // (UNDER - OVER))


def write_nodes(write, nodes, steps, span):
    for i in range(nodes):
        mix = parts(MIX, OWN)
        mix += [0] * (OWN - len(mix))
        write(f"node {i}\nvector" + f" -{span}" * STATES + "\nmix " + " ".join(map(str, mix)) + "\n")
        for a in range(OWN):
            for o in range(OBSERVATIONS):
                if mix[a] == 0:
                    continue
                weights = parts(mix[a], steps) if mix[a] > steps else [mix[a]]
                first = below(nodes - len(weights) + 1) if nodes > len(weights) else 0
                for k, w in enumerate(weights):
                    write(f"next {a} {o} {first + k} {w}\n")


def write_points(write, points, shares, rows, span):
    beliefs = [[int(s == t) for t in range(STATES)] for s in range(STATES)]
    while len(beliefs) < points - 1:
        belief = [below(60) if below(2) else 0 for _ in range(STATES)]
        divisor = math.gcd(*belief)
        if divisor:
            beliefs.append([b // divisor for b in belief])
    beliefs.append([1] * STATES)
    for j in range(points):
        belief = beliefs[j]
        mixes = []
        for _ in range(STATES):
            mix = parts(MIX, INFORMED)
            mixes.append(mix + [0] * (INFORMED - len(mix)))
        write(f"point {j}\nbelief " + " ".join(map(str, belief)) + f"\nvalue {span * sum(belief)}\n")
        for s in range(STATES):
            write(f"mix {s} " + " ".join(map(str, mixes[s])) + "\n")
        for a in range(OWN):
            mass = [[0] * STATES for _ in range(OBSERVATIONS)]
            for s in range(STATES):
                if belief[s]:
                    for c in range(INFORMED):
                        weight = belief[s] * mixes[s][c]
                        for o, t, w in rows[s, a, c]:
                            mass[o][t] += weight * w
            for o in range(OBSERVATIONS):
                rest, split = mass[o], {}
                for _ in range(shares):
                    k = STATES + below(points - STATES) if points > STATES else 0
                    other = beliefs[k]
                    most = min((rest[t] // other[t] for t in range(STATES) if other[t]), default=0)
                    times = most // 3
                    if times:
                        split[k] = split.get(k, 0) + times
                        rest = [r - times * b for r, b in zip(rest, other)]
                for t in range(STATES):
                    if rest[t]:
                        split[t] = split.get(t, 0) + rest[t]
                for k in sorted(split):
                    write(f"split {a} {o} {k} {split[k]}\n")
    return beliefs


def main():
    nodes, points, steps, shares = map(int, sys.argv[1:5]) if len(sys.argv) == 5 else (1024, 1024, 20, 6)
    write = sys.stdout.write
    rows, span = make_game(write)
    total = STATES * UNIT
    write("certificate 1\noutcome trials\ngap 1/100\n")
    write(f"lower {-span * STATES}/{total}\nupper {span * STATES}/{total}\ntail {span}/{UNIT}\n")
    write(f"sizes {nodes} {points}\nstart 0 {points - 1}\n")
    write_nodes(write, nodes, steps, span)
    write_points(write, points, shares, rows, span)
    write("end\n")


if __name__ == "__main__":
    main()
