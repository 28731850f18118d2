#!/usr/bin/env python3
"""Draws what a certificate's bounds are over all beliefs, for a game of two or three states.

    tools/envelope.py CERTIFICATE PICTURE.png

Below, the greatest of the nodes' vectors. Above, for two states, what a belief costs at least that is divided among the
points; for three, the sawtooth bound: the corners and, at each belief, the one point that brings most. Points stand at
their beliefs; one above the red line is no longer needed there. The picture needs matplotlib, and proves nothing.
"""
import sys

UNIT = 65536
# So many steps from one corner to another.
STEPS = 120


def read(path):
    """The nodes' vectors, the points' beliefs with their values, and the first point's number."""
    vectors, points, belief = [], [], None
    for line in open(path):
        name, *words = line.split()
        if name == "vector":
            vectors.append([int(word) / UNIT for word in words])
        elif name == "belief":
            belief = [int(word) for word in words]
        elif name == "value":
            total = sum(belief)
            points.append(([part / total for part in belief], int(words[0]) / total / UNIT))
    return vectors, points


def below(vectors, belief):
    return max(sum(v * b for v, b in zip(vector, belief)) for vector in vectors)


def above(points, corners, belief):
    """The sawtooth bound: the corners' values, less the most that one point brings."""
    plane = sum(corners[s] * b for s, b in enumerate(belief))
    least = plane
    for at, value in points:
        gain = sum(corners[s] * b for s, b in enumerate(at)) - value
        share = min(b / a for a, b in zip(at, belief) if a > 0)
        least = min(least, plane - share * gain)
    return least


def corners_of(points, states):
    return [min(value for at, value in points if at[s] == 1) for s in range(states)]


def hull(points):
    """The points of two states among which beliefs are divided cheapest, from left to right."""
    kept = []
    for x, y in sorted((at[1], value) for at, value in points):
        while len(kept) >= 2:
            (a, b), (c, d) = kept[-2:]
            if (d - b) * (x - a) < (y - b) * (c - a):
                break
            kept.pop()
        if not kept or kept[-1][0] < x:
            kept.append((x, y))
    return kept


def draw_two(axes, vectors, points):
    beliefs = [(1 - k / STEPS, k / STEPS) for k in range(STEPS + 1)]
    right = [belief[1] for belief in beliefs]
    axes.plot(*zip(*hull(points)), color="tab:red", label="upper bound: division among the points")
    axes.plot(right, [below(vectors, b) for b in beliefs], color="tab:blue", label="lower bound: greatest of the nodes")
    axes.plot([at[1] for at, _ in points], [value for _, value in points], "o", color="tab:red", markersize=3)
    axes.set_xlabel("belief that the state is 1")
    axes.set_ylabel("units of reward")
    axes.legend()


def flat(belief):
    """Where a belief of three states stands in the plane: the corners make a triangle."""
    return belief[1] + belief[2] / 2, belief[2] * 3**0.5 / 2


def draw_three(figure, axes, vectors, points, corners):
    beliefs = [(1 - (i + j) / STEPS, i / STEPS, j / STEPS) for i in range(STEPS + 1) for j in range(STEPS + 1 - i)]
    across, up = zip(*map(flat, beliefs))
    low = [below(vectors, b) for b in beliefs]
    high = [above(points, corners, b) for b in beliefs]
    shown = [("lower bound", low), ("upper bound", high), ("gap", [h - l for h, l in zip(high, low)])]
    for place, (title, values) in zip(axes, shown):
        drawn = place.tricontourf(across, up, values, levels=24)
        place.plot(*zip(*(flat(at) for at, _ in points)), "o", color="white", markeredgecolor="black", markersize=3)
        for corner, where in enumerate(((-0.06, -0.06), (1.03, -0.06), (0.53, 0.85))):
            place.text(*where, f"state {corner}", fontsize=8)
        place.set_title(title, pad=10)
        place.set_aspect("equal")
        place.axis("off")
        figure.colorbar(drawn, ax=place, shrink=0.7)


def main():
    if len(sys.argv) != 3:
        sys.exit(__doc__)
    vectors, points = read(sys.argv[1])
    states = len(vectors[0]) if vectors else 0
    if states not in (2, 3):
        sys.exit("a picture is drawn for two and for three states")
    import matplotlib

    matplotlib.use("Agg")
    from matplotlib import pyplot

    if states == 2:
        figure, axes = pyplot.subplots(figsize=(7, 4))
        draw_two(axes, vectors, points)
        figure.tight_layout()
    else:
        figure, axes = pyplot.subplots(1, 3, figsize=(13, 4), layout="constrained")
        draw_three(figure, axes, vectors, points, corners_of(points, states))
    figure.savefig(sys.argv[2], dpi=120)


if __name__ == "__main__":
    main()
