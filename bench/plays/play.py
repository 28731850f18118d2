#!/usr/bin/env python3
"""Plays a certificate's controller against a rival, by the rules of docs/DEFINITIONS.md and not by the proved code.

    play.py GAME CERTIFICATE SEED STAGES uniform|points
"""
import importlib.util
import pathlib
import sys

MAKER = pathlib.Path(__file__).resolve().parent.parent / "generated" / "make-game.py"
SPEC = importlib.util.spec_from_file_location("make_game", MAKER)
MAKE_GAME = importlib.util.module_from_spec(SPEC)
SPEC.loader.exec_module(MAKE_GAME)


def lines_of(path):
    return [line.split() for line in pathlib.Path(path).read_text().splitlines()]


def read_game(path):
    """The discount, the first belief, and for each triple its reward and its row."""
    lines = lines_of(path)
    discount, first = [int(w) for w in lines[3][1:]], [int(w) for w in lines[4][1:]]
    informed, rows = int(lines[1][3]), {}
    for word, *numbers in lines[5:-1]:
        numbers = [int(n) for n in numbers]
        if word == "step":
            row = []
            rows[tuple(numbers[:3])] = numbers[3], row
        else:
            row.append(tuple(numbers))
    return discount, first, informed, rows


def read_certificate(path):
    """The starts, and the nodes and points as mixes, beliefs and branches."""
    starts, nodes, points = {"from": [], "over": []}, [], []
    for word, *numbers in lines_of(path)[1:-1]:
        if word in ("outcome", "gap", "lower", "upper", "tail"):
            continue
        numbers = [int(n) for n in numbers]
        if word == "start":
            starts = {"from": [(numbers[0], 1)], "over": [(numbers[1], 1)]}
        elif word in starts:
            starts[word].append(tuple(numbers))
        elif word == "node":
            nodes.append({"next": []})
            held = nodes[-1]
        elif word == "point":
            points.append({"mixes": {}, "split": []})
            held = points[-1]
        elif word in ("next", "split"):
            held[word].append(tuple(numbers))
        elif word == "mix" and held in points:
            held["mixes"][numbers[0]] = numbers[1:]
        elif word in ("mix", "belief"):
            held[word] = numbers
    return starts, nodes, points


def play(game, certificate, seed, stages, rival):
    (over, under), first, informed, rows = read_game(game)
    starts, nodes, points = read_certificate(certificate)
    source = MAKE_GAME.words(seed)

    def below(total):
        high = next(source)
        return (high << 64 | next(source)) % total

    def place(weights):
        left = below(sum(weights))
        for number, weight in enumerate(weights):
            if left < weight:
                return number
            left -= weight

    def start(kind, weights):
        listed = starts[kind]
        return listed[0][0] if len(listed) == 1 else listed[place(weights)][0]

    state = place(first)
    node = start("from", [x for _, x in starts["from"]])
    point = None
    if rival == "points":
        point = start("over", [z * points[j]["belief"][state] for j, z in starts["over"]])
    rewards = []
    for stage in range(stages):
        own = place(nodes[node]["mix"])
        c = below(informed) if point is None else place(points[point]["mixes"][state])
        reward, row = rows[state, own, c]
        rewards.append(reward)
        seen, to, _ = row[place([weight for _, _, weight in row])]
        steps = [step for step in nodes[node]["next"] if step[:2] == (own, seen)]
        node = steps[place([step[3] for step in steps])][2]
        if point is not None:
            shares = [share for share in points[point]["split"] if share[:2] == (own, seen)]
            weights = [share[3] * points[share[2]]["belief"][to] for share in shares]
            point = shares[place(weights)][2] if sum(weights) else to
        print(f"stage {stage} state {state} own {own} informed {c} seen {seen} to {to}")
        state = to
    gain = 0
    for later, reward in enumerate(reversed(rewards)):
        gain = reward * under ** (1 + later) + over * gain
    print(f"gain {gain}/{under ** stages}")


play(sys.argv[1], sys.argv[2], int(sys.argv[3]), int(sys.argv[4]), sys.argv[5])
