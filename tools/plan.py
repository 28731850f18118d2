#!/usr/bin/env python3
"""Prints the plan of a certificate as a card, or as a graph.

usage: plan.py CERTIFICATE [GAME] [--dot]

The card has a row for each own action of each node that the plan can come to: how often it is taken, and after each
observation where to go on. Shares are in hundredths, rounded; the certificate has the exact ones. A certificate goes on
after every observation, also after one that the action cannot bring; with the game those are left out. With --dot the
graph is printed for Graphviz (plan.py CERTIFICATE --dot | dot -Tpng > plan.png), which may take minutes and more to draw
a hundred nodes: a box has each own action with its share, an arrow the own action, what is seen, and the share of the
cases that go on this way. Nothing of this is proved.
"""

import sys
from collections import defaultdict

WHOLE = 65536


class Node:
    def __init__(self):
        self.mix = []
        # For each own action and observation, the nodes to go on with and their weights.
        self.next = defaultdict(list)


def read_plan(path):
    """The start nodes with their weights, and all nodes."""
    starts, nodes = [], []
    for line in open(path):
        name, *words = line.split()
        if name == "start":
            starts = [(int(words[0]), 1)]
        elif name == "from":
            starts.append((int(words[0]), int(words[1])))
        elif name == "node":
            nodes.append(Node())
        elif name == "point":
            break
        elif name == "mix":
            nodes[-1].mix = [int(word) for word in words]
        elif name == "next":
            own, seen, node, weight = map(int, words)
            nodes[-1].next[own, seen].append((node, weight))
    if not starts or not nodes:
        sys.exit(f"{path} is no certificate")
    return starts, nodes


def keep_possible(path, nodes):
    """Leaves out what follows observations that an own action never brings in the game."""
    possible, own = set(), None
    for line in open(path):
        words = line.split("#")[0].split()
        if words[:1] == ["step"]:
            own = int(words[2])
        elif words[:1] == ["out"]:
            possible.add((own, int(words[1])))
    if len({own for own, _ in possible}) != len(nodes[0].mix):
        sys.exit(f"{path} is not the game of this certificate")
    for node in nodes:
        node.next = defaultdict(list, {pair: branches for pair, branches in node.next.items() if pair in possible})


def reached(starts, nodes):
    """The numbers of the nodes that a play can come to."""
    found, left = set(), [number for number, _ in starts]
    while left:
        number = left.pop()
        if number not in found:
            found.add(number)
            left += [node for branches in nodes[number].next.values() for node, _ in branches]
    return sorted(found)


def hundredths(weight, total):
    return f"{100 * weight / total:.0f}" if 100 * weight >= total else "under 1"


def shares(branches):
    """Where to go on, in words."""
    total = sum(weight for _, weight in branches)
    if len(branches) == 1:
        return str(branches[0][0])
    most = sorted(branches, key=lambda it: (-it[1], it[0]))
    return ", ".join(f"{node} ({hundredths(weight, total)})" for node, weight in most)


def print_card(starts, nodes):
    print("Begin at node " + shares(starts) + ".\n")
    numbers = reached(starts, nodes)
    seen = sorted({seen for number in numbers for _, seen in nodes[number].next})
    print("| Node | Own action | in 100 cases | " + " | ".join(f"seen {o}: go on at" for o in seen) + " |")
    print("|---" * (3 + len(seen)) + "|")
    for number in numbers:
        node = nodes[number]
        for own, weight in enumerate(node.mix):
            if weight:
                cells = [shares(node.next[own, o]) if (own, o) in node.next else "" for o in seen]
                print(f"| {number} | {own} | {hundredths(weight, WHOLE)} | " + " | ".join(cells) + " |")


def print_graph(starts, nodes):
    print('digraph plan {\n  rankdir=LR; node [shape=box, style=rounded, fontname="sans"]; edge [fontname="sans"];')
    print('  begin [label="", shape=point];')
    total = sum(weight for _, weight in starts)
    for number, weight in starts:
        print(f'  begin -> n{number} [label="{"" if len(starts) == 1 else hundredths(weight, total)}"];')
    for number in reached(starts, nodes):
        node = nodes[number]
        mix = "\\n".join(f"{own}: {hundredths(weight, WHOLE)}" for own, weight in enumerate(node.mix) if weight)
        print(f'  n{number} [label="node {number}\\n{mix}"];')
        edges = defaultdict(list)
        for (own, seen), branches in sorted(node.next.items()):
            for to, weight in branches:
                edges[to].append(f"{own}, seen {seen}: {hundredths(weight, node.mix[own])}")
        for to, labels in edges.items():
            print(f'  n{number} -> n{to} [label="' + "\\n".join(labels) + '"];')
    print("}")


def main():
    words = [word for word in sys.argv[1:] if word != "--dot"]
    if len(words) not in (1, 2) or words[0].startswith("-"):
        sys.exit(__doc__)
    starts, nodes = read_plan(words[0])
    if len(words) == 2:
        keep_possible(words[1], nodes)
    (print_graph if "--dot" in sys.argv else print_card)(starts, nodes)


if __name__ == "__main__":
    main()
