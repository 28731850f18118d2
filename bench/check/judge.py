"""Judges a certificate for a game by the rules of docs/FORMATS.md, with no limits of size and no care for speed.

It is written from the text of the rules alone, so that it can disagree with the program.
"""

import math
import re
from fractions import Fraction

UNITS = 65536
NUMBER = re.compile(r"0|-?[1-9][0-9]*")


class Refused(Exception):
    """A text that is not of the form."""


class Lines:
    """The lines of a text, taken one after the other."""

    def __init__(self, text):
        if not text.endswith("\n"):
            raise Refused("no whole last line")
        self.lines = text[:-1].split("\n")
        self.at = 0

    def peek(self):
        return self.lines[self.at].split(" ") if self.at < len(self.lines) else [""]

    def take(self, word, count=None):
        words = self.peek()
        if words[0] != word or (count is not None and len(words) != count + 1):
            raise Refused(f"line {self.at + 1}: {word} is due")
        self.at += 1
        return [number(w) for w in words[1:]]

    def take_line(self, line):
        if self.peek() != line.split(" "):
            raise Refused(f"line {self.at + 1}: '{line}' is due")
        self.at += 1

    def take_fraction(self, word):
        words = self.peek()
        if words[0] != word or len(words) != 2 or words[1].count("/") != 1:
            raise Refused(f"line {self.at + 1}: {word} is due")
        self.at += 1
        num, den = words[1].split("/")
        return number(num), number(den)

    def finish(self):
        if self.at != len(self.lines):
            raise Refused("bytes after the end")


def number(word):
    if not NUMBER.fullmatch(word) or len(word.lstrip("-")) > 36:
        raise Refused(f"'{word}' is no number")
    return int(word)


def need(holds, what):
    if not holds:
        raise Refused(what)


class Game:
    """A game text as tables: rewards and chances by state, own and informed action."""

    def __init__(self, text):
        lines = Lines(text)
        lines.take_line("osposg 1")
        self.states, self.own, self.informed, self.seen = lines.take("size", 4)
        (self.total,) = lines.take("total", 1)
        self.over, self.under = lines.take("discount", 2)
        first = lines.take("first", self.states)
        divisor = math.gcd(*first)
        self.first = [weight // divisor for weight in first]
        self.reward, self.chances = {}, {}
        for s in range(self.states):
            for a in range(self.own):
                for c in range(self.informed):
                    row = lines.take("step", 4)
                    need(row[:3] == [s, a, c], "order of steps")
                    self.reward[s, a, c] = row[3]
                    outs = {}
                    while lines.peek()[0] == "out":
                        o, t, weight = lines.take("out", 3)
                        outs[o, t] = weight
                    self.chances[s, a, c] = outs
        lines.take_line("end")
        lines.finish()
        greatest = max(abs(reward) for reward in self.reward.values())
        self.span = -(-UNITS * greatest * self.under // (self.under - self.over))
        self.first_total = sum(self.first)


class Certificate:
    """A certificate text that keeps every rule of its form and its limits."""

    def __init__(self, game, text):
        self.game = game
        lines = Lines(text)
        self.version = 1 if lines.peek() == ["certificate", "1"] else 2
        lines.take_line(f"certificate {self.version}")
        words = lines.peek()
        need(words[0] == "outcome" and len(words) == 2, "outcome")
        self.outcome = words[1]
        need(self.outcome in ("closed", "trials", "full"), "outcome")
        lines.at += 1
        self.gap = lines.take_fraction("gap")
        need(0 <= self.gap[0] <= 2**40 and 1 <= self.gap[1] <= 2**20, "gap")
        self.lower, self.upper, self.tail = (lines.take_fraction(w) for w in ("lower", "upper", "tail"))
        need(min(self.lower[1], self.upper[1], self.tail[1]) >= 1, "a denominator")
        count, points = lines.take("sizes", 2)
        need(1 <= count <= 1024 and game.states <= points <= 1024, "sizes")
        self.starts(lines, count, points)
        self.nodes = [self.node(lines, i, count) for i in range(count)]
        self.points = [self.point(lines, j, points) for j in range(points)]
        lines.take_line("end")
        lines.finish()

    def starts(self, lines, nodes, points):
        if self.version == 1:
            i, j = lines.take("start", 2)
            need(0 <= i < nodes and 0 <= j < points, "start")
            self.multiple, self.start_nodes, self.start_points = 1, [(i, 1)], [(j, 1)]
            return
        (self.multiple,) = lines.take("multiple", 1)
        need(1 <= self.multiple <= 65536, "multiple")
        self.start_nodes = self.start_list(lines, "from", nodes, 65536)
        need(sum(weight for _, weight in self.start_nodes) <= 65536, "weights of nodes")
        self.start_points = self.start_list(lines, "over", points, 2**36)
        need(len(self.start_nodes) + len(self.start_points) > 2, "one start each in version 2")

    def start_list(self, lines, word, count, most):
        starts = []
        while lines.peek()[0] == word:
            k, weight = lines.take(word, 2)
            need(0 <= k < count and 1 <= weight <= most, word)
            need(not starts or starts[-1][0] < k, f"order of {word}")
            starts.append((k, weight))
        need(starts and math.gcd(*(weight for _, weight in starts)) == 1, f"{word} is not coprime")
        return starts

    def branches(self, lines, word, members, most):
        found = []
        while lines.peek()[0] == word:
            a, o, k, weight = lines.take(word, 4)
            need(0 <= a < self.game.own and 0 <= o < self.game.seen and 0 <= k < members, word)
            need(1 <= weight <= most, f"weight of {word}")
            need(not found or found[-1][:3] < (a, o, k), f"order of {word}")
            found.append((a, o, k, weight))
        return found

    def node(self, lines, i, count):
        game = self.game
        need(lines.take("node", 1) == [i], "number of a node")
        vector = lines.take("vector", game.states)
        need(all(abs(entry) <= game.span for entry in vector), "vector")
        mix = lines.take("mix", game.own)
        need(min(mix) >= 0 and sum(mix) == UNITS, "mix of a node")
        steps = self.branches(lines, "next", count, UNITS)
        for a in range(game.own):
            for o in range(game.seen):
                need(sum(w for b, p, _, w in steps if (b, p) == (a, o)) == mix[a], "sum of steps")
        return vector, mix, steps

    def point(self, lines, j, count):
        game = self.game
        need(lines.take("point", 1) == [j], "number of a point")
        belief = lines.take("belief", game.states)
        need(min(belief) >= 0 and 1 <= sum(belief) <= 2**20 and math.gcd(*belief) == 1, "belief")
        (value,) = lines.take("value", 1)
        need(abs(value) <= game.span * sum(belief), "value")
        mixes = []
        for s in range(game.states):
            row = lines.take("mix", game.informed + 1)
            need(row[0] == s and min(row[1:]) >= 0 and sum(row[1:]) == UNITS, "mix of a point")
            mixes.append(row[1:])
        return belief, value, mixes, self.branches(lines, "split", count, 2**66)

    def node_holds(self, i):
        game = self.game
        vector, mix, steps = self.nodes[i]
        for s in range(game.states):
            for c in range(game.informed):
                worth = sum(mix[a] * game.reward[s, a, c] for a in range(game.own)) * UNITS * game.total * game.under
                for a in range(game.own):
                    for (o, t), chance in game.chances[s, a, c].items():
                        later = sum(w * self.nodes[k][0][t] for b, p, k, w in steps if (b, p) == (a, o))
                        worth += game.over * chance * later
                if vector[s] * UNITS * game.total * game.under > worth:
                    return False
        return True

    def mass(self, j, a, o, t):
        belief, _, mixes, _ = self.points[j]
        return sum(
            belief[s] * mixes[s][c] * self.game.chances[s, a, c].get((o, t), 0)
            for s in range(self.game.states)
            for c in range(self.game.informed)
        )

    def point_holds(self, j):
        game = self.game
        belief, value, mixes, shares = self.points[j]
        if j < game.states and belief != [int(s == j) for s in range(game.states)]:
            return False
        for a in range(game.own):
            for o in range(game.seen):
                here = [(k, w) for b, p, k, w in shares if (b, p) == (a, o)]
                for t in range(game.states):
                    if sum(w * self.points[k][0][t] for k, w in here) != self.mass(j, a, o, t):
                        return False
            cost = UNITS * game.total * game.under * sum(
                belief[s] * mixes[s][c] * game.reward[s, a, c]
                for s in range(game.states)
                for c in range(game.informed)
            ) + game.over * sum(w * self.points[k][1] for b, _, k, w in shares if b == a)
            if cost > value * UNITS * game.total * game.under:
                return False
        return True

    def stands(self):
        game = self.game
        if not all(self.node_holds(i) for i in range(len(self.nodes))):
            return False
        if not all(self.point_holds(j) for j in range(len(self.points))):
            return False
        for s in range(game.states):
            if sum(w * self.points[j][0][s] for j, w in self.start_points) != self.multiple * game.first[s]:
                return False
        scale = game.first_total * UNITS
        lower = sum(w * sum(b * x for b, x in zip(game.first, self.nodes[i][0])) for i, w in self.start_nodes)
        upper = sum(w * self.points[j][1] for j, w in self.start_points)
        if self.lower != (lower, sum(w for _, w in self.start_nodes) * scale):
            return False
        if self.upper != (upper, self.multiple * scale) or self.tail != (game.span, UNITS):
            return False
        near = Fraction(*self.upper) - Fraction(*self.lower) <= Fraction(*self.gap)
        return near == (self.outcome == "closed")


def judge(game_text, certificate_text):
    """'refused', 'no' or 'yes'."""
    game = Game(game_text)
    try:
        certificate = Certificate(game, certificate_text)
    except Refused:
        return "refused"
    return "yes" if certificate.stands() else "no"
