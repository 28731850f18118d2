#!/usr/bin/env python3
"""What a visit of a belief makes, by the rules of docs/DEFINITIONS.md and not by the proved code.

    model.py lower|upper BITS < GAME    the advice of the first candidates on the seeds at the first belief, and its member
    model.py lower-program|upper-program BITS < GAME    their program
    model.py visit N < GAME             N visits of the first belief, whose members are kept: what the last one makes

A checksum of the text, and which runs a visit made and took, are said on standard error.

A game is a text of docs/FORMATS.md in its plain spelling. The tests of `worked_rows` on advice and visits compare with
what this prints. It is slow: numbers are Python's, and a dictionary is a list of lists.
"""
import sys
from math import gcd

UNITS = TOTAL = 1 << 16
END = 1 << 62
PIVOTS = 400


class Game:
    """A game: rewards by state, own and informed action, and rows of (observation, next state, weight)."""

    def __init__(self, text):
        lines = [line.split() for line in text.splitlines()]
        numbers = {line[0]: [int(word) for word in line[1:]] for line in lines[1:5]}
        self.states, self.own, self.informed, self.seen = numbers["size"]
        (self.whole,) = numbers["total"]
        self.over, self.under = numbers["discount"]
        divisor = gcd(*numbers["first"])
        self.first = [part // divisor for part in numbers["first"]]
        self.reward, self.row = {}, {}
        for line in lines[5:-1]:
            word, *found = line[0], *map(int, line[1:])
            if word == "step":
                place = tuple(found[:3])
                self.reward[place], self.row[place] = found[3], []
            else:
                self.row[place].append(tuple(found))
        most = max(abs(reward) for reward in self.reward.values())
        self.span = -(-UNITS * most * self.under // (self.under - self.over))

    def pairs(self):
        return [(a, o) for a in range(self.own) for o in range(self.seen)]

    def places(self):
        return [(s, c) for s in range(self.states) for c in range(self.informed)]

    def to(self, s, a, c, o, t):
        return sum(w for seen, to, w in self.row[s, a, c] if (seen, to) == (o, t))

    def stage(self, s, a, c, vector):
        """What a stage pays, where what follows is worth a vector, over the row total and the discount's denominator."""
        later = sum(w * vector[t] for _, t, w in self.row[s, a, c])
        return UNITS * self.reward[s, a, c] * self.whole * self.under + self.over * later

    def mass(self, belief, mixes, a, o):
        mass = [0] * self.states
        for s, c in self.places():
            for seen, t, w in self.row[s, a, c]:
                mass[t] += belief[s] * mixes[s][c] * w * (seen == o)
        return mass


def ceil(num, den):
    return -(-num // den)


def share(weights, total):
    whole = sum(weights)
    if whole == 0:
        return [total] + [0] * (len(weights) - 1)
    shares = [weight * total // whole for weight in weights]
    shares[weights.index(max(weights))] += total - sum(shares)
    return shares


def product(mass, vector):
    return sum(m * x for m, x in zip(mass, vector))


def corner_of(game, s):
    return [int(t == s) for t in range(game.states)]


def is_corner(belief):
    return sum(belief) == 1


# Nodes are (vector, mix, steps), points (belief, value, mixes, shares); a step or a share is (a, o, k, weight).


def seeds(game):
    """The seed nodes and the seed points."""
    nodes, whole = [], game.whole * game.under
    for a in range(game.own):
        vector = [-game.span] * game.states
        for _ in range(256):
            vector = [min(game.stage(s, a, c, vector) // whole for c in range(game.informed)) for s in range(game.states)]
        mix = [TOTAL * (b == a) for b in range(game.own)]
        nodes.append((vector, mix, [(a, o, a, TOTAL) for o in range(game.seen)]))
    values = [game.span] * game.states
    for _ in range(256):
        found = [
            [max(ceil(game.stage(s, a, c, values), whole) for a in range(game.own)) for c in range(game.informed)]
            for s in range(game.states)
        ]
        values = [min(row) for row in found]
    mixes = [[TOTAL * (c == row.index(min(row))) for c in range(game.informed)] for row in found]
    points = []
    for s in range(game.states):
        points.append((corner_of(game, s), values[s], mixes, in_corners(game, corner_of(game, s), mixes)))
    if not is_corner(game.first):
        splits = in_corners(game, game.first, mixes)
        points.append((game.first, value_of(game, game.first, mixes, splits, points), mixes, splits))
    return nodes, points


def in_corners(game, belief, mixes):
    return [(a, o, t, w) for a, o in game.pairs() for t, w in enumerate(game.mass(belief, mixes, a, o)) if w]


def value_of(game, belief, mixes, splits, points):
    """The value that a point needs."""
    costs = []
    for a in range(game.own):
        paid = sum(belief[s] * mixes[s][c] * game.reward[s, a, c] for s, c in game.places())
        later = sum(w * points[k][1] for own, _, k, w in splits if own == a)
        costs.append(paid * UNITS * game.whole * game.under + game.over * later)
    return ceil(max(costs), TOTAL * game.whole * game.under)


def worth(nodes, mass):
    """The number of the node that is worth the most at a mass."""
    return max(range(len(nodes)), key=lambda k: (product(mass, nodes[k][0]), -k))


def current(points, s, states):
    at = [j for j in range(len(points)) if points[j][0] == [int(t == s) for t in range(states)]]
    return min(at, key=lambda j: (points[j][1], j))


def fits(belief, mass):
    """How often a belief fits into a mass."""
    return min(mass[s] // part for s, part in enumerate(belief) if part)


def best(points, mass):
    """The point of the least bound at a mass, None where no bound is below the corners' alone."""
    corners = [points[current(points, s, len(mass))][1] for s in range(len(mass))]
    base, found = product(mass, corners), None
    for j, (belief, value, _, _) in enumerate(points):
        times = fits(belief, mass)
        rest = [m - times * part for m, part in zip(mass, belief)]
        bound = times * value + product(rest, corners)
        if bound < (base if found is None else found[0]):
            found = bound, j
    return found and found[1]


def split(points, wanted, mass):
    """A mass in points: each wanted one as often as its share allows and as it fits, and the rest in corners."""
    weights, rest = {}, list(mass)
    for (k, _), part in zip(wanted, share([weight for _, weight in wanted], sum(mass))):
        belief = points[k][0]
        times = min(part // sum(belief), fits(belief, rest))
        weights[k] = weights.get(k, 0) + times
        rest = [r - times * b for r, b in zip(rest, belief)]
    for s, left in enumerate(rest):
        k = current(points, s, len(mass))
        weights[k] = weights.get(k, 0) + left
    return [(k, weight) for k, weight in sorted(weights.items()) if weight]


def kept(preferred, most):
    chosen = []
    for k in preferred:
        if k is not None and k not in chosen and len(chosen) < most:
            chosen.append(k)
    return chosen


def lower_candidates(game, belief, nodes, mixes):
    downwards = list(range(len(nodes)))[::-1]
    if mixes is None:
        return sorted({worth(nodes, belief), *downwards[:15]})
    masses = [game.mass(belief, mixes, a, o) for a, o in game.pairs()]
    return sorted(kept([worth(nodes, belief), *(worth(nodes, m) for m in masses if any(m)), *downwards], 16))


def upper_candidates(game, belief, points, mixes):
    others = [j for j in range(len(points)) if not is_corner(points[j][0])][::-1]
    masses = [] if mixes is None else [game.mass(belief, mixes, a, o) for a, o in game.pairs()]
    chosen = kept([*(best(points, m) for m in masses if any(m)), *others], 8)
    return sorted([*(current(points, s, game.states) for s in range(game.states)), *chosen])


def program(game, belief, bits, ends, worths, links):
    """Rows, limits and goal. `ends` is how many variables each pair has, `worths` gives the numbers of a row of a state
    and an informed action after a pair, `links` the rows of a pair as a number for the action and a block."""
    scale = 1 << bits
    pairs = game.pairs()
    rows = []
    for s, c in game.places():
        later = [-x for a, o in pairs for x in worths(s, a, c, o)]
        rows.append([int(t == s) for t in range(game.states)] + [-pay(game, scale, s, a, c, worths) for a in range(game.own)] + later)
    for place, (a, o) in enumerate(pairs):
        for number, block in links(a, o):
            row = [0] * game.states + [number * (b == a) for b in range(game.own)] + [0] * (len(pairs) * ends)
            start = game.states + game.own + place * ends
            row[start : start + ends] = block
            rows.append(row)
    rows.append([0] * game.states + [1] * game.own + [0] * (len(pairs) * ends))
    goal = [ceil(scale * part, sum(belief)) for part in belief] + [0] * (len(rows[0]) - game.states)
    return rows, [0] * (len(rows) - 1) + [1], goal


def pay(game, scale, s, a, c, worths):
    num = scale * (UNITS * game.reward[s, a, c] * game.under + game.span * (game.under - game.over))
    return worths.rounded(num, game.under * max(1, 2 * game.span))


def lower_program(game, belief, nodes, candidates, bits):
    width = max(1, 2 * game.span)

    def worths(s, a, c, o):
        for k in candidates:
            raised = sum(w * (nodes[k][0][t] + game.span) for seen, t, w in game.row[s, a, c] if seen == o)
            yield (raised * game.over << bits) // (game.whole * game.under * width)

    worths.rounded = lambda num, den: num // den
    return program(game, belief, bits, len(candidates), worths, lambda a, o: [(-1, [1] * len(candidates))])


def upper_program(game, belief, points, candidates, bits):
    width = max(1, 2 * game.span)

    def worths(s, a, c, o):
        for t in range(game.states):
            yield ceil(game.over * game.to(s, a, c, o, t) << bits, game.under * game.whole)

    def links(a, o):
        for k in candidates:
            total = sum(points[k][0])
            number = -ceil((points[k][1] + game.span * total) << bits, width * total)
            yield number, [(part << bits) // total for part in points[k][0]]

    worths.rounded = ceil
    return program(game, belief, bits, game.states, worths, links)


class Dictionary:
    """A dictionary of the textbook: a row is [lead, constant, numbers of the variables that are out]."""

    def __init__(self, rows, limits, goal):
        self.basic = list(range(len(goal), len(goal) + len(rows)))
        self.out = list(range(len(goal)))
        self.rows = [[1, limit, *row] for row, limit in zip(rows, limits)] + [[1, 0, *goal]]

    def pivoted(self, leaving, entering):
        """The rows of the next dictionary."""
        column = 2 + entering
        pivot = self.rows[leaving]
        by = pivot[column]
        for i, row in enumerate(self.rows):
            if i == leaving:
                yield [by, *pivot[1:column], pivot[0], *pivot[column + 1 :]]
            elif row[column] == 0:
                yield row
            else:
                sign = 1 if i < len(self.basic) else -1
                times = row[column]
                made = [row[0] * by, row[1] * by - sign * times * pivot[1]]
                made += [x * by - times * y for x, y in zip(row[2:], pivot[2:])]
                made[column] = -times * pivot[0]
                divisor = gcd(*made)
                yield [x // divisor for x in made]

    def run(self, pivots):
        """How a run by Bland's rule ends. This is the last dictionary then."""
        while True:
            goal = self.rows[-1]
            improving = [p for p in range(len(self.out)) if goal[2 + p] > 0]
            if not improving:
                return "optimal"
            if pivots == 0:
                return "spent"
            entering = min(improving, key=lambda p: self.out[p])
            leaving = self.leaving(2 + entering)
            after = list(self.pivoted(leaving, entering))
            for i, row in enumerate(after):
                for col, number in enumerate(row):
                    if abs(number) >= END:
                        return f"wide {i} {col}"
            self.rows = after
            self.basic[leaving], self.out[entering] = self.out[entering], self.basic[leaving]
            pivots -= 1

    def leaving(self, column):
        found = None
        for i, row in enumerate(self.rows[:-1]):
            if row[column] <= 0:
                continue
            if found is not None:
                mine, least = row[1] * self.rows[found][column], self.rows[found][1] * row[column]
                if mine > least or (mine == least and self.basic[i] > self.basic[found]):
                    continue
            found = i
        return found

    def weights(self, first, count):
        """The values of variables times 2^30, rounded down."""
        places = [self.basic.index(i) if i in self.basic else None for i in range(first, first + count)]
        return [0 if p is None else (self.rows[p][1] << 30) // self.rows[p][0] for p in places]

    def prices(self, first, count):
        """The prices of rows, as weights below 2^30."""
        slacks = range(len(self.out) + first, len(self.out) + first + count)
        found = [max(0, -self.rows[-1][2 + self.out.index(i)]) if i in self.out else 0 for i in slacks]
        shift = max(0, max(found).bit_length() - 30)
        return [price >> shift for price in found]


def read(game, dictionary):
    own = share(dictionary.weights(game.states, game.own), TOTAL)
    mixes = [share(dictionary.prices(s * game.informed, game.informed), TOTAL) for s in range(game.states)]
    return own, mixes


def lower_run(game, belief, nodes, candidates, bits):
    """End, informed mixes and node of a lower program, whose mix and steps are the advice."""
    dictionary = Dictionary(*lower_program(game, belief, nodes, candidates, bits))
    end = dictionary.run(PIVOTS)
    own, mixes = read(game, dictionary)
    steps, count = [], len(candidates)
    for place, (a, o) in enumerate(game.pairs()):
        weights = dictionary.weights(game.states + game.own + place * count, count)
        steps += [(a, o, k, w) for k, w in zip(candidates, share(weights, own[a])) if w]
    return end, mixes, (vector_of(game, own, steps, nodes), own, steps)


def vector_of(game, own, steps, nodes):
    def surely(s, c):
        gained = sum(own[a] * UNITS * game.reward[s, a, c] for a in range(game.own)) * game.whole * game.under
        for a, o, k, w in steps:
            gained += game.over * w * sum(x * nodes[k][0][t] for seen, t, x in game.row[s, a, c] if seen == o)
        return gained // (TOTAL * game.whole * game.under)

    return [min(surely(s, c) for c in range(game.informed)) for s in range(game.states)]


def upper_run(game, belief, points, candidates, bits):
    """End, own mix and point of an upper program, and the wanted weights."""
    dictionary = Dictionary(*upper_program(game, belief, points, candidates, bits))
    end = dictionary.run(PIVOTS)
    own, mixes = read(game, dictionary)
    splits, listed, count = [], [], len(candidates)
    for place, (a, o) in enumerate(game.pairs()):
        prices = dictionary.prices(game.states * game.informed + place * count, count)
        listed += [(a, o, k, price) for k, price in zip(candidates, prices)]
        mass = game.mass(belief, mixes, a, o)
        if any(mass):
            splits += [(a, o, k, w) for k, w in split(points, list(zip(candidates, prices)), mass)]
    return end, own, (belief, value_of(game, belief, mixes, splits, points), mixes, splits), listed


def visit(run, candidates, better, game, belief, members):
    """The runs of a visit, and which of them it takes."""
    runs = [run(game, belief, members, candidates(game, belief, members, None), 10)]
    mixes = runs[0][1] if run is lower_run else runs[0][2][2]
    priced = candidates(game, belief, members, mixes)
    for bits in 10, 7, 5:
        runs.append(run(game, belief, members, priced, bits))
        if runs[-1][0] == "optimal":
            break
    return runs, max(range(len(runs)), key=lambda i: (better(runs[i][2]), -i))


def lower_visit(game, belief, nodes):
    return visit(lower_run, lower_candidates, lambda node: product(belief, node[0]), game, belief, nodes)


def upper_visit(game, belief, points):
    return visit(upper_run, upper_candidates, lambda point: -point[1], game, belief, points)


def line(word, numbers):
    return " ".join([word, *map(str, numbers)]) + "\n"


def lower_told(run):
    """A lower advice and its node."""
    end, mixes, (vector, own, steps) = run
    told = [line("end", [end]), line("own", own)]
    told += [line("next", step) for step in steps] + [line("informed", mix) for mix in mixes]
    return "".join([*told, line("vector", vector)])


def upper_told(run):
    """An upper advice and its point."""
    end, own, (belief, value, mixes, splits), listed = run
    told = [line("end", [end]), line("own", own)]
    told += [line("wanted", want) for want in listed] + [line("informed", mix) for mix in mixes]
    return "".join([*told, line("belief", belief), line("value", [value]), *(line("split", part) for part in splits)])


def checksum(text):
    """FNV-1a of 64 bits."""
    found = 0xCBF29CE484222325
    for byte in text.encode():
        found = (found ^ byte) * 0x100000001B3 & (1 << 64) - 1
    return found


def program_told(program):
    rows, limits, goal = program
    return "".join([*(line("row", row) for row in rows), line("limits", limits), line("goal", goal)])


def told_of_seeds(game, what, bits):
    nodes, points = seeds(game)
    lower = game, game.first, nodes, lower_candidates(game, game.first, nodes, None), bits
    upper = game, game.first, points, upper_candidates(game, game.first, points, None), bits
    return {
        "lower": lambda: lower_told(lower_run(*lower)),
        "upper": lambda: upper_told(upper_run(*upper)),
        "lower-program": lambda: program_told(lower_program(*lower)),
        "upper-program": lambda: program_told(upper_program(*upper)),
    }[what]()


def told_visits(game, count):
    nodes, points = seeds(game)
    for _ in range(count):
        lower, first = lower_visit(game, game.first, nodes)
        upper, second = upper_visit(game, game.first, points)
        for name, runs, taken in ("lower", lower, first), ("upper", upper, second):
            print(f"{name}: run {taken + 1} of", ", ".join(run[0] for run in runs), file=sys.stderr)
        nodes.append(lower[first][2])
        points.append(upper[second][2])
    return lower_told(lower[first]) + upper_told(upper[second])


def main():
    if len(sys.argv) != 3:
        sys.exit(__doc__)
    game, number = Game(sys.stdin.read()), int(sys.argv[2])
    told = told_visits(game, number) if sys.argv[1] == "visit" else told_of_seeds(game, sys.argv[1], number)
    print(told, end="")
    print("checksum", checksum(told), file=sys.stderr)


if __name__ == "__main__":
    main()
