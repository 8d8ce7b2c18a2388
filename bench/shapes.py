"""Sets of states in four shapes, each as a Horn formula, a 2CNF formula, listed states and a
diagram, for inclusions between two families.

Each shape has parts that stand to each other in a known way, whichever family says them:

inner   is within outer, and has no state in common with apart
beside  is what isn't in inner; it is said by a diagram alone
first   and second, of clauses alone, have all states between them

Clauses are lists of literals as in a proof, states are rising lists of atoms. A part is the same
each time that it is made. There have to be 60 atoms at least.
"""
import itertools
import random

MOST_STATES = 300000


class Nodes:
    """A node list that is built from below."""

    def __init__(self):
        self.numbers = {}

    def node(self, atom, low, high):
        if low == high:
            return low
        return self.numbers.setdefault((atom, low, high), len(self.numbers) + 2)

    def text(self):
        lines = ["%d %d %d\n" % node for node in self.numbers]
        return "".join(["nodes %d\n" % len(lines)] + lines)


class Shape:
    """Over so many atoms; `pairs` are those of two atoms that the clauses are about."""

    # the first two literals of inner's clauses: not both, or the second where the first is
    sign = -1

    def __init__(self, atoms):
        self.atoms = atoms
        self.pairs = list(self.made_pairs())

    def draws(self, what):
        """Random numbers, which are the same for the same words."""
        return random.Random("%s %s %d" % (self.name, what, self.atoms))

    def made_pairs(self):
        return itertools.combinations(range(self.atoms), 2)

    def clauses(self, family, part):
        if part in ("first", "second"):
            return self.covering(family, part)
        rest = [(-p - 1, self.sign * (q + 1)) for p, q in self.pairs if part != "apart" or p > 1]
        return self.outside() + rest if part == "apart" else rest

    def outside(self):
        """Clauses over the first two atoms that hold in no state of inner."""
        return [(1,), (2,)]

    def covering(self, family, part):
        """Clauses of which each has the first atom: negated in one part, and not in the other. So
        what isn't in the one is in the other. Those of a Horn formula have a pair besides, those of
        a 2CNF formula an atom."""
        first = -1 if part == "first" else 1
        pairs = [(p, q) for p, q in self.pairs if p > 0]
        if family == "h":
            sign = self.sign if first < 0 else -1
            return [(first, -p - 1, sign * (q + 1)) for p, q in pairs]
        return [(first, self.sign * (q + 1)) for p, q in pairs]

    def nodes(self, part):
        """A node list, and the node that is this part."""
        nodes, ends = Nodes(), (0, 1)
        if part == "apart":
            rest = self.within(nodes, 2, ends)
            return nodes, nodes.node(0, 0, nodes.node(1, 0, rest))
        return nodes, self.within(nodes, 0, ends[::-1] if part == "beside" else ends)


class Mutex(Shape):
    """At most one atom holds."""

    name = "mutex"

    def states(self, part):
        more = [0, 1] if part == "apart" else []
        return [more] + [more + [atom] for atom in range(len(more), self.atoms)]

    def within(self, nodes, least, ends):
        none, one = ends[1], ends[1]
        for atom in range(self.atoms - 1, least - 1, -1):
            none, one = nodes.node(atom, none, ends[0]), nodes.node(atom, one, none)
        return one


class Colour(Shape):
    """No two atoms of different colours hold: of an even one and an odd one. The states that are
    listed have eight atoms."""

    name = "colour"

    def made_pairs(self):
        return ((p, q) for p, q in super().made_pairs() if (p ^ q) & 1)

    def states(self, part):
        more, numbers = [0, 1] if part == "apart" else [], self.draws(part)
        for _ in range(min(len(self.pairs), MOST_STATES)):
            alike = range(2 + numbers.randrange(2), self.atoms, 2)
            yield more + sorted(numbers.sample(alike, 8 - len(more)))

    def within(self, nodes, least, ends):
        free, only = ends[1], [ends[1], ends[1]]
        for atom in range(self.atoms - 1, least - 1, -1):
            colour = atom & 1
            free = nodes.node(atom, free, only[colour])
            only[1 - colour] = nodes.node(atom, only[1 - colour], ends[0])
        return free


class Implication(Shape):
    """Where an atom holds, each later one does."""

    name = "implication"
    sign = 1

    def outside(self):
        return [(1,), (-2,)]

    def states(self, part):
        more = [0] if part == "apart" else []
        least = 2 if part == "apart" else 0
        return [more + list(range(atom, self.atoms)) for atom in range(least, self.atoms + 1)]

    def within(self, nodes, least, ends):
        free, holds = ends[1], ends[1]
        for atom in range(self.atoms - 1, least - 1, -1):
            free = nodes.node(atom, free, holds)
            holds = nodes.node(atom, ends[0], holds)
        return free

    def nodes(self, part):
        if part != "apart":
            return super().nodes(part)
        nodes = Nodes()
        rest = self.within(nodes, 2, (0, 1))
        return nodes, nodes.node(0, 0, nodes.node(1, rest, 0))


class Random(Shape):
    """Groups of forty atoms are drawn, and states of eight atoms of a group; the clauses are drawn
    from the pairs that are in no group. Diagrams have a walk for each of some states, which are in
    inner, or have a pair that isn't in a group."""

    name = "random"

    def made_pairs(self):
        draw, atoms = self.draws("pairs").sample, self.atoms
        self.groups = [sorted(draw(range(atoms), 40)) for _ in range(max(1, atoms // 14))]
        together = {pair for group in self.groups for pair in itertools.combinations(group, 2)}
        others = [p for p in super().made_pairs() if p not in together]
        return sorted(draw(others, len(others) // 2))

    def clauses(self, family, part):
        """Where a formula need only be outer, some of its clauses are missing, and some of a Horn
        formula have a third literal. Those that aren't to hold together have a pair of atoms."""
        if part not in ("outer", "apart"):
            return super().clauses(family, part)
        some = self.draws(part).randrange
        drawn = [(-p - 1, -q - 1) for p, q in self.pairs if some(5)]
        if part == "apart":
            p, q = self.pairs[len(self.pairs) // 2]
            mine = {-p - 1, -q - 1}
            return [(p + 1,), (q + 1,)] + [clause for clause in drawn if not mine & set(clause)]
        if family == "h":
            return [clause + (1 + some(self.atoms),) * (some(3) == 0) for clause in drawn]
        return drawn

    def states(self, part):
        count = min(len(self.pairs), MOST_STATES)
        return self.drawn(count, part != "inner")

    def drawn(self, count, has_pair):
        numbers = self.draws("states with a pair" if has_pair else "states of a group")
        draw, choose = numbers.sample, numbers.choice
        for _ in range(count):
            if has_pair:
                yield sorted({*choose(self.pairs), *draw(range(self.atoms), 6)})
            else:
                yield sorted(draw(choose(self.groups), 8))

    def nodes(self, part):
        """Some states, or what isn't one of some states."""
        has_pair = part in ("outer", "apart")
        ends = (0, 1) if part in ("inner", "apart") else (1, 0)
        states = self.drawn(self.atoms // 10, has_pair)
        nodes = Nodes()
        return nodes, any_of(nodes, states, self.atoms, ends)


def any_of(nodes, states, atoms, ends):
    """The node of these states: from it each of them leads to ends[1], and all else to ends[0]."""
    level = {tuple(state): ends[1] for state in states}
    for atom in reversed(range(atoms)):
        children = {}
        for held, node in level.items():
            high = held[-1:] == (atom,)
            pair = children.setdefault(held[:-1] if high else held, [ends[0], ends[0]])
            pair[high] = node
        level = {held: nodes.node(atom, *pair) for held, pair in children.items()}
    return level[()]


SHAPES = (Mutex, Colour, Implication, Random)
