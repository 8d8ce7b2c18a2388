"""Proofs that are written to be dear to check: long lines, many small lines, and statements that
ask for much. Each function writes its files for a percentage of the largest size, and gives the
size and the jobs."""
import itertools
import random

import measure
import shapes
import state_lists
from hostile_texts import path, task, write

MOST_BUDGET = ("--budget", "16777216")


def checked(folder, name, lines, wanted=measure.NO_CONCLUSION, more=()):
    """A proof is checked, of which nothing is concluded."""
    words = ["check", name, write(folder, "proof", lines), *more]
    return [("check", words, wanted)]


class Lines:
    """Lines of a proof, each with the next identifier of its letter."""

    def __init__(self, acts=("a",)):
        self.text, self.counts = [], {"a": 0, "e": 0, "k": 0}
        for words in acts:
            self.put("a", words)

    def put(self, letter, words):
        self.text.append("%s %d %s" % (letter, self.counts[letter], words))
        self.counts[letter] += 1
        return self.counts[letter] - 1

    def set(self, words, *numbers):
        return self.put("e", words % numbers)

    def know(self, words, *numbers):
        return self.put("k", words % numbers)

    def fold(self, letter, sets):
        """The union (u) or intersection (i) of these sets, one after the other."""
        last = sets[0]
        for one in sets[1:]:
            last = self.set(letter + " %d %d", last, one)
        return last


# long lines


def long_line(words, item, each, end=""):
    """A line that begins with these words and has one item over and over, `each` of a percent; of
    the words, `%d` is how many."""
    def row(folder, percent):
        count = each * percent
        line = (words % count if "%" in words else words) + item * count + end
        return count, checked(folder, task(folder, 9, [0], [8]), [line])
    return row


def many_fields(folder, percent):
    """A line of fields that isn't in the grammar."""
    count = 80000 * percent
    wanted = (1, b"line 1: grammar\n")
    return count, checked(folder, task(folder, 9, [0], [8]), ["a 0 a" + " 1" * count], wanted)


def one_clause(letter, sign):
    """One clause of all atoms, the last first, over and over; it is within itself."""
    def row(folder, percent):
        atoms, count = 65535, 24000 * percent
        falling = itertools.cycle(range(atoms, 0, -1))
        literals = " ".join(sign + str(next(falling)) for _ in range(count))
        lines = ["e 0 %s 1 %s 0" % (letter, literals), "k 0 s 0 0 b1"]
        return count, checked(folder, task(folder, atoms, [0], [1]), lines)
    return row


def two_literals(folder, percent):
    """Clauses of two literals over all atoms, the last first."""
    atoms, count = 65535, 12000 * percent
    pairs = ("%d -%d 0" % (atoms - n % atoms, n % 977 + 1) for n in range(count))
    line = "e 0 t %d %s" % (count, " ".join(pairs))
    name = task(folder, atoms, [0], [1])
    return count, checked(folder, name, [line, "k 0 s 0 0 b1"], more=MOST_BUDGET)


def falling_states(folder, percent):
    """States of one atom or two, which fall; the list is within itself."""
    count = 12000 * percent
    falling = itertools.islice(itertools.combinations(range(65534, -1, -1), 2), count)
    line = "e 0 x %d %s" % (count, " ".join("%d %d ;" % (low, high) for high, low in falling))
    name = task(folder, 65535, [0], [1])
    return count, checked(folder, name, [line, "k 0 s 0 0 b1"], more=MOST_BUDGET)


def every_action(folder, percent):
    """An action set that lists all actions, and one more."""
    count = 10000 * percent
    name = task(folder, 2, [0], [1], [((), (), ())] * count)
    line = "%d %s" % (count, " ".join(map(str, range(count))))
    return count, checked(folder, name, ["a 0 b " + line, "a 1 b " + line, "k 0 a 0 1 b5"])


# many small lines


def small_lines(words, letter="e", each=3000, first=()):
    """A line of these words over and over, behind the first ones."""
    def row(folder, percent):
        count = each * percent
        lines = Lines()
        for one in first:
            lines.set(one)
        for _ in range(count):
            lines.put(letter, words)
        return count, checked(folder, task(folder, 9, [0], [8]), lines.text)
    return row


def comments(folder, percent):
    count = 80000 * percent
    lines = itertools.repeat("#", count)
    return count, checked(folder, task(folder, 9, [0], [8]), lines)


def small_sets(kind):
    """A set of one clause or one state over 65,535 atoms, and a second; is the one in the other?"""
    def row(folder, percent):
        count, lines = 20 * percent, Lines()
        for atom in range(count):
            one, other = (lines.set(kind % (atom + 1)) for _ in range(2))
            lines.know("s %d %d b1", one, other)
        return count, checked(folder, task(folder, 65535, [0], [1]), lines.text)
    return row


def far_premises(folder, percent):
    """Lines whose premises stand anywhere before."""
    count, numbers, lines = 5000 * percent, random.Random(1), Lines()
    empty = lines.set("c e")
    lines.set("u %d %d", empty, empty)
    for _ in range(count):
        lines.know("d 0 ed")
    for _ in range(count):
        lines.know("d 1 ud %d %d", numbers.randrange(count), numbers.randrange(count))
    return 2 * count, checked(folder, task(folder, 9, [0], [8]), lines.text)


# unions and intersections


def falling_union(kind, negation=False):
    """A union that grows by a set with a lesser identifier, or once by a negation, and each time
    the set is within it."""
    def row(folder, percent):
        count, lines = 20 * percent, Lines()
        parts = [lines.set(kind % (n % 20 + 1)) for n in range(count)]
        union = lines.set("n %d", lines.set(kind % 1)) if negation else parts[-1]
        for part in parts if negation else parts[-2::-1]:
            union = lines.set("u %d %d", union, part)
            lines.know("s %d %d b1", part, union)
        return count, checked(folder, task(folder, 21, [0], [1]), lines.text)
    return row


def negated_union(folder, percent):
    """A union that grows by negations, and a set that is within the first of them."""
    count, lines = 400 * percent, Lines()
    parts = [lines.set("h 1 -%d 0" % (n % 20 + 1)) for n in range(count)]
    left, union = lines.set("h 1 1 0"), lines.set("n %d", parts[0])
    for part in parts[1:]:
        union = lines.set("u %d %d", union, lines.set("n %d", part))
        lines.know("s %d %d b1", left, union)
    return count, checked(folder, task(folder, 21, [0], [1]), lines.text)


def growing_left(folder, percent):
    """An intersection that grows, and is within each of its parts."""
    count, lines = 5 * percent, Lines()
    parts = [lines.set("h 1 -%d 0", n + 1) for n in range(count)]
    left = parts[0]
    for part in parts[1:]:
        left = lines.set("i %d %d", left, part)
        lines.know("s %d %d b1", left, part)
    return count, checked(folder, task(folder, count, [0], [1]), lines.text)


def wide_left(letter, sign):
    """An intersection of sets of one literal each, within one of them."""
    def row(folder, percent):
        count, lines = 40 * percent, Lines()
        parts = [lines.set("%s 1 %s%%d 0" % (letter, sign), n + 1) for n in range(count)]
        lines.know("s %d %d b1", lines.fold("i", parts), parts[0])
        return count, checked(folder, task(folder, count, [0], [1]), lines.text)
    return row


def by_turns(kind, letter, atoms=99, each=320):
    """Two unions (u) or intersections (i) of many sets, asked about by turns with the first set."""
    def row(folder, percent):
        count, asked = each * percent, max(1, percent)
        lines = Lines()
        parts = [lines.set(kind % (n % (atoms - 1) + 1)) for n in range(count)]
        two = lines.fold(letter, parts), lines.fold(letter, parts[::-1])
        for turn in range(2 * asked):
            both = (parts[0], two[turn % 2])
            lines.know("s %d %d b1", *(both if letter == "u" else both[::-1]))
        return count, checked(folder, task(folder, atoms, [0], [1]), lines.text)
    return row


def deep_shared(letter):
    """A set that is made of itself over and over, two of them, asked about by turns."""
    def row(folder, percent):
        depth, asked = 320 * percent, max(1, percent)
        lines = Lines()
        two = []
        for atom in (1, 2):
            last = lines.set("h 1 -%d 0", atom)
            first = last
            for _ in range(depth):
                last = lines.set("%s %%d %%d" % letter, last, last)
            two.append((first, last))
        for turn in range(2 * asked):
            first, last = two[turn % 2]
            lines.know("s %d %d b1", *((first, last) if letter == "u" else (last, first)))
        return depth, checked(folder, task(folder, 9, [0], [8]), lines.text)
    return row


# actions


def ring(atoms, count):
    return [((n % atoms,), ((7 * n + 1) % atoms,), ()) for n in range(count)]


def single_actions(folder, percent):
    """Action sets of one action, each asked about."""
    count, lines = 160 * percent, Lines(())
    formula = lines.set("h 1 -1000 0")
    for action in range(count):
        lines.put("a", "b 1 %d" % action)
        after = lines.set("p %d %d", formula, action)
        lines.know("s %d %d b2", after, formula)
    name = task(folder, 1000, [0], [999], ring(999, count))
    return count, checked(folder, name, lines.text)


def unions_of_actions(folder, percent):
    """A union of action sets that grows, each within the next."""
    count, lines = 160 * percent, Lines(())
    union = lines.put("a", "b 1 0")
    for action in range(1, count):
        one = lines.put("a", "b 1 %d" % action)
        more = lines.put("a", "u %d %d" % (union, one))
        lines.know("a %d %d b5", union, more)
        union = more
    return count, checked(folder, task(folder, 999, [0], [1], ring(999, count)), lines.text)


def untouched(letter, word):
    """Formulas of an atom that no action changes, each asked about with all actions, forwards or
    backwards."""
    def row(folder, percent):
        count, sets, lines = 2500 * percent, max(1, percent // 4), Lines()
        for atom in range(sets):
            formula = lines.set("h 1 -%d 0", 901 + atom)
            lines.know("s %d %d " + word, lines.set(letter + " %d 0", formula), formula)
        return count, checked(folder, task(folder, 1000, [0], [1], ring(900, count)), lines.text)
    return row


def states_and_actions(folder, percent):
    """Lists of one state over 65,535 atoms, each with an action that is applicable there, and each
    asked about with all actions."""
    count, lines = 80 * percent, Lines()
    for atom in range(count):
        one = lines.set("x 1 %d ;", atom)
        lines.know("s %d %d b2", lines.set("p %d 0", one), one)
    actions = [((atom,), (atom,), ()) for atom in range(count)]
    return count, checked(folder, task(folder, 65535, [0], [1], actions), lines.text)


def all_but_the_last(count):
    """The words of a list of these actions but the last one."""
    return "b %d %s" % (count - 1, " ".join(map(str, range(count - 1))))


def untouched_list(folder, percent):
    """Formulas of an atom that no action changes, each asked about with a list of actions."""
    count, sets = 20000, max(1, percent // 2)
    lines = Lines([all_but_the_last(count)])
    for atom in range(sets):
        formula = lines.set("h 1 -%d 0", 901 + atom)
        lines.know("s %d %d b2", lines.set("p %d 0", formula), formula)
    name = task(folder, 1200, [0], [1], ring(900, count))
    return sets * (count - 1), checked(folder, name, lines.text)


def two_sets_before(each, listed=False):
    """Two formulas before the actions, which have as many clauses as there are actions: before all
    of them, or before a list of them."""
    def row(folder, percent):
        count = each * percent
        lines = Lines([all_but_the_last(count) if listed else "a"])
        atoms = 2 * count + 100
        formulas = []
        for step in (1, 2):
            pairs = ["-%d -%d 0" % (n + 1, count + (n * step) % count + 1) for n in range(count)]
            formulas.append(lines.set("h %d " % count + " ".join(pairs)))
        both = lines.set("i %d %d", *formulas)
        lines.know("s %d %d b2", lines.set("p %d 0", both), formulas[0])
        last = [((atoms - 1 - n % 50,), (atoms - 1 - (n + 1) % 50,), ()) for n in range(count)]
        return count, checked(folder, task(folder, atoms, [0], [1], last), lines.text)
    return row


def pairs_apart(lines, count, step):
    """A formula of so many clauses: of two atoms in each, one is false."""
    pairs = ["-%d -%d 0" % (n + 1, count + (n + step) % count + 1) for n in range(count)]
    return lines.set("h %d " % count + " ".join(pairs))


def chain_before(folder, percent):
    """A chain of formulas before two actions, which forces an atom, and a formula after them."""
    count, lines = 200 * percent, Lines()
    chain = [lines.set("h 1 1 0")]
    chain += [lines.set("h 1 -%d %d 0", n, n + 1) for n in range(1, count)]
    before = lines.set("p %d 0", lines.fold("i", chain))
    both = lines.set("i %d %d", before, lines.set("h 1 -%d 0", count + 5))
    lines.know("s %d %d b2", both, lines.set("h 1 %d 0", count))
    two = [((), (count + 1,), (count + 2,))] * 2
    return count, checked(folder, task(folder, count + 10, [0], [1], two), lines.text)


def refuted_list(folder, percent):
    """A clause that each action's precondition makes false, beside a formula of many clauses, and
    one of as many after the actions."""
    size, count = 40 * percent, 1600 * percent
    lines, first = Lines([all_but_the_last(count)]), 2 * size + 1
    small = lines.set("h 1 -%d -%d 0", first + 1, first + 2)
    before = lines.set("p %d 0", lines.set("i %d %d", small, pairs_apart(lines, size, 0)))
    both = lines.set("i %d %d", before, pairs_apart(lines, size, 1))
    lines.know("s %d %d b2", both, lines.set("h 1 -%d 0", 2 * size + 10))
    actions = [((first, first + 1), (first + 2 + n % 5,), ()) for n in range(count)]
    return count, checked(folder, task(folder, 2 * size + 20, [0], [1], actions), lines.text)


def refuted_lists_of_three(folder, percent):
    """The same clause beside two formulas of many clauses, all before three actions, which many
    statements are about."""
    size, count = 40 * percent, 200 * percent
    lines, first = Lines(["b 3 0 1 2"]), 2 * size + 1
    sets = [lines.set("h 1 -%d -%d 0", first + 1, first + 2)]
    sets += [pairs_apart(lines, size, step) for step in (0, 1)]
    before = lines.set("p %d 0", lines.fold("i", sets))
    rights = [lines.set("h 1 -%d 0", 2 * size + end) for end in (10, 11)]
    for number in range(count):
        lines.know("s %d %d b2", before, rights[number % 2])
    actions = [((first, first + 1), (first + 2 + n,), ()) for n in range(3)] + [((), (0,), ())] * 3
    return count, checked(folder, task(folder, 2 * size + 20, [0], [1], actions), lines.text)


def lists_of_three(folder, percent):
    """A formula of many clauses before three actions, and one clause after them, which many
    statements are about."""
    size, count = 40 * percent, 400 * percent
    lines = Lines(["b 3 0 1 2"])
    before = lines.set("p %d 0", pairs_apart(lines, size, 0))
    both = lines.set("i %d %d", before, lines.set("h 1 -%d 0", 2 * size + 1))
    rights = [lines.set("h 1 -%d -%d 0", 2 * size + 1, 2 * size + end) for end in (10, 11)]
    for number in range(count):
        lines.know("s %d %d b2", both, rights[number % 2])
    actions = [((), (2 * size + 3 + n,), ()) for n in range(3)] + [((), (0,), ())] * 3
    return count, checked(folder, task(folder, 2 * size + 20, [0], [1], actions), lines.text)


def start_before(folder, percent):
    """The initial state before the actions, and a formula."""
    atoms, lines = 80 * percent, Lines()
    start, formula = lines.set("c i"), lines.set("h 1 -%d 0", atoms)
    both = lines.set("i %d %d", start, formula)
    lines.know("s %d %d b2", lines.set("p %d 0", both), formula)
    actions = [((atom,), (atom + 1,), ()) for atom in range(atoms - 2)]
    return atoms, checked(folder, task(folder, atoms, [0], [1], actions), lines.text)


def last_literal(letter):
    """A clause that is true by its last literal, and actions that touch this and another one:
    negative literals of a Horn clause, or positive ones of a dual Horn clause."""
    def row(folder, percent):
        atoms, count, lines = 320 * percent, 50 * percent, Lines()
        sign = "-" if letter == "h" else ""
        literals = " ".join(sign + str(n + 1) for n in [*range(atoms), atoms + 5])
        formula = lines.set(letter + " 1 " + literals + " 0")
        lines.know("s %d %d b2", lines.set("p %d 0", formula), formula)
        both = [((n % 1000,), (atoms + 5,)) for n in range(count)]
        actions = [((), *two) if letter == "h" else ((), *two[::-1]) for two in both]
        return count, checked(folder, task(folder, atoms + 10, [0], [1], actions), lines.text)
    return row


def long_ways(folder, percent):
    """A chain of implications, on which each action begins somewhere."""
    atoms, lines = 40 * percent, Lines()
    chain = ["-%d %d 0" % (n, n + 1) for n in range(1, atoms)]
    formula = lines.set("h %d " % len(chain) + " ".join(chain))
    last = lines.set("h 1 %d 0", atoms)
    lines.know("s %d %d b2", lines.set("p %d 0", formula), last)
    actions = [((n * 7919 % atoms,), (), (n * 31 % (atoms - 1),)) for n in range(atoms)]
    return atoms, checked(folder, task(folder, atoms, [0], [1], actions), lines.text)


# single formulas


def falling_chain(letter):
    """Implications, the last first, by which the first atom gives the last one."""
    def row(folder, percent):
        atoms, lines = 650 * percent, Lines()
        chain = ["-%d %d 0" % (n, n + 1) for n in range(atoms - 1, 0, -1)] + ["1 0"]
        formula = lines.set("%s %d " % (letter, atoms) + " ".join(chain))
        lines.know("s %d %d b1", formula, lines.set("%s 1 %%d 0" % letter, atoms))
        return atoms, checked(folder, task(folder, atoms, [0], [1]), lines.text)
    return row


def late_refusals(folder, percent):
    """Clauses of two literals by which each atom of the one half has to be true, which shows at the
    end of a chain of the other half."""
    half, lines = 20 * percent, Lines()
    clauses = ["%d %d 0" % (n, half + 1) for n in range(1, half + 1)]
    clauses += ["-%d %d 0" % (half + n, half + n + 1) for n in range(1, half)]
    clauses += ["-%d -%d 0" % (2 * half, half + 1)]
    clauses += ["%d %d 0" % (one, two) for one in (2 * half + 1, -2 * half - 1)
                for two in (2 * half + 2, -2 * half - 2)]
    formula = lines.set("t %d " % len(clauses) + " ".join(clauses))
    lines.know("s %d %d b1", formula, lines.set("c e"))
    return half, checked(folder, task(folder, 2 * half + 2, [0], [1]), lines.text)


def choices(folder, percent):
    """A union of formulas of two clauses, and two of three of which no two choices agree: all
    choices are gone through."""
    sets, lines = 10 + (percent > 50) * 6, Lines()
    parts = [lines.set("h 2 -%d 0 -%d 0", 2 * n + 1, 2 * n + 2) for n in range(sets)]
    parts += [lines.set("h 3 -%d 0 -%d 0 -%d 0", *range(80 + 3 * n, 83 + 3 * n)) for n in range(2)]
    pairs = ["-%d -%d 0" % (one, two) for one in range(80, 83) for two in range(83, 86)]
    left = lines.set("h 9 " + " ".join(pairs))
    lines.know("s %d %d b1", left, lines.fold("u", parts))
    return 9 * 2 ** sets, checked(folder, task(folder, 100, [0], [1]), lines.text)


# diagrams


def with_nodes(folder, atoms, nodes, lines, actions=()):
    file = path(folder, "nodes")
    with open(file, "w") as text:
        text.write(nodes.text())
    more = ("--nodes", file, *MOST_BUDGET)
    return checked(folder, task(folder, atoms, [0], [1], actions), lines.text, more=more)


def remainder(nodes, atoms, modulus, weight=1, factor=0):
    """The states whose atoms, by weights that differ where there is a factor, are 0 modulo a
    number."""
    below = [int(rest == 0) for rest in range(modulus)]
    for atom in reversed(atoms):
        turn = (weight + atom * factor % 31) % modulus
        more = below[turn:] + below[:turn]
        below = [nodes.node(atom, low, high) for low, high in zip(below, more)]
    return below[0]


def many_tuples(folder, percent):
    """Sums of two kinds, each modulo a number, and a divisor of the first one: as many tuples as
    atoms times both numbers."""
    modulus, atoms, lines = 10 * int(percent**.5), 100, Lines()
    nodes, sums = shapes.Nodes(), ((modulus, 1, 7), (modulus - 1, 2, 11), (modulus // 2, 1, 7))
    roots = [remainder(nodes, range(atoms), *each) for each in sums]
    one, two, more = (lines.set("b %d", root) for root in roots)
    lines.know("s %d %d b1", lines.set("i %d %d", one, two), more)
    return modulus * (modulus - 1) * atoms, with_nodes(folder, atoms, nodes, lines)


def many_operands(folder, percent):
    """A union of a node for each atom: each tuple is as wide as there are atoms."""
    count, lines = 10 * percent, Lines()
    nodes = shapes.Nodes()
    parts = [lines.set("b %d", nodes.node(atom, 0, 1)) for atom in range(count)]
    lines.know("s %d %d b1", parts[0], lines.fold("u", parts))
    return count, with_nodes(folder, count, nodes, lines)


def around_a_diagram(folder, percent):
    """A diagram, and actions that touch none of its atoms."""
    count, lines, nodes = 400 * percent, Lines(), shapes.Nodes()
    one = lines.set("b %d", remainder(nodes, range(40), 7))
    lines.know("s %d %d b2", lines.set("p %d 0", one), one)
    actions = [((100 + n % 89,), (200 + n % 97,), ()) for n in range(count)]
    return count, with_nodes(folder, 300, nodes, lines, actions)


def many_paths(folder, percent):
    """A parity of atoms has two to the power of their number paths; listed states are in it."""
    atoms, lines, nodes = 100 * percent, Lines(), shapes.Nodes()
    one = lines.set("b %d", remainder(nodes, range(atoms), 2))
    states = lines.set("x 3 ; %d %d ; 0 %d ;", atoms - 2, atoms - 1, atoms - 1)
    lines.know("s %d %d b4", states, one)
    return atoms, with_nodes(folder, atoms, nodes, lines)


# two families


def shared_literals(folder, percent):
    """Clauses that all have the same two literals, in which two families clash."""
    count, lines, atoms = 250 * percent, Lines(), 60000
    horn = ["-%d -59998 -59999 0" % (n % 59000 + 1) for n in range(count)]
    two = ["%d %d 0" % (59998 + n % 2, n % 59000 + 1) for n in range(count)]
    one = lines.set("h %d " % count + " ".join(horn))
    other = lines.set("t %d " % count + " ".join(two))
    lines.know("s %d %d b4", lines.set("n %d", one), other)
    return count, checked(folder, task(folder, atoms, [0], [1]), lines.text)


def states_in_clauses(folder, percent):
    """Listed states, and clauses that are all true by one atom."""
    count, lines, atoms = 500 * percent, Lines(), 60000
    clauses = ["%d 59000 0" % (n % 58000 + 1) for n in range(count)]
    formula = lines.set("d %d " % count + " ".join(clauses))
    states = ["%d 58999 ;" % (n * 7919 % 58000) for n in range(count // 20)]
    listed = lines.set("x %d " % len(states) + " ".join(states))
    lines.know("s %d %d b4", listed, formula)
    return count, checked(folder, task(folder, atoms, [0], [1]), lines.text)


# listed states


def one_code(apart):
    """States that all have one code, in a list and its own successors; or, apart, none do."""
    def row(folder, percent):
        actions, start, states = state_lists.meeting(percent, apart)
        name, file = path(folder, "task"), path(folder, "proof")
        state_lists.write_task(name, 65535, start, [65534], actions)
        state_lists.write_lists(file, [(len(states), states)])
        return len(states), [("check", ["check", name, file], measure.UNSOLVABLE)]
    return row


def one_slot(folder, percent):
    """States that meet in slots, each looked up in another list of the same."""
    count, lines = 400 * percent, Lines()
    states = [" ".join(map(str, state)) + " ;" for state in state_lists.meeting_in_slots(count)]
    one = lines.set("x %d " % count + " ".join(states))
    other = lines.set("x %d " % count + " ".join(reversed(states)))
    lines.know("s %d %d b1", one, other)
    return count, checked(folder, task(folder, 64, [0], [1]), lines.text)
