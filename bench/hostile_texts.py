"""Tasks, node files, logs, translators' files and plans that are written to be dear to read, or
small beside what is asked of them. Each function writes its files for a percentage of the largest
size, and gives the size and the jobs: a name, the words, and the exit status and the text that they
have to answer."""
import itertools
import os

import measure
import state_lists


def path(folder, name):
    return os.path.join(folder, name)


def write(folder, name, lines):
    """Writes these lines, and says where."""
    with open(path(folder, name), "w") as file:
        file.writelines(line + "\n" for line in lines)
    return path(folder, name)


def joined(lines):
    return "".join(line + "\n" for line in lines).encode()


def task_lines(names, start, goal, actions):
    """A task; an action has a name, a cost and three lists."""
    yield "begin_atoms:%d" % len(names)
    yield from names
    yield from ("end_atoms", "begin_init", *map(str, start), "end_init")
    yield from ("begin_goal", *map(str, goal), "end_goal", "begin_actions:%d" % len(actions))
    for name, cost, *lists in actions:
        yield from ("begin_action", name, "cost:%d" % cost)
        for form, atoms in zip(("PRE:%d", "ADD:%d", "DEL:%d"), lists):
            yield from (form % atom for atom in atoms)
        yield "end_action"
    yield "end_actions"


def task(folder, atoms, start, goal, actions=()):
    """A task without names of which each action costs nothing."""
    made = [("", 0, *action) for action in actions]
    return write(folder, "task", task_lines([""] * atoms, start, goal, made))


def read_alone(folder, name, more=()):
    """The task is read, and an empty proof."""
    proof = write(folder, "proof", ())
    return [("check", ["check", name, proof, *more], measure.NO_CONCLUSION)]


# task texts


def falling_lists(folder, percent):
    """Actions whose precondition has all atoms, the last first."""
    atoms, count = 65535, max(1, 30 * percent // 100)
    falling = range(atoms - 1, -1, -1)
    name = task(folder, atoms, [0], [1], [(falling, (), ())] * count)
    return atoms * count, read_alone(folder, name)


def two_atoms_often(folder, percent):
    """One action that names two atoms over and over."""
    count = 40000 * percent
    numbers = itertools.chain.from_iterable([(1, 0)] * (count // 2))
    name = task(folder, 2, [0], [1], [(numbers, (), ())])
    return count, read_alone(folder, name)


def empty_actions(folder, percent):
    """Actions without a name and without atoms."""
    count = 10000 * percent
    return count, read_alone(folder, task(folder, 2, [0], [1], [((), (), ())] * count))


# node files


def falling_children(folder, percent):
    """Nodes over one atom, whose children are the nodes over all others, the last first."""
    atoms, count = 3000, 15000 * percent
    below = ["%d 0 1" % atom for atom in range(1, atoms)]
    numbers = range(len(below) + 1, 1, -1)
    pairs = itertools.islice(itertools.permutations(numbers, 2), count)
    nodes = below + ["0 %d %d" % pair for pair in pairs]
    file = write(folder, "nodes", ["nodes %d" % len(nodes)] + nodes)
    return count, read_alone(folder, task(folder, atoms, [0], [1]), ("--nodes", file))


def promised_nodes(folder, percent):
    """A header that promises nodes, of which there is one."""
    count = 16777216 * percent // 100
    file = write(folder, "nodes", ["nodes %d" % count, "0 0 1"])
    words = ["check", task(folder, 1, [0], [0]), write(folder, "proof", ()), "--nodes", file]
    return count, [("check", words, (3, b"nodes line 3: place node\n"))]


# logs


def replayed(folder, name, expanded, pruned, proof):
    """A log is replayed to the known proof."""
    log = path(folder, "log")
    state_lists.write_log(log, expanded, pruned)
    with open(proof, "rb") as file:
        return [("replay", ["replay", name, log], (0, file.read()))]


def empty_states(folder, percent):
    """A log that expands the state without atoms over and over."""
    count, proof = 10000 * percent, path(folder, "proof")
    name = task(folder, 1, [], [0])
    state_lists.write_replay(proof, count, itertools.repeat([], count))
    return count, replayed(folder, name, itertools.repeat([], count), (), proof)


def two_atoms_each(folder, percent):
    """A log that expands many states of two atoms, which no action changes."""
    count, proof = 4800 * percent, path(folder, "proof")
    states = list(itertools.islice(itertools.combinations(range(1000), 2), count))
    name = task(folder, 1001, states[0], [1000])
    state_lists.write_replay(proof, count, states)
    return count, replayed(folder, name, states, (), proof)


def pruned_by_one(folder, percent):
    """Pruned states of up to seven of twenty atoms, all of which the first one's formula holds."""
    count, proof = 650 * percent, path(folder, "proof")
    name = task(folder, 21, [], [20])
    some = (itertools.combinations(range(20), length) for length in range(8))
    states = [tuple(range(20)), *itertools.islice(itertools.chain.from_iterable(some), count - 1)]
    with open(proof, "w") as file:
        lines = state_lists.Proof(file)
        block = horn_block(lines, ["-21 0"])
        union, dead = five_lines(lines, states, block)
        state_lists.end_replay(lines, lines.listed(1, [[]]), union, dead)
    return count, replayed(folder, name, [[]], states, proof)


def horn_block(lines, clauses):
    """The lines that say that a formula is dead: the formula, and the last line."""
    formula = lines.set("h %d %s" % (len(clauses), " ".join(clauses)))
    after, every = lines.set("p %d 0" % formula), lines.set("u %d 0" % formula)
    goals = lines.set("i %d 2" % formula)
    step = lines.know("s %d %d b2" % (after, every))
    return formula, lines.know("d %d pg %d 0 %d" % (formula, step, lines.dead(goals, 0, 0)))


def five_lines(lines, states, block, union=0, dead=0):
    """The lines of each state that is within a dead set: their union, and its line."""
    for state in states:
        one = lines.listed(1, [state])
        inside = lines.know("s %d %d b4" % (one, block[0]))
        shown = lines.know("d %d sd %d %d" % (one, inside, block[1]))
        union = lines.set("u %d %d" % (union, one))
        dead = lines.know("d %d ud %d %d" % (union, dead, shown))
    return union, dead


def block_each(folder, percent):
    """Pruned states of one atom, each with a formula of its own: nothing else is reached."""
    count, proof = 6 * percent, path(folder, "proof")
    atoms = 4 * count
    name = task(folder, atoms, [], [0, 1])
    with open(proof, "w") as file:
        lines, union, dead = state_lists.Proof(file), 0, 0
        for state in range(2, count + 2):
            block = horn_block(lines, ["-%d 0" % (a + 1) for a in range(atoms) if a != state])
            union, dead = five_lines(lines, [[state]], block, union, dead)
        state_lists.end_replay(lines, lines.listed(1, [[]]), union, dead)
    pruned = [[state] for state in range(2, count + 2)]
    return count, replayed(folder, name, [[]], pruned, proof)


# three wishes of which an action grants one and takes another: pairs don't exclude that all are
# granted, and a trap does
WISHES = (((), (0,), (1,)), ((), (1,), (2,)), ((), (2,), (0,)))


def wishes_trap(atoms):
    """The clauses that deny the conjunctions of the greatest trap: all in which a wish isn't
    granted."""
    yield from ("%d 0" % wish for wish in (1, 2, 3))
    for one, two in itertools.combinations(range(1, atoms + 1), 2):
        if one <= 3:
            yield "%d %d 0" % (one, two)
            yield "%d -%d 0" % (one, two)
        if two <= 3:
            yield "-%d %d 0" % (one, two)


def asked_in_vain(folder, percent):
    """Pruned states that a trap's note holds, of which reached atoms and pairs are asked first."""
    atoms, count, proof = 16, 6 * percent, path(folder, "proof")
    name = task(folder, atoms, [0], [0, 1, 2], WISHES * (40 * percent))
    states = [[0] + [atom for atom in range(3, atoms) if number >> atom - 3 & 1]
              for number in range(count)]
    clauses = list(wishes_trap(atoms))
    with open(proof, "w") as file:
        lines = state_lists.Proof(file)
        trap = lines.set("t %d %s" % (len(clauses), " ".join(clauses)))
        outside = lines.set("n %d" % trap)
        before, every = lines.set("r %d 0" % trap), lines.set("u %d 0" % trap)
        goals = lines.set("i %d 2" % outside)
        step = lines.know("s %d %d b3" % (before, every))
        last = lines.know("d %d rg %d 0 %d" % (outside, step, lines.dead(goals, 0, 0)))
        union, dead = five_lines(lines, states, (outside, last))
        state_lists.end_replay(lines, lines.listed(0, []), union, dead)
    return count, replayed(folder, name, (), states, proof)


# producers


def backward_chain(folder, percent):
    """A chain of atoms, each got from the one before by an action, the last action first."""
    atoms = 65535 * percent // 100
    actions = [((atom,), (atom + 1,), ()) for atom in range(atoms - 2, -1, -1)]
    name = task(folder, atoms, [0], [atoms - 1], actions)
    return atoms, [("produce relaxed", ["produce", "relaxed", name], (1, b"no proof\n"))]


def grid_of_pairs(folder, percent):
    """A path through all pairs of a row and a column, with an action a step, the last first."""
    wide = int((400 * percent)**.5)
    cells = [(row, wide + (column if row % 2 == 0 else wide - 1 - column))
             for row in range(wide) for column in range(wide)]
    actions = []
    for before, after in zip(cells, cells[1:]):
        moved = [(b, a) for b, a in zip(before, after) if b != a][0]
        actions.append((before, moved[1:], moved[:1]))
    name = task(folder, 2 * wide, cells[0], cells[-1], actions[::-1])
    return len(actions), [("produce pairs", ["produce", "pairs", name], (1, b"no proof\n"))]


def doomed_conjunctions(folder, percent):
    """A chain of 64 atoms, its actions over and over, by which conjunctions go one by one."""
    count = 80 * percent
    steps = [((atom,), (atom + 1,), ()) for atom in range(63)]
    actions = list(itertools.islice(itertools.cycle(steps), count))
    name = task(folder, 64, [0], range(64), actions)
    return count, [("produce trap", ["produce", "trap", name], (1, b"no proof\n"))]


# translators' files, bounds, plans


def sas_lines(ranges, goal, operators):
    """A translator's file whose variables have their first value; names are empty, and operators
    have facts and effects."""
    yield from ("begin_version", "3", "end_version", "begin_metric", "1", "end_metric")
    yield str(len(ranges))
    for values in ranges:
        yield from ("begin_variable", "", "-1", str(values), *[""] * values, "end_variable")
    yield from ("0", "begin_state", *["0"] * len(ranges), "end_state")
    yield from ("begin_goal", "1", "%d %d" % goal, "end_goal", str(len(operators)))
    for facts, effects in operators:
        yield from ("begin_operator", "", str(len(facts)), *("%d %d" % fact for fact in facts))
        yield from (str(len(effects)), *("0 %d %d %d" % effect for effect in effects))
        yield from ("0", "end_operator")
    yield "0"


def translated(folder, ranges, goal, operators, actions):
    """A translator's file, and the task that is made of it."""
    file = write(folder, "sas", sas_lines(ranges, goal, operators))
    firsts = [0, *itertools.accumulate(ranges)]
    made = [("", 0, *action) for action in actions]
    wanted = task_lines([""] * firsts[-1], firsts[:-1], [firsts[goal[0]] + goal[1]], made)
    return [("sas", ["sas", file], (0, joined(wanted)))]


def empty_operators(folder, percent):
    count = 5000 * percent
    return count, translated(folder, [2], (0, 1), [((), ())] * count, [((), (), ())] * count)


def one_value_each(folder, percent):
    """Variables of one value."""
    count = 65535 * percent // 100
    return count, translated(folder, [1] * count, (0, 0), [], [])


def wide_effects(folder, percent):
    """Operators that set a variable of many values, whatever it has."""
    values, count = 65535, max(1, 20 * percent // 100)
    operators, actions = [((), [(0, -1, values - 1)])], [((), [values - 1], range(values - 1))]
    jobs = translated(folder, [values], (0, 1), operators * count, actions * count)
    return values * count, jobs


def all_variables(folder, percent):
    """Operators with an effect on each variable, the last first."""
    count = 30000 * percent // 100
    effects = [(var, 0, 1) for var in range(count - 1, -1, -1)]
    even, odd = range(0, 2 * count, 2), range(1, 2 * count, 2)
    jobs = translated(folder, [2] * count, (0, 1), [((), effects)] * 8, [(even, odd, even)] * 8)
    return 8 * count, jobs


def wide_bound(folder, percent):
    """An action with many atoms, and a bound: there is a copy of it for each cost that is left."""
    atoms, most = 10000, 2 * percent
    wide = range(1, atoms)
    made = [("a", 1, wide, (0,), ())]
    file = write(folder, "task", task_lines([""] * atoms, [], [0], made))
    names = [""] * atoms + ["left %d" % left for left in range(most + 1)]
    copies = [("0 %d" % left, 1, [*wide, atoms + left], [0, atoms + left - 1], [atoms + left])
              for left in range(1, most + 1)]
    wanted = joined(task_lines(names, [atoms + most], [0], copies))
    return most, [("bound", ["bound", file, str(most)], (0, wanted))]


def empty_plan_lines(folder, percent):
    name = task(folder, 1, [0], [0])
    count = 83886 * percent
    plan = write(folder, "plan", itertools.repeat("", count))
    return count, [("plan", ["plan", name, plan], (0, b"plan cost 0\n"))]


def many_steps(folder, percent):
    """Steps of an action that changes nothing."""
    count = 41943 * percent
    name = task(folder, 1, [0], [0], [((0,), (), ())])
    plan = write(folder, "plan", itertools.repeat("0", count))
    return count, [("plan", ["plan", name, plan], (0, b"plan cost 0\n"))]


def heavy_steps(folder, percent):
    """Steps that exchange 32,767 atoms for as many others."""
    count, half = 400 * percent, 32767
    here, there = range(half), range(half, 2 * half)
    name = task(folder, 2 * half, here, here, [(here, there, here), (there, here, there)])
    plan = write(folder, "plan", (str(n % 2) for n in range(count)))
    return count, [("plan", ["plan", name, plan], (0, b"plan cost 0\n"))]


# explanations


def explained(folder, percent):
    """An accepted proof, and lines that it doesn't need."""
    count = 6000 * percent
    name = task(folder, 2, [0], [1])
    with open(path(folder, "proof"), "w") as file:
        state_lists.end_replay(lines := state_lists.Proof(file), lines.listed(1, [[0]]), 0, 0)
        for _ in range(count):
            lines.know("d 0 ed")
    with open(path(folder, "proof")) as file:
        known = [line[:-1] for line in file if line[0] == "k"]
    marks = ["needed"] * (len(known) - count) + ["spare"] * count
    wanted = joined("%s %s" % both for both in zip(known, marks))
    return count, [("explain", ["explain", name, path(folder, "proof")], (0, wanted))]
