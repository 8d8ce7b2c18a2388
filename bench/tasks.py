"""Tasks with names and costs: their text, what a text stands for, tasks of a bounded cost, and
plans. Names are bytes; lists of atoms rise.
"""
import collections
import heapq

Action = collections.namedtuple("Action", "name cost pre add delete")
Task = collections.namedtuple("Task", "names start goal actions")

MOST_ATOMS = 65535
MOST_ACTIONS = 1000000


def lines_of(task):
    """The lines of the canonical text."""
    yield b"begin_atoms:%d" % len(task.names)
    yield from task.names
    yield from (b"end_atoms", b"begin_init")
    yield from (b"%d" % atom for atom in task.start)
    yield from (b"end_init", b"begin_goal")
    yield from (b"%d" % atom for atom in task.goal)
    yield from (b"end_goal", b"begin_actions:%d" % len(task.actions))
    for action in task.actions:
        yield from (b"begin_action", action.name, b"cost:%d" % action.cost)
        yield from (b"PRE:%d" % atom for atom in action.pre)
        yield from (b"ADD:%d" % atom for atom in action.add)
        yield from (b"DEL:%d" % atom for atom in action.delete)
        yield b"end_action"
    yield b"end_actions"


def text_of(task):
    """The canonical text."""
    return b"".join(line + b"\n" for line in lines_of(task))


def cut_lines(text):
    """The lines of a text; an LF at its end begins no further line."""
    lines = text.split(b"\n")
    return lines[:-1] if lines[-1] == b"" else lines


def read(text):
    """The task that a text stands for, which has to be one."""
    lines = iter(cut_lines(text))
    names = [next(lines) for _ in range(number_behind(next(lines)))]
    expect(lines, b"end_atoms", b"begin_init")
    start = numbers_up_to(lines, b"end_init")
    expect(lines, b"begin_goal")
    goal = numbers_up_to(lines, b"end_goal")
    actions = [read_action(lines) for _ in range(number_behind(next(lines)))]
    expect(lines, b"end_actions")
    return Task(names, start, goal, actions)


def read_action(lines):
    expect(lines, b"begin_action")
    name, cost = next(lines), number_behind(next(lines))
    lists = {b"PRE": [], b"ADD": [], b"DEL": []}
    for line in iter(lambda: next(lines), b"end_action"):
        lists[line[:3]].append(number_behind(line))
    return Action(name, cost, *(sorted(set(atoms)) for atoms in lists.values()))


def expect(lines, *words):
    for word in words:
        line = next(lines)
        if line != word:
            raise ValueError("%r, not %r" % (line, word))


def number_behind(line):
    return int(line.split(b":")[1])


def numbers_up_to(lines, end):
    return sorted({int(line) for line in iter(lambda: next(lines), end)})


# plans; a state is a set of atoms


def after(state, action):
    return state - frozenset(action.delete) | frozenset(action.add)


def is_applicable(state, action):
    return state.issuperset(action.pre)


def answer(task, steps):
    """What is said of this list of action numbers, and the status."""
    state, cost = frozenset(task.start), 0
    for place, step in enumerate(steps, 1):
        if step >= len(task.actions):
            return "step %d: unknown" % place, 1
        if not is_applicable(state, task.actions[step]):
            return "step %d: not applicable" % place, 1
        state = after(state, task.actions[step])
        cost += task.actions[step].cost
    return ("plan cost %d" % cost, 0) if state.issuperset(task.goal) else ("no goal", 1)


def ways(task):
    """All states that are reached, each with a list of actions that leads to it."""
    start = frozenset(task.start)
    found, waiting = {start: []}, [start]
    for state in waiting:
        for number, action in enumerate(task.actions):
            if is_applicable(state, action):
                other = after(state, action)
                if other not in found:
                    found[other] = found[state] + [number]
                    waiting.append(other)
    return found


def cheapest(task):
    """A plan of least cost, with its cost, or nothing: all states are gone through."""
    start = frozenset(task.start)
    costs, waiting, count = {start: 0}, [(0, 0, start, None)], 0
    done = set()
    while waiting:
        cost, _, state, way = heapq.heappop(waiting)
        if state in done:
            continue
        done.add(state)
        if state.issuperset(task.goal):
            return cost, steps_of(way)
        for number, action in enumerate(task.actions):
            if is_applicable(state, action):
                found, sum_of = after(state, action), cost + action.cost
                if sum_of < costs.get(found, sum_of + 1):
                    costs[found] = sum_of
                    count += 1
                    heapq.heappush(waiting, (sum_of, count, found, (way, number)))
    return None


def steps_of(way):
    steps = []
    while way is not None:
        way, number = way
        steps.append(number)
    return steps[::-1]


# bounded costs


def bounded(task, most):
    """The task that has a plan exactly where this one has one of cost at most so much; nothing
    where it would be too large."""
    first = len(task.names)
    copies = sum(copy_count(action.cost, most) for action in task.actions)
    if first + most + 1 > MOST_ATOMS or copies > MOST_ACTIONS:
        return None
    names = task.names + [b"left %d" % left for left in range(most + 1)]
    actions = []
    for number, action in enumerate(task.actions):
        if action.cost == 0:
            actions.append(action._replace(name=b"%d" % number))
        for left in range(action.cost, most + 1) if action.cost else ():
            actions.append(Action(
                b"%d %d" % (number, left), action.cost, action.pre + [first + left],
                action.add + [first + left - action.cost], action.delete + [first + left]))
    return Task(names, task.start + [first + most], task.goal, actions)


def copy_count(cost, most):
    return 1 if cost == 0 else max(0, most + 1 - cost)
