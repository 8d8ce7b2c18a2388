"""Tasks over finite-domain variables, as a translator writes them: their text, the made task, and
plans. Names are bytes, a fact is a pair of a variable and a value, an effect a variable, the value
before or None, and the value after.
"""
import collections

import tasks

Variable = collections.namedtuple("Variable", "name values")
Operator = collections.namedtuple("Operator", "name prevail effects cost")
Sas = collections.namedtuple("Sas", "metric variables mutexes start goal operators")

MOST_VALUES = 65535
MOST_OPERATORS = 1000000


def lines_of(sas):
    yield from (b"begin_version", b"3", b"end_version")
    yield from (b"begin_metric", b"%d" % sas.metric, b"end_metric", b"%d" % len(sas.variables))
    for variable in sas.variables:
        yield from (b"begin_variable", variable.name, b"-1", b"%d" % len(variable.values))
        yield from variable.values
        yield b"end_variable"
    yield b"%d" % len(sas.mutexes)
    for group in sas.mutexes:
        yield b"begin_mutex_group"
        yield from fact_lines(group)
        yield b"end_mutex_group"
    yield b"begin_state"
    yield from (b"%d" % value for value in sas.start)
    yield from (b"end_state", b"begin_goal")
    yield from fact_lines(sas.goal)
    yield from (b"end_goal", b"%d" % len(sas.operators))
    for operator in sas.operators:
        yield from (b"begin_operator", operator.name)
        yield from fact_lines(operator.prevail)
        yield b"%d" % len(operator.effects)
        for variable, before, value in operator.effects:
            yield b"0 %d %d %d" % (variable, -1 if before is None else before, value)
        yield from (b"%d" % operator.cost, b"end_operator")
    yield b"0"


def fact_lines(facts):
    yield b"%d" % len(facts)
    yield from (b"%d %d" % fact for fact in facts)


def text_of(sas):
    return b"".join(line + b"\n" for line in lines_of(sas))


# the made task


def firsts_of(sas):
    """The first atom of each variable."""
    firsts, atoms = [], 0
    for variable in sas.variables:
        firsts.append(atoms)
        atoms += len(variable.values)
    return firsts


def made(sas):
    """The task that the program makes of it."""
    firsts = firsts_of(sas)

    def atoms_of(facts):
        return sorted({firsts[variable] + value for variable, value in facts})

    def action_of(operator):
        before = [(variable, value) for variable, value, _ in operator.effects if value is not None]
        gone = list(before)
        for variable, value, following in operator.effects:
            if value is None:
                others = range(len(sas.variables[variable].values))
                gone += [(variable, other) for other in others if other != following]
        added = [(variable, following) for variable, _, following in operator.effects]
        cost = operator.cost if sas.metric else 1
        lists = (operator.prevail + before, added, gone)
        return tasks.Action(operator.name, cost, *map(atoms_of, lists))

    names = [value for variable in sas.variables for value in variable.values]
    start = atoms_of(enumerate(sas.start))
    return tasks.Task(names, start, atoms_of(sas.goal), [action_of(o) for o in sas.operators])


# plans; a state is a value for each variable


def is_applicable(state, operator):
    return all(state[variable] == value for variable, value in operator.prevail) and all(
        before in (None, state[variable]) for variable, before, _ in operator.effects)


def result(state, operator):
    values = list(state)
    for variable, _, value in operator.effects:
        values[variable] = value
    return tuple(values)


def is_goal(sas, state):
    return all(state[variable] == value for variable, value in sas.goal)


def solves(sas, steps):
    """Whether these operators, one after the other, lead from the start to the goal."""
    state = tuple(sas.start)
    for step in steps:
        if step >= len(sas.operators) or not is_applicable(state, sas.operators[step]):
            return False
        state = result(state, sas.operators[step])
    return is_goal(sas, state)


def ways(sas):
    """All states that are reached, each with a list of operators that leads to it."""
    start = tuple(sas.start)
    found, waiting = {start: []}, [start]
    for state in waiting:
        for number, operator in enumerate(sas.operators):
            if is_applicable(state, operator):
                other = result(state, operator)
                if other not in found:
                    found[other] = found[state] + [number]
                    waiting.append(other)
    return found
