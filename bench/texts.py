"""Texts of tasks and proofs that the benchmarks are made of."""
import random

PRELUDE = "a 0 a\ne 0 c e\ne 1 c i\ne 2 c g\nk 0 d 0 ed\n"
NO_WAY_OUT = ("e 4 p 3 0\ne 5 u 3 0\ne 6 i 3 2\n"
              "k 1 s 4 5 b2\nk 2 s 6 0 b1\nk 3 d 6 sd 2 0\nk 4 d 3 pg 1 0 3\n")
CONCLUSION = "k 5 s 1 3 b1\nk 6 d 1 sd 5 4\nk 7 u ci 6\n"
NO_WAY_IN = "e 4 r 3 0\ne 5 u 3 0\ne 6 n 3\nk 1 s 4 5 b3\nk 2 s 1 6 b1\nk 3 d 3 ri 1 0 2\n"
BACKWARDS = NO_WAY_IN + "k 4 s 2 3 b1\nk 5 d 2 sd 4 3\nk 6 u cg 5\n"
TRAP_CLOSED = ("e 4 n 3\ne 5 r 3 0\ne 6 u 3 0\ne 7 i 4 2\n"
               "k 1 s 5 6 b3\nk 2 s 7 0 b1\nk 3 d 7 sd 2 0\nk 4 d 4 rg 1 0 3\n")
TRAP_CONCLUSION = "k 5 s 1 4 b1\nk 6 d 1 sd 5 4\nk 7 u ci 6\n"


def task_text(atoms, start, goal, actions):
    """A task; an action has a precondition, an add list and a delete list."""
    lines = ["begin_atoms:%d" % atoms]
    lines += ["atom_%d" % atom for atom in range(atoms)]
    lines += ["end_atoms", "begin_init"] + [str(atom) for atom in start]
    lines += ["end_init", "begin_goal"] + [str(atom) for atom in goal]
    lines += ["end_goal", "begin_actions:%d" % len(actions)]
    for number, (pre, add, delete) in enumerate(actions):
        lines += ["begin_action", "action_%d" % number, "cost:1"]
        lines += ["PRE:%d" % atom for atom in pre] + ["ADD:%d" % atom for atom in add]
        lines += ["DEL:%d" % atom for atom in delete] + ["end_action"]
    return "\n".join(lines + ["end_actions"]) + "\n"


def proof_text(dead):
    """The proof that no action leads out of a set, which is line `e 3` and holds the initial state
    and no goal state."""
    return PRELUDE + dead + "\n" + NO_WAY_OUT + CONCLUSION


def backwards_text(unreached):
    """The proof that no action leads into a set, which is line `e 3` and holds the goal states and
    not the initial state."""
    return PRELUDE + unreached + "\n" + BACKWARDS


def clauses_line(letter, clauses):
    return " ".join(["e 3", letter, str(len(clauses)), *clauses])


def states_line(number, states):
    listed = " ".join(" ".join(map(str, state)) + " ;" for state in states)
    return "e %d x %d %s" % (number, len(states), listed)


def rooms(count):
    """A robot goes from room to room, and nothing gives it the key, which is the goal: the states
    that it can be in, as a list."""
    moves = [([room], [room + 1], [room]) for room in range(count - 1)]
    states = [[room] for room in range(count)]
    return task_text(count + 1, [0], [count], moves), proof_text(states_line(3, states))


def chain_task(atoms, actions):
    """Atoms of which each is got from the one before; the second isn't reached."""
    numbers = random.Random(1)
    steps = [numbers.randrange(1, atoms - 1) for _ in range(actions)]
    return atoms, [0], [atoms - 1], [([step], [step + 1], []) for step in steps]


def chain(atoms, actions):
    """The atoms of a chain that aren't reached, as clauses."""
    clauses = ["-%d 0" % (atom + 1) for atom in range(1, atoms)]
    return task_text(*chain_task(atoms, actions)), proof_text(clauses_line("h", clauses))


def turned_round(atoms, start, goal, actions):
    """The task whose regression goes as the progression of this one, with the signs exchanged."""
    start, goal = set(start), set(goal)
    others = [[atom for atom in range(atoms) if atom not in some] for some in (goal, start)]
    return atoms, *others, [(delete, add, pre) for pre, add, delete in actions]


def pairs_task(rooms_count, actions):
    """A robot goes between rooms, and nothing gives it the key."""
    numbers = random.Random(1)
    ways = []
    for _ in range(actions):
        left = numbers.randrange(rooms_count)
        right = (left + numbers.randrange(1, rooms_count)) % rooms_count
        ways.append(([left], [right], [left]))
    return rooms_count + 1, [0], [rooms_count], ways


def pairs(rooms_count, actions, letter):
    """The pairs of atoms that aren't reached, as clauses."""
    task = task_text(*pairs_task(rooms_count, actions))
    clauses = [
        "-%d -%d 0" % (left + 1, right + 1)
        for left in range(rooms_count) for right in range(left + 1, rooms_count)
    ]
    return task, proof_text(clauses_line(letter, clauses + ["-%d 0" % (rooms_count + 1)]))


def sliding_tiles(wide, high):
    """The sliding-tile puzzle whose goal has the wrong parity: all states that are reached, as a
    list."""
    cells = wide * high

    def neighbours_of(cell):
        left, right = cell % wide > 0, cell % wide < wide - 1
        steps = ((-1, left), (1, right), (-wide, cell >= wide), (wide, cell < cells - wide))
        return [cell + step for step, fits in steps if fits]

    neighbours = [neighbours_of(cell) for cell in range(cells)]
    start = tuple(range(1, cells)) + (0,)
    goal = (2, 1) + tuple(range(3, cells)) + (0,)
    # atom tile * cells + cell: the tile, 0 for the gap, is in the cell
    atoms_of = lambda board: sorted(tile * cells + cell for cell, tile in enumerate(board))
    actions = []
    for tile in range(1, cells):
        for cell in range(cells):
            for gap in neighbours[cell]:
                before = [tile * cells + cell, gap]
                after = [tile * cells + gap, cell]
                actions.append((sorted(before), sorted(after), sorted(before)))
    seen, order = {start}, [start]
    for board in order:
        gap = board.index(0)
        for cell in neighbours[gap]:
            moved = list(board)
            moved[gap], moved[cell] = moved[cell], 0
            moved = tuple(moved)
            if moved not in seen:
                seen.add(moved)
                order.append(moved)
    task = task_text(cells * cells, atoms_of(start), atoms_of(goal), actions)
    return task, proof_text(states_line(3, [atoms_of(board) for board in order]))


def unions(count, atoms=1000):
    """Many explicit sets of one state each, and the union of them all, which has the initial state:
    one inclusion at the end."""
    numbers = random.Random(1)
    lines = [PRELUDE[:-1]]
    for place in range(count):
        state = sorted(numbers.sample(range(1, atoms), 3)) if place + 1 < count else [0]
        lines.append(states_line(3 + place, [state]))
    union = 3
    for place in range(1, count):
        lines.append("e %d u %d %d" % (2 + count + place, union, 3 + place))
        union = 2 + count + place
    lines.append("k 1 s 1 %d b1" % union)
    return task_text(atoms, [0], [1], []), "\n".join(lines) + "\n"


def growing_unions(count, atoms=1000):
    """Explicit sets of one state each, whose union grows by one in each step, and in each step an
    inclusion in it."""
    numbers = random.Random(1)
    lines = [PRELUDE[:-1], states_line(3, [[0]])]
    union, known = 3, 1
    for place in range(count):
        state = sorted(numbers.sample(range(1, atoms), 3))
        lines.append(states_line(4 + 2 * place, [state]))
        lines.append("e %d u %d %d" % (5 + 2 * place, union, 4 + 2 * place))
        union = 5 + 2 * place
        lines.append("k %d s 1 %d b1" % (known, union))
        known += 1
    return task_text(atoms, [0], [1], []), "\n".join(lines) + "\n"


def wishes(atoms, actions, with_conditions):
    """Actions that grant one wish and take another back, so that some wish is always missing; all
    wishes are the goal. Or actions with conditions, of which some lead out of a trap, so that
    conjunctions are deleted."""
    numbers = random.Random(3)
    made = []
    for _ in range(actions):
        if with_conditions:
            draw = lambda least: numbers.sample(range(atoms), numbers.randrange(least, 3))
            made.append(tuple(sorted(draw(least)) for least in (0, 1, 0)))
        else:
            granted, taken = numbers.sample(range(atoms), 2)
            made.append(([], [granted], [taken]))
    goal = list(range(atoms))
    if with_conditions:
        goal = sorted(numbers.sample(range(atoms), atoms * 2 // 3))
    return task_text(atoms, [0], goal, made)


def got_in_turn(atoms, actions):
    """A chain in which each atom is got from the one before, its actions over and over; all atoms
    are the goal. So conjunctions are deleted one after the other, but for those that deny the first
    atom."""
    steps = [([atom], [atom + 1], []) for atom in range(atoms - 1)]
    return task_text(atoms, [], list(range(atoms)), (steps * (actions // len(steps) + 1))[:actions])


def long_clause(atoms, order):
    """A Horn clause of many atoms, of which an action's precondition and implications make all but
    two true: one after the other, as the clause lists them or the other way round, or all at once;
    or clauses of one atom in the same formula do."""
    true = list(range(atoms - 2))
    clause = " ".join("-%d" % (atom + 1) for atom in range(atoms)) + " 0"
    if order == "reverse":
        true.reverse()
    pre = true[:1] if order in ("listed", "reverse") else true if order == "at once" else []
    if order in ("listed", "reverse"):
        others = ["-%d %d 0" % (here + 1, after + 1) for here, after in zip(true, true[1:])]
    else:
        others = ["%d 0" % (atom + 1) for atom in true] if order == "one formula" else ["1 0"]
    task = task_text(atoms, [], [atoms - 1], [(pre, [], [])])
    if order == "one formula":
        line = "e 3 h %d %s %s" % (len(others) + 1, clause, " ".join(others))
        return task, PRELUDE + line + "\nk 1 s 3 3 b1\n"
    implications = "e 4 h %d %s" % (len(others), " ".join(others))
    lines = ["e 3 h 1 " + clause, implications, "e 5 i 3 4", "e 6 p 5 0"]
    return task, PRELUDE + "\n".join(lines) + "\nk 1 s 6 4 b2\n"
