"""Proofs of the puzzles that are written without a replay: by a formula, forwards or backwards, by
a diagram, and by a search whose dead ends are shown by formulas."""
import itertools

import diagrams
import puzzles
import texts


def doors_formula(puzzle, rooms):
    """There never are two keys that can be used, and none behind the first of the two doors.

    A key can be used where it is held, or lies in a room that is open.
    """
    no = lambda *names: " ".join("-%d" % (puzzle.atom(name) + 1) for name in names) + " 0"
    only_if = lambda name, other: "-%d %d 0" % (puzzle.atom(name) + 1, puzzle.atom(other) + 1)
    ways = {0: [("held 0",)]}
    for key in range(1, rooms + 1):
        ways[key] = [("held %d" % key,), ("open room %d" % key, "lying %d" % key)]
    clauses = [no("robot in treasure"), no("open treasure")]
    clauses.append(only_if("robot in porch", "open porch"))
    for room in range(1, rooms + 1):
        clauses.append(only_if("robot in room %d" % room, "open room %d" % room))
        clauses.append(no("held %d" % room, "lying %d" % room))
    clauses += [no("open porch", *way) for key in ways for way in ways[key]]
    for one, other in itertools.combinations(ways, 2):
        clauses += [no(*first + second) for first in ways[one] for second in ways[other]]
    return texts.proof_text(texts.clauses_line("h", clauses))


def lights_formula(puzzle, cliffs, lamps):
    """From no state does the ship come in unless each cliff has a light, or a lamp that burns.

    Backwards, by a dual Horn formula: for each cliff the ship is in, or one of these atoms holds.
    """
    clauses = []
    for side in range(1, cliffs + 1):
        names = ["lamp %d.%d" % (side, number) for number in range(1, lamps + 1)]
        atoms = [puzzle.atom(name) for name in ["ship is in", "light on cliff %d" % side] + names]
        clauses.append(" ".join(str(atom + 1) for atom in atoms) + " 0")
    return texts.backwards_text(texts.clauses_line("d", clauses))


def pegs_diagram(puzzle, wide, high):
    """The node file and the proof by the colours' parities, which no jump changes.

    The set has each cell with a peg or a hole and not both, and the parities of the start.
    """
    cells = [(x, y) for y in range(high) for x in range(wide)]
    start = [cell for cell in cells if puzzle.start >> puzzle.atom("peg %d %d" % cell) & 1]
    package, made = diagrams.Package(), {}

    def edge_from(place, counts):
        """The cells from this place on, where the colours have these parities so far."""
        key = (place, counts)
        if key not in made:
            if place == len(cells):
                kinds = (counts[0] == counts[1], counts[1] == counts[2])
                made[key] = diagrams.TRUE if kinds == puzzles.kinds_of(start) else diagrams.FALSE
            else:
                x, y = cells[place]
                more = list(counts)
                more[(x + y) % 3] ^= 1
                hole = puzzle.atom("hole %d %d" % (x, y))
                empty = package.edge(hole, diagrams.FALSE, edge_from(place + 1, counts))
                full = package.edge(hole, edge_from(place + 1, tuple(more)), diagrams.FALSE)
                made[key] = package.edge(puzzle.atom("peg %d %d" % (x, y)), empty, full)
        return made[key]

    nodes, number = diagrams.node_file(package, edge_from(0, (0, 0, 0)))
    return nodes, texts.proof_text("e 3 b %d" % number)


def dead_ends_proof(puzzle, log):
    """The proof of a search whose dead ends are shown by formulas: a block for each formula.

    A formula has the atoms that aren't reached from a pruned state; it shows each pruned state
    that has none of them.
    """
    formulas = []
    for state in (state for letter, state in log if letter == "p"):
        for unreached, states in formulas:
            if not unreached & state:
                states.append(state)
                break
        else:
            every = (1 << len(puzzle.names)) - 1
            formulas.append((every & ~puzzles.reached_atoms(puzzle, state), [state]))
    lines, union, dead, e, k = [texts.PRELUDE[:-1]], 0, 0, 3, 1
    for unreached, states in formulas:
        clauses = " ".join("-%d 0" % (atom + 1) for atom in puzzles.atoms_of(unreached))
        lines += ["e %d h %d %s" % (e, len(puzzles.atoms_of(unreached)), clauses)]
        lines += no_way_out(e, 0, k, 0)
        lines += [states_line(e + 4, states), "k %d s %d %d b4" % (k + 4, e + 4, e)]
        lines += ["k %d d %d sd %d %d" % (k + 5, e + 4, k + 4, k + 3)]
        lines += ["e %d u %d %d" % (e + 5, union, e + 4)]
        lines += ["k %d d %d ud %d %d" % (k + 6, e + 5, dead, k + 5)]
        union, dead, e, k = e + 5, k + 6, e + 6, k + 7
    lines.append(states_line(e, [state for letter, state in log if letter == "x"]))
    lines += no_way_out(e, union, k, dead)
    lines += ["k %d d %d ud %d %d" % (k + 4, e + 2, k + 3, dead)]
    lines += ["k %d s 1 %d b1" % (k + 5, e + 2), "k %d d 1 sd %d %d" % (k + 6, k + 5, k + 4)]
    return "\n".join(lines + ["k %d u ci %d" % (k + 7, k + 6)]) + "\n"


def no_way_out(e, union, k, dead):
    """The lines that say that the set `e` is dead: each action leads from it into it or into a set
    that is dead by line `dead`, and none of its states is a goal state."""
    return [
        "e %d p %d 0" % (e + 1, e), "e %d u %d %d" % (e + 2, e, union), "e %d i %d 2" % (e + 3, e),
        "k %d s %d %d b2" % (k, e + 1, e + 2), "k %d s %d 0 b1" % (k + 1, e + 3),
        "k %d d %d sd %d 0" % (k + 2, e + 3, k + 1),
        "k %d d %d pg %d %d %d" % (k + 3, e, k, dead, k + 2),
    ]


def states_line(number, states):
    return texts.states_line(number, [puzzles.atoms_of(state) for state in states])
