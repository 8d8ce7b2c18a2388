"""Five puzzles without a solution, and a forward search that writes its log.

A puzzle has named atoms, a start, a goal, and named actions; a state is an integer with a bit for
each atom that holds.
"""
import collections


class Puzzle:
    def __init__(self):
        self.names, self.numbers, self.actions = [], {}, []
        self.start, self.goal = 0, 0

    def atom(self, name):
        """The number of the atom of this name, which is new where the name is."""
        if name not in self.numbers:
            self.numbers[name] = len(self.names)
            self.names.append(name)
        return self.numbers[name]

    def number(self, names):
        """Gives these atoms the next numbers, in this order."""
        for name in names:
            self.atom(name)

    def mask(self, names):
        mask = 0
        for name in names:
            mask |= 1 << self.atom(name)
        return mask

    def act(self, name, pre, add, delete):
        self.actions.append((name, self.mask(pre), self.mask(add), self.mask(delete)))

    def text(self):
        """The task text."""
        lines = ["begin_atoms:%d" % len(self.names)] + self.names
        lines += ["end_atoms", "begin_init"] + [str(atom) for atom in atoms_of(self.start)]
        lines += ["end_init", "begin_goal"] + [str(atom) for atom in atoms_of(self.goal)]
        lines += ["end_goal", "begin_actions:%d" % len(self.actions)]
        for name, pre, add, delete in self.actions:
            lines += ["begin_action", name, "cost:1"]
            for letters, mask in (("PRE", pre), ("ADD", add), ("DEL", delete)):
                lines += ["%s:%d" % (letters, atom) for atom in atoms_of(mask)]
            lines.append("end_action")
        return "\n".join(lines + ["end_actions"]) + "\n"


def atoms_of(mask):
    """The atoms of a state, rising."""
    atoms = []
    while mask:
        least = mask & -mask
        atoms.append(least.bit_length() - 1)
        mask ^= least
    return atoms


# the puzzles


def tiles(wide, high):
    """The sliding-tile puzzle whose goal has two tiles exchanged."""
    puzzle, cells = Puzzle(), [(x, y) for y in range(high) for x in range(wide)]
    at = lambda tile, cell: "%s at %d %d" % (("tile %d" % tile if tile else "gap",) + cell)
    start = dict(zip(cells, list(range(1, len(cells))) + [0]))
    goal = dict(zip(cells, [2, 1] + list(range(3, len(cells))) + [0]))
    puzzle.number(at(tile, cell) for tile in range(len(cells)) for cell in cells)
    puzzle.start = puzzle.mask(at(tile, cell) for cell, tile in start.items())
    puzzle.goal = puzzle.mask(at(tile, cell) for cell, tile in goal.items())
    for tile in range(1, len(cells)):
        for x, y in cells:
            for to in ((x - 1, y), (x + 1, y), (x, y - 1), (x, y + 1)):
                if to in cells:
                    before = [at(tile, (x, y)), at(0, to)]
                    after = [at(tile, to), at(0, (x, y))]
                    name = "slide %d from %d %d to %d %d" % ((tile, x, y) + to)
                    puzzle.act(name, before, after, before)
    return puzzle


def pegs(wide, high):
    """Peg solitaire: a jump takes the peg that is jumped over. The last is to end where none can.

    Colour the cells by x + y modulo 3. Each jump changes the number of pegs of each colour by one,
    so whether two colours have numbers of the same parity stays as it is. The last peg is to end in
    the first cell for which that isn't so.
    """
    puzzle, cells = Puzzle(), [(x, y) for y in range(high) for x in range(wide)]
    peg, hole = (lambda cell: "peg %d %d" % cell), (lambda cell: "hole %d %d" % cell)
    puzzle.number(kind(cell) for cell in cells for kind in (peg, hole))
    free = (0, 0)
    puzzle.start = puzzle.mask(hole(cell) if cell == free else peg(cell) for cell in cells)
    last = next(cell for cell in cells if kinds_of([cell]) != kinds_of(set(cells) - {free}))
    puzzle.goal = puzzle.mask(peg(cell) if cell == last else hole(cell) for cell in cells)
    for x, y in cells:
        for right, down in ((-1, 0), (1, 0), (0, -1), (0, 1)):
            over, to = (x + right, y + down), (x + 2 * right, y + 2 * down)
            if to in cells:
                before = [peg((x, y)), peg(over), hole(to)]
                after = [hole((x, y)), hole(over), peg(to)]
                puzzle.act("jump %d %d to %d %d" % ((x, y) + to), before, after, before)
    return puzzle


def kinds_of(cells):
    """Whether the colours 0 and 1, and the colours 1 and 2, have pegs of the same parity."""
    count = [sum((x + y) % 3 == colour for x, y in cells) % 2 for colour in range(3)]
    return count[0] == count[1], count[1] == count[2]


def doors(rooms):
    """A hall with locked rooms, a key in each, and a treasure behind two locked doors in a row.

    Any key fits any lock and breaks in it. One key is in hand at first. Each room costs a key and
    has one, so there never are two keys for the two doors in a row.
    """
    puzzle, keys, sides = Puzzle(), range(rooms + 1), range(1, rooms + 1)
    robot = lambda place: "robot in %s" % place
    places = ["room %d" % room for room in sides] + ["porch", "treasure"]
    puzzle.number(robot(place) for place in ["hall"] + places)
    puzzle.number("%s %s" % (how, place) for place in places for how in ("locked", "open"))
    puzzle.number("held %d" % key for key in keys)
    puzzle.start = puzzle.mask([robot("hall"), "held 0", "locked porch", "locked treasure"])
    for room in sides:
        puzzle.start |= puzzle.mask(["locked room %d" % room, "lying %d" % room])
    puzzle.goal = puzzle.mask([robot("treasure")])
    for place in places:
        here = robot("porch" if place == "treasure" else "hall")
        for key in keys:
            lost = ["held %d" % key, "locked " + place]
            puzzle.act("unlock %s with %d" % (place, key), [here] + lost, ["open " + place], lost)
        puzzle.act("enter " + place, [here, "open " + place], [robot(place)], [here])
        puzzle.act("leave " + place, [robot(place)], [here], [robot(place)])
    for room in sides:
        here, lying = robot("room %d" % room), "lying %d" % room
        puzzle.act("take %d" % room, [here, lying], ["held %d" % room], [lying])
    return puzzle


def delivery(places, packages, fuel):
    """A road of some places, a truck in the middle, and packages to be brought from end to end.

    Package 0 goes from the first place to the last, package 1 from the last to the first, package 2
    from the first to the last, and so on. Each move takes a unit of fuel.
    """
    puzzle = Puzzle()
    truck, tank = (lambda place: "truck at %d" % place), (lambda units: "fuel %d" % units)
    lies = lambda box, place: "box %d at %d" % (box, place)
    rides = lambda box: "box %d in truck" % box
    ends = [(0, places - 1), (places - 1, 0)]
    puzzle.number(truck(place) for place in range(places))
    puzzle.number(tank(units) for units in range(fuel + 1))
    for box in range(packages):
        puzzle.number([lies(box, place) for place in range(places)] + [rides(box)])
    puzzle.start = puzzle.mask([truck(places // 2), tank(fuel)])
    for box in range(packages):
        puzzle.start |= puzzle.mask([lies(box, ends[box % 2][0])])
        puzzle.goal |= puzzle.mask([lies(box, ends[box % 2][1])])
    for place in range(places):
        for to in (place - 1, place + 1):
            if 0 <= to < places:
                for units in range(1, fuel + 1):
                    before, after = [truck(place), tank(units)], [truck(to), tank(units - 1)]
                    puzzle.act("drive %d to %d by %d" % (place, to, units), before, after, before)
        for box in range(packages):
            here, there = lies(box, place), rides(box)
            puzzle.act("load %d at %d" % (box, place), [truck(place), here], [there], [here])
            puzzle.act("unload %d at %d" % (box, place), [truck(place), there], [here], [there])
    return puzzle


def lights(cliffs, lamps):
    """A ship comes in where each cliff round a harbour shows a light, which some lamp there gives.

    The keeper walks round the harbour. When he has lit a lamp on one cliff, all lamps on the next
    one have burnt down. So there always is a cliff without a light.
    """
    puzzle, sides = Puzzle(), range(1, cliffs + 1)
    shows, lamp = (lambda side: "light on cliff %d" % side), (lambda *at: "lamp %d.%d" % at)
    on = {side: [lamp(side, number) for number in range(1, lamps + 1)] for side in sides}
    puzzle.number(["ship is in"])
    for side in sides:
        puzzle.number([shows(side)] + on[side])
    puzzle.goal = puzzle.mask(["ship is in"])
    for side in sides:
        following = side % cliffs + 1
        for name in on[side]:
            puzzle.act("kindle " + name, [], [name], [shows(following)] + on[following])
            puzzle.act("show " + name, [name], [shows(side)], [])
    puzzle.act("come in", [shows(side) for side in sides], ["ship is in"], [])
    return puzzle


# the search


def by_needed_atom(actions):
    """The actions that need no atom, and the others by one of theirs, which the fewest need."""
    count = collections.Counter(atom for _, pre, _, _ in actions for atom in atoms_of(pre))
    free, lists = [], collections.defaultdict(list)
    for number, (_, pre, add, delete) in enumerate(actions):
        found = (number, pre, add, ~delete)
        if pre:
            lists[min(atoms_of(pre), key=lambda atom: (count[atom], atom))].append(found)
        else:
            free.append(found)
    return free, lists


def reached_atoms(puzzle, state):
    """The atoms that are reached from a state where nothing is ever deleted."""
    reached, waiting, before = state, puzzle.actions, None
    while reached != before:
        before, late = reached, []
        for action in waiting:
            if action[1] & reached == action[1]:
                reached |= action[2]
            else:
                late.append(action)
        waiting = late
    return reached


def search(puzzle, prune):
    """The log of a breadth-first search: a letter and a state for each that was taken up.

    `x` says that the state was expanded, `p` that it was pruned: where `prune` is true, a state
    from which some goal atom isn't reached though nothing is ever deleted.
    """
    free, lists = by_needed_atom(puzzle.actions)
    goal, found, log = puzzle.goal, [puzzle.start], []
    seen = set(found)
    for state in found:
        if prune and goal & ~reached_atoms(puzzle, state):
            log.append(("p", state))
            continue
        if goal & state == goal:
            raise ValueError("the puzzle has a solution")
        log.append(("x", state))
        for bucket in [free] + [lists[atom] for atom in atoms_of(state) if atom in lists]:
            for _, pre, add, kept in bucket:
                if pre & state == pre:
                    after = state & kept | add
                    if after not in seen:
                        seen.add(after)
                        found.append(after)
    return log


def log_text(log):
    lines = [" ".join([letter] + [str(atom) for atom in atoms_of(state)]) for letter, state in log]
    return "\n".join(lines + ["end"]) + "\n"


# what `bench/puzzle` makes: the puzzle, its sizes, whether its search prunes
PUZZLES = {
    "tiles": (tiles, "WIDE HIGH", False),
    "pegs": (pegs, "WIDE HIGH", True),
    "doors": (doors, "ROOMS", True),
    "delivery": (delivery, "PLACES PACKAGES FUEL", True),
    "lights": (lights, "CLIFFS LAMPS", True),
}
