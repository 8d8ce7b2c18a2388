"""Tasks whose states are known, and proofs and logs that list them, written piece by piece."""
import itertools
import math

import texts

# Fourteen times two triples of atoms whose codes in crates/hv_explicit/src/codes.rt have the same
# sum under the first key, so that a state that takes one of each two has the same code whichever it
# takes. They were found by sums of three random codes: 2^26 of them whose upper 16 bits are 0 were
# sorted, and some five that follow each other are equal.
TRIPLES = (
    ((16367, 27817, 42151), (12346, 33519, 62798)), ((16873, 55754, 62385), (23809, 40166, 59383)),
    ((17895, 26186, 53647), (30186, 50030, 63535)), ((18414, 27565, 32565), (38387, 46771, 62444)),
    ((41220, 47725, 58430), (45908, 47039, 55722)), ((1408, 7456, 22165), (12541, 17033, 29516)),
    ((697, 39993, 41667), (15453, 32976, 38980)), ((9158, 14576, 15283), (28305, 32174, 64579)),
    ((2486, 2806, 6341), (16996, 26080, 35415)), ((1517, 24848, 54321), (6461, 34594, 43015)),
    ((9171, 13367, 33557), (30966, 40969, 59389)), ((1547, 5606, 50495), (9134, 42796, 57452)),
    ((10574, 10924, 56948), (7220, 10581, 22138)), ((27269, 38523, 54198), (5309, 5808, 38048)),
)


def write_task(path, atoms, start, goal, actions):
    """A task; an action has a precondition, an add list and a delete list."""
    with open(path, "w") as file:
        file.write("begin_atoms:%d\n" % atoms)
        file.writelines("atom_%d\n" % atom for atom in range(atoms))
        for name, listed in (("init", start), ("goal", goal)):
            file.write("%s\nbegin_%s\n" % ("end_atoms" if name == "init" else "end_init", name))
            file.writelines("%d\n" % atom for atom in listed)
        file.write("end_goal\nbegin_actions:%d\n" % len(actions))
        for number, (pre, add, delete) in enumerate(actions):
            file.write("begin_action\naction_%d\ncost:1\n" % number)
            file.writelines("PRE:%d\n" % atom for atom in pre)
            file.writelines("ADD:%d\n" % atom for atom in add)
            file.writelines("DEL:%d\n" % atom for atom in delete)
            file.write("end_action\n")
        file.write("end_actions\n")


def write_log(path, expanded, pruned=()):
    with open(path, "w") as file:
        for letter, states in (("x", expanded), ("p", pruned)):
            file.writelines(letter + "".join(" %d" % atom for atom in s) + "\n" for s in states)
        file.write("end\n")


class Proof:
    """A proof that is written: each line gets the next identifier of its letter."""

    def __init__(self, file):
        self.file, self.sets, self.known = file, 3, 1
        file.write(texts.PRELUDE)

    def set(self, words):
        """A set's line, and its identifier."""
        self.file.write("e %d %s\n" % (self.sets, words))
        self.sets += 1
        return self.sets - 1

    def listed(self, count, states):
        """A line that lists so many states."""
        self.file.write("e %d x %d" % (self.sets, count))
        for state in states:
            self.file.write("".join(" %d" % atom for atom in state) + " ;")
        self.file.write("\n")
        self.sets += 1
        return self.sets - 1

    def know(self, words):
        self.file.write("k %d %s\n" % (self.known, words))
        self.known += 1
        return self.known - 1

    def dead(self, one, within, line):
        """The one is dead, since it is within a set that is dead by this line."""
        inside = self.know("s %d %d b1" % (one, within))
        return self.know("d %d sd %d %d" % (one, inside, line))


def write_replay(path, count, states):
    """What `replay` writes of a log that expanded these states and pruned none."""
    with open(path, "w") as file:
        proof = Proof(file)
        end_replay(proof, proof.listed(count, states), 0, 0)


def end_replay(proof, listed, union, line):
    """The lines behind the expanded states; the pruned ones are in the union, dead by the line."""
    after = proof.set("p %d 0" % listed)
    every = proof.set("u %d %d" % (listed, union))
    goals = proof.set("i %d 2" % listed)
    step = proof.know("s %d %d b2" % (after, every))
    without = proof.dead(goals, 0, 0)
    done = proof.know("d %d pg %d %d %d" % (listed, step, line, without))
    whole = proof.know("d %d ud %d %d" % (every, done, line))
    proof.know("u ci %d" % proof.dead(1, every, whole))


def write_lists(path, lists):
    """The proof by a union of lists, each a count and states: no action leads out of the union,
    none of its states is a goal state, and the initial state is in it."""
    with open(path, "w") as file:
        proof = Proof(file)
        parts = [proof.listed(count, states) for count, states in lists]
        unions = [parts[0]]
        for part in parts[1:]:
            unions.append(proof.set("u %d %d" % (unions[-1], part)))
        step = stays(proof, parts, unions, proof.set("u %d 0" % unions[-1]))
        without = no_goal(proof, parts, unions)
        done = proof.know("d %d pg %d 0 %d" % (unions[-1], step, without))
        proof.know("u ci %d" % proof.dead(1, unions[-1], done))


def stays(proof, parts, unions, every):
    """The line that says that each action leads from the union of the parts into it."""
    step = None
    for part, union in zip(parts, unions):
        after = proof.set("p %d 0" % part)
        own = proof.know("s %d %d b2" % (after, every))
        if step is None:
            step = own
        else:
            after = proof.set("p %d 0" % union)
            step = proof.know("s %d %d pu %d %d" % (after, every, step, own))
    return step


def no_goal(proof, parts, unions):
    """The line that says that the goal states among the union's are dead, since there are none."""
    before, line = None, None
    for part, union in zip(parts, unions):
        goals = proof.set("i %d 2" % part)
        own = proof.dead(goals, 0, 0)
        if before is None:
            before, line = goals, own
        else:
            either = proof.set("u %d %d" % (before, goals))
            dead = proof.know("d %d ud %d %d" % (either, line, own))
            before = proof.set("i %d 2" % union)
            inside = proof.know("s %d %d di" % (before, either))
            line = proof.know("d %d sd %d %d" % (before, inside, dead))
    return line


def cut(states, count, parts):
    """The states in so many lists of the same length or one more."""
    states = iter(states)
    for part in range(parts):
        length = (part + 1) * count // parts - part * count // parts
        yield length, itertools.islice(states, length)


def free(percent, most):
    """How many may be chosen freely, so that there are about so many of 2^most states."""
    return most + round(math.log2(percent / 100))


def meeting(percent, apart):
    """States that take one of each two triples, and actions that exchange them: all have the same
    code. Or apart, with another atom in the first triple of each two: then none have. The actions,
    the initial state, and the states."""
    pairs = [[list(one), list(other)] for one, other in TRIPLES[:free(percent, len(TRIPLES))]]
    for one, _ in pairs:
        one[0] += apart
    actions = [(a, b, a) for one, other in pairs for a, b in ((one, other), (other, one))]
    start = sorted(atom for one, _ in pairs for atom in one)
    return actions, start, [sorted(sum(chosen, [])) for chosen in itertools.product(*pairs)]


def meeting_in_slots(count):
    """States over 64 atoms. The first half are spread; then more and more meet in a slot by one
    factor after another of those by which codes, a bit for each atom, fall into slots."""
    most, factor, many = 2**64, 0x9E3779B97F4A7C15, 66
    codes = [n * 0xBF58476D1CE4E5B9 % most for n in range(1, count // 2)]
    while len(codes) < count:
        turned = pow(factor, -1, most)
        codes += [n * turned % most for n in range(1, many + 1)]
        factor, many = factor * 0xD1342543DE82EF95 % most, many + 4
    return [[atom for atom in range(64) if code >> atom & 1] for code in codes[:count]]


class Dials:
    """Dials of some positions each: a state has an atom for each dial. The last atom is the goal,
    which no action adds."""

    def __init__(self, *positions):
        self.positions = positions
        self.first = [sum(positions[:dial]) for dial in range(len(positions))]
        self.atoms = sum(positions) + 1
        self.start, self.goal = self.first, [self.atoms - 1]
        self.count = 1
        for number in positions:
            self.count *= number

    def states(self):
        ranges = [range(low, low + n) for low, n in zip(self.first, self.positions)]
        return itertools.product(*ranges)

    def steps(self):
        """Each dial goes from a position to the next."""
        for low, number in zip(self.first, self.positions):
            for place in range(number):
                yield [low + place], [low + (place + 1) % number], [low + place]

    def steps_beside(self):
        """Each dial goes from a position to the next where another is at a certain one."""
        for pre, add, delete in self.steps():
            dial = max(d for d, low in enumerate(self.first) if low <= pre[0])
            for other, (low, number) in enumerate(zip(self.first, self.positions)):
                if other != dial:
                    for atom in range(low, low + number):
                        yield sorted(pre + [atom]), add, delete


class Switches:
    """24 switches, of which a state has an atom each: off or on. Those with the same remainder
    modulo a number go together. The goal is that the first is off and on."""

    def __init__(self, free):
        self.free, self.atoms, self.count = free, 48, 2**free
        self.start, self.goal = list(range(0, 48, 2)), [0, 1]

    def states(self):
        for number in range(self.count):
            yield [2 * s + (number >> s % self.free & 1) for s in range(24)]

    def steps(self):
        """Each switch goes off and on."""
        for bit in range(self.free):
            for value in (0, 1):
                yield self.step(bit, value)

    def step(self, bit, value):
        together = range(bit, 24, self.free)
        before = [2 * switch + value for switch in together]
        return before[:1], [atom ^ 1 for atom in before], before

    def steps_beside(self, count, numbers):
        """So many actions, by which a switch goes where ten others are in a certain way."""
        for _ in range(count):
            chosen = numbers.sample(range(self.free), 11)
            pre, add, delete = self.step(chosen[0], numbers.randrange(2))
            others = [2 * bit + numbers.randrange(2) for bit in chosen[1:]]
            yield sorted(pre + others), add, delete
