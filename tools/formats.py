"""What the tools share: the texts of docs/FORMATS.md, read piece by piece, and how a tool ends.

Lines and names are bytes, since a name may have any. A text is read once or twice from its file,
and kept only where that is said.
"""
import argparse
import array
import os
import re
import subprocess
import sys

TOP = os.path.dirname(os.path.dirname(os.path.realpath(__file__)))
PROGRAM = os.environ.get("HELVE") or os.path.join(TOP, "helve")
# The versions of proofs that `check` reads: one of version 2 begins with `helve 2` and ends with
# `end`.
VERSIONS = (1, 2)
LONGEST = 16777216
MOST_NODES = 16777216
ACTION, SET, STATEMENT = b"a", b"e", b"k"
# the forms of `e` lines that are formulas, and of those that are made of others: the letters of
# the lines that they refer to
FORMULAS = (b"h", b"d", b"t", b"x", b"b")
MADE = {b"n": SET, b"i": SET + SET, b"u": SET + SET, b"p": SET + ACTION, b"r": SET + ACTION}
NUMBER = re.compile(rb"0|[1-9][0-9]{0,17}")


# how a tool ends


class Words(argparse.ArgumentParser):
    """The words of a tool; what is wrong with them is said in one line, and the status is 2."""

    def __init__(self, text):
        super().__init__(description=text, formatter_class=argparse.RawDescriptionHelpFormatter,
                         allow_abbrev=False)

    def error(self, message):
        fail(message)


def fail(message, status=2):
    """Says in one line on standard error what is wrong, and ends."""
    line = "%s: %s\n" % (os.path.basename(sys.argv[0]), message.replace("\n", "\\n"))
    sys.stderr.buffer.write(os.fsencode(line))
    sys.exit(status)


def run(main):
    """Runs a tool. A reader that is gone and an interrupt end it without a word."""
    try:
        status = main()
        sys.stdout.flush()
    except BrokenPipeError:
        os.dup2(os.open(os.devnull, os.O_WRONLY), sys.stdout.fileno())
        status = 5
    except KeyboardInterrupt:
        status = 130
    except OSError as wrong:
        fail("%s: %s" % (wrong.filename or "a file", wrong.strerror))
    sys.exit(status)


def opened(name):
    """A file that is read."""
    try:
        return open(name, "rb")
    except OSError as wrong:
        fail("%s can't be read: %s" % (name, wrong.strerror))


def opened_again(name):
    """A file that is read more than once, so that it can't be a pipe."""
    file = opened(name)
    if not file.seekable():
        fail("%s is read more than once, so it can't be a pipe" % name)
    return file


def build():
    """Builds the program where it has to be built."""
    try:
        done = subprocess.run([PROGRAM], stdout=subprocess.DEVNULL, check=False)
    except OSError as wrong:
        fail("%s can't be run: %s" % (PROGRAM, wrong.strerror))
    if done.returncode == 70:
        sys.exit(2)


def add_options(words):
    """The options of `check`."""
    words.add_argument("--nodes", metavar="FILE", help="the node file")
    words.add_argument("--budget", metavar="N", help="the greatest cost of a query")


def options_of(asked):
    """The options of `check` as words again."""
    words = [] if asked.nodes is None else ["--nodes", asked.nodes]
    return words + ([] if asked.budget is None else ["--budget", asked.budget])


def shown(text):
    """Bytes of a file for a terminal: control bytes are escaped, other ones stay."""
    return re.sub(rb"[\x00-\x1f\x7f]", lambda found: b"\\x%02x" % found.group()[0], text)


# lines


class Fault(Exception):
    """A line that isn't what the format has there."""

    def __init__(self, line, wanted):
        super().__init__("line %d: %s" % (line, wanted))


def lines_of(file):
    """The lines of a file, without their LF; of one that is too long its beginning is the last."""
    while True:
        line = file.readline(LONGEST + 1)
        if not line:
            return
        if line[-1:] == b"\n":
            yield line[:-1]
        else:
            yield line
            return


def number_in(text):
    """The decimal, or nothing."""
    return int(text) if NUMBER.fullmatch(text) else None


# tasks


class Task:
    """A task text: the names of its atoms, its initial state and its goal are kept. Its actions
    are read anew each time."""

    def __init__(self, name):
        self.name = name
        with opened_again(name) as file:
            self.reader = Reader(file)
            try:
                self.read_head()
            except Fault as wrong:
                self.faulty(wrong)
            self.place, self.line = file.tell(), self.reader.number

    def faulty(self, wrong):
        fail("%s isn't a task text: %s" % (self.name, wrong))

    def read_head(self):
        reader = self.reader
        self.atoms = [reader.take() for _ in range(reader.count(b"begin_atoms:", 65535))]
        reader.want(b"end_atoms")
        self.start = self.listed(b"init")
        self.goal = self.listed(b"goal")
        self.actions = reader.count(b"begin_actions:", 1000000)

    def listed(self, what):
        """Atoms, up to the line that ends them."""
        reader, found = self.reader, set()
        reader.want(b"begin_" + what)
        while (line := reader.take()) != b"end_" + what:
            found.add(self.atom(reader, line))
        return found

    def atom(self, reader, text):
        number = number_in(text)
        if number is None or number >= len(self.atoms):
            raise Fault(reader.number, "the number of an atom is wanted")
        return number

    def each_action(self):
        """For each action its name, its cost, and its precondition, add set and delete set."""
        with opened_again(self.name) as file:
            file.seek(self.place)
            reader = Reader(file, self.line)
            try:
                for _ in range(self.actions):
                    yield self.action(reader)
            except Fault as wrong:
                self.faulty(wrong)

    def action(self, reader):
        reader.want(b"begin_action")
        name, cost = reader.take(), reader.count(b"cost:", 4294967295)
        sets = {b"PRE": set(), b"ADD": set(), b"DEL": set()}
        while (line := reader.take()) != b"end_action":
            if line[:3] not in sets or line[3:4] != b":":
                raise Fault(reader.number, "PRE, ADD, DEL or end_action is wanted")
            sets[line[:3]].add(self.atom(reader, line[4:]))
        return name, cost, sets[b"PRE"], sets[b"ADD"], sets[b"DEL"]

    def some_actions(self, wanted):
        """Those of these numbers, by their numbers."""
        last, found = max(wanted, default=-1), {}
        for number, action in enumerate(self.each_action()):
            if number > last:
                break
            if number in wanted:
                found[number] = action
        return found


class Reader:
    """A text of which each line is wanted."""

    def __init__(self, file, number=0):
        self.file, self.number = file, number

    def take(self):
        line = self.file.readline(LONGEST + 1)
        self.number += 1
        if not line:
            raise Fault(self.number, "the file ends")
        return line[:-1] if line[-1:] == b"\n" else line

    def want(self, text):
        if self.take() != text:
            raise Fault(self.number, "%s is wanted" % text.decode())

    def count(self, head, most):
        line = self.take()
        number = number_in(line[len(head):]) if line.startswith(head) else None
        if number is None or number > most:
            raise Fault(self.number, "%s and a number is wanted" % head.decode())
        return number


# node files


class Nodes:
    """A node file: the order of the atoms, which rises where no line says it, and the nodes."""

    def __init__(self, name, atoms):
        self.order, self.nodes = range(atoms), [array.array("I", (0, 0)) for _ in range(3)]
        with opened(name) as file:
            reader = Reader(file)
            try:
                self.read(reader, atoms)
            except Fault as wrong:
                fail("%s isn't a node file: %s" % (name, wrong))

    def read(self, reader, atoms):
        line = reader.take()
        if line.split(b" ")[0] == b"order":
            self.order = [number_in(field) for field in line.split(b" ")[1:]]
            if None in self.order or sorted(self.order) != list(range(atoms)):
                raise Fault(reader.number, "each atom once is wanted behind order")
            line = reader.take()
        count = number_in(line[6:]) if line.startswith(b"nodes ") else None
        if count is None or count > MOST_NODES:
            raise Fault(reader.number, "nodes and their number is wanted")
        for own in range(2, count + 2):
            self.add(reader, own, [number_in(field) for field in reader.take().split(b" ")], atoms)
        if reader.file.read(1):
            raise Fault(reader.number + 1, "nothing is wanted behind the nodes")

    def add(self, reader, own, fields, atoms):
        if len(fields) != 3 or None in fields or fields[0] >= atoms or max(fields[1:]) >= own:
            raise Fault(reader.number, "an atom and two earlier nodes are wanted")
        for kept, field in zip(self.nodes, fields):
            kept.append(field)

    def __len__(self):
        return len(self.nodes[0])

    def holds(self, node, state):
        """Whether a state, the set of its atoms, is in the set of the node."""
        atoms, lows, highs = self.nodes
        while node > 1:
            node = highs[node] if atoms[node] in state else lows[node]
        return node == 1


# diagrams with complement edges: an edge is a node's number and a bit. The edge 2 * node + 1 stands
# for the complement of the edge 2 * node; node 0 is the leaf, so that the edges 0 and 1 are true
# and false.


def node_lines(parts, roots, numbers):
    """The lines of a node file that has these edges: children come before parents, and each node
    stands once. Of an edge `parts` says the atom and the edges to where it is false and true; a
    node and its complement become two nodes here. `numbers` has a place for each edge, and gets
    their numbers: it comes from `no_numbers`."""
    known = {}
    for root in roots:
        waiting = [root]
        while waiting:
            edge = waiting[-1]
            if numbers[edge] >= 0:
                waiting.pop()
                continue
            atom, low, high = parts(edge)
            if numbers[low] < 0 or numbers[high] < 0:
                waiting.append(low if numbers[low] < 0 else high)
                continue
            node = (atom, numbers[low], numbers[high])
            if node[1] == node[2]:
                numbers[edge] = node[1]
                continue
            if node not in known:
                known[node] = len(known) + 2
                yield b"%d %d %d\n" % node
            numbers[edge] = known[node]


def no_numbers(count):
    """For so many nodes and the leaf the numbers of their edges, of which those of the leaf are
    known."""
    return array.array("i", [1, 0]) + array.array("i", [-1]) * (2 * count)


# proofs


def is_skipped(line):
    return not line or line[:1] == b"#"


class Proof:
    """A proof text, of version 1 or 2. Where its lines begin is kept, up to a line, and no line."""

    def __init__(self, name, last=None):
        self.name, self.file = name, opened_again(name)
        self.places = {letter: array.array("Q") for letter in (ACTION, SET, STATEMENT)}
        self.last, self.number = None, 0
        place, kept = 0, None
        for line in lines_of(self.file):
            self.number += 1
            if self.number == last:
                self.last = place
                break
            kept = self.places.get(line[:1])
            if kept is not None and not (line == b"end" or is_mark(self.number, line)):
                kept.append(place)
            place += len(line) + 1

    def head_at(self, place, most=1024):
        """The fields of the line that begins there, as far as they stand in its first bytes."""
        self.file.seek(place)
        return self.file.readline(most).rstrip(b"\n").split(b" ")

    def head(self, letter, number):
        """The fields behind the identifier of a line."""
        return self.head_at(self.places[letter][number])[2:]


def is_mark(number, line):
    """Whether it is line 1 of a proof of version 2."""
    return number == 1 and line == b"helve 2"


def parts_of(line):
    """Of a line of a proof: its letter, its identifier, what stands between the lines that it
    refers to, and these, as pairs of a letter and a number."""
    fields = line.split(b" ", 3)
    letter, kind = fields[0], fields[2]
    if letter == STATEMENT:
        fields = line.split(b" ")
        return letter, int(fields[1]), statement_parts(kind, fields[3:])
    refers = {ACTION: {b"u": ACTION + ACTION}, SET: MADE}[letter].get(kind)
    if refers is None:
        return letter, int(fields[1]), [b" ".join(fields[2:])]
    numbers = fields[3].split(b" ")
    return letter, int(fields[1]), [kind] + list(zip(letters_of(refers), map(int, numbers)))


def letters_of(text):
    return [text[place:place + 1] for place in range(len(text))]


def statement_parts(kind, fields):
    """The parts of a `k` line behind its identifier."""
    sides = {b"s": SET + SET, b"a": ACTION + ACTION, b"d": SET, b"u": b""}[kind]
    named = list(zip(letters_of(sides), map(int, fields)))
    premises = [(STATEMENT, int(field)) for field in fields[len(sides) + 1:]]
    return [kind] + named + [fields[len(sides)]] + premises


def spelled(letter, number, parts):
    """A line of these parts."""
    words = [b"%d" % part[1] if isinstance(part, tuple) else part for part in parts]
    return b" ".join([letter, b"%d" % number] + words)
