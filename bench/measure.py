"""What the benchmarks share: programs are run on files, and their times and memory are told."""
import argparse
import collections
import math
import os
import re
import signal
import statistics
import subprocess
import sys
import tempfile

TOP = os.path.dirname(os.path.dirname(os.path.abspath(__file__)))
PROGRAM = os.path.join(TOP, "crates", "helve", "out", "helve")
STARTER = os.path.join(TOP, "bench", "starter.py")
PAGE = os.path.join(TOP, "bench", "README.md")
NO_CONCLUSION = (1, b"no conclusion\n")
UNSOLVABLE = (0, b"unsolvable\n")
ENDED = (-signal.SIGXCPU, -signal.SIGKILL)
# the columns of a table of jobs, and those of a second program
JOBS = ["input", "job", "size", "bytes read", "user, s", "with system, s", "growth", "MB"]
AGAINST = ["other: user, s", "with system, s", "growth", "MB", "ratio"]

# user time and user and system time in seconds, or None where a run was ended, and memory in MB
Result = collections.namedtuple("Result", "user seconds memory")


def build():
    """Builds the program where it has to be built."""
    program = os.path.join(TOP, "helve")
    subprocess.run([program, "sample", "3"], stdout=subprocess.DEVNULL, check=False)


def run(words, wanted=None, times=3):
    """The median user time of some runs in seconds, and the greatest memory in MB."""
    users, most = [], 0
    for _ in range(times):
        (user, _, memory), _, got = run_once(PROGRAM, words)
        if wanted is not None and got != wanted.encode():
            sys.exit("not %r: %r" % (wanted, got[:200]))
        users.append(user)
        most = max(most, memory)
    return statistics.median_low(users), most


def run_once(program, words, limit=0):
    """One run: times and greatest memory, exit status, and what it printed.

    The status is below 0 where it was ended after so many seconds of processor time.
    """
    command = [sys.executable, "-I", "-S", STARTER, str(limit), program] + words
    starter = subprocess.run(command, stdout=subprocess.PIPE, check=True)
    user, seconds, memory, status, got = starter.stdout.split(b"\n", 4)
    return Result(float(user), float(seconds), int(memory) / 1024), int(status), got


def median(runs):
    """The run with the median time, and the greatest memory of all; one that was ended has none."""
    memory = max(run.memory for run in runs)
    if runs[-1].seconds is None:
        return Result(None, None, memory)
    timed = sorted((run for run in runs if run.seconds is not None), key=lambda run: run.seconds)
    return timed[(len(timed) - 1) // 2]._replace(memory=memory)


class Bench:
    """What a script was asked for, the runs of its programs, and what they answered wrongly."""

    def __init__(self, text, default, counts=False):
        words = argparse.ArgumentParser(description=text.split("\n", maxsplit=1)[0])
        words.add_argument("sizes", nargs="*", type=int, help="without: %s" % default)
        words.add_argument("--program", default=PROGRAM)
        words.add_argument("--against", help="a second program, which is run in turn with it")
        words.add_argument("--folder", help="where the files are written, and stay")
        words.add_argument("--only", default="", help="only what has this in its name")
        words.add_argument("--times", type=int, default=3, help="runs, of which the median counts")
        words.add_argument("--limit", type=int, default=120, help="the seconds that a run may take")
        words.add_argument("--write", action="store_true", help="renews the table of README.md")
        if counts:
            words.add_argument("--counted", action="store_true",
                               help="counts instructions, in millions, by valgrind")
        self.asked, self.faults = words.parse_args(), []
        self.sizes = self.asked.sizes or default
        if self.asked.program == PROGRAM:
            build()
        self.programs = [self.asked.program]
        if self.asked.against is not None:
            self.programs.append(self.asked.against)

    def folder(self, name):
        """A folder for the files of a row: within the named one, or one that goes when it is
        left."""
        if self.asked.folder is None:
            return tempfile.TemporaryDirectory()
        return Folder(os.path.join(self.asked.folder, re.sub("[^a-z0-9]+", "-", name.lower())))

    def run(self, title, words, wanted):
        """The median of some runs of each program, by turns; wanted is the exit status and the
        text. A long run isn't repeated."""
        runs = [[] for _ in self.programs]
        for turn in range(self.asked.times):
            for program, done in zip(self.programs, runs):
                if turn == 0 or done[-1].seconds is not None and done[-1].seconds < 2:
                    done.append(self.one_run(title, [program] + words, wanted))
        return [median(done) for done in runs]

    def one_run(self, title, command, wanted):
        """One run, whose answer is held against the one that is wanted."""
        one, status, got = run_once(command[0], command[1:], self.asked.limit)
        if status in ENDED:
            return Result(None, None, one.memory)
        if (status, got) != wanted:
            self.faults.append("%s: %s ended with %d: %r" % (title, command[0], status, got[:80]))
        return one

    def counted(self, title, words, wanted):
        """The instructions of a run of the program, in millions."""
        command = ["valgrind", "--tool=callgrind", "--callgrind-out-file=/dev/null"]
        run = subprocess.run(command + [self.programs[0]] + words, capture_output=True)
        if (run.returncode, run.stdout) != wanted:
            self.faults.append("%s: ended with %d: %r" % (title, run.returncode, run.stdout[:80]))
        return int(re.search(rb"Collected : (\d+)", run.stderr).group(1)) / 1e6

    def jobs(self, name, rows):
        """Prints a table of jobs, and ends. A row has a title, what its size counts, and a function
        that writes its files for a percentage: it gives the size, and a list of jobs, their words
        and what they have to answer."""
        lines = head_of(JOBS + AGAINST * (len(self.programs) - 1))
        print("\n".join(lines), flush=True)
        for row in rows:
            if self.asked.only in row[0]:
                for line in self.lines_of(*row):
                    print(line, flush=True)
                    lines.append(line)
        self.end(name, lines)

    def lines_of(self, title, unit, make):
        """The lines of a row: of each size one for each job."""
        before = {}
        for percent in self.sizes:
            with self.folder("%s %d" % (title, percent)) as folder:
                size, jobs = make(folder, percent)
                for job, words, wanted in jobs:
                    count = bytes_of(words)
                    cells = [title, job, "{:,} {}".format(size, unit), "{:,}".format(count)]
                    results = self.run("%s, %s, %s" % (title, job, size), words, wanted)
                    for place, one in enumerate(results):
                        now = (size, one.seconds)
                        grown = growth(now, before.get((job, place)))
                        cells += [self.seconds(one.user), self.seconds(one.seconds), grown]
                        cells.append("%.0f" % one.memory)
                        before[job, place] = now
                    if len(results) > 1:
                        between = ratio(*results)
                        cells.append("" if between is None else "%.1f" % between)
                    yield row_of(cells)

    def seconds(self, seconds):
        return "over %d" % self.asked.limit if seconds is None else "%.3f" % seconds

    def end(self, name, lines):
        """Renews the table of this name where that was asked, and ends: with 1 where an answer
        was wrong."""
        if self.asked.write:
            renew(name, lines)
        for fault in self.faults:
            print("wrong: " + fault, flush=True)
        sys.exit(1 if self.faults else 0)


class Folder:
    """A folder that stays."""

    def __init__(self, path):
        self.path = path

    def __enter__(self):
        os.makedirs(self.path, exist_ok=True)
        return self.path

    def __exit__(self, *_):
        pass


def growth(now, before):
    """The exponent of the size, of two pairs of a size and a time, where the times are known and
    aren't short."""
    if before is None or is_short(now[1]) or is_short(before[1]) or now[0] == before[0]:
        return ""
    return "%.1f" % (math.log(now[1] / before[1]) / math.log(now[0] / before[0]))


def ratio(one, other):
    """How many times as long the one took as the other, where neither is short; or None."""
    if is_short(one.seconds) or is_short(other.seconds):
        return None
    return one.seconds / other.seconds


def is_short(seconds):
    """Whether a time is too short to say something, or a run was ended."""
    return seconds is None or seconds < 0.004


def row_of(cells):
    return "| %s |" % " | ".join(cells)


def head_of(cells):
    """The two lines that begin a table."""
    return [row_of(cells), "|" + "---|" * len(cells)]


def renew(name, lines):
    """Puts these lines in the place of the table of this name on the page."""
    with open(PAGE, encoding="utf-8") as file:
        page = file.read()
    block = re.compile(r"(<!-- %s -->\n).*?(<!-- end -->)" % re.escape(name), re.S)
    table_text = "\n".join(lines) + "\n"
    with open(PAGE, "w", encoding="utf-8") as file:
        file.write(block.sub(lambda found: found.group(1) + table_text + found.group(2), page))


def bytes_of(words):
    """The bytes of the files among these words."""
    return sum(os.path.getsize(word) for word in words if os.path.isfile(word))


def table(title, unit, rows, times=3):
    """Runs `check` on each row (size, task text, proof text, further words, wanted answer), and
    prints a line for it.

    The growth is the exponent of the size: 1 where twice the size takes twice the time.
    """
    print("%s\n%12s %12s %10s %8s %10s" % (title, unit, "bytes", "user, s", "growth", "MB"))
    before = None
    with tempfile.TemporaryDirectory() as folder:
        task, proof = os.path.join(folder, "task"), os.path.join(folder, "proof")
        for size, task_text, proof_text, words, wanted in rows:
            for name, text in ((task, task_text), (proof, proof_text)):
                with open(name, "w") as file:
                    for part in [text] if isinstance(text, str) else text:
                        file.write(part)
            count = os.path.getsize(task) + os.path.getsize(proof)
            seconds, memory = run(["check", task, proof] + words, wanted, times)
            cells = (size, count, seconds, growth((size, seconds), before), memory)
            print("%12d %12d %10.3f %8s %10.0f" % cells, flush=True)
            before = (size, seconds)
    print()


def sizes(words, default):
    """The sizes that the words name, or else these."""
    return [int(word) for word in words] or default
