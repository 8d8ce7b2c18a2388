"""Runs a command and prints what it took: its user time, its user and system time in seconds, its
greatest memory in KB and its exit status, each on a line, and then what it printed.

It is a small process of its own, since what a process holds when it starts another counts for the
other. The first word is how many seconds of processor time the command may take, 0 for any.
"""
import os
import resource
import sys


def main(limit, command):
    if limit > 0:
        resource.setrlimit(resource.RLIMIT_CPU, (limit, limit))
    out, into = os.pipe()
    actions = [(os.POSIX_SPAWN_DUP2, into, 1), (os.POSIX_SPAWN_CLOSE, out)]
    process = os.posix_spawnp(command[0], command, os.environ, file_actions=actions)
    os.close(into)
    with open(out, "rb") as file:
        got = file.read()
    _, status, usage = os.wait4(process, 0)
    times = (usage.ru_utime, usage.ru_utime + usage.ru_stime)
    head = times + (usage.ru_maxrss, os.waitstatus_to_exitcode(status))
    sys.stdout.buffer.write(b"%f\n%f\n%d\n%d\n" % head + got)


main(int(sys.argv[1]), sys.argv[2:])
