#!/usr/bin/env python3
"""Holds the names of definitions, and of the types and traits of src/, to one module each; and the
names of the files of src/ to one crate each, but for the parts that crates have alike.

A name that a module passes on by `pub use` is no definition of that module. A crate of tests names
its files as those are named whose tests they are, so its files aren't looked at.
Usage: tests/closure/one_meaning.py
"""
import glob
import os
import sys

sys.dont_write_bytecode = True
import sources  # noqa: E402

# Parts that crates have alike: what a crate has, its laws and its own tests; of a format its lines,
# its faults, its reader and its writer; of a family its walks and questions; of a pruner its notes.
PARTS = {"lib", "laws", "tests", "forms", "fault", "read", "write", "paths", "notes"}


def definitions():
    """Each name of specs/, and each type and trait of src/, with the places where it is defined."""
    places, code = {}, sources.Sources()
    for folder, table in (("specs", code.defs), ("src", code.types), ("src", code.traits)):
        for item in table.values():
            at = "%s.%s.%s:%d" % (item.crate, folder, item.key[1], item.line)
            places.setdefault(item.name, []).append(at)
    return places


def files():
    """Each name of a file of src/ that isn't one of those parts, with the crates that have it."""
    crates = {}
    for path in glob.glob(os.path.join(sources.TOP, "crates", "*", "src", "*.rt")):
        crate, name = path.split(os.sep)[-3], os.path.basename(path)[:-len(".rt")]
        if name not in PARTS and not crate.endswith("_tests") and crate != "hv_agreement":
            crates.setdefault(name, []).append(crate)
    return crates


def main():
    several = {name: at for name, at in definitions().items() if len(at) > 1}
    for name in sorted(several):
        print("%s stands for several definitions: %s" % (name, ", ".join(sorted(several[name]))))
    shared = {name: at for name, at in files().items() if len(at) > 1}
    for name in sorted(shared):
        print("src/%s.rt is in several crates: %s" % (name, ", ".join(sorted(shared[name]))))
    return 1 if several or shared else 0


if __name__ == "__main__":
    sys.exit(main())
