#!/usr/bin/env python3
"""Lists each lemma and each definition of proofs/ and specs/ to which no name leads.

Names lead from the code, its contracts and attributes, and from the answers to its goals, to what
these cite, and on to what that cites: so what is cited by an uncited lemma alone is listed too. A
`use` line cites nothing. Only names are followed: a variable with the name of a lemma of its file
counts as that lemma, so one that is cited is never listed, and an uncited one may be missed.
Usage: tests/closure/uncited.py
"""
import glob
import os
import re
import sys

sys.dont_write_bytecode = True
import sources  # noqa: E402

WORDS = r"(?:abbrev |unfoldable |pub |record |data )*"
NAME = r"(?!unfolding )%s|%s" % (sources.NAME, sources.OPERATOR)
ITEM = re.compile(r"(%s)(%s)( :|(?=[ ({]|$))" % (WORDS, NAME))
USE = re.compile(r"\s*(?:pub )?(?:ghost )?use ")
NOT_AN_ITEM = re.compile(r"\s*(?:pub )?(?:mod|infix[lr]?) ")
CONSTRUCTOR = re.compile(r"\s+(?:pub )?(%s)(?: [^:]*)?:" % sources.NAME)


class Item:
    """A lemma or a definition: its file, its name and line, and its text without comments."""

    def __init__(self, file, name, line, heads, is_data):
        self.file, self.name, self.line, self.is_data = file, name, line, is_data
        self.text = list(heads)

    def is_answer(self):
        """Whether it answers a goal of a function, or gives an invariant for it."""
        return re.search(r"\bgoal\.%s(?![\w'-])" % re.escape(self.name), "\n".join(self.text))


class File:
    """A file: what its `use` lines bring in, and its items by name, or its text if it is code."""

    def __init__(self, path, module):
        self.path, self.module, self.crate = path, module, module.split(".")[1]
        self.names, self.items, self.constructors, self.text = sources.Names(), {}, {}, []
        is_code, lines, use = path.endswith(".rt"), [], ""
        for line in sources.read(os.path.join(sources.TOP, path)):
            line = sources.strip_comment(line, "//" if is_code else "--")
            if use or USE.match(line):
                use, line = use + line.strip() + " ", ""
                if "{" not in use or "}" in use:
                    self.names.take(use)
                    use = ""
            lines.append("" if NOT_AN_ITEM.match(line) else line)
        if is_code:
            self.text = lines
        else:
            self.read_items(lines)

    def read_items(self, lines):
        """Cuts the text into items. The head of a module belongs to each item within it."""
        heads, columns, item, in_head = [], [0], None, False
        for number, line in enumerate(lines, 1):
            if not line.strip():
                continue
            column = len(line) - len(line.lstrip())
            columns[-1] = column if columns[-1] is None and not in_head else columns[-1]
            while not in_head and column < columns[-1]:
                heads.pop()
                columns.pop()
            if in_head or column == columns[-1] and re.match(r"\s*module ", line):
                if not in_head:
                    heads.append("")
                    columns.append(None)
                heads[-1] += line + "\n"
                in_head = not line.rstrip().endswith("where")
            else:
                begins = ITEM.match(line[column:]) if column == columns[-1] else None
                kind, name, sign = begins.groups() if begins else ("", None, "")
                if kind or sign or name in self.items:
                    new = Item(self, name, number, heads, "data " in kind)
                    item = self.items.setdefault(name, new)
                item.text.append(line)
                constructor = CONSTRUCTOR.match(line)
                if constructor and item.is_data and not kind:
                    self.constructors[constructor.group(1)] = item


class Repository:
    def __init__(self):
        self.files = {}
        for pattern in ("src/*.rt", "specs/**/*.antt", "proofs/**/*.antt"):
            pattern = os.path.join(sources.TOP, "crates", "*", pattern)
            for path in glob.glob(pattern, recursive=True):
                path = os.path.relpath(path, sources.TOP)
                module = os.path.splitext(path)[0].replace(os.sep, ".")
                module = module.replace("crates.", "Rattle.", 1)
                self.files[module] = File(path, module)

    def find(self, path, name):
        """The items that a path and a name say: none of the kit's."""
        file = self.files.get(path)
        tables = (file.items, file.constructors) if file else ()
        return [table[name] for table in tables if name in table]

    def brought(self, file, name):
        """The items that a name alone says in a file."""
        return self.find(file.module, name) + self.find(*file.names.single.get(name, ("", "")))

    def cited(self, file, text):
        """The items that a text of the file cites."""
        names, found = file.names, []
        for dotted in sources.DOTTED.findall(text.replace("::", ".")):
            parts = re.sub(r"^crate\.", "Rattle.%s." % file.crate, dotted).split(".")
            found += self.brought(file, parts[0])
            if parts[0] in names.prefixes:
                parts = names.prefixes[parts[0]].split(".") + parts[1:]
            for end in range(1, len(parts)):
                found += self.find(".".join(parts[:end]), parts[end])
        for name in list(file.items) + list(names.single):
            if "◌" in name and (name.strip("◌") in text or re.search(r"\bdo\b", text)):
                found += self.brought(file, name)
        return found

    def uncited(self):
        """The items that are neither cited by the code nor an answer, nor cited by such a one."""
        items = [item for file in self.files.values() for item in file.items.values()]
        waiting = [item for item in items if item.is_answer()]
        for file in self.files.values():
            waiting += self.cited(file, "\n".join(file.text))
        reached = set()
        while waiting:
            item = waiting.pop()
            if item not in reached:
                reached.add(item)
                waiting += self.cited(item.file, "\n".join(item.text))
        return [item for item in items if item not in reached]


def main():
    uncited = sorted(Repository().uncited(), key=lambda item: (item.file.path, item.line))
    for item in uncited:
        print("%s:%d: nobody cites %s" % (item.file.path, item.line, item.name))
    return 1 if uncited else 0


if __name__ == "__main__":
    sys.exit(main())
