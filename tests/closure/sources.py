"""Reads the contracts and the definitions that they cite, from crates/*/src and crates/*/specs.

A definition is known by its crate, its module in specs/ and its name. A type that stands in src/
and that definitions speak of (`specs.declared`) is known in the same way, by its file and its name.
"""
import os
import re

TOP = os.path.dirname(os.path.dirname(os.path.dirname(os.path.abspath(__file__))))

NAME = r"[^\W\d][\w'-]*"
DOTTED = re.compile(r"(?<![\w.])%s(?:\.%s)*" % (NAME, NAME))
USE = re.compile(r"^\s*(?:ghost )?use ([\w.]+?)(?:\.\{([^}]*)\})?(?: as (\w+))?;?\s*$")
SPEC_WORDS = r"(?:abbrev |unfoldable )*(?:pub )?(?:record |data )?"
# an operator is known by the sign between its places, as `◌++◌`
OPERATOR = r"◌\S+◌"
SPEC_ITEM = re.compile(r"^%s(%s|%s)\s*(?=[:({ ]|$)" % (SPEC_WORDS, NAME, OPERATOR))
BEGINS_ITEM = re.compile(
    r"^(?:abbrev|unfoldable|pub (?:record|data) |record|data|module|pub %s :)(?:\s|$)?" % NAME)
RUST_TYPE = re.compile(r"^(pub(?:\([\w ]+\))? )?(struct|enum|trait) (\w+)")
RUST_FUNCTION = re.compile(r"^(\s*)(pub(?:\([\w ]+\))? )?(?:const )?fn (\w+)")
RUST_BLOCK = re.compile(r"^impl\b(.*)\{\s*$")


# the module of a crate's specs/ that has the modules of its working definitions
WORKING = "Working"


def path_of(module):
    return module.replace(".", os.sep) + ".antt"


def read(path):
    with open(path, encoding="utf-8") as file:
        return file.read().split("\n")


class Names:
    """What the `use` lines of a module bring in: names, and prefixes of modules."""

    def __init__(self):
        self.single, self.prefixes = {}, {}

    def copy(self):
        other = Names()
        other.single, other.prefixes = dict(self.single), dict(self.prefixes)
        return other

    def take(self, line):
        found = USE.match(line)
        if not found:
            return False
        path, inside, renamed = found.groups()
        if inside is None:
            self.prefixes[renamed or path.split(".")[-1]] = path
            return True
        for part in filter(None, (part.strip() for part in inside.split(","))):
            name, _, other = part.partition(" as ")
            self.single[other or name] = (path, name)
        return True


class Item:
    """A definition, a declared type or a contract: its text, and the names that it cites."""

    def __init__(self, crate, module, name, kind, text, names, line):
        self.crate, self.module, self.name, self.kind = crate, module, name, kind
        self.text, self.names, self.line = text, names, line
        self.public, self.heads, self.uses = False, [], {}
        self.cites, self.kit = {}, set()

    key = property(lambda self: (self.crate, self.module, self.name))

    def __repr__(self):
        return "%s.%s.%s" % self.key


def strip_comment(line, mark):
    """The line without its comment; in a text like `"--nodes"` the mark doesn't stand alone."""
    return re.split(r"(?:^|\s)%s(?=\s|/|!|$)" % mark, line, maxsplit=1)[0]


def without_blank_ends(lines):
    while lines and not lines[-1].strip():
        lines = lines[:-1]
    return lines


class Sources:
    def __init__(self):
        lines = read(os.path.join(TOP, "crates.txt"))
        lines = [line for line in lines if re.match(r"\w+[^:#]*:", line)]
        self.crates = [re.match(r"\w+", line).group(0) for line in lines]
        self.defs, self.types, self.traits, self.contracts = {}, {}, {}, {}
        self.members, self.lemmas, self.uses, self.models = {}, {}, {}, {}
        self.modules = {}
        for crate in self.crates:
            self.read_specs(crate)
            self.read_code(crate)
        for crate in self.crates:
            self.find_public(crate)
        for table in (self.defs, self.types, self.traits, self.models, self.contracts):
            for item in table.values():
                self.resolve(item)

    # definitions

    def read_specs(self, crate):
        folder = os.path.join(TOP, "crates", crate, "specs")
        if not os.path.isdir(folder):
            return
        lines = read(os.path.join(folder, "Lib.antt"))
        order = [line.split()[-1] for line in lines if re.match(r"(pub )?mod ", line)]
        if WORKING in order:
            order.remove(WORKING)
            lines = read(os.path.join(folder, WORKING + ".antt"))
            order += ["%s.%s" % (WORKING, line.split()[-1])
                      for line in lines if re.match(r"(pub )?mod ", line)]
        self.modules[crate] = order
        for module in order:
            self.read_spec(crate, module, read(os.path.join(folder, path_of(module))))

    def read_spec(self, crate, module, lines):
        names = Names()
        lines = ["" if line.startswith("use ") and names.take(line) else line for line in lines]
        self.read_chunks(crate, module, names, lines, 1, [])

    def read_chunks(self, crate, module, names, lines, first, heads):
        """Cuts lines into definitions, each with the comment before it, also those of a module."""
        chunks, waiting = [], []
        for number, line in enumerate(lines, first):
            if line.startswith("--") or re.match(r"infix[lr]? \d", line):
                waiting.append(line)
            elif not line.strip():
                if chunks:
                    chunks[-1][2].append(line)
                waiting = []
            elif BEGINS_ITEM.match(line) or not chunks or re.match(r"%s :" % NAME, line):
                chunks.append((number - len(waiting), line, waiting + [line]))
                waiting = []
            else:
                chunks[-1][2].extend(waiting + [line])
                waiting = []
        for number, line, text in chunks:
            text = without_blank_ends(text)
            if line.startswith("module"):
                self.read_module(crate, module, names, number, text, heads)
            else:
                self.add_chunk(crate, module, names, number, line, text, heads)

    def read_module(self, crate, module, names, number, text, heads):
        start = next(place for place, line in enumerate(text) if line.startswith("module"))
        end = start + 1
        while not text[end - 1].rstrip().endswith("where"):
            end += 1
        inner, head = [line[2:] for line in text[end:]], " ".join(text[start:end])
        self.read_chunks(crate, module, names, inner, number + end, heads + [head])

    def add_chunk(self, crate, module, names, number, first, text, heads):
        found = SPEC_ITEM.match(first)
        kind = re.match(r"(?:pub )?(record|data)?", first).group(1) or "abbrev"
        if kind == "abbrev" and not re.match(r"(abbrev|unfoldable)", first):
            self.lemmas[(crate, module, found.group(1))] = True
            return
        item = Item(crate, module, found.group(1), kind, text, names, number)
        item.heads = heads
        self.defs[item.key] = item
        if kind == "data":
            for line in text:
                member = re.match(r"\s+(?:pub )?(%s)(?: [^:]*)?:" % NAME, strip_comment(line, "--"))
                if member and line != first:
                    self.members[(crate, module, member.group(1))] = item.key

    # code

    def read_code(self, crate):
        folder = os.path.join(TOP, "crates", crate, "src")
        for name in sorted(os.listdir(folder)):
            if name.endswith(".rt"):
                self.read_room(crate, name[:-3], read(os.path.join(folder, name)))

    def read_room(self, crate, module, lines):
        if any(line.startswith("#![cfg(test)]") for line in lines):
            return
        names = Names()
        uses = self.uses.setdefault((crate, module), {})
        place = 0
        while place < len(lines):
            line = lines[place]
            if line.startswith("ghost use"):
                names.take(line)
            elif re.match(r"(pub )?use ", line):
                place = self.take_use(lines, place, uses)
            elif line.startswith("#[cfg(test)]") and re.match(r"mod \w+ \{", lines[place + 1]):
                break
            elif RUST_TYPE.match(line):
                place = self.add_type(crate, module, names, lines, place)
                continue
            elif RUST_BLOCK.match(line):
                place = self.add_block(crate, module, names, lines, place)
                continue
            elif RUST_FUNCTION.match(line):
                place = self.add_function(crate, module, names, lines, place, None)
                continue
            place += 1

    @staticmethod
    def take_use(lines, place, uses):
        text = lines[place]
        while ";" not in text:
            place += 1
            text += " " + lines[place].strip()
        found = re.match(r"(?:pub )?use (.*);", text)
        path = found.group(1)
        inside = re.match(r"([\w:]+)::\{(.*)\}$", path)
        if inside:
            parts = [(inside.group(1), part.strip()) for part in inside.group(2).split(",")]
        else:
            parts = [path.rsplit("::", 1)] if "::" in path else []
        for source, name in parts:
            if name:
                name, _, other = name.partition(" as ")
                uses[other or name] = (source, name)
        return place

    @staticmethod
    def doc_before(lines, place):
        first = place
        while first > 0 and re.match(r"\s*(///|#\[)", lines[first - 1]):
            first -= 1
        return first

    @staticmethod
    def end_of_block(lines, place):
        """The line behind the block that opens at this line: the next that closes at its depth."""
        indent = re.match(r"\s*", lines[place]).group(0)
        if lines[place].rstrip().endswith(";") or lines[place].rstrip().endswith("}"):
            return place + 1
        place += 1
        while not re.match(indent + r"\}", lines[place]):
            place += 1
        return place + 1

    def add_type(self, crate, module, names, lines, place):
        kind, name = RUST_TYPE.match(lines[place]).groups()[1:]
        first, end = self.doc_before(lines, place), self.end_of_block(lines, place)
        item = Item(crate, module, name, kind, lines[first:end], names, place + 1)
        item.uses = self.uses[(crate, module)]
        item.said_public = lines[place].startswith("pub ")
        (self.traits if kind == "trait" else self.types)[item.key] = item
        return end

    def add_block(self, crate, module, names, lines, place):
        """An `impl` block: the model of a type, or functions of a type."""
        head, end = RUST_BLOCK.match(lines[place]).group(1), self.end_of_block(lines, place)
        inner = names.copy()
        for line in lines[place:end]:
            if re.match(r"\s+ghost use", line):
                inner.take(line)
        head = re.sub(r"<[^<>]*(<[^<>]*>[^<>]*)*>", "", head)
        owner = re.search(r"(\w+)\s*$", head).group(1)
        trait = re.search(r"(\w+) for ", head)
        if trait and trait.group(1) == "Model":
            item = Item(crate, module, owner, "model", lines[place:end], inner, place + 1)
            self.models[item.key] = item
            return end
        here, owner = place + 1, (owner, trait and trait.group(1))
        while here < end:
            if RUST_FUNCTION.match(lines[here]):
                here = self.add_function(crate, module, inner, lines, here, owner)
            else:
                ghost = re.match(r"    ghost (\w+)\b", lines[here])
                if ghost and not lines[here].strip().startswith("ghost use"):
                    member = ghost.group(1)
                    here = self.add_ghost(crate, module, inner, lines, here, member, owner)
                else:
                    here += 1
        return end

    def add_ghost(self, crate, module, names, lines, place, name, owner):
        """A member that an `impl` gives a trait: its meaning belongs to the contract."""
        end = place
        while not lines[end].rstrip().endswith("};"):
            end += 1
        text = lines[place:end + 1]
        item = Item(crate, module, "%s.%s" % (owner[0], name), "ghost", text, names, place + 1)
        item.owner, item.said_public = owner, True
        self.contracts[item.key + (place,)] = item
        return end + 1

    def add_function(self, crate, module, names, lines, place, owner):
        indent, visible, name = RUST_FUNCTION.match(lines[place]).groups()
        first, end = self.doc_before(lines, place), place
        while not self.ends_contract(lines[end], indent, lines[place:end]):
            end += 1
        opens = re.match(indent + r"\{\s*$", lines[end])
        text = lines[first:end] if opens else lines[first:end + 1]
        own = names.copy()
        name = "%s.%s" % (owner[0], name) if owner else name
        item = Item(crate, module, name, "fn", text, own, place + 1)
        item.owner, item.said_public = owner, visible == "pub "
        item.uses = self.uses[(crate, module)]
        self.contracts[item.key + (place,)] = item
        if lines[end].rstrip().endswith((";", "}")):
            return end + 1
        while not re.match(indent + r"\}", lines[end]):
            end += 1
        return end + 1

    @staticmethod
    def ends_contract(line, indent, before):
        """Whether the line opens the body, or ends a function without one."""
        if re.match(indent + r"\{(\}|\s*$)", line) or line.rstrip().endswith(";"):
            return True
        stated = any(re.match(r"\s*(requires|ensures)\b", earlier) for earlier in before + [line])
        return not stated and re.search(r"\{(\s*|.*\})$", line) is not None

    # what is public

    def find_public(self, crate):
        """Marks what can be named from outside the crate: types, traits, functions."""
        folder = os.path.join(TOP, "crates", crate, "src")
        root = "lib" if os.path.exists(os.path.join(folder, "lib.rt")) else "main"
        modules, names = set(), {}
        lines = read(os.path.join(folder, root + ".rt"))
        place = 0
        while place < len(lines):
            module = re.match(r"pub mod (\w+);", lines[place])
            if module:
                modules.add(module.group(1))
            elif lines[place].startswith("pub use "):
                taken = {}
                place = self.take_use(lines, place, taken)
                for source, name in taken.values():
                    names.setdefault(source.split("::")[-1], set()).add(name)
            place += 1

        def shown(module, name):
            return module in modules or module == root or name in names.get(module, ())

        for item in list(self.types.values()) + list(self.traits.values()):
            if item.crate == crate:
                item.public = item.said_public and shown(item.module, item.name)
        own = [item for item in self.types.values() if item.crate == crate]
        public_types = {item.name for item in own if item.public}
        for item in self.contracts.values():
            if item.crate != crate:
                continue
            if item.owner is None:
                item.public = item.said_public and shown(item.module, item.name)
            else:
                kind, trait = item.owner
                item.public = kind in public_types and (item.said_public or trait is not None)

    # names

    def find(self, path, name):
        """The key of what a path and a name say, or none for a name of the kit."""
        parts = path.split(".")
        if parts[0] != "Rattle" or parts[1] not in self.crates:
            return None
        crate = parts[1]
        if parts[2] != "specs":
            return None
        if parts[3] == "declared":
            return self.find_type(crate, parts[4], parts[5] if len(parts) > 5 else name)
        key = (crate, ".".join(parts[3:5]) if parts[3] == WORKING else parts[3], name)
        if key in self.defs or key in self.lemmas:
            return key
        return self.members.get(key)

    def find_type(self, crate, module, name):
        key = (crate, module, name)
        return key if key in self.types or key in self.traits else None

    def find_by_use(self, crate, uses, name):
        """The type or trait that a `use` of the code brings in under this name."""
        if name not in uses:
            return None
        source, original = uses[name]
        parts = source.split("::")
        where = crate if parts[0] == "crate" else parts[0]
        if where not in self.crates:
            return None
        modules = parts[1:] if parts[0] == "crate" else []
        for key in list(self.types) + list(self.traits):
            if key[0] == where and key[2] == original and (not modules or key[1] == modules[-1]):
                return key
        return None

    def resolve(self, item):
        text = item.text
        mark = "--" if item.kind in ("abbrev", "record", "data") else "//"
        lines = [strip_comment(line, mark) for line in text]
        lines = [line for line in lines if not re.match(r"\s*#\[|.*ghost use", line)]
        for part in item.heads + self.parts_of(item, lines):
            heads = item.heads + [part] if mark == "--" else []
            bound = set().union(*(self.bound_in(head) for head in heads))
            for found in DOTTED.finditer(part):
                self.cite(item, found.group(0), bound)
            self.cite_operators(item, part)
            for name, (path, _) in item.names.single.items():
                sign = name.strip("◌").split("◌")[0]
                if "◌" in name and path.startswith("Rattle.std") and sign in part:
                    item.kit.add((path, name))

    def cite_operators(self, item, part):
        """Cites the operators whose signs stand alone in the part. Those that join parts are not
        written in a `do`, and are meant by it."""
        own = {name: (crate, module, name) for crate, module, name in self.defs
               if "◌" in name and (crate, module) == (item.crate, item.module)}
        brought = {name: self.find(path, original)
                   for name, (path, original) in item.names.single.items() if "◌" in name}
        for name, key in {**own, **brought}.items():
            sign = name.strip("◌")
            alone = re.search(r"(?<!\S)%s(?!\S)" % re.escape(sign), part)
            joined = sign in (">>=", ">>") and re.search(r"\bdo\b", part)
            if key and key != item.key and (alone or joined):
                item.cites[key] = True

    @staticmethod
    def parts_of(item, lines):
        """The parts in which a variable has one meaning: the type, and each equation."""
        if item.kind != "abbrev":
            return ["\n".join(lines)]
        parts = []
        for line in lines:
            if parts and (not line.strip() or line[0].isspace()):
                parts[-1] += "\n" + line
            elif line.strip():
                parts.append(line)
        return parts

    @staticmethod
    def bound_in(part):
        bound = set()
        for found in re.finditer(r"λ ([^.]*)\.", part):
            bound.update(found.group(1).split())
        for found in re.finditer(r"[({]((?:%s )+): " % NAME, part):
            bound.update(found.group(1).split())
        for found in re.finditer(r"^\s+(?:pub )?(%s) :" % NAME, part, re.M):
            bound.add(found.group(1))
        head = re.match(r"(%s)((?:.|\n)*?)(?<![≡<>=])=(?!=)" % NAME, part)
        if head and not part.startswith(("abbrev", "pub ", "record", "data", "unfoldable")):
            bound.update(name for name in re.findall(NAME, head.group(2)) if name[0].islower())
        return bound

    def cite(self, item, dotted, bound):
        parts = dotted.split(".")
        if parts[0] in bound:
            return
        names = item.names
        if parts[0] in names.prefixes and len(parts) > 1:
            key = self.find(names.prefixes[parts[0]], parts[1])
            if key:
                item.cites[key] = True
            return
        if parts[0] in names.single:
            path, original = names.single[parts[0]]
            key = self.find(path, original)
            if key:
                item.cites[key] = True
            elif path.startswith("Rattle.std"):
                item.kit.add((path, parts[0]))
            return
        if item.kind in ("abbrev", "record", "data"):
            key = (item.crate, item.module, parts[0])
            key = key if key in self.defs or key in self.lemmas else self.members.get(key)
            if key and key != item.key:
                item.cites[key] = True
            return
        key = self.find_by_use(item.crate, item.uses, parts[0]) \
            or self.find_type(item.crate, item.module, parts[0])
        if key and key != item.key:
            item.cites[key] = True

    def cited_by(self, key, by_value=False):
        """What a definition or a type cites; where it has a model, what that or its value does. By
        value, a type that can't be named from outside its crate cites nothing: its fields are no
        part of a contract."""
        if by_value and key in self.types and not self.types[key].public:
            return {}
        if by_value and key in self.models:
            return self.value_cites(self.models[key])
        for table in (self.defs, self.traits, self.models, self.types):
            if key in table:
                return table[key].cites
        return {}

    def value_cites(self, model):
        """What the value of a modelled type cites: how fields give it is no part of a contract."""
        lines, kept = [], False
        for line in model.text:
            kept = (kept or re.match(r"\s+ghost Value\b", line) is not None) and bool(line.strip())
            if kept:
                lines.append(line)
        item = Item(model.crate, model.module, model.name, "model", lines, model.names, model.line)
        self.resolve(item)
        return item.cites

    def closure(self, roots, by_value=False):
        found, waiting = set(roots), list(roots)
        while waiting:
            for key in self.cited_by(waiting.pop(), by_value):
                if key not in found:
                    found.add(key)
                    waiting.append(key)
        return found

    def ranks(self):
        """The definitions that some public contract cites, and those that these rest upon."""
        cited = set()
        for table in (self.contracts, self.traits):
            cited.update(*(item.cites for item in table.values() if item.public))
        modelled = [key for key in self.models if key in self.types and self.types[key].public]
        cited.update(*(self.cited_by(key, True) for key in modelled))
        return cited, self.closure(cited, True) - cited

    def contract(self, crate, module, name):
        for item in self.contracts.values():
            if item.key == (crate, module, name):
                return item
        return None
