"""The definitions that the contract of a function rests on, found by the names in its clauses and in specs/."""

import collections
import functools
import pathlib
import re
import sys

from repository import CRATES, dependencies

HEAD = re.compile(r"(?:unfoldable )?(?:pub )?(?:abbrev |record |data )?(?:pub )?(?:unfoldable )?([^\s:(]+)")
IMPORT = re.compile(r"(?:ghost |pub )?use Rattle\.(\w+)\.specs\b([\w.]*?)(?:\.\{([^}]*)\})?(?: as (\w+))?;?$")
WORD = re.compile(r"[\w'′₀-₉-]+(?:\.[\w'′₀-₉-]+)*|◌?[^\s\w(){}.,:;]+◌?")
CLAUSE = re.compile(r"(?:ensures|requires|diverges|bound)\b")
COMMENT = re.compile(r"(^|\s)(?:--|//)(\s.*|$)")

LISTED = dependencies()


def path_of(crate, module):
    return CRATES / crate / "specs" / (module.replace(".", "/") + ".antt")


def code_of(line):
    return COMMENT.sub("", line).rstrip()


class Source:
    """A file of definitions: what it imports, the lines of each definition, and whose part a constructor is."""

    def __init__(self, lines):
        self.imports, self.aliases = {}, {}
        self.lines, self.parts, self.headers = collections.defaultdict(list), {}, collections.defaultdict(list)
        self.name, self.depth, self.header, self.in_header = None, 0, [], False
        for line in map(code_of, lines):
            if line and not re.match(r"(pub )?mod ", line):
                self.add(line)

    def add(self, line):
        """Takes a line of code."""
        text, depth = line.strip(), len(line) - len(line.lstrip())
        if re.match(r"(pub )?use ", text):
            self.add_import(text)
        elif depth == 0 and text in "})]":
            return
        elif text.startswith("module ") or self.in_header:
            self.header = self.header + [text] if self.in_header else [text]
            self.in_header, self.depth = not text.endswith("where"), 2
        else:
            if depth == 0:
                self.header, self.depth = [], 0
            if depth == self.depth:
                self.name = HEAD.match(text).group(1)
            elif part := re.match(r"(?:pub )?([^\s:]+) :", text):
                self.parts.setdefault(part.group(1), self.name)
            self.lines[self.name].append(line)
            self.headers[self.name] = self.header

    def add_import(self, line):
        """Takes an import of definitions of this repository: a module under its name or another, or names of one."""
        found = IMPORT.match(line)
        if not found or found[1] not in LISTED:
            return
        crate, module, names, alias = found[1], found[2].removeprefix("."), found[3], found[4]
        if names is None:
            self.aliases[alias or module.split(".")[-1] or crate] = (crate, module)
        for name in (names or "").split(","):
            name, _, other = name.strip().partition(" as ")
            self.imports[other or name] = (crate, module, name)


@functools.cache
def source_at(path):
    return Source(path.read_text(encoding="utf-8").splitlines()) if path.exists() else None


def placed(crate, module):
    """Where the definitions of a module stand, which a crate may have from a lower one and hand on."""
    first, _, rest = module.partition(".")
    lib = source_at(path_of(crate, "Lib"))
    if not lib or first not in lib.aliases:
        return crate, module
    low, handed = lib.aliases[first]
    return placed(low, ".".join(part for part in (handed, rest) if part))


def meant(source, here, word):
    """The crate, module and name that a word means in a file, if it is a definition of this repository."""
    first, *rest = word.split(".")
    if first in source.imports:
        crate, module, name = source.imports[first]
        return (*placed(crate, module), name)
    if first in source.aliases and rest:
        crate, module = source.aliases[first]
        while len(rest) > 1 and not path_of(*placed(crate, module)).exists():
            module = ".".join(part for part in (module, rest.pop(0)) if part)
        return (*placed(crate, module), rest[0])
    if here and first in source.lines:
        return (*here, first)
    return None


def clauses_of(path, function):
    """What the file of a function imports, and the words of the function's clauses."""
    lines = [code_of(line).strip() for line in path.read_text(encoding="utf-8").splitlines()]
    imports = Source(line.removeprefix("ghost ") for line in lines if line.startswith("ghost use "))
    words, inside, in_clauses = [], False, False
    for line in lines:
        if re.match(rf"(?:pub )?fn {function}\b", line):
            inside = True
        elif line in ("{", "{}"):
            inside = in_clauses = False
        in_clauses |= inside and bool(CLAUSE.match(line))
        if in_clauses:
            words += WORD.findall(line)
    return imports, words


class Reach:
    """What was found of the definitions so far."""

    def __init__(self):
        self.seen, self.types, self.lines, self.defined = set(), set(), collections.Counter(), set()

    def follow(self, todo):
        """Takes definitions, and all that they speak of."""
        while todo:
            it = todo.pop()
            if it and it not in self.seen:
                self.seen.add(it)
                todo += self.of(it)

    def of(self, it):
        """Counts a definition, and gives those that it speaks of."""
        crate, module, name = it
        if module.startswith("declared"):
            self.types.add((crate, module.removesuffix(".TheVariants").split(".")[-1]))
            return []
        source = source_at(path_of(crate, module))
        if source and name in source.lines:
            self.lines[crate, name] = len(source.lines[name])
            self.defined.add(it)
            text = source.headers[name] + source.lines[name]
            words = [word for line in text for word in WORD.findall(line)]
            return [further for word in words if (further := meant(source, (crate, module), word)) != it]
        if source and name in source.parts:
            return [(crate, module, source.parts[name])]
        if source and name in source.imports:
            return [meant(source, None, name)]
        print("not found:", crate, module, name, file=sys.stderr)
        return []

    def tell(self, with_names):
        by_crate = collections.Counter()
        for (crate, name), count in sorted(self.lines.items()):
            by_crate[crate] += count
            if with_names:
                print(crate, name, count)
        for crate, count in by_crate.most_common():
            print(f"{count:6} lines, {sum(c == crate for c, _ in self.lines):4} definitions: {crate}")
        print(f"{sum(self.lines.values()):6} lines, {len(self.lines):4} definitions in all, "
              f"and {len(self.types)} types of the code")
        print("types of the code:", *sorted({name for _, name in self.types}))


def reach_of(file, function):
    """What the contract of a function reaches."""
    imports, words = clauses_of(pathlib.Path(file).resolve(), function)
    reach = Reach()
    reach.follow([meant(imports, None, word) for word in words])
    return reach


def tell_reach(file, function, with_names):
    """Prints what the contract of a function reaches. Whether it has clauses at all."""
    reach = reach_of(file, function)
    if not reach.seen:
        print(f"no clause of {function} in {file}", file=sys.stderr)
        return False
    reach.tell(with_names)
    return True
