#!/usr/bin/env python3
"""Renames identifiers in code, definitions, proofs and edits, and the files that are named by them.

    tools/rename.py TABLE [--spellings]

A line of TABLE is an old name, a new one and, after `not`, the crates in which the old name means something else, or, after
`only`, those in which it is renamed. A new name that stands there already is refused. With --spellings, names of lemmas that differ from another by - and _
alone are written with _, where no file names both.
"""
import collections
import os
import re
import sys

ROOTS = ("crates", "mutants")
ENDS = (".rt", ".antt", ".edit")
DECLARED = re.compile(r"(?m)^ *(?:pub )?([a-z][\w]*-[\w-]*) :")


def sources():
    for top in ROOTS:
        for folder, _, files in os.walk(top):
            for name in sorted(files):
                if name.endswith(ENDS) and f"{os.sep}out{os.sep}" not in folder:
                    yield os.path.join(folder, name)


def whole(name):
    return re.compile(r"(?<![\w-])" + re.escape(name) + r"(?![\w-])" if "-" in name else r"(?<!\w)" + re.escape(name) + r"(?!\w)")


def applies(path, only, named):
    return (path.split(os.sep)[1] in named) == only


def table_of(path):
    with open(path, encoding="utf-8") as file:
        for line in file:
            words = line.split("#")[0].split()
            if words:
                yield words[0], words[1], words[2:3] == ["only"], set(words[3:])


def spellings(texts):
    """Names with - that stand with _ elsewhere."""
    held = collections.defaultdict(set)
    for path, text in texts.items():
        for name in set(re.findall(r"(?<![\w-])[a-z]\w*(?:-\w+)*(?![\w-])", text)):
            held[name].add(path)
    for path, text in texts.items():
        if path.endswith(".antt") and not path.endswith("Answers.antt"):
            for old in DECLARED.findall(text):
                new = old.replace("-", "_")
                if new in held and not held[old] & held[new]:
                    yield old, new


def main(table, *options):
    texts = {}
    for path in sources():
        with open(path, encoding="utf-8") as file:
            texts[path] = file.read()
    rules = list(table_of(table))
    for _, new, only, named in rules:
        if any(applies(path, only, named) and whole(new).search(text) for path, text in texts.items()):
            sys.exit(f"{new} stands in the sources already")
    if "--spellings" in options:
        rules += [(old, new, False, set()) for old, new in sorted(set(spellings(texts)))]
    for path, text in texts.items():
        after = text
        name, end = os.path.splitext(os.path.basename(path))
        for old, new, only, named in rules:
            if applies(path, only, named):
                after = whole(old).sub(new, after)
                name = new if name == old else name
        target = os.path.join(os.path.dirname(path), name + end)
        if after != text or target != path:
            with open(target, "w", encoding="utf-8") as file:
                file.write(after)
            if target != path:
                os.remove(path)
    print(len(rules), "names")


main(*sys.argv[1:])
