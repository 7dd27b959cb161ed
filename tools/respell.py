#!/usr/bin/env python3
"""Brings the names of this repository's own definitions, lemmas, fields and cases to snake case, after the kit's porting script has run.

usage: tools/respell.py        at the top of the repository, once

`isTree` becomes `is_tree`, `wholly-above-point` becomes `wholly_above_point`, and `at_least`, which is a fact, becomes `AtLeast`. A lemma that would get
another name's spelling gets `_lem` behind it. Functions of src/, exported names, strings, inputs and outputs keep theirs. The must-fail edits of specs/ get
the new spelling too. It prints each name that it turned.
"""
import collections
import glob
import re

WORD = re.compile(r'[^\s(){}.;,:@"«»\[\]`]+')
DECLARED = re.compile(r"^( *)((?:(?:unfoldable|abbrev|pub|record|data|ruleset) +)*)([^\s(){}:;,.]+)((?: [({].*?)?) [:=]( |$)")
FACTS = {"at_least": "AtLeast"}


def snake(name):
    """The name in snake case."""
    words = re.sub(r"(?<=[a-z0-9])[A-Z]", lambda m: "_" + m[0].lower(), name) if name[0].islower() else name
    return words.replace("-", "_")


def declared(text):
    """The names that a file of definitions declares, at the top, in a module, behind a `where`, or in a record."""
    for line in text.split("\n"):
        found = DECLARED.match(line)
        if found and not line.startswith(("--", "use ", "pub use ", "module ", "mod ", "pub mod ")):
            yield found.group(3)


def tokens(text):
    return set(WORD.findall(text))


def turned(names, texts):
    """The new spelling of each name that changes; a lemma whose spelling another name has gets `_lem` behind it."""
    table = {name: FACTS.get(name) or snake(name) for name in names}
    table = {old: new for old, new in table.items() if old != new and re.fullmatch(r"[\w'-]+", old)}
    own = {table.get(name, name) for name in names if "-" not in name}
    words = [tokens(re.sub(r"(?m)^((?:pub )?use )[^{\n]*?(?=\{| as |$)", "", text)) for text in texts.values()]
    for old, new in sorted(table.items()):
        met = any(old in some and new in some for some in words)
        if "-" in old and (new in own or met):
            table[old] = new + "_lem"
        elif met:
            print(f"look: {old} and {new} stand in one file")
    twice = [new for new, count in collections.Counter(table.values()).items() if count > 1]
    print("look: two names became one:", *twice) if twice else None
    return table


def respelled(text, table):
    return WORD.sub(lambda m: table.get(m[0], m[0]), text)


def read(path):
    with open(path, encoding="utf-8") as f:
        return f.read()


def write(path, text):
    with open(path, "w", encoding="utf-8") as f:
        f.write(text)


def in_clauses(text, table):
    """Turns the clauses, the imports and the quoted words of comments of a source: its own words have no capital behind a small letter and no dash."""
    spelled = {old: new for old, new in table.items() if "-" not in old}
    return respelled(text, spelled)


def main():
    specs = {path: read(path) for path in sorted(glob.glob("crates/*/specs/*.antt"))}
    proofs = {path: read(path) for path in sorted(glob.glob("crates/*/proofs/**/*.antt", recursive=True))}
    sources = {path: read(path) for path in sorted(glob.glob("crates/*/src/*.rt"))}
    edits = {path: read(path) for path in sorted(glob.glob("crates/*/must-fail/*.edit"))}
    names = {name for text in specs.values() for name in declared(text)}
    table = turned(names, {**specs, **proofs})
    for path, text in {**specs, **proofs}.items():
        write(path, respelled(text, table))
    for path, text in sources.items():
        write(path, in_clauses(text, table))
    for path, text in edits.items():
        if "\nfile: specs/" in "\n" + text:
            write(path, respelled(text, table))
    for old, new in sorted(table.items()):
        print(old, new)


if __name__ == "__main__":
    main()
