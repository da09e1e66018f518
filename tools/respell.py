#!/usr/bin/env python3
"""Brings this repository's own names in specs/, proofs/ and clauses to the spelling of today's Rattle, after port.py has run.

usage: python3 tools/respell.py            at the top of the repository, once

Definitions, fields and the parts of a lemma's name are in snake case; a dash joins the names in a lemma's name alone. Functions, types, constants and strings of
src/ keep their names. The same renaming is applied to the edits in must-fail/. It says which names it changed, and stops at two that would fall together.
"""

import glob
import re
import sys

# Lemmas whose name is that of a definition in snake case: each gets `_lem`.
BESIDE = """all_named all_placed all_words equal_by first_by fresh_at fresh_ok goes_on held_by kept_by kept_in look_up moved_by one_more placed_by row_read
start_word""".split()
# Definitions that port.py respelled already, so that what is left of the older spelling joins them.
JOINED = "are_words bytes_of word_in word_of words_in".split()
# Fields whose name in snake case is that of a definition.
OTHERWISE = {
    "own-words": "own_are_words",
    "is-named": "is_its",
    "first-words": "begun_with",
    "label-end": "label_end_is",
    "operand-start": "operand_start_is",
    "operation-end": "operation_end_is",
    "operation-start": "operation_start_is",
}
NAME = re.compile(r"[^\s(){}\[\];,.:«»\"`λ]+")
CAMEL = re.compile(r"^[a-z][A-Za-z0-9]*[A-Z]")
DECLARED = re.compile(r"(?m)^\s*(?:abbrev |unfoldable |pub |record |data )*([^\s(){}:;,]+)(?: [^:=\n]*)? : ")
FIELDS = re.compile(r"(?m)^(?:pub )?record .*where\n((?:[ ]+.*\n)+)")


def snake(name):
    name = re.sub(r"([a-z0-9])([A-Z])", r"\1_\2", name)
    return re.sub(r"([A-Z]+)([A-Z][a-z])", r"\1_\2", name).lower()


def proof_files():
    return sorted(glob.glob("crates/*/specs/**/*.antt", recursive=True) + glob.glob("crates/*/proofs/**/*.antt", recursive=True))


def dashed(files):
    """The names with a dash that are definitions of specs/ or fields of a record: they get underscores."""
    found, brought = set(), set()
    for path in files:
        text = open(path, encoding="utf-8").read()
        if "/specs/" in path:
            found |= {n for n in DECLARED.findall(text) if "-" in n and "◌" not in n}
        for block in FIELDS.findall(text):
            found |= {n for n in DECLARED.findall(block) if "-" in n}
        for module, names in re.findall(r"(?m)^use ([^\s{]+)\.\{([^}]*)\}", text):
            if not re.match(r"Rattle\.(?!std\.|core\.|io\.|os\.|libc\.)", module):
                brought |= {n.strip() for n in names.split(",")}
    return found - brought


def renaming(files, sources):
    names, given = {}, set()
    for path in files + sources:
        given |= set(NAME.findall(open(path, encoding="utf-8").read()))
    parts = {p for n in given for p in n.split("-")}
    for part in parts:
        if CAMEL.match(part):
            names[part] = snake(part)
    declared = set()
    for path in files:
        declared |= set(DECLARED.findall(open(path, encoding="utf-8").read()))
    for old, new in sorted(names.items()):
        if new in declared and new not in BESIDE and new not in JOINED:
            sys.exit(f"respell: {old} would fall together with {new}")
    whole = {n: n.replace("-", "_") for n in dashed(files)}
    whole.update({n: w for n, w in OTHERWISE.items() if n in whole})
    for old, new in sorted(whole.items()):
        if new in declared:
            sys.exit(f"respell: {old} would fall together with {new}")
    whole.update({n: n + "_lem" for n in BESIDE})
    new = [*names.values(), *whole.values()]
    for name in sorted(set(new)):
        if new.count(name) > 1:
            sys.exit(f"respell: two names would be {name}")
    return names, whole


def respelled(text, names, whole):
    def one(match):
        name = match.group(0)
        if name in whole:
            name = whole[name]
        return "-".join(names.get(p, p) for p in name.split("-"))

    return NAME.sub(one, text)


def main():
    files = proof_files()
    sources = sorted(glob.glob("crates/*/src/**/*.rt", recursive=True))
    names, whole = renaming(files, sources)
    for path in files + sources + sorted(glob.glob("crates/*/must-fail/*.edit")):
        with open(path, encoding="utf-8") as f:
            old = f.read()
        if path.endswith(".rt"):
            # what stands in a string is the program's
            parts = re.split(r'("(?:[^"\\\n]|\\.)*")', old)
            new = "".join(p if i % 2 else respelled(p, names, {k: v for k, v in whole.items() if "-" in k}) for i, p in enumerate(parts))
        elif path.endswith(".edit"):
            in_code = re.search(r"(?m)^file: *src/", old)
            new = respelled(old, names, {} if in_code else whole)
        else:
            new = respelled(old, names, whole)
        if new != old:
            with open(path, "w", encoding="utf-8") as f:
                f.write(new)
    for old, new in sorted({**names, **whole}.items()):
        print(old, new)


main()
