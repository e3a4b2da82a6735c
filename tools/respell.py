#!/usr/bin/env python3
"""Brings the names of this repository's definitions and lemmas to today's spelling: words in snake case.

usage: python3 tools/respell.py [--print]      at the top of the repository, once, after port.py; --print shows the names and changes nothing

- a name that begins in lower case and has a capital inside (`sizeBelow`) gets an underscore there (`size_below`);
- a field of a record, a constructor, and a definition of specs/ are words: a dash in them (`some-device`) becomes an underscore;
- a dash in a lemma's name joins two names and stays.

It goes over crates/*/specs, crates/*/proofs, the clauses and imports of crates/*/src, and crates/*/must-fail. Types, modules, functions of
src/, strings, inputs and outputs keep their names; a definition never gets the name of a function that cites it.
"""
import glob
import os
import re
import sys

# Names that would fall together with another, and what they are called instead: a definition with a function of src/ that it says the meaning
# of, a list with a field, a field or a lemma with a definition.
APART = {
    "lowP": "low_ps",
    "lowQ": "low_qs",
    "lowP'": "low_ps'",
    "lowQ'": "low_qs'",
    "lowP''": "low_ps''",
    "lowQ''": "low_qs''",
    "endFault": "end_fault_of",
    "farEnd": "far_end_of",
    "formFault": "form_fault_of",
    "headFault": "head_fault_of",
    "noRoom": "no_room_of",
    "rowsFault": "rows_fault_of",
    "sizeFault": "size_fault_of",
    "spareFrom": "spare_from_of",
    "wrongLine": "wrong_line_of",
    "end_line": "line_end",
    "in_order": "ends_in_order",
}
# Names of clauses that a script made from definitions that now have the same spelling.
CLAUSES = {"labels_after": "labels_new", "forth_after": "forth_new", "back_after": "back_new"}

NAME = r"[^\s(){}\[\].,;:`\"\\⌜⌝«»]+"
DECLARED = re.compile(r"^\s*(?:pattern )?(?:unfoldable )?(?:abbrev )?(?:pub )?(" + NAME + r")(?: \{[^}]*\})? :(?= |$)", re.M)


def files(*patterns):
    found = []
    for p in patterns:
        found += [f for f in glob.glob(p, recursive=True) if "/out/" not in f]
    return sorted(set(found))


def read(path):
    with open(path, encoding="utf-8") as f:
        return f.read()


def humps(name):
    """sizeBelow -> size_below, in each part between dashes that begins in lower case"""
    parts = []
    for part in name.split("-"):
        if re.match(r"[a-z]", part):
            part = re.sub(r"(?<=[a-z0-9'₀-₉])([A-Z])", lambda m: "_" + m.group(1).lower(), part)
        parts.append(part)
    return "-".join(parts)


def words_of(text):
    """The fields of records, the constructors of data types."""
    found = set()
    head, depth = False, 0
    for line in text.splitlines():
        if re.match(r"\s*(?:abbrev )?(?:pub )?(?:record|data) .* where\s*$", line):
            head, depth = True, len(line) - len(line.lstrip())
            continue
        if head:
            if not line.strip() or line.lstrip().startswith("--"):
                continue
            if len(line) - len(line.lstrip()) <= depth:
                head = False
                continue
            m = DECLARED.match(line)
            if m:
                found.add(m.group(1))
    return found


def gather():
    names, words = set(), set()
    for f in files("crates/*/specs/**/*.antt", "crates/*/proofs/**/*.antt"):
        text = read(f)
        declared = set(DECLARED.findall(text))
        names |= declared
        words |= words_of(text)
        if "/specs/" in f:
            words |= declared
    return names, words


def turned():
    names, words = gather()
    table = {}
    for name in sorted(names | words):
        new = humps(name)
        if name in words and re.match(r"[a-z]", name):
            new = new.replace("-", "_")
        new = APART.get(name, re.sub(r"^getD-", "get_or-", name) if name.startswith("getD-") else new)
        if new != name:
            table[name] = new
    older = any(re.search(r"[a-z][A-Z]", name) for name in table)
    return table | APART if older else {}


def tokens(text):
    return set(re.findall(NAME, text))


def respell(text, table):
    for old, new in CLAUSES.items():
        text = re.sub(r"(ensures |ensures\.)" + old + r"(?![\w'-])", r"\g<1>" + new, text)
    return re.sub(NAME, lambda m: table.get(m.group(0), m.group(0)), text)


def main():
    table = turned()
    if not table:
        print("every name has today's spelling: nothing to do")
        return
    antt = files("crates/*/specs/**/*.antt", "crates/*/proofs/**/*.antt")
    rt = files("crates/*/src/**/*.rt")
    edits = files("crates/*/must-fail/*.edit")
    taken = set()
    for f in antt + rt:
        taken |= tokens(read(f))
    for old, new in sorted(table.items()):
        note = "   FALLS TOGETHER with a name that is there" if new in taken else ""
        note += "   FALLS TOGETHER with another turned name" if sum(1 for v in table.values() if v == new) > 1 else ""
        if "--print" in sys.argv or note:
            print(f"{old} -> {new}{note}")
    if "--print" in sys.argv:
        return
    changed = 0
    for f in antt + rt + edits:
        before = read(f)
        after = respell(before, table)
        if after != before:
            with open(f, "w", encoding="utf-8") as out:
                out.write(after)
            changed += 1
    print(f"{len(table)} names, {changed} files")


if __name__ == "__main__":
    main()
