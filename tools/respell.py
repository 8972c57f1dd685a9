#!/usr/bin/env python3
"""Brings the names that this repository's own specs/ and proofs/ declare to the spelling of today's Rattle.

usage: python3 tools/respell.py [--list] [FOLDER]      (FOLDER: a checkout, by default this one)

Runs once, after port.py. A word (a value, a lemma, a field) goes to snake case, a fact or a type to upper camel case:
stage-of to stage_of, In-order to InOrder; three names of SPECIAL get another form. What a `where`, a `let` or a `λ` binds,
and what an import is called (`as`, in src/ too), turns in its file alone. Names of src/, goals' names, what stands in
strings and in comments, and must-fail edits stay. Two names that would become one, and a new form that stands already in
a file with the old one, are reported on lines 'together:'. --list prints the table and those lines, and changes nothing.
"""
import os
import re
import sys

NAME = r"[^\s(){}.;,@\"«»:=\[\]]+"
WORD = re.compile(r'[^\s(){}.;,@"«»\[\]]+')
DECLARED = re.compile(
    rf"^( *)((?:abbrev|unfoldable|pub|record|data) +)*({NAME}) *((?:\(.*?\)|\{{.*?\}}) *)*:(?: +(.*))?$"
)
DERIVED = re.compile(rf"^ *deriving {NAME} as ({NAME})")
# what a `let` or a `λ` binds: known in its file alone, as a helper in a `where` is
BOUND = re.compile(rf"\blet ({NAME})(?= [:=])|[({{]({NAME})(?= : )|λ ((?:{NAME} ?)+)(?=\.(?: |$))", re.M)
ALIAS = re.compile(r"^use .*$", re.M)
GHOST = re.compile(r"^ *ghost use .*$", re.M)
AS = re.compile(rf" as ({NAME})(?=[,}}])")
RULES = re.compile(rf"^(?:pub )?ruleset ({NAME})")
# what antt makes of a variable at a join, as w.next-is, keeps its dash in a function's own proof
MADE = re.compile(r"-is$")
# a method of the library's that has another name today, and a fact beside a variant of its mere spelling
SPECIAL = {"first-getD": "first_get_or", "getD-next": "get_or_next", "Macro-period": "IsMacroPeriod"}


def files(root, *ends):
    for folder, dirs, names in os.walk(os.path.join(root, "crates")):
        dirs[:] = sorted(d for d in dirs if d not in ("out", ".git"))
        for name in sorted(names):
            if name.endswith(ends):
                yield os.path.join(folder, name)


def respelled(name):
    if name in SPECIAL:
        return SPECIAL[name]
    if name[0].isupper():
        return "".join(p[0].upper() + p[1:] for p in name.split("-"))
    return name.replace("-", "_")


def names_of(text):
    """The names with a dash that a file declares: for others too, and for itself alone."""
    shared, own = set(), set()
    for line in text.split("\n"):
        if line.startswith(("use ", "--", "unfolding ", "mod ", "pub mod ")):
            continue
        m = DECLARED.match(line)
        rules, derived = RULES.match(line), DERIVED.match(line)
        if rules or derived:
            shared.add((rules or derived)[1])
        elif m and (m[5] or "") != f"goal.{m[3]}":
            (shared if not m[1] or "pub " in line.split(":")[0] else own).add(m[3])
        own.update(n for b in BOUND.finditer(line) for names in b.groups() if names for n in names.split())
    good = lambda n: "-" in n and re.match("[A-Za-z]", n)
    return set(filter(good, shared)), set(filter(good, own))


def declared(root):
    """Every name with a dash that a definition, a lemma or a record's field has."""
    return set().union(*(names_of(open(p, encoding="utf-8").read())[0] for p in files(root, ".antt")))


def local(text, table, after_dot):
    """The names with a dash that a file declares within its definitions, or gives to an import, and uses for nothing else."""
    imports = " ".join(ALIAS.findall(text))
    given = {n for n in AS.findall(imports) if "-" in n}
    imported = set(WORD.findall(AS.sub("", imports)))
    return {
        n: respelled(n)
        for n in (names_of(text)[1] | given) - set(table) - imported
        if respelled(n) not in WORD.findall(text)
        and (after_dot or not re.search(rf"[.]{re.escape(n)}(?![\w'-])", text))
        and not re.search(rf"^pub {re.escape(n)} : goal", text, re.M)
    }


def turned(text, table, after_dot):
    """The text of antt with each word of the table turned, but for strings and comments."""

    def word(m):
        new = table.get(m[0])
        dotted = m.start() and m.string[m.start() - 1] == "."
        if new is None or (dotted and not after_dot and MADE.search(m[0])):
            return m[0]
        return new

    parts = re.split(r'("(?:[^"\\\n]|\\.)*"|(?:(?<=\s)|^)--[^\n]*)', text, flags=re.M)
    return "".join(p if i % 2 else WORD.sub(word, p) for i, p in enumerate(parts))


def turned_code(text, table):
    """The same for a .rt file: its code has no word with a dash, so only comments and strings are left alone."""
    parts = re.split(r'(//[^\n]*|b?"(?:[^"\\\n]|\\.)*")', text)
    return "".join(p if i % 2 else WORD.sub(lambda m: table.get(m[0], m[0]), p) for i, p in enumerate(parts))


def main():
    args = sys.argv[1:]
    listing = "--list" in args
    args = [a for a in args if a != "--list"]
    root = args[0] if args else os.path.dirname(os.path.dirname(os.path.abspath(__file__)))
    found = declared(root)
    table = {name: respelled(name) for name in found}
    for name, new in sorted(table.items()):
        if listing:
            print(f"{name}\t{new}")
    for new in sorted(set(table.values())):
        old = [n for n in table if table[n] == new]
        if len(old) > 1:
            print("together:", new, old)
    for path in files(root, ".antt", ".rt"):
        text = open(path, encoding="utf-8").read()
        words = set(WORD.findall(text))
        for name, new in table.items():
            if name in words and new in words:
                print("together:", os.path.relpath(path, root), name, new)
        if listing:
            continue
        own = re.search(r"/proofs/.*/(Answers|Invariants|Choices|Proof)\.antt$", path)
        if path.endswith(".antt"):
            new = turned(text, {**local(text, table, not own), **table}, not own)
        else:
            given = {n: respelled(n) for line in GHOST.findall(text) for n in AS.findall(line) if "-" in n}
            new = turned_code(text, {**given, **table})
        if new != text:
            open(path, "w", encoding="utf-8").write(new)


main()
