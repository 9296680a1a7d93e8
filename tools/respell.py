#!/usr/bin/env python3
"""Respells the definitions and lemmas of crates/ as the Rattle of this repository spells them.

usage: python3 tools/respell.py [--names FILE]      at the top of a repository, once, after the kit's port.py

Functions, lemmas, fields and constructors are in snake case: a capital inside a name begins a new word (`compareOf`: `compare_of`), and a dash
becomes `_` but where it joins the name of a definition to something (`length-drop` keeps its dash). A lemma that
would then have another's name gets `_lem`. Types and modules, names of Rattle sources, of the kit's library and of what the check generates keep theirs. The
choice by a test is `when◌then◌else◌`, since `if◌then◌else◌` is the library's own. --names writes the table of old and new names.
"""
import glob
import os
import re
import sys

WORD = re.compile(r"[^\s{}();.,@\"`]+")
HEAD = re.compile(r"^(\s*)((?:abbrev |pub |unfoldable |mutual |data |record )*)([^\s{}();.,@\"]+)\s*(?:(?:\{[^}]*\}|\([^)]*\))\s*)*:\s(.*)$")
SYNTAX = set("abbrev pub unfoldable mutual data record axiom let in where module use mod infix infixl infixr open deriving package as unfolding unfold ruleset elim do λ".split())


# Lemmas and local facts that have the name a definition is to get: they get `_lem`.
AHEAD = ["all_are", "all_known", "first_kind", "listed_in", "by_first", "by_form", "first_leaf", "is_digit", "near_of", "place_at"]


def files(pattern):
    return sorted(f for f in glob.glob(pattern, recursive=True) if "/out/" not in f)


def lemma_files():
    return [f for f in files("crates/*/specs/**/*.antt") + files("crates/*/proofs/**/*.antt") if not re.search(r"/proofs/(?:.*/)?(Proof|Answers|Invariants)\.antt$", f)]


def declared(paths):
    """Each declared name, with whether it is declared in specs/ and whether it is a type."""
    found = {}
    for f in paths:
        for line in open(f, encoding="utf-8"):
            m = HEAD.match(line.rstrip("\n"))
            if not m or line.lstrip().startswith("--") or m.group(3) in SYNTAX:
                continue
            said = re.sub(r"\s+where$", "", m.group(4).strip())
            spec, kind = found.get(m.group(3), (False, False))
            found[m.group(3)] = (spec or "/specs/" in f, kind or bool(re.search(r"Type( \d+| ℓ)?$", said)))
    return found


def used(paths):
    """The names that stand alone in antt files: declared, bound or imported, and no field or module of a path."""
    said = set()
    for f in paths:
        for m in re.finditer(r"(?<![.\w'-])" + WORD.pattern, open(f, encoding="utf-8").read()):
            said.add(m.group(0))
    return said


def rust_names(paths):
    """Parameters, fields and constants of the sources, by which a clause would mean something else than a definition of that name."""
    said = set()
    for f in paths:
        for line in open(f, encoding="utf-8"):
            if not re.match(r"\s*(//|ghost use|use|requires|ensures)", line):
                said.update(re.findall(r"\b(\w+): ", line))
                said.update(re.findall(r"\b(?:const|static) (\w+)", line))
    return said


def imported(paths, crates):
    """Names that are imported from the kit's library."""
    said = set()
    for f in paths:
        for m in re.finditer(r"^\s*(?:ghost )?use ([^\s{]+)\.\{([^}]*)\}", open(f, encoding="utf-8").read(), re.M):
            path = m.group(1).split(".")
            if not (path[0] == "Rattle" and path[1] in crates):
                said.update(w.strip() for w in m.group(2).split(","))
    return said


def snake(name):
    """The name with each capital after a small letter, a digit or a dash begun by `_` and small; a type's name that stands in it is kept whole."""
    name = re.sub(r"(?<=[a-z0-9])([A-Z][A-Z0-9]*)(?![a-z])", lambda m: "_" + m.group(1).lower(), name)
    return re.sub(r"(?<=[a-z0-9])([A-Z])(?=[a-z])", lambda m: "_" + m.group(1).lower(), name)


def new_name(name, known, definitions):
    core = name.strip("◌")
    if not core or not core[0].isalpha() or not core[0].islower():
        return name
    parts = [p for p in snake(core).split("-")]
    olds = core.split("-")
    if len(parts) == 1:
        return name.replace(core, parts[0])
    if known[name][0]:
        return name.replace(core, "_".join(parts))
    out, old = parts[0], olds[0]
    for p, o in zip(parts[1:], olds[1:]):
        joins = old in definitions
        out += ("-" if joins else "_") + p
        old = old + "-" + o if joins else o if o in definitions else old + "-" + o
    return name.replace(core, out)


def main(argv):
    known = declared(lemma_files())
    local = set(declared(files("crates/*/proofs/**/Proof.antt")))
    definitions = {n for n, (spec, kind) in known.items() if spec and "-" not in n} | {"length", "append", "take", "drop", "set", "replicate", "reverse"}
    crates = set(os.listdir("crates"))
    antt, rt = files("crates/**/*.antt"), files("crates/**/*.rt")
    taken = (used(antt) | rust_names(rt)) - set(AHEAD)
    kit = imported(antt + rt, crates)
    table, kept = {}, []
    names = sorted(known, key=lambda n: (not known[n][0], "-" in n, n))
    for name in names:
        new = new_name(name, known, definitions)
        if new == name:
            continue
        if name in kit or name in local:
            kept.append((name, new))
            continue
        if new in taken and not known[name][0]:
            new += "_lem"
        if new in taken or new in kit:
            kept.append((name, new))
            continue
        table[name] = new
        taken.add(new)
    if "--names" in argv:
        with open(argv[argv.index("--names") + 1], "w", encoding="utf-8") as out:
            for a in sorted(table):
                out.write(f"{a}\t{table[a]}\n")
    for a, b in sorted(kept):
        print(f"kept: {a} (not {b})")
    if "--dry" in argv:
        print(len(table))
        return

    infix = {a.strip("◌"): b.strip("◌") for a, b in table.items() if a.startswith("◌") and a.endswith("◌")}

    def one(m):
        w = m.group(0)
        return table.get(w, infix.get(w, w))

    def code(text):
        return WORD.sub(one, text)

    def ahead(text):
        return re.sub(r"(?<![.\w'◌-])(" + "|".join(AHEAD) + r")(?![\w'◌-])", r"\1_lem", text)

    def comment(text):
        text = re.sub(r"`[^`]*`", lambda m: code(m.group(0)), text)
        return WORD.sub(lambda m: table[m.group(0)] if m.group(0) in table and re.search(r"[a-z][A-Z]", m.group(0)) else m.group(0), text)

    def choice(line, rt):
        """The choice by a test under its own name; in a source only within a clause, where `then` stands."""
        line = line.replace("if◌then◌else◌", "when◌then◌else◌")
        return re.sub(r"(?<![\w.'-])if(?![\w'-])" + (r"(?=.* then )" if rt else ""), "when", line)

    changed = 0
    for f in files("crates/**/*.antt") + files("crates/**/*.rt"):
        mark = "--" if f.endswith(".antt") else "//"
        old = open(f, encoding="utf-8").read()
        lines = []
        for line in (ahead(old) if f.endswith(".antt") else old).split("\n"):
            at = 0 if line.lstrip().startswith(mark) else None
            lines.append(comment(line) if at == 0 else choice(code(line), f.endswith(".rt")))
        new = "\n".join(lines)
        if new != old:
            open(f, "w", encoding="utf-8").write(new)
            changed += 1
    print(f"{len(table)} names respelt, {changed} files")


main(sys.argv)
