#!/usr/bin/env python3
"""Brings the names of definitions and lemmas to the library's spelling: words in snake case, a dash only between the names of two definitions.

usage: python3 tools/respell.py          at the top of the repository, once, after the toolchain's own script
       python3 tools/respell.py --list   prints each old name beside the new one, and writes nothing

It renames what stands in crates/*/specs and crates/*/proofs, there and in the clauses of crates/*/src. Types, facts, data constructors with a capital,
functions of src/ and the names of goals stay as they are. Where a new name is taken, the lemma gets `_lem`, and --list says so.
"""

import collections
import glob
import os
import re
import sys

LETTER = r"A-Za-z0-9_'′₀-₉Δ-"
TOKEN = re.compile(rf"(?<![{LETTER}])[a-z][{LETTER}]*")
SIGNATURE = re.compile(r"(\s*)((?:abbrev |unfoldable )?)(?:pub )?((?:[^\s(){}:.]+ )+): ")
LIBRARY = {"length", "take", "drop", "map", "replicate", "get_or", "get", "set", "append", "cond", "not", "xor", "bit_xor", "suc", "pow"}


def files(kinds):
    return sorted(f for kind in kinds for f in glob.glob(f"crates/*/{kind}", recursive=True) if "/out/" not in f)


def read(path):
    with open(path, encoding="utf-8") as f:
        return f.read()


def is_goal(line, path):
    return os.path.basename(path) in ("Answers.antt", "Invariants.antt", "Proof.antt") and ": goal." in line


def declared():
    """The names that the antt files declare: all, those of fields, and those of functions that lemmas speak of."""
    names, fields, functions = collections.OrderedDict(), set(), set(LIBRARY)
    for path in files(["specs/*.antt", "proofs/**/*.antt"]):
        inside = False
        for line in read(path).splitlines():
            if line.lstrip().startswith("--"):
                continue
            if re.match(r"(pub )?(record|data) ", line):
                inside = True
                continue
            if re.match(r"\S", line):
                inside = False
            match = SIGNATURE.match(line)
            if not match or is_goal(line, path) or (match.group(1) and not inside):
                continue
            for name in match.group(3).split():
                if not re.match(r"[a-z]", name) or name in ("where", "let", "in", "use", "pub"):
                    continue
                names.setdefault(name, path)
                if inside:
                    fields.add(name)
                elif match.group(2):
                    functions.add(name)
    return names, fields, functions


def snake(part):
    return re.sub(r"(?<=[a-z0-9])([A-Z])", lambda m: "_" + m.group(1).lower(), part)


def spelled(name, functions):
    parts = name.split("-")
    joined = "-" if all(part in functions for part in parts) else "_"
    return joined.join(snake(part) for part in parts)


def renaming():
    names, fields, functions = declared()
    in_source = set()
    for path in files(["src/**/*.rt"]):
        text = re.sub(r"\bfn \w+|\w+\(|\bmod \w+", " ", read(path))
        text = re.sub(r"(?ms)^(ghost |pub )?use [^;]*;|//[^\n]*$", " ", text)
        in_source |= set(TOKEN.findall(text))
    new, clashes = {}, []
    # a definition or a field has its name before a lemma
    for name in sorted(names, key=lambda n: n not in functions and n not in fields):
        to = spelled(name, functions)
        if to != name and to in in_source or to in new.values():
            clashes.append((name, to, to + "_lem"))
            to += "_lem"
        new[name] = to
    return {old: to for old, to in new.items() if old != to}, fields, clashes


def respell(text, new, fields):
    def one(match):
        name = match.group(0)
        before = text[match.start() - 1] if match.start() else ""
        if name not in new:
            return name
        if before == "." and name not in fields and not re.search(r"\b[A-Z][\w']*\.$", text[: match.start()]):
            return name
        return new[name]

    return TOKEN.sub(one, text)


def in_source(text, new, fields):
    """Only clauses and ghost lines of a source file."""
    out, depth = [], 0
    for line in text.splitlines(keepends=True):
        head = line.lstrip()
        if depth or re.match(r"(ghost |requires|ensures|invariant|#!?\[tactic)", head):
            out.append(respell(line, new, fields))
            depth += line.count("{") - line.count("}")
            depth = max(depth, 0)
        else:
            out.append(line)
    return "".join(out)


def main():
    new, fields, clashes = renaming()
    if "--list" in sys.argv:
        for old in sorted(new):
            print(f"{old} -> {new[old]}")
        for name, to, chosen in clashes:
            print(f"taken: {name} -> {to}, so {chosen}")
        return
    for path in files(["specs/*.antt", "proofs/**/*.antt", "src/**/*.rt"]):
        text = read(path)
        turned = in_source(text, new, fields) if path.endswith(".rt") else respell(text, new, fields)
        if turned != text:
            with open(path, "w", encoding="utf-8") as f:
                f.write(turned)


main()
