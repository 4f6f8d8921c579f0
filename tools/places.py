#!/usr/bin/env python3
"""Lists the places of older forms in crates/*/src, by point of docs/DESIGN-PASS.md.

    python3 tools/places.py          a count for each kind
    python3 tools/places.py --all    each place too

It goes by text: what it lists is to be looked at, and what no pattern finds is in the page by hand."""
import collections
import itertools
import pathlib
import re
import sys

ROOT = pathlib.Path(__file__).resolve().parent.parent


def sources():
    for path in sorted(ROOT.glob("crates/*/src/*.rt")):
        if path.name != "tests.rt":
            yield path.relative_to(ROOT), path.read_text()


def line_of(text, at):
    return text.count("\n", 0, at) + 1


def functions(text):
    """Name, first line, head and body of each function."""
    rows = text.split("\n")
    for start, row in enumerate(rows):
        m = re.match(r"( *)(?:pub(?:\([a-z]+\))? )?(?:extern \"C\" )?fn (\w+)", row)
        if not m:
            continue
        opened = None
        for end in range(start, len(rows)):
            if opened is None and (rows[end] == m.group(1) + "{" or rows[end].endswith(" {") and "ensures" not in rows[end]):
                opened = end
            elif rows[end] in (m.group(1) + "}", m.group(1) + "{}") or opened is None and rows[end].endswith((";", "{}")):
                break
        opened = end if opened is None else opened
        yield m.group(2), start + 1, "\n".join(rows[start:opened + 1]), "\n".join(rows[opened + 1:end])


def types(text, word):
    for m in re.finditer(r"^(?:pub )?%s (\w+)[^\n;{]*\{\n(.*?)^\}" % word, text, re.M | re.S):
        yield m.group(1), line_of(text, m.start()), m.group(2)


def option_like(path, text):
    for name, line, body in types(text, "enum"):
        variants = re.findall(r"^    (\w+)(.?)", body, re.M)
        if len(variants) == 2 and sorted(v[1] == "," for v in variants) == [False, True]:
            yield line, name


def sentinels(path, text):
    for i, row in enumerate(text.split("\n"), 1):
        if re.search(r"\b0 (for|stands for)\b|\bnone for 0\b|\bif that is 0\b|[Ss]tands for no|const NO_|\bnowhere\b", row):
            yield i, row.strip()


def number_codes(path, text):
    for name, line, head, body in functions(text):
        if re.search(r"-> u(8|16|32|64)\b", head) and (
                len(re.findall(r"=> \d+,", body)) > 1 or re.search(r"return (\d+|[A-Z_]+|\w+\.code\(\));", body)
                or re.search(r"^ +0$", body, re.M) and "why" in body):
            yield line, name
        elif len(re.findall(r"^ +\d+ => ", body, re.M)) > 1 and "-> Option" not in head:
            yield line, name


def index_loops(path, text):
    for name, line, head, body in functions(text):
        for m in re.finditer(r"^( *)for (\w+) in [^\n]*\.\.[^\n]*\{\n(.*?)^\1\}", body, re.M | re.S):
            if re.search(r"\[[^\]\n]*\b%s\b[^\]\n]*\]" % m.group(2), m.group(3)):
                yield line + head.count("\n") + 1 + body.count("\n", 0, m.start()), name
        for m in re.finditer(r"^ *while ", body, re.M):
            yield line, name + " (while)"


def by_hand(path, text):
    for name, line, head, body in functions(text):
        arms = re.findall(r"=> (?:Some\()?(?:true|false|\d+|\w+::\w+)\)?,$|^ +\d+ => ", body, re.M)
        if len(arms) > 1:
            yield line, name + " (conversion or test by match)"
        if re.search(r"\ba\.(\w+) [<>] b\.\1\b", body):
            yield line, name + " (order)"
        for m in re.finditer(r"let (\w+) \{([^}]*)\} = (\w+);", body):
            if m.group(1) + " {" in body[m.end():]:
                yield line, name + " (struct rebuilt)"
                break
        copied = re.findall(r"^ +(\w+): \w+\.\1,$", body, re.M)
        if len(copied) > 1:
            yield line, name + " (struct rebuilt)"


def clause_facts():
    where = collections.defaultdict(set)
    for path, text in sources():
        for name, line, head, body in functions(text):
            for m in re.finditer(r"requires (?:\w+ )?\{ (.*) \}", head):
                for fact in re.split(r"\) × \(|\) × \(\(", m.group(1)):
                    fact = re.sub(r"\.(old|now|new|entry)\b", "", fact).strip("() ")
                    where[(str(path).split("/")[1], fact)].add("%s:%d %s" % (path, line, name))
    return {k: v for k, v in where.items() if len(v) > 2}


def parameter_groups():
    where = collections.defaultdict(set)
    for path, text in sources():
        for name, line, head, body in functions(text):
            names = re.findall(r"(?:\(|, |\n +)&?(?:mut )?(\w+)(?=: |,|\))", head.split("->")[0].split("\n    requires")[0])
            known = [n for n in names if n not in ("tag", "at", "n", "b", "from", "many")]
            for group in itertools.combinations(sorted(set(known)), 3):
                where[(str(path).split("/")[1],) + group].add("%s:%d %s" % (path, line, name))
    return {k: v for k, v in where.items() if len(v) > 2}


def buffers(path, text):
    for name, line, body in types(text, "struct"):
        if re.search(r"\[\w+", body) and re.search(r"^    (pub )?(len|count): ", body, re.M):
            yield line, name + " (length beside)"
        if len(re.findall(r"^    (?:pub )?[a-z]\d: ", body, re.M)) > 3:
            yield line, name + " (numbered fields)"
        if len(re.findall(r"&'a mut \[", body)) > 1:
            yield line, name + " (parallel slices)"


def switches(path, text):
    for m in re.finditer(r"\bmatch kind\b|: fn\(|&dyn |Box<dyn ", text):
        yield line_of(text, m.start()), m.group(0)


POINTS = [
    ("1 enum of the shape of Option", option_like),
    ("1 number that stands for none", sentinels),
    ("1 number for a kind or refusal", number_codes),
    ("3 loop that counts an index", index_loops),
    ("4 conversion, order or copy by hand", by_hand),
    ("6 buffer with a length, parallel parts", buffers),
    ("7 switch on a step", switches),
]


def main():
    show = "--all" in sys.argv
    for title, find in POINTS:
        rows = [(path, line, what) for path, text in sources() for line, what in find(path, text)]
        print("%4d  %s" % (len(rows), title))
        for path, line, what in rows if show else []:
            print("        %s:%d  %s" % (path, line, what))
    for title, found in (("5 fact in requires of three or more functions", clause_facts()),
                         ("5 three parameters together in three or more functions", parameter_groups())):
        print("%4d  %s, %d in all" % (len(found), title, sum(len(v) for v in found.values())))
        for key, places in sorted(found.items(), key=lambda k: -len(k[1])) if show else []:
            print("        %3d  %s" % (len(places), "  ".join(key)))


main()
