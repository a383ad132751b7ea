#!/usr/bin/env python3
"""Brings the names of the repository's own definitions and lemmas to one spelling: words in snake case, types and modules in camel case.

usage: python3 tools/respell.py            at the top of the repository, once

A name that a file of specs/, or one right in proofs/, declares with a capital inside or a dash gets underscores: nodeSum and step-time become
node_sum and step_time. Where a lemma would meet a definition's name it gets `_lem` behind it. Types, functions of src/, strings and exported
names stay. In a must-fail edit the lines old: and new: are respelled too, and in a page what stands between backquotes.
"""

import collections
import glob
import os
import re

WORD = re.compile(r'[^\s(){}.;,@"«»]+')
DECLARED = re.compile(r"(?m)^ *(?:(?:pub|abbrev|unfoldable|opaque|data|record) )*([^\s(){}.;,@\"«»]+)(?: \{[^{}\n]*\})* :(?=\s)")
IMPORT = re.compile(r"(?m)^(?:ghost )?use ([^\s{]+)\.\{([^}]*)\}")
ITEM = re.compile(r"\b(?:const|static|struct|enum|type|trait|fn|mod) (\w+)")
# Lemmas and local names that were in snake case and would meet a definition's new name.
LEMMAS = "letter_at is_digit half_at first_entry node_at in_place kept_from with_cell in_group kept_by and_last fixed_from goes_on at_first".split()
# Names that one file declares and others import from the library, and the two constructors with a dot.
BY_FILE = {"not-false": "crates/moment/proofs/Storing.antt"}
DOTTED = {"Linked·same": "linked_same", "Linked·over": "linked_over"}
# Fields of a record and the calls of the same name.
FIELDS = {"up-to": "up_to_lem"}


def in_snake_case(name):
    return re.sub(r"(?<=[a-z0-9])[A-Z]", lambda m: "_" + m[0].lower(), name).replace("-", "_")


def of_function(path):
    return "/proofs/" in path and "/" in path.split("/proofs/")[1]


def files(kind):
    return sorted(glob.glob(f"crates/*/**/*.{kind}", recursive=True))


def read(path):
    with open(path, encoding="utf-8") as f:
        return f.read()


def table():
    declared = collections.defaultdict(set)
    for path in files("antt"):
        if not of_function(path):
            for m in DECLARED.finditer(read(path)):
                declared[m[1]].add(path)
    names = {n: in_snake_case(n) for n in declared if not n[0].isupper() and in_snake_case(n) != n}
    taken = collections.defaultdict(set)
    for old, new in names.items():
        taken[new].add(old)
    for new, olds in taken.items():
        if len(olds) > 1 or new in declared and new not in LEMMAS:
            for old in olds:
                if "-" in old:
                    names[old] = new + "_lem"
    names.update(FIELDS)
    names.update(DOTTED)
    for name in LEMMAS:
        names[name] = name + "_lem"
    met = [new for new in names.values() if new in declared and new not in LEMMAS]
    if met or len(set(names.values())) != len(names):
        raise SystemExit(f"names fall together: {met}")
    return names


def rust_functions():
    return {m[1] for path in files("rt") for m in ITEM.finditer(read(path))}


# A word of a comment of code, or of Rust: a camel case name of the table, wherever it stands.
def turn_line(line, names):
    code, mark, prose = line.partition("//")
    camel = lambda m: names[m[0]] if m[0] in names and "_" not in m[0] and "-" not in m[0] else m[0]
    both = lambda m: names[m[0]] if m[0] in names and m[0] not in LEMMAS else m[0]
    return re.sub(r"(?<![\w-])[a-z][\w'-]*", both, code) + mark + re.sub(r"(?<![\w-])[a-z][\w']*", camel, prose)


# In a comment of antt only a name in camel case turns: a word with a dash, as find-or-add, may be prose.
def respell_code(text, path, names, functions):
    comments = [(m.start(), m.end()) for m in re.finditer(r"(?m)(?<![^\s(){}.;,@\"«»])--[^\n]*", text)]
    skip = set()
    for m in IMPORT.finditer(text):
        if not re.match(r"Rattle\.(?!std\b|core\b)", m[1]):
            skip |= {n.strip().split(" as ")[-1].strip() for n in m[2].split(",")}
    made = of_function(path)
    k = 0

    def turn(m):
        nonlocal k
        while k < len(comments) and comments[k][1] <= m.start():
            k += 1
        prose = k < len(comments) and comments[k][0] <= m.start()
        w, behind_dot = m[0], m.start() > 0 and text[m.start() - 1] == "."
        if w not in names or w in skip and not behind_dot:
            return w
        if prose and not re.fullmatch(r"[a-z]+[A-Z]\w*", w):
            return w
        if w in BY_FILE and path != BY_FILE[w] or w in LEMMAS and behind_dot:
            return w
        plain = in_snake_case(w)
        if behind_dot and made and "-" in w and plain in functions:
            return plain
        return names[w]

    return WORD.sub(turn, text)


def main():
    names, functions = table(), rust_functions()
    for path in files("antt"):
        text = read(path)
        new = respell_code(text, path, names, functions)
        if new != text:
            with open(path, "w", encoding="utf-8") as f:
                f.write(new)
    for path in files("rt"):
        text = read(path)
        new = "\n".join(turn_line(l, names) for l in text.split("\n"))
        if new != text:
            with open(path, "w", encoding="utf-8") as f:
                f.write(new)
    for path in files("edit"):
        text = read(path)
        target = re.search(r"(?m)^file: (.*)$", text)[1]
        if target.endswith(".antt"):
            whole = os.path.join(os.path.dirname(os.path.dirname(path)), target)
            turn = lambda l: respell_code(l, whole, names, functions)
        else:
            turn = lambda l: turn_line(l, names)
        new = "\n".join(turn(l) if re.match("(old|new): ", l) else l for l in text.split("\n"))
        if new != text:
            with open(path, "w", encoding="utf-8") as f:
                f.write(new)
    span = lambda m: re.sub(r"(?<![\w-])[a-z][\w'·-]*", lambda w: names.get(w[0], w[0]) if w[0] not in LEMMAS else w[0], m[0])
    for path in ["README.md", *sorted(glob.glob("*/*.md"))]:
        text = read(path)
        new = re.sub(r"`[^`\n]+`", span, text)
        if new != text:
            with open(path, "w", encoding="utf-8") as f:
                f.write(new)
    print(f"respell: {len(names)} names")


main()
