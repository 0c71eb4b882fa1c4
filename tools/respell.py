#!/usr/bin/env python3
"""Brings the repository's own names to today's spelling, after /opt/rattle/port/port.py has run.

usage: python3 tools/respell.py     at the top of the repository, once, right after port.py

1. The crate `core` becomes `one_core` (Rattle has a library named core), with its folder, its line in crates.txt, its paths in code and
   proofs, and what port.py took for that library's own paths.
2. Each definition and lemma of specs/ and proofs/ in camel case is written in snake case, with its uses in proofs, clauses, must-fail
   edits and comments; so is each field of a record of specs/ whose parts a dash joined. A name whose snake case is taken gets another.
Functions of src/, exported C names, strings, inputs and outputs keep their names.
"""

import os
import re
import subprocess

OLD, NEW = "core", "one_core"
# a name whose snake case names something else here
OTHER = {"allHold": "all_examples_hold", "outOfRange": "sizes_out_of_range", "readsAs": "read_as_number"}
# names that an import gives
ALIASES = {"setupRule": "setup_rule", "commitRule": "commit_rule"}
DECLARED = re.compile(r"^\s*(?:(?:pub|abbrev|unfoldable|data|record|mutual)\s+)*([^\s(){}.,;:]+)(?:\s+[({][^:]*)?\s+:(?:\s|$)")
# port.py read paths of the crate core as paths of that library, or of std, and some of its modules as theirs
GARBLED = [
    (r"\bRattle\.core\.specs\.Prelude\b", "Rattle.std.specs.Prelude"),
    (r"\bRattle\.(?:core|std)\.specs\.Iterator\.Adapters\b", "Rattle.one_core.specs.Parts"),
    (r"\bRattle\.(?:core|std)\.specs\.Fn\b", "Rattle.one_core.specs.Calls"),
    (r"\bRattle\.std\.specs\.declared\.(Answer|Core|calls|Job)\b", r"Rattle.one_core.specs.declared.\1"),
    (r"\bRattle\.std\.specs\.(Life|Tidy|Formed)\b", r"Rattle.one_core.specs.\1"),
    (r"\bRattle\.std\.proofs\.(TestLaws|Tidy|Kept|CallLaws|LifeLaws|Jobs|TidyLaws|JobLaws)\b", r"Rattle.one_core.proofs.\1"),
    (r"\bRattle\.core\.", "Rattle.one_core."),
    (r"\bRattle·core\b", "Rattle·one_core"),
    (r"(?<![\w:.])core::", "one_core::"),
    # lemmas that it took for lemmas of std
    (r"(?<![\w'-])[Ee]ach-(none|next|both|on)(?![\w'-])", r"each_\1"),
]


def files(*endings):
    for folder, dirs, names in os.walk("crates"):
        dirs[:] = sorted(d for d in dirs if d != "out")
        for name in sorted(names):
            if name.endswith(endings):
                yield os.path.join(folder, name)
    if ".edit" in endings:
        for folder, _, names in os.walk("tests/knots"):
            for name in sorted(names):
                if name.endswith(".edit"):
                    yield os.path.join(folder, name)


def read(path):
    with open(path, encoding="utf-8") as f:
        return f.read()


def write(path, text):
    if read(path) != text:
        with open(path, "w", encoding="utf-8") as f:
            f.write(text)


def snake(name):
    return OTHER.get(name) or re.sub(r"(?<=[a-z0-9])([A-Z])", lambda m: "_" + m.group(1).lower(), name)


def core_paths(text):
    """Paths of the crate `core`, in any file."""
    for wrong, right in GARBLED:
        text = re.sub(wrong, right, text)
    return text


def own_names():
    """The names to turn: those in camel case of specs/ and proofs/, and the fields of specs/ with a dash."""
    turned = dict(ALIASES)
    for path in files(".antt"):
        lemmas = re.search(r"/specs/|/proofs/(\w+/)*\w+\.antt$", path) and not re.search(r"/proofs/.*/(Proof|Answers|Invariants)\.antt$", path)
        for line in read(path).split("\n"):
            m = DECLARED.match(line)
            if not m:
                continue
            name = m.group(1)
            if not re.fullmatch(r"[a-z][\w-]*", name):
                continue
            if lemmas and re.search(r"[a-z0-9][A-Z]", name):
                turned[name] = snake(name)
            elif "/specs/" in path and line.startswith("  ") and "-" in name:
                turned[name] = name.replace("-", "_")
    return turned


def turn(text, turned):
    """Every word of turned, where it stands as a word of antt: between spaces, brackets, dots and the like."""
    word = re.compile(r"(?<![\w'-])([a-z][\w-]*)(?![\w'-])")
    return word.sub(lambda m: turned.get(m.group(1), m.group(1)), text)


def parts_of_source(text):
    """Pieces of a .rt file, each with whether it is ghost: a comment, a `ghost use` line, a clause."""
    at, out = 0, []
    start = re.compile(r"//[^\n]*|\bghost use [^;]*;|\b(?:requires|ensures)\b\*?(?: \w+)? \{")
    while True:
        m = start.search(text, at)
        if not m:
            out.append((False, text[at:]))
            return out
        out.append((False, text[at:m.start()]))
        end = m.end()
        if text[m.end() - 1] == "{":
            depth = 1
            while depth:
                depth += {"{": 1, "}": -1}.get(text[end], 0)
                end += 1
        out.append((True, text[m.start():end]))
        at = end


def main():
    if os.path.isdir("crates/" + OLD):
        subprocess.run(["git", "mv", "crates/" + OLD, "crates/" + NEW], check=True)
    lines = read("crates.txt").split("\n")
    lines = [line if line.startswith("#") else re.sub(r"(?<![\w])core(?![\w])", NEW, line) for line in lines]
    write("crates.txt", "\n".join(lines))
    for path in files(".antt", ".rt", ".edit"):
        write(path, core_paths(read(path)))
    turned = own_names()
    for path in files(".antt", ".edit"):
        write(path, turn(read(path), turned))
    for path in files(".rt"):
        write(path, "".join(turn(piece, turned) if ghost else piece for ghost, piece in parts_of_source(read(path))))
    print("respell: %d names" % len(turned))
    for old in sorted(turned):
        print("  %s -> %s" % (old, turned[old]))


main()
