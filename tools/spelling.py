#!/usr/bin/env python3
"""Spells the repository's own definitions, lemmas, fields and constructors in snake case.

usage: spelling.py [FOLDER]

Run once, at the top, after the kit's own port script. Every name that specs/ or proofs/ declare, and every alias of an import, gets plain
underscores: howMany is how_many, nth-here is nth_here. Types and modules keep their capitals. Names of Rust items, strings, inputs and
outputs stay. In a comment a name with a dash is respelled only between backquotes, since it may be plain words. A lemma that would get the
name of a definition beside it gets _lem after it. Names that still fall together are printed, and nothing is written.
"""

import collections
import glob
import os
import re
import sys

NAME = r'[^\s(){}.;,@"«»`]+'
DECLARED = re.compile(
    r"(?m)^( *)(?:(?:pub|abbrev|unfoldable|record|data|open) )*(?:ruleset )?(" + NAME + r")(?: [({][^\n]*)? (?::|=)(?: |$)"
)
ALIAS = re.compile(r"\bas (" + NAME + r")(?=[,}])")
TOKEN = re.compile(NAME)

USE = re.compile(r"\buse ([^\s;{]+)\.\{([^}]*)\}")
# Names that get _lem in these crates alone: elsewhere they are fields.
ONLY = {"holes-are": "crates/cases/"}

# Lemmas that the kit's script had given the name of a definition.
TAKEN = {"is_sum": "is_sum_lem", "same_answer": "same_answer_lem", "numbers_fit": "numbers_fit_lem"}


def in_snake_case(name):
    name = re.sub(r"\bgetD\b", "get_or", name)
    words = re.sub(r"(?<=[a-z0-9])[A-Z]", lambda m: "_" + m[0].lower(), name)
    return words.replace("-", "_")


def without_comments(text):
    return re.sub(r"--[^\n]*", "", text)


def tokens(path, text):
    return set(TOKEN.findall(without_comments(text) if path.endswith(".antt") else re.sub(r"//[^\n]*", "", text)))


def own_names(files):
    names = set()
    for path, text in files.items():
        if path.endswith("/Proof.antt"):
            continue
        plain = without_comments(text) if path.endswith(".antt") else text
        if path.endswith(".antt"):
            names |= {m[2] for m in DECLARED.finditer(plain)}
        names |= {m[1] for m in ALIAS.finditer(plain) if path.endswith((".antt", ".rt")) and m[1][0].islower()}
    return {it for it in names if it[0].islower() or it[0] in "_"}


def from_libraries(text, crates):
    """The names that a file imports from the kit's libraries."""
    names = set()
    for m in USE.finditer(text):
        steps = m[1].split(".")
        if steps[0] != "Rattle" or steps[1] not in crates:
            names |= {it.split(" as ")[0].strip() for it in m[2].split(",")}
    return names


def respelled(line, names, comment, path):
    cut = line.find(comment)
    code, rest = (line, "") if cut < 0 else (line[:cut], line[cut:])

    def in_code(m):
        if path.endswith("/Proof.antt") and m.start() and code[m.start() - 1] == "." and "-" in m[0]:
            return m[0]
        return names.get(m[0], m[0])

    def in_comment(m):
        quoted = rest[: m.start()].count("`") % 2 == 1
        bare = m[0].rstrip(":'")
        if ("-" in bare and not quoted) or bare not in names:
            return m[0]
        return names[bare] + m[0][len(bare):]

    return TOKEN.sub(in_code, code) + TOKEN.sub(in_comment, rest)


def main():
    top = sys.argv[1] if len(sys.argv) > 1 else "."
    os.chdir(top)
    paths = [
        it
        for pattern in ("specs/**/*.antt", "proofs/**/*.antt", "src/**/*.rt", "must-fail/*.edit")
        for it in sorted(glob.glob("crates/*/" + pattern, recursive=True))
    ]
    crates = set(os.listdir("crates"))
    files = {it: open(it, encoding="utf-8").read() for it in paths}
    declared = own_names(files)
    spelled = {it: TAKEN.get(it) or in_snake_case(it) for it in declared}
    here = {path: tokens(path, text) for path, text in files.items() if not path.endswith("/Proof.antt")}
    met = collections.defaultdict(set)
    for old, new in spelled.items():
        met[new].add(old)
    for new, olds in met.items():
        beside = (olds | {new}) - {it for it in TAKEN if it in olds}
        for old in olds:
            if "-" in old and any(len(beside & it) > 1 for path, it in here.items() if path.endswith(".antt")):
                spelled[old] = new + "_lem"
    met = collections.defaultdict(set)
    for old, new in spelled.items():
        met[new].add(old)
    bad = 0
    for path, it in here.items():
        for new, olds in met.items():
            both = (olds | {new} - set(TAKEN)) & it
            if len(both) > 1 and not path.endswith(".rt"):
                bad += 1
                print("together:", path, sorted(both))
    if bad:
        sys.exit(1)
    names = {old: new for old, new in spelled.items() if old != new}
    print("with _lem:", " ".join(sorted(it for it in names.values() if it.endswith("_lem"))))
    changed = 0
    for path, text in files.items():
        comment = "--" if path.endswith(".antt") else "//" if path.endswith(".rt") else "\0"
        kept = from_libraries(text, crates)
        mine = {old: name for old, name in names.items() if old not in kept}
        for old, where in ONLY.items():
            if not path.startswith(where):
                mine[old] = in_snake_case(old)
        new = "\n".join(respelled(line, mine, comment, path) for line in text.split("\n"))
        if new != text:
            changed += 1
            with open(path, "w", encoding="utf-8") as out:
                out.write(new)
    print(f"spelling: {len(names)} names in {changed} files")


main()
