#!/usr/bin/env python3
"""Holds the house's own rules: a public law is cited somewhere or promised; a must-fail edit is named in words with _ between
them; the numbers of the table kind and of the file stand in code under their names; and the README's map has each crate once.
Prints what breaks a rule, and exits 1 if anything does.
"""
import glob
import os
import re
import sys

TOP = os.path.join(os.path.dirname(os.path.abspath(__file__)), "..")
# 512 cells, 65535 the free mark, 44 the contents, 8236 the longest file: only the line that names one may have it
NUMBERS = re.compile(r"(?<![\w.])(512|65535|44|8236|8237)(?!\w)")
# (what C sees, in `kernel`, has the header's numbers). 7 and 8 as a length or a bound: an array's, a loop's, a product's. (A literal in an arm of a match by dimension is none of these.)
BOUNDS = re.compile(r"; [78]\]|< [78]\b|\* [78]\b|/ [78]\b|\.\.=?[78]\b|== [78]\b")
WORD = re.compile(r"[^\s(){},;.`]+")
# A function's own proof, in a folder of its name: it cites laws and is none. (A file of laws may have one of these names too, right in proofs/.)
OWN_PROOF = re.compile(r"/proofs/.+/(?:Answers|Invariants|Proof)\.antt$")
CLAUSE = re.compile(r"\s*(?:pub )?(?:ghost|requires|ensures|invariant)\b")


def lone_laws():
    """Public laws of proofs/ that no promise cites and that no other file names: a law that its own file uses is private to it, and
    one that nothing uses goes. (The fields of a record are no laws;
    and what a public ruleset lists goes out with it.)"""
    texts = {}
    for path in glob.glob("crates/**/*.antt", recursive=True) + glob.glob("crates/**/*.rt", recursive=True):
        if not re.match(r"crates/[^/]+/out/", path):
            texts[path] = open(path, encoding="utf-8").read().split("\n")
    named = {}
    for path, lines in texts.items():
        for line in lines:
            for word in set(WORD.findall(line)):
                named.setdefault(word, []).append((path, line))
    promised = set(re.findall(r"`([^`:]+):([^`]+)`", open("docs/PROMISES.md", encoding="utf-8").read()))
    for path in sorted(p for p in texts if "/proofs/" in p and p.endswith(".antt") and not OWN_PROOF.search(p)):
        fields = None
        for line in texts[path]:
            indent = len(line) - len(line.lstrip())
            if re.match(r"\s*(pub )?record .* where$", line):
                fields = indent
            elif line.strip() and fields is not None and indent <= fields:
                fields = None
            found = re.match(r"(\s*)pub ([^\s:(]+) :", line)
            if not found or fields is not None or (path, found.group(2)) in promised:
                continue
            name = found.group(2)
            own = re.compile(found.group(1) + r"(pub )?" + re.escape(name) + r"(\s|$)")
            if any(at != path or other.startswith("pub ruleset ") for at, other in named[name]):
                continue
            # what another public signature of the file names must be public itself
            if any(not own.match(other) and re.match(r"\s*pub ", other) for at, other in named[name]):
                continue
            if any(not own.match(other) for at, other in named[name]):
                yield "%s: %s is public, and only its own file names it" % (path, name)
            else:
                yield "%s: nothing cites %s" % (path, name)


def edit_names():
    for path in sorted(glob.glob("crates/*/must-fail/*")):
        if not re.fullmatch(r"[a-z0-9]+(_[a-z0-9]+)*\.edit", os.path.basename(path)):
            yield "%s: not named in words with _ between them" % path


def bare_numbers():
    for path in sorted(glob.glob("crates/*/src/**/*.rt", recursive=True)):
        open_braces = 0
        for at, line in enumerate(open(path, encoding="utf-8"), 1):
            code = line.split("//")[0]
            # a clause speaks of definitions, up to the brace that closes it
            if open_braces or CLAUSE.match(code):
                open_braces += code.count("{") - code.count("}")
                continue
            if re.match(r"\s*(pub )?const ", code) or path == "crates/kernel/src/lib.rt":
                continue
            if NUMBERS.search(code) or BOUNDS.search(code):
                yield "%s:%d: a number without its name: %s" % (path, at, line.strip())


def crate_map():
    crates = re.findall(r"^([a-z0-9_]+)(?: [^:#\n]*)?:", open("crates.txt", encoding="utf-8").read(), re.M)
    part = open("README.md", encoding="utf-8").read().split("\n## The crates\n")[-1].split("\n## ")[0]
    rows = re.findall(r"^\| `([a-z0-9_]+)` \|", part, re.M)
    for name in sorted(set(crates) | set(rows)):
        if rows.count(name) != 1 or name not in crates:
            yield "README.md: the map has the crate %s %d times" % (name, rows.count(name))


def main():
    os.chdir(TOP)
    wrong = list(lone_laws()) + list(edit_names()) + list(bare_numbers()) + list(crate_map())
    for line in wrong:
        print("house: " + line)
    print("house: %d differences" % len(wrong))
    return 1 if wrong else 0


sys.exit(main())
