#!/usr/bin/env python3
"""Holds docs/TRUST.md to the definitions: its table has every file of specs/ whose header says that a reader must believe it, no other,
and each with its number of lines; the sum is printed below the table. And what a public call's contract or a promised theorem names
stands in such a file: not in one that asks for no belief, and not in proofs/. Prints what differs, and exits 1 if anything does.
"""
import glob
import os
import re
import sys

TOP = os.path.join(os.path.dirname(os.path.abspath(__file__)), "..")
ROW = re.compile(r"^\| `([^`]+)` \| (\d+) \|", re.M)


def must_believe(path):
    """Whether the comment at the top of a file asks for belief."""
    head = []
    for line in open(path, encoding="utf-8"):
        if not line.startswith("--"):
            break
        head.append(line)
    return "reader must believe" in " ".join(head)


# An import may go over several lines, and bring in one name without braces.
USE = re.compile(r"^(?:pub )?(?:ghost )?use Rattle\.(\w+)\.(specs|proofs)\.([\w.+-]+?)\.(?:\{([^}]*)\}|([^\s.{};]+(?: as [^\s.{};]+)?));?$", re.M)
# A public function up to its body: the name, the text between. One with a `requires` is a part of a proved caller and no public call.
CALL = re.compile(r"^\s*pub (?:extern \"C\" )?fn (\w+)(?:<[^>]*>)?\((.*?)\n\s*\{\n", re.M | re.S)
# A clause, with a name or without one; it may go over several lines, up to the brace that closes it or to the next clause.
ENSURES = re.compile(r"^\s*ensures\b[^{]*\{(.*?)\}[ \t]*(?=\n\s*(?:ensures|requires)\b|\Z)", re.M | re.S)
REQUIRES = re.compile(r"^\s*requires\b", re.M)


def imported(text):
    """name -> file, for what the `use` lines of a file bring in from this repository (types declared in code are no definitions)"""
    names = {}
    for crate, kind, module, group, one in USE.findall(text):
        # (std and the kit's other libraries are no crates of this repository)
        if module.startswith("declared") or not os.path.isdir("crates/" + crate):
            continue
        for name in (group or one).split(","):
            local = name.split(" as ")[-1].strip()
            names[local] = "crates/%s/%s/%s.antt" % (crate, kind, module.split(".")[0])
    names.pop("", None)
    return names


def words(text):
    """the names in a text; a field, as in `t.old` or `(f x).answer`, is none"""
    return set(re.findall(r"[^\s(){},;.]+", re.sub(r"(?<=[^\s({,;])\.[^\s(){},;.]+", " ", text)))


def contract_citations():
    """what the contracts of public calls name: (where, name, file)"""
    for path in sorted(glob.glob("crates/*/src/lib.rt")):
        text = open(path, encoding="utf-8").read()
        names = imported(text)
        for function, head in CALL.findall(text):
            if not REQUIRES.search(head):
                for name in words(" ".join(ENSURES.findall(head))) & set(names):
                    yield "%s:%s" % (path, function), name, names[name]


def statement(text, name):
    """the type of a law, up to its first clause"""
    found = re.search(r"^\s*pub " + re.escape(name) + r" :(.*?)(?=^\s*(unfolding |" + re.escape(name) + r"\b))", text, re.M | re.S)
    return found.group(1) if found else ""


def theorem_citations():
    """what the statements of promised theorems name: (where, name, file)"""
    page = open("docs/PROMISES.md", encoding="utf-8").read()
    for path, name in sorted(set(re.findall(r"`(crates/\w+/proofs/\w+\.antt):([^`]+)`", page))):
        if not os.path.exists(path):
            continue
        text = open(path, encoding="utf-8").read()
        names = imported(text)
        own = set(re.findall(r"^(?:abbrev |unfoldable )?pub (?:record |data )?([A-Z]\w*)", text, re.M))
        for word in words(statement(text, name)):
            if word in own:
                yield "%s:%s" % (path, name), word, path
            elif word in names:
                yield "%s:%s" % (path, name), word, names[word]


def main():
    os.chdir(TOP)
    page = open("docs/TRUST.md", encoding="utf-8").read()
    listed = {path: int(lines) for path, lines in ROW.findall(page)}
    asked = {p: sum(1 for _ in open(p, encoding="utf-8")) for p in glob.glob("crates/*/specs/*.antt") if must_believe(p)}
    wrong = ["%s is listed and asks for no belief" % p for p in listed if p not in asked]
    wrong += ["%s is not listed" % p for p in asked if p not in listed]
    wrong += ["%s has %d lines, not %d" % (p, asked[p], listed[p]) for p in asked if listed.get(p, asked[p]) != asked[p]]
    if "%d lines in all" % sum(asked.values()) not in page:
        wrong.append("all files together have %d lines" % sum(asked.values()))
    for where, name, path in list(contract_citations()) + list(theorem_citations()):
        if path not in asked:
            wrong.append("%s names %s, which stands in %s" % (where, name, path))
    for line in sorted(set(wrong)):
        print("trust: " + line)
    print("trust: %d files, %d differences" % (len(asked), len(wrong)))
    return 1 if wrong or not asked else 0


sys.exit(main())
