#!/usr/bin/env python3
"""Holds docs/PROMISES.md to the code: every cited name must be declared in the file that is cited with it.

A citation is `path:name` or, for a must-fail edit, a test or a document, `path`, in backquotes, with a path that begins with one of the
repository's folders. Prints each one that is not there, and exits 1 if there is any, or if the table cites nothing.
"""
import os
import re
import sys

TOP = os.path.join(os.path.dirname(os.path.abspath(__file__)), "..")
FOLDERS = ("crates/", "tests/", "docs/", "second/", "bench/", "examples/", "include/", "rust/", ".ci/")
CITATION = re.compile(r"`([^`\s]+)`")


def declares(text, path, name):
    """Whether a file declares the name: a declaration of antt, or a function, type or constant of code."""
    word = re.escape(name)
    if path.endswith(".antt"):
        pattern = r"^\s*((unfoldable|abbrev|pub|record|data|module|infixl|infixr|ruleset)\s+)*" + word + r"(\s|$)"
    elif path.endswith((".h", ".c", ".cpp")):
        # a C declaration or definition: a type before the name, at the start of a line
        pattern = r"^(static |extern |const |inline )*\w[\w *]*[ *]" + word + r"\s*\(|^#define " + word + r"\b|^(enum|struct) " + word + r"\b"
    elif path.endswith(".sh"):
        pattern = r"^" + word + r"\s*\(\)"
    else:
        pattern = r"\b(fn|struct|enum|const|static|type|def|mod)\s+" + word + r"\b"
    return re.search(pattern, text, re.M) is not None


def main():
    page = open(os.path.join(TOP, "docs/PROMISES.md"), encoding="utf-8").read()
    cited, missing = 0, []
    for citation in CITATION.findall(page):
        if not citation.startswith(FOLDERS):
            continue
        cited += 1
        path, _, name = citation.partition(":")
        full = os.path.join(TOP, path)
        if not os.path.exists(full):
            missing.append(citation + ": no such file")
        elif name and not declares(open(full, encoding="utf-8").read(), path, name):
            missing.append(citation + ": the file does not declare it")
    for line in missing:
        print("promises: " + line)
    print("promises: %d citations, %d wrong" % (cited, len(missing)))
    return 1 if missing or cited == 0 else 0


sys.exit(main())
