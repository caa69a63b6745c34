#!/usr/bin/env python3
"""Brings the repository's own names in specs, proofs and clauses to snake case, and its types to camel case.

usage: python3 tools/respell.py [FOLDER]      once, after /opt/rattle/port/port.py, at the top of the repository

Names of the library, labels that the check makes, functions, strings and comments stay. In pages only what stands
between backticks is turned. It stops, and writes nothing, where two names of a file would fall together.
"""

import os
import re
import sys

NAME = r"[^\s(){}.;,@\"«»\[\]`]+"
LIBRARY = ("lib", "native", "mathlib", "Prim")
OURS = "measure model lists blockfile tables index queue theory demo trials queue_trials".split()
USE = re.compile(r"\buse ([\w.'-]+?)\.?\{([^}]*)\}")
DECLARED = re.compile(rf"(?m)^\s*(?:(?:pub|abbrev|unfoldable|opaque|record|data)\s+)*({NAME})(?:\s+[({{][^\n]*?[)}}])*\s*:\s")
LABELLED = re.compile(r"/(Answers|Invariants)\.antt$")
COMMENT = re.compile(r"(?m:(?:^|(?<=\s))--(?=\s|$).*$|//.*$)|\"(?:[^\"\\\n]|\\.)*\"")
# Names of words that were one word before.
GIVEN = {
    "bytes-from-getD": "bytes_from_get_or",
    "getD-tab": "get_or_tab",
    "getD-tab-past": "get_or_tab_past",
    "putMid-over": "put_mid_over",
}


def is_library(path):
    steps = path.split(".")
    return steps[0] in LIBRARY or steps[0] == "Rattle" and steps[1] not in OURS


def spelled(name):
    if name in GIVEN:
        return GIVEN[name]
    if re.match(r"[A-Z]", name):
        return "".join(word[:1].upper() + word[1:] for word in re.split(r"[-_]", name))
    return name.replace("-", "_")


def texts(top):
    for folder, inner, names in os.walk(os.path.join(top, "crates")):
        inner[:] = sorted(it for it in inner if it != "out")
        for name in sorted(names):
            if name.endswith((".antt", ".rt", ".edit")):
                yield os.path.join(folder, name)


def pages(top):
    yield os.path.join(top, "README.md")
    for name in sorted(os.listdir(os.path.join(top, "docs"))):
        if name.endswith(".md") and not name.startswith("PORT"):
            yield os.path.join(top, "docs", name)


def bare(text):
    return COMMENT.sub(" ", text)


def survey(paths):
    """The repository's own names that change, and the library's names, which stay."""
    own, library, labels = set(), set(), set()
    for path in paths:
        code = bare(open(path, encoding="utf-8").read())
        for where, items in USE.findall(code):
            if is_library(where):
                library.update(re.findall(NAME, items))
        if path.endswith(".antt"):
            for it in DECLARED.finditer(code):
                is_label = re.match(r"\s*goal\.", code[it.end() :])
                (labels if is_label else own).add(it.group(1))
        if path.endswith(".antt") and not LABELLED.search(path):
            own.update(it for it in re.findall(NAME, code) if re.match(r"[^\W\d_]", it) and "-" in it and "→" not in it)
    own = {it for it in own if re.match(r"[^\W\d_][\w'-]*$", it)}
    return {it: spelled(it) for it in own - library if spelled(it) != it}, labels


def turned(text, table, labels, is_labelled):
    """The text with its names turned; what the check names in a proof file stays."""

    def one(it):
        word = it.group("name")
        if word is None:
            return it.group(0)
        of_ours = re.search(r"Rattle\.[\w.]*$", text[max(0, it.start() - 200) : it.start()])
        is_label = word in labels or text[max(0, it.start() - 1) : it.start()] == "." and not of_ours
        return word if is_labelled and is_label else table.get(word, word)

    return re.sub(rf"{COMMENT.pattern}|(?P<name>{NAME})", one, text)


def met(path, text, table):
    """Names of a file that would fall together."""
    seen = {}
    for word in set(re.findall(NAME, bare(text))):
        seen.setdefault(table.get(word, word), set()).add(word)
    return [f"{path}: {' and '.join(sorted(them))} would both be {new}" for new, them in sorted(seen.items()) if len(them) > 1]


def main():
    top = sys.argv[1] if len(sys.argv) > 1 else "."
    paths = list(texts(top))
    table, labels = survey([it for it in paths if not it.endswith(".edit")])
    said = []
    for path in paths:
        # In code a definition may have the name of the function that computes it.
        if path.endswith(".antt") and not LABELLED.search(path):
            said += met(path, open(path, encoding="utf-8").read(), table)
    if said:
        print("\n".join(said))
        raise SystemExit(1)
    for path in paths:
        text = open(path, encoding="utf-8").read()
        new = turned(text, table, labels, bool(LABELLED.search(path)))
        if new != text:
            open(path, "w", encoding="utf-8").write(new)
    for path in pages(top):
        text = open(path, encoding="utf-8").read()
        new = re.sub(r"`[^`\n]+`", lambda it: re.sub(NAME, lambda w: table.get(w.group(0), w.group(0)), it.group(0)), text)
        if new != text:
            open(path, "w", encoding="utf-8").write(new)
    for old, new in sorted(table.items()):
        print(old, new)


main()
