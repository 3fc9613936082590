#!/usr/bin/env python3
"""Spells the definitions and lemmas of this repository in snake case, as 'in-front' to 'in_front'.

usage: python3 tools/respell.py        at the top, once, after the kit's port.py

A name turns if a file of specs/ or proofs/ declares it with a dash. The names that Rattle makes stay: a line of an
Answers or Invariants file at a type 'goal.x', and what stands behind 'goal.', 'c.', 'w.', 'l.' and 'g.'. A name that a
file imports from a library stays in that file. A name that would fall together with another of a file gets '_lem'
behind it, and a line 'together:' says so. In the labels that Rattle makes, a name of the source keeps its underscores,
as 'if-not-is-small' becomes 'if-not-is_small'.
"""

import os
import re
import sys

WORD = r"[^\s(){}.;,@\"«»]+"
DECLARED = re.compile(
    rf"(?m)^[ \t]*(?:(?:abbrev|unfoldable|pub|data|record|mutual)\s+)*({WORD})(?:\s+[({{][^\n]*?)?\s:\s+([^\n]*)"
)
USE = re.compile(r"(?m)\buse ([^\s;{]+)\{([^;}]*)\}")
PATH = re.compile(rf"(?:{WORD}|\.)+")
CLAUSE = re.compile(r"\b(?:requires|ensures|ghost)\b")
HEADS = {"goal", "c", "w", "l", "g"}
HOLDERS = {"args", "initial", "fn", "new", "auto", "ranges", "row"}
LABELLED = re.compile(r"/proofs/.*/(Answers|Invariants)\.antt$")
STD = {"is_ascii_digit", "is_ascii_lowercase", "is_ascii_uppercase", "is_empty", "is_some", "is_none", "is_ok", "is_err"}


def files(root):
    for folder, dirs, names in os.walk(os.path.join(root, "crates")):
        dirs[:] = sorted(d for d in dirs if d != "out")
        for name in sorted(names):
            if name.endswith((".antt", ".rt")):
                yield os.path.join(folder, name)


def quiet(text):
    return re.sub(r"--[^\n]*", "", text)


def declared(text):
    """The names that a text declares, but for those whose statement Rattle makes."""
    return {m[1] for m in DECLARED.finditer(quiet(text)) if not m[2].startswith("goal.") and m[1] != "use"}


def is_own(path, own):
    steps = path.strip(".").split(".")
    return steps[0] == "Rattle" and len(steps) > 1 and steps[1] in own


def imported(text, own):
    """The names that a text imports from a library."""
    found = set()
    for path, items in USE.findall(text):
        if not is_own(path, own):
            found.update(re.findall(WORD, items))
    return found


def turn_path(path, table):
    steps = path.split(".")
    out = []
    for at, step in enumerate(steps):
        made = at == 1 and steps[0] in HEADS or at == 2 and steps[0] in HEADS and steps[1] in HOLDERS
        out.append(step if made else table.get(step, step))
    return ".".join(out)


def turn(text, table):
    return PATH.sub(lambda m: turn_path(m[0], table), text)


def source_names(path, texts):
    """The names with an underscore in the sources of the file's crate, in kebab case, longest first."""
    source = path.split("/proofs/")[0] + "/src/"
    found = set(STD)
    for p, text in texts.items():
        if p.startswith(source):
            found.update(re.findall(r"\b[a-z]\w*_\w+\b", text))
    return sorted(((n.replace("_", "-"), n) for n in found), key=lambda it: -len(it[0]))


def turn_labels(text, names, table):
    """Turns the labels: words with a dash that no file declares."""

    def label(m):
        word = m[0]
        if word in table or "-" not in word:
            return word
        for old, new in names:
            word = re.sub(rf"(?<![^-.·]){re.escape(old)}(?![^-.·])", new, word)
        return word

    return re.sub(WORD, label, text)


def braces(text, at):
    """The end of the block whose '{' is the first at or behind the place."""
    depth = 0
    for i in range(text.index("{", at), len(text)):
        depth += {"{": 1, "}": -1}.get(text[i], 0)
        if depth == 0:
            return i + 1
    return len(text)


def turn_rust(text, table):
    """Turns the clauses and ghost items of a source file."""
    out, at = [], 0
    for m in CLAUSE.finditer(text):
        if m.start() < at or text.rfind("//", text.rfind("\n", 0, m.start()) + 1, m.start()) >= 0:
            continue
        end = text.index(";", m.end()) + 1 if text[m.end() :].lstrip().startswith("use") else braces(text, m.end())
        out += [text[at : m.start()], turn(text[m.start() : end], table)]
        at = end
    return "".join(out) + text[at:]


def main():
    root = "."
    own = set(os.listdir(os.path.join(root, "crates")))
    texts = {p: open(p, encoding="utf-8").read() for p in files(root)}
    table = {}
    for path, text in texts.items():
        if path.endswith(".antt"):
            for name in declared(text):
                if "-" in name and re.search(r"\w-\w", name):
                    table[name] = name.replace("-", "_")
    clashes = set()
    for path, text in texts.items():
        words = set(re.findall(WORD, quiet(text) if path.endswith(".antt") else text))
        for name in words & set(table):
            if table[name] in words and not path.endswith(".rt") or name in words and table[name] in imported(text, own):
                clashes.add(name)
    for name in sorted(clashes):
        table[name] += "_lem"
        print(f"together: {name} becomes {table[name]}")
    changed = 0
    for path, text in texts.items():
        kept = imported(text, own)
        here = {old: new for old, new in table.items() if old not in kept}
        for name in kept & set(table):
            print(f"from a library: {path}: {name}")
        new = turn(text, here) if path.endswith(".antt") else turn_rust(text, here)
        if LABELLED.search(path):
            new = turn_labels(new, source_names(path, texts), table)
        if new != text:
            changed += 1
            with open(path, "w", encoding="utf-8") as f:
                f.write(new)
    print(f"respell: {len(table)} names, {changed} files")


if __name__ == "__main__":
    sys.exit(main())
