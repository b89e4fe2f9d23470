#!/usr/bin/env python3
"""Brings the names that this repository's specs and proofs declare to Rattle's spelling: words in snake case, types and facts in camel case.

usage: python3 tools/respell.py [--list]     at the top, once, after the kit's own script; --list prints each name and its new spelling, and changes nothing

Names from sources, generated names, strings, inputs and outputs stay. In comments only what stands in backquotes is respelled.
"""

import os
import re
import sys

TOP = os.path.dirname(os.path.dirname(os.path.abspath(__file__)))
WORD = re.compile(r"[^\W\d][\w'?]*(?:-[\w'?]+)*")
HEAD = re.compile(r"^\s*(?:(?:abbrev|unfoldable|pub|opaque)\s+)*([^\W\d][\w'?]*(?:-[\w'?]+)*(?:\s+[^\W\d][\w'?-]*)*)\s+:(?=\s|$)")
# Lemmas that would get the very name of the definition they speak of.
APART = {name: name.replace("-", "_") + "_lem" for name in (
    "ask-number", "ask-place", "ask-refused", "block-rung", "body-byte", "body-rung", "data-one", "data-two", "decision-in", "due-after", "field-rung",
    "file-of", "first-rows", "fresh-image", "fresh-word", "groups-rung", "head-of", "header-layout", "interleave-rung", "lane-around", "length-rung",
    "list-rung", "long-rung", "lost-lanes", "lost-test", "not-one", "odd-count", "odd-in", "pair-bytes", "room-rung", "rota-after", "row-sums", "said-by",
    "seen-words", "shape-rung", "sum-in", "turn-number", "turn-refused", "version-rung", "visit-words", "word-bytes")} | {
    "old-sample": "old_sample_read", "bit-xor": "bit_of_xor", "bit-and": "bit_of_and", "bit-or": "bit_of_or", "dataRow": "row_of_data"}
SHAPE = re.compile(r"^(?:pub\s+)?(?:data|record)\s+([^\W\d][\w'?-]*)")


def files(ending):
    for folder, dirs, names in os.walk(os.path.join(TOP, "crates")):
        dirs[:] = sorted(d for d in dirs if d != "out")
        for name in sorted(names):
            if name.endswith(ending):
                yield os.path.join(folder, name)


def is_function_proof(path):
    return "/" in os.path.relpath(path, TOP).partition("/proofs/")[2]


def respelled(name):
    """Snake case for a name that begins small; a fact or a type keeps its capitals, and its dashes become underscores."""
    if name in APART:
        return APART[name]
    name = name.replace("-", "_").replace("getD", "get_or")
    if name[0].islower():
        name = re.sub(r"(?<=[a-z0-9'])([A-Z])", lambda m: "_" + m.group(1).lower(), name)
        name = re.sub(r"_([A-Z])(?=[a-z0-9_'?]|$)", lambda m: "_" + m.group(1).lower(), name)
    return name


def declared(text):
    """The names that a file declares, also below a `module` or a `where`, and those of them that are fields or constructors."""
    found, fields, shape = set(), set(), False
    for line in text.split("\n"):
        if line.startswith(("--", "use ", "pub use ", "pub mod", "mod ")):
            continue
        if line and not line[0].isspace():
            shape = bool(SHAPE.match(line))
        head = SHAPE.match(line) or HEAD.match(line)
        if head:
            found.update(head.group(1).split())
            if shape and line[0].isspace():
                fields.update(head.group(1).split())
    return found, fields


def turned(text, names, fields, comment):
    """The text with each name in names respelled, but for goals and steps; in a comment only between backquotes."""
    goals = set(re.findall(r"(?m)^pub (\S+) : goal\.", text))

    def word(m):
        before, name = m.string[: m.start()], m.group(0)
        at = re.search(r"([\w'?-]+)\.$", before)
        if name in goals or (before.endswith(".") and name not in fields and not (at and at.group(1)[0].isupper())):
            return name
        if at and at.group(1) in ("c", "goal", "tie"):
            return name
        return names.get(name, name)

    lines = []
    for line in text.split("\n"):
        at = re.search(r'(?:^|\s)' + re.escape(comment) + r'(?:\s|$)', line)
        cut = at.start() if at else len(line)
        tail = re.sub(r"`[^`]*`", lambda m: WORD.sub(word, m.group(0)), line[cut:])
        parts = re.split(r'("(?:[^"\\]|\\.)*")', line[:cut])
        head = "".join(p if k % 2 else WORD.sub(word, p) for k, p in enumerate(parts))
        lines.append(head + tail)
    return "\n".join(lines)


def read(path):
    with open(path, encoding="utf-8") as f:
        return f.read()


def main():
    where, fields = {}, set()
    for path in files(".antt"):
        if not is_function_proof(path):
            found, within = declared(read(path))
            fields |= within
            for name in found:
                where.setdefault(name, []).append(path)
    names = {n: respelled(n) for n in where if respelled(n) != n}
    for path in sorted({p for ps in where.values() for p in ps}):
        here = declared(read(path))[0]
        taken = {}
        for name in sorted(here):
            taken.setdefault(names.get(name, name), []).append(name)
        for new, olds in taken.items():
            if len(olds) > 1:
                print(f"falls together: {os.path.relpath(path, TOP)}: {', '.join(olds)} -> {new}")
    every = {}
    for name in where:
        every.setdefault(names.get(name, name), set()).add(name)
    for new, olds in sorted(every.items()):
        if len(olds) > 1:
            print(f"one spelling: {', '.join(sorted(olds))} -> {new}: " + ", ".join(sorted({os.path.relpath(p, TOP) for o in olds for p in where[o]})))
    if "--list" in sys.argv:
        for old in sorted(names):
            print(f"{old} -> {names[old]}")
        return
    changed = 0
    for ending, comment in ((".antt", "--"), (".rt", "//"), (".edit", "#")):
        for path in files(ending):
            text = read(path)
            new = turned(text, names, fields, comment)
            if new != text:
                changed += 1
                with open(path, "w", encoding="utf-8") as f:
                    f.write(new)
    print(f"respelled: {len(names)} names, {changed} files")


main()
