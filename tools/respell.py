#!/usr/bin/env python3
"""Spells the definitions and lemmas of this repository in snake case, once, after the library's own script has run.

usage: python3 tools/respell.py [ROOT]      (ROOT: the top of a checkout; default: the folder above this file)

What turns: a name that a file of specs/ or proofs/ declares and that begins with a small letter, as 'readAt' to 'read_at' and
'carry-more' to 'carry_more', in every .antt file, and in the ghost items and clauses of every .rt file. What Rattle makes (goals and
steps, in Answers, Invariants and Choices), functions of src/, types, labels, strings, inputs and outputs stay. Where a lemma's new name
would be a definition's, the lemma gets '_lem' behind it. In must-fail edits the names turn too.
"""

import os
import re
import sys

ROOT = sys.argv[1] if len(sys.argv) > 1 else os.path.dirname(os.path.dirname(os.path.abspath(__file__)))
TOKEN = re.compile(r"(?<![\w'◌-])[A-Za-z_][\w']*(?:-[\w']+)*(?![\w'◌-])")
DECLARED = re.compile(r"^( *)((?:abbrev |unfoldable )?(?:pub )?(?:abbrev |unfoldable )?)([a-z][\w'-]*)((?: *\{[^{}\n]*\})*) :(?!:)")
SIGNS = re.compile(r"^ *(?:abbrev )?(?:pub )?([a-z][\w'-]*)[^:\n]*: *(?:goal|need|given)\.")
MADE = re.compile(r"/proofs/.*/(Answers|Invariants|Choices)\.antt$")
# A name that holds an older word of the library.
GIVEN = {"getD-ringed": "get_or_ringed"}


def files():
    for folder, dirs, names in os.walk(os.path.join(ROOT, "crates")):
        dirs[:] = sorted(d for d in dirs if d != "out")
        for name in sorted(names):
            if name.endswith((".antt", ".rt", ".edit")):
                yield os.path.join(folder, name)


def read(path):
    with open(path, encoding="utf-8") as f:
        return f.read()


def snake(name):
    words = re.sub(r"(?<=[a-z0-9])[A-Z]+", lambda m: "_" + m[0].lower(), name)
    return words.replace("-", "_")


def gathered():
    """The names that are declared: those of specs/, and those of proofs/ that are not goals; each with its new spelling if it has one."""
    ours, lemmas = set(), set()
    for path in files():
        if not path.endswith(".antt"):
            continue
        goals = set()
        text = read(path)
        for line in text.split("\n"):
            m = SIGNS.match(line)
            if m:
                goals.add(m[1])
        for line in text.split("\n"):
            m = DECLARED.match(line)
            if m and m[3] not in goals:
                (ours if "/specs/" in path else lemmas).add(m[3])
    return ours, lemmas


def table():
    ours, lemmas = gathered()
    turned = {}
    taken = {n for n in ours | lemmas if snake(n) == n}
    dashed = lambda names: sorted(names, key=lambda n: ("-" in n, n))
    for name in dashed(ours | lemmas):
        new = GIVEN.get(name, snake(name))
        if new == name:
            continue
        if "-" not in name and new in taken and new in lemmas - ours and name not in GIVEN:
            # The definition gets the plain name, and the lemma that has it gives way.
            print(f"falls together: {name} -> {new}, so {new} -> {new}_lem")
            turned[new] = new + "_lem"
        elif (new in taken or new in turned.values()) and name not in GIVEN:
            print(f"falls together: {name} -> {new}_lem")
            new += "_lem"
        if new in turned.values() or new in taken - turned.keys() and name not in GIVEN:
            raise SystemExit(f"respell: {name} has no spelling")
        turned[name] = new
    return turned


def code_and_comment(line, sign):
    at = line.find(sign)
    return (line, "") if at < 0 else (line[:at], line[at:])


def turn(path, words):
    text = read(path)
    made, is_rust = bool(MADE.search(path)), not path.endswith(".antt")
    kept = {m[1] for m in map(SIGNS.match, text.split("\n")) if m} if made else set()
    lines = []
    for line in text.split("\n"):
        code, comment = code_and_comment(line, "//" if is_rust else "--")

        def one(m):
            word = m[0]
            new = words.get(word)
            if new is None or word in kept or is_rust and snake(word) == word and "ghost use" not in m.string:
                return word
            behind_dot = m.start() > 0 and m.string[m.start() - 1] == "."
            if behind_dot and snake(word) == word:
                return word
            if made and behind_dot and "-" in word and "Rattle." not in m.string:
                return word
            return new

        def in_comment(m):
            return words.get(m[0], m[0]) if re.search("[a-z][A-Z]", m[0]) else m[0]

        lines.append(TOKEN.sub(one, code) + TOKEN.sub(in_comment, comment))
    new = "\n".join(lines)
    if new != text:
        with open(path, "w", encoding="utf-8") as f:
            f.write(new)
    return new != text


def main():
    words = table()
    count = sum(turn(path, words) for path in list(files()))
    print(f"respell: {len(words)} names, {count} files")
    if "--table" in sys.argv:
        for old, new in sorted(words.items()):
            print(f"{old}\t{new}")


main()
