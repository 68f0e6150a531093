#!/usr/bin/env python3
"""Spells the names that the repository's own specs/ and proofs/ declare as today's Rattle does.

usage: tools/respell.py        at the top of the repository, once, after port.py

A fact, which begins with a capital letter, is written in upper camel case; every other
definition or lemma in snake case. Answers to goals keep their names, since Rattle makes
those. Names turn in specs/ and proofs/, in the clauses of src/ and in the code spans of
the documents; strings, comments' plain words, and the functions of src/ stay. Nothing is
written if two names would fall together.
"""
import collections
import pathlib
import re
import sys

NAME = r"[^\s(){}.;,@\"«»:]+"
WORD = re.compile(r"[^\s(){}.;,@\"«»]+")
DECLARED = re.compile(rf"^ *(?:(?:abbrev|unfoldable|pub|record|data) +)*({NAME})(?: +[({{][^:]*:.*?[)}}])* +:(?: (.*))?$")
ANSWER = re.compile(r"goal\.")
QUIET = re.compile(r"\"(?:[^\"\\\n]|\\.)*\"|(?<!\S)--[^\n]*|(?<!\S)//[^\n]*")
SPAN = re.compile(r"`[^`\n]+`")
PATH = re.compile(r"\bRattle(?:\.[^\s{}();,.]+)+\.?")
# Lemmas that would meet a definition of their name.
OTHERWISE = {
    "address-length": "address_length_holds",
    "frame-length": "frame_length_parts",
    "has-free": "has_free_by_taken",
}
GHOST = re.compile(r"ghost use [^;]*;|\b(?:requires|ensures|ghost)\*?(?: \w+)?\s*(?:[:=]\s*)?\{")


def spelled(name):
    if name in OTHERWISE:
        return OTHERWISE[name]
    if name[0].isupper():
        return "".join(w[:1].upper() + w[1:] for w in name.split("-"))
    return re.sub(r"(?<=[a-z0-9])[A-Z]", lambda m: "_" + m[0].lower(), name).replace("-", "_")


def code(text, turn):
    """The text with its code turned; quoted text and comments stay."""
    out, at = [], 0
    for m in QUIET.finditer(text):
        out += [turn(text[at : m.start()]), m[0]]
        at = m.end()
    return "".join(out) + turn(text[at:])


def ghost(text, turn):
    """The text of a source file with its clauses, ghost items and ghost imports turned."""
    out, at = [], 0
    for m in GHOST.finditer(text):
        if m.start() < at:
            continue
        end = m.end()
        if m[0].endswith("{"):
            depth = 1
            while depth:
                depth += {"{": 1, "}": -1}.get(text[end], 0)
                end += 1
        out += [text[at : m.start()], turn(text[m.start() : end])]
        at = end
    return "".join(out) + text[at:]


def main():
    logic = sorted(pathlib.Path("crates").glob("*/specs/**/*.antt")) + sorted(pathlib.Path("crates").glob("*/proofs/**/*.antt"))
    logic = [p for p in logic if "out" not in p.parts]
    texts = {p: p.read_text() for p in logic}
    table, words = {}, collections.defaultdict(set)
    for p, t in texts.items():
        for line in t.split("\n"):
            m = DECLARED.match(line)
            if m and not ANSWER.match(m[2] or "") and spelled(m[1]) != m[1]:
                table[m[1]] = spelled(m[1])
        for w in WORD.findall(PATH.sub(" ", code(t, str))):
            words[w].add(p)
    taken = collections.Counter(table.values())
    bad = [(a, b) for a, b in table.items() if taken[b] > 1 or b in words]
    for a, b in bad:
        print(f"falls together: {a} as {b}, in {', '.join(map(str, sorted(words[b])))}", file=sys.stderr)
    if bad:
        return 1
    turn = lambda s: WORD.sub(lambda m: table.get(m[0], m[0]), s)
    for p, t in texts.items():
        p.write_text(code(t, turn))
    for p in pathlib.Path("crates").glob("*/src/**/*.rt"):
        t = p.read_text()
        p.write_text(ghost(t, turn))
    span = lambda t: SPAN.sub(lambda m: turn(m[0].replace("`", " ")).replace(" ", "`", 1)[:-1] + "`", t)
    for p in [pathlib.Path("README.md"), *pathlib.Path("docs").glob("*.md")]:
        p.write_text(span(p.read_text()))
    for a, b in sorted(table.items()):
        print(a, b)
    return 0


if __name__ == "__main__":
    sys.exit(main())
