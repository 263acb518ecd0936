#!/usr/bin/env python3
"""Respells the repository's own definitions, lemmas, fields and variables: 'beValue' becomes 'be_value'.

usage: python3 tools/port/names.py [FOLDER]

FOLDER is the top of the repository, as the kit's port.py left it. Types and modules keep their camel case, and so does what src/ declares.
A name is respelled in .antt and .rt files and must-fail edits, but for strings, and in code spans of pages.
A second run changes nothing. Exit status: 0, or 1 if two names would fall together; then nothing is changed.
"""

import os
import re
import sys

WORD = re.compile(r"[^\s(){}.;,@\"«»\[\]|`/\\:&]+")
LOWER_CAMEL = re.compile(r"^[a-z].*[A-Z]")
NOT_OURS = re.compile(r"_[A-Z]|[A-Z]_")
STRING = re.compile(r'"(?:[^"\\]|\\.)*"')
SPAN = re.compile(r"`[^`\n]*`")

# Lemmas whose names a respelled definition takes, and parts that today's library calls otherwise.
TAKEN = {
    "answer_at": "answer_at-record",
    "in_order": "in_order-ordered",
    "read_whole": "read_whole-arrived",
    "same_text": "same_text-equal",
}
TAKEN_IN = {
    "answer_at": ("crates/metrics/proofs/",),
    "in_order": ("crates/merging/proofs/", "crates/owamp/proofs/"),
    "read_whole": ("crates/textlog/proofs/Lines.antt",),
    "same_text": ("crates/checker/proofs/",),
}
PARTS = {"getD": "get_or"}


def snake(part):
    if part in PARTS:
        return PARTS[part]
    if not re.match(r"[a-z]", part):
        return part
    part = re.sub(r"([a-z0-9])([A-Z])", r"\1_\2", part)
    part = re.sub(r"([A-Z]+)([A-Z][a-z])", r"\1_\2", part)
    return part.lower()


def respelled(name):
    return "-".join(snake(p) for p in name.split("-"))


def files(top):
    for folder, dirs, names in os.walk(top):
        dirs[:] = sorted(d for d in dirs if d not in ("out", ".git", "target", "port"))
        for n in sorted(names):
            yield os.path.join(folder, n)


def read(path):
    with open(path, encoding="utf-8", newline="") as f:
        return f.read()


def own_names(top):
    found = set()
    for path in files(top):
        if path.endswith(".antt"):
            for line in read(path).split("\n"):
                code = re.sub(r"(^|\s)--.*$", "", line)
                for w in WORD.findall(code):
                    if LOWER_CAMEL.match(w) and not NOT_OURS.search(w):
                        found.add(w)
    return found


def outside_strings(text, turn):
    out, at = [], 0
    for m in STRING.finditer(text):
        if "\n" in m.group(0):
            continue
        out.append(turn(text[at:m.start()]))
        out.append(m.group(0))
        at = m.end()
    out.append(turn(text[at:]))
    return "".join(out)


def main(argv):
    top = argv[0] if argv else "."
    table = {n: respelled(n) for n in own_names(top)}
    if len(set(table.values())) < len(table):
        print("names.py: two names would fall together", file=sys.stderr)
        return 1
    word = re.compile(r"[A-Za-z][\w'′]*(?:-[\w'′]+)*")

    def turn(text):
        def one(m):
            w = m.group(0)
            if w in table:
                return table[w]
            return "-".join(table.get(p, p) for p in w.split("-"))
        return word.sub(one, text)

    def free(text, rel):
        for old, new in TAKEN.items():
            if rel.startswith(TAKEN_IN[old]):
                text = re.sub(r"(?<![\w'.-])" + old + r"(?![\w'-])(?!\.)", new, text)
        return text

    for path in files(top):
        rel = os.path.relpath(path, top)
        if path.endswith(".antt"):
            old = read(path)
            new = "\n".join(outside_strings(line, turn) for line in free(old, rel).split("\n"))
        elif path.endswith((".rt", ".edit")) and "/" in rel:
            old = read(path)
            new = "\n".join(outside_strings(line, turn) for line in old.split("\n"))
        elif path.endswith(".md") and os.path.basename(path) != "PORT.md":
            old = read(path)
            new = SPAN.sub(lambda m: turn(m.group(0)), old)
        else:
            continue
        if new != old:
            with open(path, "w", encoding="utf-8", newline="") as f:
                f.write(new)
    return 0


if __name__ == "__main__":
    sys.exit(main(sys.argv[1:]))
