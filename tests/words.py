#!/usr/bin/env python3
"""Compares the words of the refusals: those that the built program target/bin/cmd_refusal prints are the table, and docs/CALLS.md,
include/krakobran.h, docs/krakobran.txt and docs/krakobran.1 have the same. The header may add, after a semicolon, a case that only a caller in C
meets. A line for each page; status 1 if one differs."""
import os
import re
import subprocess
import sys

root = os.path.dirname(os.path.dirname(os.path.abspath(__file__)))
REFUSALS = range(1, 19)


def read(path):
    with open(os.path.join(root, path), encoding="utf-8") as file:
        return file.read()


def said(number):
    """What the program says of a number."""
    program = os.path.join(root, "target/bin/cmd_refusal")
    return subprocess.run([program, str(number)], capture_output=True, text=True, check=True).stdout.rstrip("\n")


def in_calls():
    """The rows of the table of docs/CALLS.md."""
    part = read("docs/CALLS.md").split("\n## Refusals\n", 1)[1].split("\n\n| call |", 1)[0]
    return {int(n): words for n, words in re.findall(r"^\| (\d+) \| (.*) \|$", part, re.M)}


def in_header():
    """The comments of the header's enumeration."""
    part = read("include/krakobran.h").split("KRAKOBRAN_NONE = 0", 1)[1].split("};", 1)[0]
    found = re.findall(r"KRAKOBRAN_\w+ = (\d+),?\s*/\*(.*?)\*/", part, re.S)
    return {int(n): " ".join(words.split()) for n, words in found}


def in_text():
    """The section of the command's text."""
    part = read("docs/krakobran.txt").split("\nREFUSALS\n", 1)[1].split("\n\n", 1)[0] + "\n"
    return {int(n): " ".join(words.split()) for n, words in re.findall(r"^    (\d+)\n((?:        .*\n)+)", part, re.M)}


def in_page():
    """The section of the man page."""
    part = read("docs/krakobran.1").split(".SH REFUSALS\n", 1)[1].split(".SH ", 1)[0].replace("\\-", "-")
    return {int(n): " ".join(words.split()) for n, words in re.findall(r"\.TP\n\.B (\d+)\n((?:(?!\.).*\n)+)", part)}


def main():
    table = {n: said(n) for n in REFUSALS}
    failed = 0
    pages = [("docs/CALLS.md", in_calls), ("include/krakobran.h", in_header), ("docs/krakobran.txt", in_text), ("docs/krakobran.1", in_page)]
    for page, words_in in pages:
        found = words_in()
        if words_in is in_header:
            found = {n: table[n] if words.startswith(table.get(n, words) + ";") else words for n, words in found.items()}
        wrong = [n for n in REFUSALS if found.get(n) != table[n]] + [n for n in found if n not in table]
        failed += bool(wrong)
        print(("FAILED %s: %s" % (page, ", ".join("%d: %s" % (n, found.get(n)) for n in wrong))) if wrong else "passed " + page)
    none = [n for n in (0, 19, 4294967295, 4294967296) if said(n) != ""]
    failed += bool(none)
    print("FAILED words of what is no refusal: %s" % none if none else "passed no words of what is no refusal")
    print("%d passed, %d failed" % (len(pages) + 1 - failed, failed))
    sys.exit(failed > 0)


main()
