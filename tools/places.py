#!/usr/bin/env python3
"""Counts, in the sources of a tree, the places that the design pass (docs/DESIGN-PASS.md) looks at.

usage: tools/places.py [--list] [COMMIT]     the work tree, or COMMIT; --list prints each place

A row counts what a pattern finds in crates/*/src, line by line. A pattern finds candidates: the page says which of them are places,
which are kept and why.
"""
import os
import re
import subprocess
import sys

ROWS = [
    ("1 own enums", r"^\s*(?:pub )?enum \w+"),
    ("1 numbers for refusals", r"Refused\(\w+\)|: u32\s*=> (?:4|5|6|7),|return [4-9];"),
    ("1 constants that number things", r"^pub const \w+: (?:usize|u32) = \d+;"),
    ("1 a number that says none", r"\b0 (?:if|where) (?:there|it|that|the image|k)|none (?:if|where)|empty (?:if|part|where)"),
    ("2 flags as parameters", r"\b\w+: bool\b(?=[,)])"),
    ("3 counting while loops", r"^\s*(?:'\w+: )?while .*(?:<|!=)"),
    ("3 for loops", r"^\s*for "),
    ("3 other loops", r"^\s*(?:loop \{|while let )"),
    ("4 comparisons of signals by their word", r"\.a (?:==|!=|<|<=) "),
    ("4 negations and flips by methods", r"\.(?:not|xor)\("),
    ("4 conversions by functions of our own", r"\b(?:wide|one_if|byte_if|code)\("),
    ("5 a network's length in a contract", r"requires.*(?:net_size|area_size|span|16384) ≤ length"),
    ("5 a node's bound in a contract", r"requires.*\bv < 512"),
    ("6 a list with its length beside", r"list: &(?:mut )?\[u32\],\s*n: usize"),
    ("7 a step chosen by an enum", r"Task::\w+"),
]


def files(commit):
    """(name, text) of each source file."""
    if commit is None:
        for top, _, names in sorted(os.walk("crates")):
            if "/src" in top and "/out" not in top:
                for name in sorted(names):
                    if name.endswith(".rt"):
                        path = os.path.join(top, name)
                        with open(path, encoding="utf-8") as f:
                            yield path, f.read()
        return
    names = subprocess.run(["git", "ls-tree", "-r", "--name-only", commit, "crates"], capture_output=True, text=True, check=True).stdout.split("\n")
    for path in names:
        if "/src/" in path and path.endswith(".rt"):
            yield path, subprocess.run(["git", "show", f"{commit}:{path}"], capture_output=True, text=True, check=True).stdout


def main():
    args = sys.argv[1:]
    listing = "--list" in args
    commits = [a for a in args if a != "--list"]
    texts = list(files(commits[0] if commits else None))
    lines = sum(text.count("\n") for _, text in texts)
    print(f"{'lines of source':45} {lines}")
    for name, pattern in ROWS:
        found = [(path, i + 1, line.strip()) for path, text in texts for i, line in enumerate(text.split("\n")) if re.search(pattern, line)]
        print(f"{name:45} {len(found)}")
        if listing:
            for path, number, line in found:
                print(f"    {path}:{number}: {line}")


main()
