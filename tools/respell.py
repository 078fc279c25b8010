#!/usr/bin/env python3
"""Spells the repository's own definitions, lemmas, fields and constructors in snake case, after the kit's port/port.py has run.

usage: tools/respell.py [--list]      once, at the top of the repository; --list prints each old name with its new one and writes nothing

A camel-case or dashed name gets underscores (`isInverted`, `zeroed-none`: `is_inverted`, `zeroed_none`); a part that is a type keeps its
capital. A lemma whose new name is that of a definition gets `_lem` behind it. `getD` in a name is `get_or`, as in today's library. It
reads .antt files, the clauses and imports of .rt files, must-fail edits of specs/ and proofs/, and names in backticks in README.md and
docs/. Names of Rust source, of libraries and of what the check makes stay.
"""
import collections
import glob
import re
import sys

NAME = r"[^\s(){}\[\].;,@\"«»`]+"
TOKEN = re.compile(NAME)
DECLARED = re.compile(rf"^( *)((?:(?:pub|abbrev|unfoldable) +)*)(record |data |ruleset |module )?({NAME})(?: \{{[^}}]*\}})*( .*)?$")


# a constructor whose name a definition takes
APART = {"is-input": "an_input"}


def snake(name):
    if name in APART:
        return APART[name]
    if re.fullmatch(r"[A-Z]\w*'?", name):
        return name
    name = re.sub(r"(?<=[a-z0-9])[A-Z]", lambda m: "_" + m[0].lower(), name.replace("getD", "get_or"))
    return name.replace("-", "_")


def declarations(text):
    """The names that a file declares, each with whether it stands as a definition: an abbrev, an unfoldable, a field or a constructor."""
    for line in text.split("\n"):
        if line.strip().startswith(("--", "use ", "mod ", "pub mod ", "|")):
            continue
        m = DECLARED.match(line)
        if not m or m[3] == "module ":
            continue
        rest = m[5] or ""
        # (what a Proof.antt answers keeps its name: the check makes it)
        if m[3] or re.match(r"^ :( (?!tie\.)|$)", rest):
            yield m[4], bool(m[3]) or "abbrev" in m[2] or "unfoldable" in m[2]


def the_map(files):
    declared, definitions = collections.Counter(), set()
    for path in files:
        with open(path, encoding="utf-8") as f:
            for name, defined in declarations(f.read()):
                declared[name] += 1
                if defined:
                    definitions.add(name)
    # definitions first, so that a lemma gives way
    taken, new = {}, {}
    for name in sorted(declared, key=lambda n: (n not in definitions, snake(n) != n, n)):
        to = snake(name)
        while taken.get(to, name) != name:
            to += "_lem"
        taken[to] = name
        if to != name:
            new[name] = to
    return new


def respelled(text, new, walks=False):
    """The text with its names turned; in a walk a step that the check makes, behind `c.` or `.before.`, gets underscores alone."""

    def turn(m):
        name = m[0]
        if walks and re.search(r"(?<![\w.'-])[cdw](\.before)*\.$", text[max(0, m.start() - 300) : m.start()]):
            return snake(name) if name in new else name
        return new.get(name, name)

    return TOKEN.sub(turn, text)


def outside(text, new, own):
    """The map without the names that a file imports from a library."""
    taken = set()
    for m in re.finditer(r"use ([^\s{;]+)\.\{([^}]*)\}", text):
        parts = m[1].split(".")
        if parts[0] != "Rattle" or parts[1] not in own:
            taken |= {it.strip() for it in m[2].split(",")}
    return {a: b for a, b in new.items() if a not in taken}


def in_clauses(text, new):
    """Turns a .rt file's imports of ghosts and its clauses alone."""
    out, i = [], 0
    for m in re.finditer(r"ghost use [^;]*;|\b(?:requires|ensures)\*?(?: \w+)? \{", text):
        if m.start() < i:
            continue
        end = m.end()
        if m[0].endswith("{"):
            deep = 1
            while deep:
                deep += {"{": 1, "}": -1}.get(text[end], 0)
                end += 1
        out += [text[i : m.start()], respelled(text[m.start() : end], new)]
        i = end
    return "".join(out) + text[i:]


def in_edit(text, new):
    out, turned = [], False
    for line in text.split("\n"):
        if line.startswith("file: "):
            turned = line[6:].startswith(("specs/", "proofs/"))
        out.append(respelled(line, new) if turned and line.startswith(("old: ", "new: ")) else line)
    return "\n".join(out)


def in_page(text, new):
    return re.sub(r"`[^`\n]+`", lambda m: respelled(m[0].replace("`", " ", 1)[:-1] + " ", new).replace(" ", "`", 1)[:-1] + "`", text)


def main():
    files = sorted(glob.glob("crates/*/specs/**/*.antt", recursive=True) + glob.glob("crates/*/proofs/**/*.antt", recursive=True))
    new = the_map(files)
    if "--list" in sys.argv:
        print("\n".join(f"{a}\t{b}" for a, b in sorted(new.items())))
        return
    own = {it.split("/")[1] for it in files}
    turns = [(files, respelled), (glob.glob("crates/*/src/**/*.rt", recursive=True), in_clauses)]
    turns += [(glob.glob("crates/*/must-fail/*.edit"), in_edit), (["README.md", *glob.glob("docs/*.md")], in_page)]
    for paths, turn in turns:
        for path in sorted(paths):
            with open(path, encoding="utf-8") as f:
                old = f.read()
            to = outside(old, new, own)
            text = respelled(old, to, True) if path.endswith("/Proof.antt") else turn(old, to)
            if text != old:
                with open(path, "w", encoding="utf-8") as f:
                    f.write(text)


if __name__ == "__main__":
    main()
