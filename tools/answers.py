#!/usr/bin/env python3
"""Turns proofs that apply `tie.spec` into Invariants.antt and Answers.antt.

usage: tools/answers.py NAMES CRATE..      at the top of the repository, after tools/respell.py

NAMES is a folder that holds CRATE.json for each crate, written by `rattle check --generated DIR --old-names` (DIR/names.json). Each answer
goes under its goal's name of today; a path `c.before.before.step.field` becomes `c.step.field`. Answers that the check finds alone are left
out. What it can't turn it says, and leaves as it was.
"""
import json
import os
import re
import sys

NAME = r"[^\s(){}\[\].;,@\"«»]+"
FOUND_ALONE = re.compile(r"(search rules|omega arith|search \(rules\)|omega \(arith\))")


def norm(name):
    """A step's name whatever joins its words; respell.py and port.py took some steps for names of their own."""
    return re.sub(r"_lem$", "", name).replace("an_input", "is_input").replace("type_size", "size_of").replace("_", "-")


class Unturned(Exception):
    pass


def closing(t, i):
    deep = 0
    for k in range(i, len(t)):
        deep += (t[k] == "(") - (t[k] == ")")
        if not deep:
            return k + 1
    raise Unturned("a bracket does not close")


def arguments(t):
    """The arguments of an application, by its text: names or terms in brackets."""
    out, i = [], 0
    while i < len(t):
        if t[i].isspace():
            i += 1
        elif t[i] == "(":
            j = closing(t, i)
            out.append(t[i + 1 : j - 1].strip())
            i = j
        else:
            m = re.compile(r"\S+").match(t, i)
            out.append(m[0])
            i = m.end()
    return out


class Function:
    def __init__(self, names):
        self.needs = names["needs"]
        self.asked = [it[1] for it in names["asked_at"]]
        self.places = {}
        self.by_new = {}
        for place, new, arm, typed in zip(names["places"], names["places_by_name"], names["arms"], names["typed"]):
            old, prev, step, callee, _ = place
            self.places[old] = (prev, step, arm, typed)
            self.by_new[new] = old
        self.loops = names["loops"]
        self.changed = names["changed"]

    def chain(self, old):
        out = []
        while old is not None:
            out.append(old)
            old = self.places[old][0]
        return out

    def path(self, at, segments):
        """The segments of today's path from `c` for the old path from the place `at`."""
        hops = 0
        while hops < len(segments) and segments[hops] == "before":
            hops += 1
        rest = segments[hops:]
        chain = self.chain(at)
        if not rest:
            raise Unturned("a path ends in before")
        step = rest[0]
        if norm(step) in ("args", "requires", "ranges", "utf8", "well-formed"):
            return [step.replace("-", "_"), *rest[1:]]
        fits = [k for k, it in enumerate(chain) if norm(self.places[it][1][0]) == norm(step)]
        if not fits:
            raise Unturned(f"no step {step} on the way to {at}: {[self.places[it][1][0] for it in chain]}")
        k = min(fits, key=lambda k: abs(k - hops))
        prev, (old_step, new_step), arm, typed = self.places[chain[k]]
        if k != hops:
            print(f"   note: {'.'.join(segments)} at {at}: {hops} befores, found {k}")
        if typed:
            for var, known in typed:
                if norm(known) == norm(step):
                    return ["auto", var, *rest[1:]]
        # a told variant is the arm's own fact today
        if arm:
            for field, old, way in arm[2]:
                if norm(old) == norm(step) and rest[1 : 1 + len(way)] == way and field == "is":
                    return [arm[0], "is", *rest[1 + len(way) :]]
        return [new_step, *rest[1:]]


def turn_body(fn, at, text):
    """The text of an answer with its paths turned; at is the place that c stands for."""
    ways = {"c": []}
    # lets that name an earlier place
    while True:
        m = re.search(rf"\blet ({NAME}) = ({NAME})((?:\.before)+) in\s*", text)
        if not m or m[2] not in ways:
            break
        ways[m[1]] = ways[m[2]] + m[3].split(".")[1:]
        text = text[: m.start()] + text[m.end() :]

    def turn(m):
        head = m[1]
        if head not in ways:
            return m[0]
        segments = [*ways[head], *[it for it in m[2].split(".") if it]]
        return ".".join(["c", *fn.path(at, segments)])

    text = re.sub(rf"(?<![^\s(\[,{{])({NAME})((?:\.{NAME})+)", turn, text)
    for alias in ways:
        if alias != "c" and re.search(rf"(?<![^\s(\[,{{]){re.escape(alias)}(?![^\s)\],}}.])", text):
            raise Unturned(f"{alias} stands alone")
    if re.search(r"(?<![^\s(\[,{])c(?![^\s)\],}])", text):
        raise Unturned("c stands alone")
    return text


def substituted(text, to):
    """The text with each free name of `to` replaced."""
    bound = []
    for m in re.finditer(rf"λ ((?:{NAME} ?)+)\.|\(((?:{NAME} )+): ", text):
        end = deep = 0
        for end in range(m.start(), len(text)):
            deep += (text[end] == "(") - (text[end] == ")")
            if deep < 0:
                break
        bound.append((m.start(), end, set((m[1] or m[2]).split())))

    def turn(m):
        is_bound = any(a <= m.start() <= b and m[1] in names for a, b, names in bound)
        return m[1] if is_bound else to.get(m[1], m[1])

    return re.sub(rf"(?<![^\s(\[,{{])({NAME})", turn, text)


def given_as(arg, declared):
    """What an argument of tie.spec stands for, a declaration's name or a λ: its comments, `unfolding` lines, parameters and body."""
    if arg in declared:
        return declared[arg]
    m = re.match(r"λ ((?:[^.\s]+ )*[^.\s]+)\.((?:.|\n)*)$", arg)
    if not m:
        raise Unturned(f"neither a name nor a λ: {arg}")
    return [], [], m[1].split(), m[2]


def blocks_of(text):
    out, block = [], []
    for line in text.split("\n"):
        if not line.strip():
            if block:
                out.append(block)
            block = []
        else:
            block.append(line)
    return out + ([block] if block else [])


def turn(file, fn, crate, path):
    text = open(file, encoding="utf-8").read()
    heads, uses, needs, invariants, others, spec = [], [], {}, {}, [], None
    for block in blocks_of(text):
        notes = [it for it in block if it.startswith("--")]
        lines = [it for it in block if not it.startswith("--")]
        if not lines or lines[0].startswith("use "):
            heads += notes
            joined = "\n".join(lines)
            uses += re.findall(r"(?m)^use [^\n]*(?:\n +[^\n]*)*", joined)
            continue
        m = re.match(rf"((?:abbrev |pub |unfoldable )*)({NAME}) :((?:.|\n)*)", "\n".join(lines))
        if not m:
            raise Unturned(f"a block is none of a declaration: {lines[0]}")
        name, rest = m[2], m[3]
        eq = re.search(rf"(?m)^{re.escape(name)}((?: (?!=){NAME})*) =(?=\s)", rest)
        tied = re.match(r"\s*tie\.(invariant|decreases|Need)-", rest)
        if "tie.close" in rest:
            spec = re.search(r"tie\.spec((?:.|\n)*)$", rest[eq.end() :])
            if not spec:
                raise Unturned("no tie.spec")
            inner = spec[1].strip()
            # the bracket round tie.spec
            spec = inner[:-1].strip() if inner.count(")") > inner.count("(") else inner
        elif tied:
            # (an `unfolding` line stands between the type and the equation)
            mid = [it for it in rest[: eq.start()].split("\n")[1:] if it.strip().startswith("unfolding")]
            kind = tied[1]
            (needs if kind == "Need" else invariants)[name] = (notes, mid, eq[1].split(), rest[eq.end() :].strip("\n"))
        else:
            others.append("\n".join([*notes, *lines]))
    if spec is None:
        raise Unturned("no tie.close")
    given = arguments(spec)
    n_inv = 2 * len(fn.loops)
    inv_args, need_args = given[:n_inv], given[n_inv:]
    if len(need_args) != len(fn.needs):
        raise Unturned(f"{len(need_args)} answers for {len(fn.needs)} goals: {[a for a in need_args]} {fn.needs}")
    out_inv, out = [], []
    for k, arg in enumerate(inv_args):
        (old_loop, new_loop), variables = fn.loops[k // 2]
        changed = fn.changed[k // 2]
        kind = ("invariant", "decreases")[k % 2]
        notes, mid, params, body = given_as(arg, invariants)
        now = [v for v, c in zip(variables, changed) if c]
        if len(params) != len(variables) + len(now):
            raise Unturned(f"{kind}: {params} for {variables} and {now}")
        to = {}
        for p, v, c in zip(params, variables, changed):
            to[p] = f"l.initial.{v}" if c else f"l.{v}"
        for p, v in zip(params[len(variables) :], now):
            to[p] = f"l.{v}"
        body = substituted(body, to)
        out_inv += ["", *notes, f"abbrev pub {kind}-{new_loop} : goal.{kind}-{new_loop}", *mid, f"{kind}-{new_loop} l ={body if body.startswith(chr(10)) else ' ' + body.strip()}"]
    for k, arg in enumerate(need_args):
        new = fn.needs[k][1]
        at = fn.by_new[fn.asked[k]]
        notes, mid, params, body = given_as(arg, needs)
        if params[0] != "c":
            raise Unturned(f"parameters {params}")
        if FOUND_ALONE.fullmatch(body.strip()) and not mid:
            continue
        body = turn_body(fn, at, body)
        if "κs" in body:
            raise Unturned("κs is used")
        out += ["", *notes, f"pub {new} : goal.{new}", *mid, f"{new} c ={body if body.startswith(chr(10)) else ' ' + body.strip()}"]
    mine = [u for u in uses if not re.search(r"\.(Statement\.\{statement\}|Tie as tie)$", u)]
    folder = os.path.dirname(file)
    if out_inv:
        words = "\n".join(out_inv)
        used = only_used(mine, words)
        with open(f"{folder}/Invariants.antt", "w", encoding="utf-8") as f:
            f.write("\n".join([*(heads or []), *used, f"use Rattle.{crate}.proofs.{path}.Given as goal", *out_inv, ""]))
    if out or (others and not out_inv):
        words = "\n".join([*out, *others])
        used = only_used(mine, words)
        with open(f"{folder}/Answers.antt", "w", encoding="utf-8") as f:
            f.write("\n".join([*([] if out_inv else heads), *used, f"use Rattle.{crate}.proofs.{path}.Goals as goal", *[x for it in others for x in ("", it)], *out, ""]))
    os.remove(file)
    if not os.listdir(folder):
        os.rmdir(folder)


def only_used(uses, words):
    tokens = set(re.findall(NAME, words))
    out = []
    for u in uses:
        m = re.match(r"use ([^\s{]+)\.\{((?:.|\n)*)\}$", u)
        if not m:
            out.append(u)
            continue
        def stands(n):
            n = n.strip().split(" as ")[-1]
            parts = [p for p in n.split("◌") if p]
            return n in tokens or ("◌" in n and all(p in tokens for p in parts))
        kept = [n.strip() for n in m[2].split(",") if stands(n)]
        if kept:
            out.append(f"use {m[1]}.{{{', '.join(kept)}}}")
    return out


def main():
    folder, crates = sys.argv[1], sys.argv[2:]
    for crate in crates:
        names = json.load(open(f"{folder}/{crate}.json", encoding="utf-8"))
        done = bad = 0
        for root, _, files in os.walk(f"crates/{crate}/proofs"):
            if "Proof.antt" not in files:
                continue
            path = os.path.relpath(root, f"crates/{crate}/proofs").replace("/", ".")
            key = f"Rattle-{crate}-proofs.{path}.Lts"
            try:
                if key not in names:
                    raise Unturned("the check makes no names for it")
                turn(f"{root}/Proof.antt", Function(names[key]), crate, path)
                done += 1
            except Unturned as why:
                bad += 1
                print(f"{crate} {path}: {str(why)[:1200]}")
        print(f"{crate}: {done} turned, {bad} left")


if __name__ == "__main__":
    main()
