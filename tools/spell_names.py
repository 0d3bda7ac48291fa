#!/usr/bin/env python3
"""Brings the repository's own definitions and lemmas to one spelling, as the library's are spelled.

usage: python3 tools/spell_names.py [--list]     at the top of the repository

A function, a lemma, a field or a variable of an .antt file is in snake case: `leapDay` becomes `leap_day`. A dash stays only behind
the name of a function that the lemma is about, as in `sum_by-append`; otherwise it becomes `_`. A fact or a record is in upper camel
case: `Gives-back` becomes `GivesBack`. Names that rattle makes (goals, steps) are left, and so is all that src/ declares.
With --list the renamings are printed and nothing is written. It was run once, after the kit's script; running it again changes nothing.
"""

import os
import re
import sys

TOKEN = re.compile(r"(?<![\w'·-])[A-Za-z](?:[\w']|-(?=\w))*")
# functions of std that lemmas here are named after
STD = {"length", "take", "drop", "map", "sum", "append", "filter", "not"}
# names that would fall together with another: where both stand, this one goes another way
APART = {
    "byReceipt": "shares_by_receipt",
    "proRata": "shares_pro_rata",
    "readAs": "number_read",
    "settledAt": "all_settled_at",
    "tailOf": "record_tail",
    "endedAt": "all_ended_at",
    "leftOver": "tail_stop",
    "oneMore": "one_more_each",
    "oneMore-here": "one_more_each-here",
    "oneMore-all": "one_more_each-all",
    "oneMore-total": "one_more_each-total",
    "oneMore-within": "one_more_each-within",
    "none-late": "late-none",
    "in-range": "dollars_in_range",
    "assigned-rate": "assigned_rate-is",
    "sumTo": "sum_to",
    "sumTo-add": "sum_to-add",
    "sumTo-sub": "sum_to-sub",
    "A-not-lower": "a_not_lower",
}


def files():
    for folder, dirs, names in os.walk("crates"):
        dirs[:] = sorted(d for d in dirs if d != "out")
        for name in sorted(names):
            if name.endswith((".antt", ".rt", ".edit")):
                yield os.path.join(folder, name)


def snake(word):
    word = re.sub(r"([a-z0-9])([A-Z])", r"\1_\2", word)
    return word.lower()


def spelled(name, functions):
    if name[0].isupper():
        return "".join(w[0].upper() + w[1:] for w in name.split("-"))
    parts = name.split("-")
    head, rest = parts[0], parts[1:]
    joint = "-" if rest and (head in functions or head in STD) else "_"
    return joint.join([snake(head)] + (["_".join(snake(w) for w in rest)] if rest else []))


def declared(texts):
    """The names that the .antt files declare, and which of them are definitions."""
    names, functions, made = set(), set(), set()
    for path, text in texts.items():
        if not path.endswith(".antt"):
            continue
        made.update(re.findall(r"\bgoal\.([\w-]+)", text))
        made.update(n for use in re.findall(r"\.Goals\.\{([^}]*)\}|\.Given\.\{([^}]*)\}", text) for part in use for n in re.split(r",\s*", part))
        for line in text.split("\n"):
            m = re.match(r"((?:abbrev |unfoldable |pub )*)([A-Za-z][\w'-]*) :", line) or re.match(r"((?:pub )?(?:record|data) )([A-Za-z][\w'-]*)", line)
            if m:
                names.add(m.group(2))
                if "abbrev" in m.group(1) or "unfoldable" in m.group(1) or "/specs/" in path:
                    functions.add(m.group(2))
            m = re.match(r"\s+(?:pub )?([A-Za-z][\w'-]*) :", line)
            if m:
                names.add(m.group(1))
            if "use Rattle" not in line:
                names.update(re.findall(r"(?<![\w.'-])[a-z]+[A-Z]\w*", line))
    return names - made, functions - made


def main():
    texts = {p: open(p, encoding="utf-8").read() for p in files()}
    names, functions = declared(texts)
    turn = {n: APART.get(n, spelled(n, functions)) for n in names}
    turn = {n: t for n, t in turn.items() if n != t}
    tokens = set()
    for text in texts.values():
        tokens.update(TOKEN.findall(text))
    taken, clash = {}, []
    for n, t in sorted(turn.items()):
        if t in tokens or t in taken:
            clash.append((n, t))
        taken[t] = n
    if "--list" in sys.argv:
        for n, t in sorted(turn.items()):
            print(n, t, "CLASH" if (n, t) in clash else "")
        return
    for path, text in texts.items():
        new = TOKEN.sub(lambda m: turn.get(m.group(0), m.group(0)), text)
        if new != text:
            with open(path, "w", encoding="utf-8") as f:
                f.write(new)


main()
