#!/usr/bin/env python3
"""Respells the repository's own definitions and lemmas after the kit's port.py: snake case for all but types, facts and modules.

usage: python3 tools/port/respell.py [--write]      at the top of the repository, right after port.py

Turned are lower camel case in specs/, proofs/, clauses and edits, and the names with dashes that a file of specs/ or proofs/ declares.
Left are the names that the check makes (`returns-in_ok`, `loop-rule`), functions of src/ and strings, which have no such names.
A lemma that would get a name that is there already gets `_lem` behind it. Without --write nothing is written. Either way it lists each
definition that now has the name of a Rust function, and each file in which two names would fall together. Two that fall together in a
file of definitions or lemmas end the run, so that none is captured by another's binder. In src/ and in the answers for a function one of
the two may be the function itself or its module.
"""
import collections
import os
import re
import sys

CAMEL = re.compile(r"(?<![A-Za-z0-9_])([a-z][a-z0-9]*(?:[A-Z][a-z0-9]*)+)(?![A-Za-z0-9_])")
DECLARED = re.compile(r"^( *)(?:abbrev |unfoldable |opaque |private |pub |record |data )*([a-z][\w'-]*)(?: [({][^:]*)? : ")
NAME = re.compile(r"[A-Za-z_][\w'-]*")
FUNCTION = re.compile(r"\bfn ([a-z_0-9]+)")

# Lemmas named by a word that std spells otherwise now, or by one function of another, outer first. `None`: the name is right as it is.
RENAMED = {
    "after-append": "after_all-append",
    "all-nth": "all_slice_get",
    "body-length": "length-body_items",
    "closed-append": "closed_by-append",
    "cond-or": None,
    "fed-append": "fed_by-append",
    "flattened-mapped": "option_flatten-option_map",
    "flattened-some": "option_flatten_some",
    "laid-append": None,
    "mapped-none": "option_map_none",
    "mapped-some": "option_map_some",
    "may-append": "may_all-append",
    "nth-all": "slice_get_all",
    "nth-filled": "slice_get_filled",
    "nth-front": "slice_get_front",
    "nth-map": "slice_get-map",
    "nth-none": "slice_get_none",
    "nth-some": "slice_get_some",
    "nth-take": "slice_get-take",
    "nth-within": "slice_get_within",
    "strike-length": "length-strike_from",
    "strike-nth": "slice_get-strike_from",
    "ticks-length": "length-every_tick",
    "true-T": None,
}

# Two local names that a turned one would meet: they make room first.
ROOM = {
    "crates/grammar/proofs/Turned.antt": [(r"\bone_form\b", "one_form_is")],
    "crates/grammar/proofs/Numbers.antt": [
        (r"^digit_value : ", "digit_value_is : "),
        (r"^digit_value b lo hi = ", "digit_value_is b lo hi = "),
        (r"\(digit_value b lo hi\)", "(digit_value_is b lo hi)"),
        (r"let v = digit_value b lo hi in", "let v = digit_value_is b lo hi in"),
        (r"\{digit_value as digitValue\}", "{digit_value}"),
        (r"\bdigitValue\b", "digit_value"),
    ],
}


def snake(name):
    return re.sub(r"([A-Z])", lambda m: "_" + m[1].lower(), name)


def texts():
    found = {}
    for folder, dirs, files in os.walk("crates"):
        dirs[:] = sorted(d for d in dirs if d != "out")
        for f in sorted(files):
            if f.endswith((".antt", ".rt", ".edit")):
                path = os.path.join(folder, f)
                with open(path, encoding="utf-8") as file:
                    found[path] = file.read()
    return found


def declares(path):
    """A file of definitions or lemmas, and not one that answers goals of a function."""
    return path.endswith(".antt") and ("/specs/" in path or path.split("/proofs/")[-1].count("/") == 0)


def dashed_names(found):
    """The names with a dash that are declared, and those of them that are declared below another name."""
    names, inner = set(), set()
    for path, text in found.items():
        if declares(path):
            for line in text.split("\n"):
                m = DECLARED.match(line)
                if m and "-" in m[2]:
                    names.add(m[2])
                    if m[1]:
                        inner.add(m[2])
    return names, inner


def turned_names(found):
    taken = {name for text in found.values() for name in re.findall(r"(?<![\w'-])[A-Za-z_][\w']*(?![\w'-])", text)}
    turned = {m[1]: snake(m[1]) for text in found.values() for m in CAMEL.finditer(text)}
    used = set(turned.values())
    dashed, inner = dashed_names(found)
    for name in sorted(dashed):
        to = RENAMED[name] or name if name in RENAMED else snake(name).replace("-", "_")
        if to != name and (to in used or to in taken):
            to += "_lem"
        used.add(to)
        turned[name] = to
    return turned, inner


def any_of(names):
    return "|".join(re.escape(n) for n in sorted(names, key=len, reverse=True)) or r"(?!)"


def respelled(text, turned, inner):
    dashed = {n for n in turned if "-" in n}
    text = CAMEL.sub(lambda m: turned[m[1]], text)
    turn = lambda m: turned[m[1]]
    text = re.sub(r"(?<![\w'.-])(" + any_of(dashed - inner) + r")(?![\w'-])", turn, text)
    return re.sub(r"(?<![\w'-])(" + any_of(inner) + r")(?![\w'-])", turn, text)


def fallen_together(old, new):
    """Names of one file that were two and are one now, as (new name, old names)."""
    pairs = list(zip(NAME.findall(old), NAME.findall(new), strict=True))
    came_from = collections.defaultdict(set)
    for a, b in pairs:
        came_from[b].add(a)
    return sorted((b, sorted(names)) for b, names in came_from.items() if len(names) > 1)


def main():
    found = texts()
    for path, pairs in ROOM.items():
        for a, b in pairs:
            found[path] = re.sub(a, b, found[path], flags=re.M)
    turned, inner = turned_names(found)
    functions = {f for path, text in found.items() if path.endswith(".rt") for f in FUNCTION.findall(text)}
    for name in sorted(n for n, to in turned.items() if "-" not in n and to in functions):
        print(f"has the name of a function: {name} -> {turned[name]}")
    clash = False
    written = {}
    for path, text in found.items():
        new = respelled(text, turned, inner)
        for name, names in fallen_together(text, new):
            print(f"fall together in {path}: {', '.join(names)} -> {name}")
            clash = clash or declares(path)
        written[path] = new
    dashed = [n for n in turned if "-" in n]
    print(f"{len(turned) - len(dashed)} in camel case, {len(dashed)} with dashes, {sum(turned[n].endswith('_lem') for n in dashed)} with _lem")
    if clash:
        sys.exit("names fall together: nothing was written")
    if "--write" in sys.argv[1:]:
        for path, new in written.items():
            with open(path, encoding="utf-8") as file:
                same = file.read() == new
            if not same:
                with open(path, "w", encoding="utf-8") as file:
                    file.write(new)


main()
