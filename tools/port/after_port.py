#!/usr/bin/env python3
"""Mends what port.py and respell.py leave of the crates, so that all of them prove again.

usage: python3 tools/port/after_port.py      once, at the top of the repository, after respell.py --write; then `rt fmt` in each crate
"""
import os
import re
import subprocess

import goal_names


def files(top, *endings):
    for folder, dirs, names in os.walk(top):
        dirs[:] = sorted(d for d in dirs if d != "out")
        for f in sorted(names):
            if f.endswith(endings):
                yield os.path.join(folder, f)


def change(path, *pairs):
    with open(path, encoding="utf-8") as file:
        old = file.read()
    new = old
    for a, b in pairs:
        new = re.sub(a, b, new, flags=re.M)
    if new != old:
        with open(path, "w", encoding="utf-8") as file:
            file.write(new)


def ask_for_tactics(crate):
    """The line by which the check tries its tactics, below the comment at the head of the root file."""
    for root in ("lib.rt", "main.rt"):
        path = os.path.join("crates", crate, "src", root)
        if os.path.exists(path):
            with open(path, encoding="utf-8") as file:
                lines = file.read().split("\n")
            if "#![tactic(auto)]" not in lines:
                head = next(i for i, line in enumerate(lines) if not line.startswith("//"))
                lines[head:head] = ["#![tactic(auto)]", ""]
                with open(path, "w", encoding="utf-8") as file:
                    file.write("\n".join(lines))


def main():
    crates = sorted(os.listdir("crates"))
    for crate in crates:
        ask_for_tactics(crate)
    goal_names.mend(crates)

    # A member of an associated type is named behind the parameter that the type belongs to.
    change("crates/makes/src/struck.rt", (r"\bStamp[-·]as[-·]Order\.|\bStamp·Order\.", "B.Stamp.Order."))
    for crate in ("makes", "writing"):
        for path in files(f"crates/{crate}/proofs", ".antt"):
            change(path, (r"\bg\.Stamp\.", "g.B.Stamp."))

    # A label of a clause keeps its underscore in a record that answers several clauses.
    for path in files("crates/grammar/proofs", "Answers.antt"):
        change(path, (r"\bof-(ticks|routes|pairs)\b", r"of_\1"))

    # Of a `&mut` a requires reads the old value.
    change("crates/text/src/read.rt", (r"length atoms\.now; rules = length rules\.old", "length atoms.old; rules = length rules.old"))

    # The gate refuses a word of the library for something else. The lemmas on AllByRecursion are named All-.. and keep that.
    for path in [*files("crates/makes/src", ".rt"), *files("crates/makes/proofs", ".antt")]:
        with open(path, encoding="utf-8") as file:
            other = "AllByRecursion as All" in file.read()
        if other:
            change(path, (r"\bAllByRecursion as All\b", "AllByRecursion"), (r"(?<![\w'-])All(?![\w'-])", "AllByRecursion"))

    # A module may not have the name of a library that its crate uses.
    subprocess.run(["git", "mv", "crates/text/src/words.rt", "crates/text/src/phrases.rt"], check=True)
    subprocess.run(["git", "mv", "crates/text/proofs/words", "crates/text/proofs/phrases"], check=True)
    for path in files("crates/text/src", ".rt"):
        change(path, (r"\bcrate::words::", "crate::phrases::"), (r"^mod words;$", "mod phrases;"))
    for path in files("crates/text/proofs/phrases", ".antt"):
        change(path, (r"\bRattle\.text\.proofs\.words\.", "Rattle.text.proofs.phrases."))

    # An answer that cites less, so that the edit get-first_place is refused for its value and not for a name.
    change("crates/makes/proofs/body/Body/get/Answers.antt", (r" c\.index-self-i\.result c\.if-i-self\.true", " _ c.if-i-self.true"))

    # The edits whose text no longer stands in their file. (respell.py has turned another, accepted_comes_back-tables-swapped.)
    for path in files("crates/models/must-fail", ".edit"):
        change(path, (r"\(O·Order \.(\w+)\)", r"O.Order.\1"))
    change("crates/grammar/must-fail/written_is_read_back-ticks-of-33-bits.edit", (r"\bt \.0 <", "t.0 <"))


main()
