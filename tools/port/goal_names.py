"""In the Answers.antt and Invariants.antt of the crates: a name from the source keeps its underscores inside a name that the check makes,
as `returns-in_ok-check_literal` for `returns-in-ok-check-literal`, in names of goals and in what stands behind `c.`, `w.`, `l.` and the like."""
import os
import re

# Names of std's own functions that goals are called by.
STD = """from_residual from_output to_owned as_ptr get_mut split_at copy_from_slice strip_prefix starts_with ends_with from_str write_str
write_fmt into_bytes into_string clone_from_slice unwrap_or as_slice as_bytes as_str as_mut_slice as_ref to_string to_vec is_empty is_some
is_none is_ok is_err try_reserve from_utf8 into_iter iter_mut with_capacity push_str to_le_bytes to_be_bytes checked_add checked_mul
checked_sub wrapping_add try_from try_into from_array extend_from_slice from_digit to_digit""".split()
# A letter of a goal's name.
NAME = r"[\w'+\xb7-]"
# A line of a clause or a comment, whose words are not names of the code.
CONTRACT = re.compile(r"(?m)^\s*(ghost |requires|ensures|//|law ).*$")
# What the check makes of a name itself: as it was and as it is.
MADE = [
    (r"(^|[-+])in-(ok|err)(?=[-+]|$)", r"\1in_\2"),
    (r"(^|[-+])in-default(?=[-+\xb7]|$)", r"\1in_default"),
    (r"\xb7(?=\d+$)", "-"),
    (r"^(overflow)-(add|sub|mul|shl|shr|cast|step|neg)(?=-|$)", r"\1_\2"),
    (r"^(nonzero)-(div|rem)(?=-|$)", r"\1_\2"),
    (r"^(slice|offset)-bounds(?=-|$)", r"\1_bounds"),
    (r"^invariant-of(?=-|$)", "invariant_of"),
    (r"^type-inv$", "type_inv"),
    (r"^yielded-by$", "yielded_by"),
    (r"^-turn$", "_turn"),
]


def source_names():
    """The names with an underscore in the code of src/, clauses left aside: `put-number-at` is `put_number` at the `let at`."""
    found = set(STD)
    for crate in os.listdir("crates"):
        for folder, _, files in os.walk(os.path.join("crates", crate, "src")):
            for f in files:
                if f.endswith(".rt"):
                    with open(os.path.join(folder, f), encoding="utf-8") as file:
                        found |= set(re.findall(r"\b[A-Za-z][A-Za-z0-9]*(?:_[A-Za-z0-9]+)+\b", CONTRACT.sub("", file.read())))
    return sorted(found, key=lambda name: (-name.count("_"), name))


def turned(name, sources):
    for a, b in MADE:
        name = re.sub(a, b, name)
    for source in sources:
        dashed = source.replace("_", "-")
        if dashed in name:
            name = re.sub(r"(^|[-+])" + re.escape(dashed) + r"(?=[-+]|$)", lambda m: m[1] + source, name)
    return name


def mended(text, sources):
    for goal in set(re.findall(r"\bgoal\.(" + NAME + r"+)", text)):
        to = turned(goal, sources)
        if to != goal:
            text = re.sub(r"(?<![\w'\xb7-])" + re.escape(goal) + r"(?![\w'\xb7-])", to, text)
    # In a path behind a variable each part may have a name of the source.
    path = lambda m: m[1] + "".join("." + turned(part, sources) for part in m[2].split(".")[1:])
    text = re.sub(r"(?<![\w'.-])([a-z]\w?'?)((?:\." + NAME + r"+)+)", path, text)
    # Ways into a join, as `then-x w ↦ ..`, and what a use line of Goals names.
    ways = re.findall(r"(?<=[|\[] )((?:in|then|else)-[\w+'-]+)(?= \w+ \u21a6)", text)
    named = [x.strip() for m in re.findall(r"(?m)^use Rattle\.[\w.+'-]*Goals\.\{(.*)\}", text) for x in m.split(",")]
    for name in ways + named:
        text = re.sub(r"(?<![\w'+-])" + re.escape(name) + r"(?![\w'+-])", turned(name, sources), text)
    return text


def mend(crates):
    sources = source_names()
    for crate in crates:
        for folder, _, files in os.walk(os.path.join("crates", crate, "proofs")):
            for f in sorted(files):
                if f in ("Answers.antt", "Invariants.antt"):
                    path = os.path.join(folder, f)
                    with open(path, encoding="utf-8") as file:
                        old = file.read()
                    new = mended(old, sources)
                    if new != old:
                        with open(path, "w", encoding="utf-8") as file:
                            file.write(new)
