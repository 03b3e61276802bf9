#!/usr/bin/env python3
"""places.py [POINT]   the places of docs/DESIGN-PASS.md, by point, in the src/ of every crate of this checkout.

1  results of the shape of Option and Result, flags beside values, numbers for refusals
2  functions that are the same text but for names and constants (with bodies of twelve tokens or more)
3  loops
4  conversions, equality and printing written by hand, and faults wrapped by hand
5  parameters that stand together in three functions or more, facts in the clauses of three or more, joined `requires`
6  arrays, and lengths or counts beside them
7  matches on which step to run, function pointers, dyn
8  files and lines of proof text by crate
"""
import collections, glob, itertools, os, re, sys

files = sorted(p for p in glob.glob("crates/*/src/**/*.rt", recursive=True))
text = {p: open(p).read() for p in files}

def lines(*patterns):
    found = []
    for p in files:
        for n, l in enumerate(text[p].split("\n"), 1):
            if l.lstrip().startswith("//"): continue
            for pattern in patterns:
                if re.search(pattern, l):
                    found.append(f"{p}:{n}: {l.strip()}"); break
    return found

def functions():
    """(file, line, name, parameters, clauses, body) of each function with a body."""
    for p in files:
        s = text[p]
        for m in re.finditer(r"(?m)^( *)(?:pub(?:\(crate\))? )?fn (\w+)", s):
            at = m.end(); depth = 0
            start = s.find("(", at); i = start
            while i < len(s):
                depth += s[i] == "("; depth -= s[i] == ")"
                i += 1
                if depth == 0: break
            params = s[start + 1:i - 1]
            j = i; clauses = ""; brace = None
            # the body is the first `{` that no clause word stands before on its line
            while j < len(s):
                e = s.find("\n", j); e = len(s) if e < 0 else e
                l = s[j:e]
                if re.match(r"\s*(requires|ensures)\b", l):
                    clauses += l + "\n"
                    if l.rstrip().endswith(";"): break
                elif "{" in l: brace = s.index("{", j); break
                elif l.rstrip().endswith(";"): break
                j = e + 1
            if brace is None: continue
            depth = 0; k = brace
            while k < len(s):
                depth += s[k] == "{"; depth -= s[k] == "}"
                k += 1
                if depth == 0: break
            yield p, s.count("\n", 0, m.start()) + 1, m[2], params, clauses, s[brace:k]

def twins():
    groups = collections.defaultdict(list)
    keep = {"if", "else", "for", "in", "match", "return", "let", "mut", "Some", "None", "Ok", "Err", "while", "fn", "true", "false"}
    for p, n, name, params, clauses, body in functions():
        tokens = re.findall(r"[A-Za-z_]\w*|\d+|\S", re.sub(r"//.*", "", body))
        if len(tokens) < 12: continue
        shape = " ".join(t if t in keep or not re.match(r"\w", t) else "x" for t in tokens)
        groups[shape].append(f"{p}:{n}: {name}")
    return ["\n    ".join(g) for g in groups.values() if len(g) > 1]

def together():
    groups = collections.defaultdict(set); facts = collections.defaultdict(set)
    for p, n, name, params, clauses, body in functions():
        ps = [re.sub(r"\s+", " ", x.strip()) for x in re.split(r",(?![^<(\[]*[>)\]])", params) if ":" in x]
        for pair in itertools.combinations(sorted(ps), 2): groups[pair].add(f"{p}:{n}")
        for c in re.findall(r"(?:requires|ensures)[^{]*\{(.*)\}", clauses):
            for f in re.split(r" × ", c): facts[re.sub(r"\b(self|\w+)\.(old|now|new)\b", "_", f.strip().strip("()"))].add(f"{p}:{n}")
    out = [f"{len(v)} functions: {', '.join(k)}" for k, v in groups.items() if len(v) > 2]
    out += [f"{len(v)} clauses: {k}" for k, v in facts.items() if len(v) > 2]
    return sorted(out) + lines(r"requires \{.* × ")

def proofs():
    out = []
    for c in sorted(os.listdir("crates")):
        ps = glob.glob(f"crates/{c}/proofs/**/*.antt", recursive=True)
        ans = [p for p in ps if p.endswith("/Answers.antt")]
        n = lambda qs: sum(open(q).read().count("\n") for q in qs)
        out.append(f"{c}: {len(ans)} files of answers, {n(ans)} lines; lemmas and invariants {n(set(ps) - set(ans))} lines")
    return out

points = {
    "1": lambda: lines(r"-> Option<(Body|RuleRow)", r"fn wrong<", r"pub fn (make|of)\(", r"\(bool, |, bool[,)]|\b(more|positive|negative): bool", r"number: u8|\(u8, usize, usize\)",
                       r"^\s*None => (false|0|return false)\b", r"Some\(_\) => true", r"\w+::\w+ => true,$"),
    "2": twins,
    "3": lambda: lines(r"^\s*(for|while|loop)\b"),
    "4": lambda: lines(r"^impl.* (Clone|Copy|PartialEq|Eq|Ord|Default|Debug|Display|fmt::Display|From<.*>) for ", r"Fault::(Reading|Checking|Making)\(", r" as (u8|u16|u32|u64|usize)\b"),
    "5": together,
    "6": lambda: lines(r"\[[^\[\]]+; *\w+\]", r"\b(len|length|count): usize"),
    "7": lambda: lines(r"match (word|kind|form|stage|self\.stage|\(self\.stage)", r"\bdyn\b", r": fn\("),
    "8": proofs,
}
for point in sys.argv[1:] or points:
    found = points[point]()
    print(f"== point {point}: {len(found)}")
    print("\n".join(found))
