#!/usr/bin/env python3
"""changes.py OLD   what stood otherwise in the checkout OLD, old and new line under line, as docs/DESIGN-PASS.md has it.

Signatures, clauses, ghost members and definitions are those that the kit's port/contracts.py tells apart.
"""
import json, os, subprocess, sys

kit = os.path.dirname(os.path.dirname(subprocess.run(["rt", "doc"], capture_output=True, text=True).stdout.strip().split("\n")[0].split()[-1]))
script = next(p for p in (os.path.join(kit, "port/contracts.py"), "/opt/rattle/port/contracts.py") if os.path.exists(p))
told = json.loads(subprocess.run(["python3", script, sys.argv[1], os.getcwd(), "--json"], capture_output=True, text=True).stdout)
clean = lambda s: " ".join(str(s).split())

def block(lines):
    print("```text"); print("\n".join(lines)); print("```\n")

def clause(word, c): return f"{word} {c[0]} {{ {clean(c[1])} }}" if c[0] else f"{word} {{ {clean(c[1])} }}"

print("### Signatures\n")
out = []
for name, old, new in sorted(told["signatures changed"]):
    out += [name, f"- {clean(old)}", f"+ {clean(new)}"]
block(out)
print("### Clauses\n")
out = []
for name, oreq, oens, nreq, nens in sorted(told["contracts changed"]):
    o = [clause("requires", c) for c in oreq] + [clause("ensures", c) for c in oens]
    n = [clause("requires", c) for c in nreq] + [clause("ensures", c) for c in nens]
    out.append(name)
    out += [f"- {x}" for x in o if x not in n] + [f"+ {x}" for x in n if x not in o]
block(out)
print("### Invariants and ghost members\n")
out = []
for g in told["ghost items and constants"]["changed"]:
    *name, old, new = g
    out += [" ".join(name), f"- {clean(old[0])}", f"+ {clean(new[0])}"]
out += ["gone: " + ", ".join(sorted(" ".join(g) for g in told["ghost items and constants"]["gone"]))]
block(out)
print("### Definitions\n")
out = []
for crate, name, old, new in sorted(told["definitions"]["changed"]):
    out.append(f"{crate} {name}")
    out += [f"- {clean(x)}" for x in old] + [f"+ {clean(x)}" for x in new]
block(out)
