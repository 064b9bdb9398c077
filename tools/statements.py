#!/usr/bin/env python3
"""Compares what is declared in specs/ and proofs/ of two checkouts, crate by crate and name by name: definitions, records, lemmas.

usage: tools/statements.py OLD NEW

By text alone. A name that is gone or new is listed, and each whose statement has other words: its type, not its proof. Where it stands may
differ: those are counted as moved. `D F` and `(D F)` are read as `D`, since a definition of a section is given its format outside.
"""
import glob
import os
import re
import sys

DECLARED = re.compile(r"^( *)(?:(?:unfoldable|abbrev) )?(?:pub )?(record |data )?([^\s(){}.;,@\"«»:=]+)(?: [({].*?)? ?:(?!=)(?: |$)")


def statements(path):
    """Each declaration of a file that stands in no other: its name, and its statement on one line."""
    with open(path, encoding="utf-8") as f:
        lines = f.read().split("\n")
    sections, i = [], 0
    while i < len(lines):
        line = lines[i]
        deep = len(line) - len(line.lstrip())
        if line.strip() and not line.strip().startswith("--"):
            sections = [s for s in sections if s < deep]
        if re.match(r" *module _ .* where$", line):
            sections.append(deep)
            i += 1
            continue
        base = sections[-1] + 2 if sections else 0
        found = DECLARED.match(line)
        i += 1
        if not found or deep != base or re.match(r" *(use|pub use|let|--) ?", line):
            continue
        said = [line.strip()]
        while i < len(lines) and lines[i].strip() and len(lines[i]) - len(lines[i].lstrip()) > base and not re.match(r" *(unfolding |where$)", lines[i]):
            said.append(lines[i].strip())
            i += 1
        yield found[3], re.sub(r"\s+", " ", " ".join(said))


def declared(root, crate):
    """By name, the statements of a crate's specs/ and proofs/ and where each stands."""
    names = {}
    for part in ("specs", "proofs"):
        for path in sorted(glob.glob(f"{root}/crates/{crate}/{part}/*.antt")):
            if os.path.basename(path) != "Lib.antt":
                for name, said in statements(path):
                    names.setdefault(name, []).append((f"{part}/{os.path.basename(path)}", said))
    return names


def plain(said):
    return re.sub(r"\((\w+)\)", r"\1", re.sub(r"(?<=[\w']) F\b", "", said))


def main(argv):
    if len(argv) != 2:
        print(__doc__)
        return 2
    count = 0
    for crate in sorted(os.listdir(f"{argv[0]}/crates")):
        old, new = (declared(root, crate) for root in argv)
        count += sum(map(len, old.values()))
        moved = 0
        for name in old:
            if name not in new:
                print(f"gone: {crate} {name}")
                continue
            said, says = (sorted(plain(s) for _, s in of[name]) for of in (old, new))
            if said != says:
                print(f"changed: {crate} {name}")
                for mark, one, other in (("-", said, says), ("+", says, said)):
                    for s in one:
                        if s not in other:
                            print(f"    {mark} {s}")
            moved += sorted(w for w, _ in old[name]) != sorted(w for w, _ in new[name])
        for name in new:
            if name not in old:
                print(f"new: {crate} {name}")
        if moved:
            print(f"moved: {crate} {moved}")
    print(f"statements: {count}")
    return 0


if __name__ == "__main__":
    sys.exit(main(sys.argv[1:]))
