#!/usr/bin/env python3
"""Brings the repository's own definitions and lemmas to today's spelling: words in snake case, joined by underscores.

usage: tools/respell.py [--list]     at the top of the repository, once, after the kit's port.py

A name turns where it begins with a small letter and has a capital behind a small letter or a digit, or a dash: `checkFile` is `check_file`,
`read-start` is `read_start`. Names that begin with a capital, types and facts and what is joined to them, stay. What is imported from the
kit in a file keeps its spelling in that file. In a .rt file only clauses, `ghost use` items and comments' code spans turn; in a page
(README, docs/) only code spans; strings turn nowhere. --list prints the names, old and new, and writes nothing.
"""
import collections
import os
import re
import sys

WORD = re.compile(r'[^\s(){}.;,@"«»\[\]|`]+')
OWN = set(sorted(os.listdir("crates")))
# A fact, which is spelled as a type, with the module that declares it: it turns there and where it is imported from.
BY_HAND = {"short": ("IsShort", "Rattle.judge.specs.Ready", "./crates/judge/specs/Ready.antt")}
QUIET = re.compile(r'"(?:[^"\\\n]|\\.)*"')
USE = re.compile(r"^(?:pub )?use ([^\s;{]+?)(?:\.\{([^}]*)\})?(?: as (\S+))?$", re.M)
DATA = re.compile(r"^( *)(?:pub )?data [^\n]*where\n((?:\1 +[^\n]*\n|\s*\n)*)", re.M)
DECLARED = re.compile(r"^ *(?:(?:unfoldable|abbrev|pub|ruleset) )*([^\s(){}.;,@\"«»:]+)(?: [({][^\n]*?[)}])* (?::(?!=)|=)(?: |$)", re.M)
RULESET = re.compile(r"^ *(?:pub )?ruleset (?:pub )?(\S+)", re.M)


def files(*ends):
    for folder, dirs, names in os.walk("."):
        dirs[:] = sorted(d for d in dirs if d not in ("out", "target", ".git"))
        for n in sorted(names):
            if n.endswith(ends):
                yield os.path.join(folder, n)


def read(path):
    with open(path, encoding="utf-8") as f:
        return f.read()


def turned(name):
    if name in BY_HAND:
        return BY_HAND[name][0]
    if not re.match(r"[a-z]", name):
        return name
    words = re.sub(r"(?<=[a-z0-9])[A-Z]", lambda m: "_" + m[0].lower(), name)
    return words.replace("-", "_")


def is_old(name):
    return turned(name) != name


def declared(text):
    """The names that a text declares: definitions, lemmas, fields and constructors."""
    for m in DECLARED.finditer(text):
        yield m[1]
    for m in RULESET.finditer(text):
        yield m[1]
    for m in DATA.finditer(text):
        for line in m[2].splitlines():
            if " :" in line and not line.strip().startswith("--"):
                yield from line.split(" :")[0].replace("pub ", "").split()


def lent(text):
    """The names that a text imports from the kit."""
    found = set()
    for m in USE.finditer(text):
        steps = m[1].split(".")
        if steps[0] == "Rattle" and len(steps) > 1 and steps[1] in OWN:
            continue
        for item in (m[2] or "").split(","):
            found.update(item.split(" as "))
    return {n.strip() for n in found}


def is_walk(path):
    """Whether names behind a dot, and goals, are Rattle's own there."""
    return path.endswith(("/Proof.antt", "/Answers.antt", "/Invariants.antt")) and "/specs/" not in path


def table():
    """Each old name with its new one, and what falls together."""
    here, kit, words = set(), collections.defaultdict(set), set()
    for p in files(".antt"):
        if not p.startswith("./crates/"):
            continue
        t = read(p)
        here.update(n for n in declared(t) if not (is_walk(p) and re.search(rf"(?m)^(?:abbrev )?pub {re.escape(n)} : (?:goal|tie)\.", t)))
        for n in lent(t):
            kit[n].add(p)
        if not is_walk(p):
            # a module's path is no word that a name could be taken for
            words.update(WORD.findall(re.sub(r"--[^\n]*", "", USE.sub(lambda m: m[2] or "", QUIET.sub("", t)))))
    names = sorted(n for n in here if is_old(n))
    made = collections.defaultdict(list)
    for n in names:
        made[turned(n)].append(n)
    rows, clashes = {}, []
    for new, olds in made.items():
        # the definition, which has a capital, gets the plain name; a lemma that has it already, or would get it, is `_lem`
        olds.sort(key=lambda n: ("-" in n, n))
        if new in here:
            if "-" in olds[0]:
                olds.insert(0, new)
            else:
                olds.insert(1, new)
        elif new in words:
            sys.exit(f"respell: {olds[0]} would be {new}, which is another word")
        for k, old in enumerate(olds):
            to = new + ("_lem" if k else "") + (str(k) if k > 1 else "")
            if k:
                clashes.append((old, to))
            if to != old:
                rows[old] = to
    return rows, clashes, kit


def antt(path, rows, kit):
    text = read(path)
    stay = {n for n, where in kit.items() if path in where} | elsewhere(path, text)
    lines = []
    for line in text.split("\n"):
        code, dash, said = line, "", ""
        m = re.search(r"(?:^|(?<=\s))-- ?", line)
        if m and '"' not in line[: m.start()]:
            code, dash, said = line[: m.start()], line[m.start() : m.end()], line[m.end() :]
            if not is_walk(path):
                said = re.sub(r"`[^`]*`", lambda s: words_in(s[0], rows, stay, True), said)
        lines.append(turn_part(code, rows, stay, not is_walk(path)) + dash + said)
    return "\n".join(lines)


def turn_part(text, rows, stay, behind_dot):
    out, at = [], 0
    for q in QUIET.finditer(text):
        out.append(words_in(text[at : q.start()], rows, stay, behind_dot))
        out.append(q[0])
        at = q.end()
    out.append(words_in(text[at:], rows, stay, behind_dot))
    return "".join(out)


def words_in(text, rows, stay, behind_dot):
    def one(m):
        w = m[0]
        if w in stay or w not in rows or (not behind_dot and m.start() and text[m.start() - 1] == "."):
            return w
        return rows[w]

    return WORD.sub(one, text)


CLAUSE = re.compile(r"\b(?:requires|ensures|ghost)\*?\s*(?:\w+\s*)?(?::\s*)?\{")


def clauses(text):
    """Where the clauses and `ghost use` items of a .rt text stand."""
    for m in CLAUSE.finditer(text):
        deep, i = 1, m.end()
        while deep and i < len(text):
            deep += (text[i] == "{") - (text[i] == "}")
            i += 1
        yield m.end(), i
    for m in re.finditer(r"^ghost use [^;]*;", text, re.M):
        yield m.start(), m.end()
    for m in re.finditer(r"^ *//[^\n]*$", text, re.M):
        for s in re.finditer(r"`[^`]*`", m[0]):
            yield m.start() + s.start(), m.start() + s.end()


def rt(path, rows, kit):
    text = read(path)
    out, at = [], 0
    for a, b in sorted(clauses(text)):
        if a < at:
            continue
        out.append(text[at:a])
        out.append(words_in(text[a:b], rows, elsewhere(path, text), True))
        at = b
    return "".join(out) + text[at:]


def elsewhere(path, text):
    """The names of BY_HAND that are other names in this file."""
    return {n for n, (_, module, declares) in BY_HAND.items() if path != declares and not re.search(rf"{module}\.\{{[^}}]*\b{n}\b", text)}


def page(path, rows, kit):
    return re.sub(r"`[^`\n]*`", lambda s: words_in(s[0], rows, set(BY_HAND), True), read(path))


def main(argv):
    rows, clashes, kit = table()
    both = sorted(n for n in rows if n in kit)
    if "--list" in argv:
        for old, new in sorted(rows.items()):
            print(f"{old}\t{new}")
        for old, new in clashes:
            print(f"falls together: {old} is {new}", file=sys.stderr)
        for n in both:
            print(f"the kit's too: {n}: {sorted(kit[n])[:3]}", file=sys.stderr)
        return 0
    count = 0
    for ends, turn in ((".antt", antt), (".rt", rt), (".md", page)):
        for p in files(ends):
            if turn is not page and not p.startswith("./crates/"):
                continue
            new = turn(p, rows, kit)
            if new != read(p):
                with open(p, "w", encoding="utf-8") as f:
                    f.write(new)
                count += 1
    print(f"respell: {len(rows)} names, {count} files")
    return 0


if __name__ == "__main__":
    sys.exit(main(sys.argv[1:]))
