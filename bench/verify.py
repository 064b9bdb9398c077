#!/usr/bin/env python3
"""An independent load, by a dict and a sort, that shares no code with the loader, its peer or the corpora: verify.py FOLDER NAME ..

Takes FOLDER/change.csv into FOLDER/holding.csv step by step, refusing what 10, 11, 12 and 16 refuse, and compares each FOLDER/new-NAME.csv
with the new holding byte for byte; then takes each FOLDER/undo-NAME.csv into that, and compares what comes of it with FOLDER/holding.csv.
"""
import re
import sys

FIELD = re.compile(rb'((?:[^",]|"[^"]*")*)(?:,|$)')


def fields(line):
    out, pos = [], 0
    while True:
        m = FIELD.match(line, pos)
        if m is None:
            raise SystemExit("verify: cannot split %r" % line)
        out.append(m.group(1))
        if m.end() == len(line) and not m.group(0).endswith(b","):
            return out
        pos = m.end()


def ident(f):
    """(kind, numeric or text key), list of (kind, key) it refers to"""
    kind = f[0]
    if kind == b"11":
        return (11, int(f[3])), []
    if kind == b"12":
        return (12, int(f[3]), int(f[4]), int(f[5])), [(11, int(f[3]))]
    if kind == b"21":
        return (21, int(f[3])), [(21, int(f[7]))] if f[7] else []
    if kind == b"23":
        return (23, f[4]), [(21, int(f[3]))]
    if kind == b"24":
        return (24, f[4]), [(21, int(f[3])), (11, int(f[21]))]
    raise SystemExit("verify: kind %r" % kind)


def loaded(holding, change):
    """The new holding."""
    hold = {}
    for line in holding.split(b"\r\n")[:-1]:
        f = fields(line)
        k, refs = ident(f)
        hold[k] = (line.split(b",", 3)[3], refs)
    named = {}                                    # target -> set of keys that name it
    for k, (_, refs) in hold.items():
        for r in refs:
            assert r in hold and r != k
            named.setdefault(r, set()).add(k)
    for no, line in enumerate(change.split(b"\r\n")[1:-3], 2):
        f = fields(line)
        k, refs = ident(f)
        op = f[1]
        if op == b'"I"':
            if k in hold:
                raise SystemExit("verify: code 10 at line %d" % no)
        elif k not in hold:
            raise SystemExit("verify: code 11 at line %d" % no)
        for r in hold[k][1] if k in hold else ():
            named[r].discard(k)
        if op == b'"D"':
            del hold[k]
        else:
            hold[k] = (line.split(b",", 3)[3], refs)
            for r in refs:
                named.setdefault(r, set()).add(k)
        if len(hold) > 8192:
            raise SystemExit("verify: code 16 at line %d" % no)
        bad = [r for r in (hold[k][1] if k in hold else []) if r not in hold or r == k]
        if bad or (k not in hold and named.get(k)):
            raise SystemExit("verify: code 12 at line %d" % no)
    return b"".join(b"%d,\"I\",%d,%s\r\n" % (k[0], n, hold[k][0])
                    for n, k in enumerate(sorted(hold), 1))


def compare(what, got, want):
    if got != want:
        at = next((i for i, (a, b) in enumerate(zip(got, want)) if a != b), min(len(got), len(want)))
        raise SystemExit("verify: %s differs at byte %d (%d against %d bytes)" % (what, at, len(got), len(want)))


def main():
    d = sys.argv[1]

    def read(name):
        return open(d + "/" + name + ".csv", "rb").read()

    old = read("holding")
    new = loaded(old, read("change"))
    for name in sys.argv[2:]:
        compare(d + "/new-" + name, read("new-" + name), new)
        compare("what " + d + "/undo-" + name + " gives back", loaded(new, read("undo-" + name)), old)


main()
