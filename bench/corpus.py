#!/usr/bin/env python3
"""The benchmark's corpora: corpus.py FOLDER makes FOLDER/NAME/holding.csv and change.csv for each NAME of CORPORA, the same bytes
on every machine (SUMS), and prints the names, and so for each NAME of KEYS. Every holding is sound, and every step of its file is allowed.
For each NAME of TEXTS it makes a sound file, over a holding that is empty.
"""
import datetime
import hashlib
import os
import random
import sys

CUST = "9078"
MAX_RECORDS = 8192
TODAY = datetime.date(2009, 4, 15).toordinal()
OLD = datetime.date(1996, 1, 1).toordinal()

# ---------------------------------------------------------------- text stock

TOWNS = ["Stirling", "Dunblane", "Callander", "Doune", "Killin", "Crianlarich",
         "Lochearnhead", "Glasgow"]
TOWN_W = [46, 14, 9, 5, 5, 3, 4, 14]
OUTWARD = {"Stirling": ["FK7", "FK8", "FK9"], "Dunblane": ["FK15"],
           "Callander": ["FK17"], "Doune": ["FK16"], "Killin": ["FK21"],
           "Crianlarich": ["FK20"], "Lochearnhead": ["FK19"], "Glasgow": ["G63"]}
LOCALITY = ["Cambusbarron", "Bridge of Allan", "Causewayhead", "Raploch", "Torbrex",
            "St Ninians", "Bannockburn", "Cowie", "Plean", "Fallin", "Gargunnock",
            "Kippen", "Buchlyvie", "Thornhill", "Port of Menteith", "Aberfoyle",
            "Strathyre", "Balquhidder", "Drymen", "Balfron", "Killearn", "Fintry",
            "Strathblane", "Blanefield", "Croftamie", "Gartmore", "Deanston",
            "Inchmahome", "Ardeonaig", "Tyndrum", "Broomridge", "Braehead"]
HOUSE_A = ["Drummond", "Ben Ledi", "Craigforth", "Airthrey", "Balquhidderock",
           "Lecropt", "Polmaise", "Touch", "Leighton", "Keir", "Kilbryde", "Cromlix",
           "Auchinlay", "Westerton", "Easter Lennieston", "Wester Coilechat",
           "Gartchonzie", "Invertrossachs", "Lendrick", "Ardchullarie", "Auchtubh",
           "Edinample", "Ardvorlich", "Achmore", "Auchlyne", "Ledcharrie", "Luib",
           "Inverardran", "Strathfillan", "Boquhan", "Arngomery", "Broich", "Culmore",
           "Cardross", "Rednock", "Duchray", "Dounans", "Craigievern", "Blairhoyle",
           "Blarnroar", "Mid Torrie", "Nether Kinneddar", "Over Ballochneck"]
HOUSE_B = ["House", "Cottage", "Farm", "Lodge", "Steading", "Farmhouse", "Mains",
           "Bungalow", "Croft", "Mill", "Court", "Villa", "Bank", "View", "Gardens"]
HOUSE_C = ["The Old Manse", "The Smiddy", "Schoolhouse", "Rowanlea", "Braeside",
           "Burnside", "Hillview", "Dunroamin", "The Steading", "Rose Cottage",
           "Station House", "Kirk House", "Tigh-na-Coille", "Lochview", "Ardmore",
           "Tollhouse, by A84", "Gate Lodge, Doune Road", "Unit 4, Springkerse",
           "Substation, rear of 12", "St Mary's Church Hall"]
GAELIC = ["Taigh na Mara", "Taigh Ùr", "Àird a' Mhachair", "Taigh a' Bhràighe",
          "Sràid a' Chaisteil", "Cnoc an t-Sìdhein", "An t-Seann Sgoil",
          "Ceann Loch Èireann", "Taigh-òsta na Drochaid", "Bàgh Àrd"]
SAO = ["Flat 0/1", "Flat 1/1", "Flat 1/2", "Flat 2/1", "Flat 2/2", "Flat 3/1",
       "Ground Floor, Left", "First Floor, Right", "Top Floor", "Basement Flat",
       "Granny Annexe", "Garage, rear of building", "Workshop", "Shop, ground floor",
       "Office Suite", "Unit A", "Unit B", "Caretaker's Flat"]
SOURCES = ["CT", "NR", "PL", "BC", "ER", "SW", "RB", "HS"]


def t(s):
    return '"' + s + '"'


def day(o):
    return datetime.date.fromordinal(o).isoformat()


class Pool:
    """Keys with constant-time random pick and removal, in a fixed order."""

    def __init__(self):
        self.a, self.at = [], {}

    def add(self, k):
        self.at[k] = len(self.a)
        self.a.append(k)

    def remove(self, k):
        i = self.at.pop(k)
        last = self.a.pop()
        if i < len(self.a):
            self.a[i] = last
            self.at[last] = i

    def __len__(self):
        return len(self.a)

    def __contains__(self, k):
        return k in self.at


class Gen:
    def __init__(self, seed):
        self.r = random.Random(seed)
        self.rec = {k: {} for k in (11, 12, 21, 23, 24)}     # kind -> key -> fields 4..
        self.pool = {k: Pool() for k in (11, 12, 21, 23, 24)}
        self.deps = {11: {}, 21: {}}     # kind -> number -> {(kind, key): None}
        self.doomed = set()              # (kind, number) marked to go: no new references
        self.gone = []                   # (kind, key) deleted in this file
        self.xseq = self.lseq = 0

    # ------------------------------------------------------------ small helpers
    def ch(self, xs):
        return xs[self.r.randrange(len(xs))]

    def p(self, x):
        return self.r.random() < x

    def weighted(self, xs, ws):
        x = self.r.randrange(sum(ws))
        for v, w in zip(xs, ws):
            x -= w
            if x < 0:
                return v

    def span(self, lo=OLD, hi=TODAY):
        return self.r.randrange(lo, hi + 1)

    def coord(self, lo, hi):
        c = self.r.randrange(lo * 100, hi * 100)
        return "%d.%02d" % (c // 100, c % 100 if self.p(0.3) else 0)

    def uprn_text(self, n):                   # some suppliers pad to twelve digits
        return "%012d" % n if self.p(0.01) else str(n)

    def usrn_text(self, n):
        return "%08d" % n if self.p(0.01) else str(n)

    # ------------------------------------------------------------ record content
    def refs(self, kind, f):
        """What the content refers to: list of (kind, number)."""
        if kind == 12:
            return [(11, int(f[0]))]
        if kind == 21:
            return [(21, int(f[4]))] if f[4] else []
        if kind == 23:
            return [(21, int(f[0]))]
        if kind == 24:
            return [(21, int(f[0])), (11, int(f[18]))]
        return []

    def street(self, usrn):
        s = self.span()
        e = self.span(s)
        st = self.p(0.5)
        x, y = self.r.randrange(240000, 290000), self.r.randrange(680000, 735000)
        dx, dy = self.r.randrange(-400, 400), self.r.randrange(-400, 400)
        end = day(self.span(e)) if self.p(0.03) else ""
        return [self.usrn_text(usrn), self.ch("1112234"), CUST,
                self.ch("1224") if st else "", day(s) if st else "", "",
                day(e), day(self.span(e)), day(s), end,
                "%d.%02d" % (x, self.r.randrange(100) if self.p(0.3) else 0), "%d.00" % y,
                "%d.00" % (x + dx), "%d.%02d" % (y + dy, self.r.randrange(100) if self.p(0.3) else 0)]

    def sxref(self, usrn, typ, xid):
        s = self.span()
        e = self.span(s)
        return [self.usrn_text(usrn), str(typ), str(xid), day(e), day(s),
                day(self.span(e)) if self.p(0.04) else "", day(self.span(e))]

    def blpu(self, uprn, parent):
        s = self.span()
        e = self.span(s)
        st = self.p(0.35)
        end = day(self.span(e)) if self.p(0.05) else ""
        return [self.uprn_text(uprn), "8" if end else self.weighted("1567", [88, 4, 6, 2]),
                self.ch("1224") if st else "", day(s) if st else "",
                self.uprn_text(parent) if parent else "",
                self.coord(240000, 290000), self.coord(680000, 735000),
                self.weighted("12349", [60, 25, 8, 5, 2]), CUST, day(s), end,
                day(self.span(e)), day(e)]

    def axref(self, uprn, key):
        s = self.span()
        e = self.span(s)
        src = self.ch(SOURCES)
        if src == "CT":
            ref = "%09d" % self.r.randrange(10 ** 9)
        elif src == "NR":
            ref = "%02d/%05d/%d" % (self.r.randrange(1, 13), self.r.randrange(10 ** 5), self.r.randrange(10))
        elif src == "PL":
            ref = "S/%02d/%05d/FUL" % (self.r.randrange(1, 10), self.r.randrange(10 ** 5))
        else:
            ref = "%s%06d" % (self.ch(["A", "ST", "W", "", "R-"]), self.r.randrange(10 ** 6))
        return [self.uprn_text(uprn), t(key), day(s), day(self.span(e)), day(e),
                day(self.span(s)) if self.p(0.04) else "", t(ref), t(CUST + src)]

    def lpi(self, uprn, key, usrn):
        s = self.span()
        e = self.span(s)
        gae = self.p(0.06)
        town = self.weighted(TOWNS, TOWN_W)
        end = day(self.span(s)) if self.p(0.05) else ""
        f = [self.uprn_text(uprn), t(key), t("GAE" if gae else "ENG"), "8" if end else "1",
             day(s), end, day(e), day(self.span(e))]
        # secondary object
        if self.p(0.12):
            f += [str(self.r.randrange(1, 60)), t(self.ch("ABCD") if self.p(0.2) else ""), "", t(""), t("")]
        elif self.p(0.15):
            f += ["", t(""), "", t(""), t(self.ch(SAO))]
        else:
            f += ["", t(""), "", t(""), t("")]
        # primary object
        name = ""
        if gae:
            name = self.ch(GAELIC)
        elif self.p(0.3):
            name = self.ch(HOUSE_C) if self.p(0.3) else self.ch(HOUSE_A) + " " + self.ch(HOUSE_B)
        if not name or self.p(0.25):
            n = self.r.randrange(1, 240)
            rng = self.p(0.05)
            f += [str(n), t(self.ch("ABC") if self.p(0.06) else ""),
                  str(n + 2 * self.r.randrange(1, 5)) if rng else "", t("")]
        else:
            f += ["", t(""), "", t("")]
        f.append(t(name))
        addressable = self.p(0.9)
        f += [self.usrn_text(usrn), t(self.ch(LOCALITY) if self.p(0.25) else ""),
              self.ch(["0.0", "1.0", "2.0", "-1.0"]) if self.p(0.08) else "",
              t("Y" if addressable else "N"),
              t("%s %d%s%s" % (self.ch(OUTWARD[town]), self.r.randrange(10),
                               self.ch("ABDEFGHJLNPQRSTUWXYZ"), self.ch("ABDEFGHJLNPQRSTUWXYZ"))
                if addressable else ""),
              t(town if addressable else ""), t(self.ch(["", "Y", "Y", "N"]))]
        return f

    # ------------------------------------------------------------ state
    def put(self, kind, key, f):
        old = self.rec[kind].get(key)
        if old is not None:
            for k, n in self.refs(kind, old):
                self.deps[k][n].pop((kind, key), None)
        else:
            self.pool[kind].add(key)
            if kind in self.deps:
                self.deps[kind][key] = {}
        self.rec[kind][key] = f
        for k, n in self.refs(kind, f):
            self.deps[k][n][(kind, key)] = None

    def drop(self, kind, key):
        f = self.rec[kind].pop(key)
        self.pool[kind].remove(key)
        for k, n in self.refs(kind, f):
            self.deps[k][n].pop((kind, key), None)
        if kind in self.deps:
            assert not self.deps[kind][key]
            del self.deps[kind][key]
            self.doomed.discard((kind, key))
        self.gone.append((kind, key))
        return f

    def count(self):
        return sum(len(v) for v in self.rec.values())

    def target(self, kind):
        """A number of that kind that may be referred to."""
        while True:
            n = self.ch(self.pool[kind].a)
            if (kind, n) not in self.doomed:
                return n

    def fresh(self, kind):
        lo, hi = ((32000000, 38999999) if kind == 11 else (122000000, 122999999))
        while True:
            n = self.r.randrange(lo, hi)
            if n not in self.rec[kind]:
                return n

    def new_xkey(self):
        self.xseq += self.weighted([1, 2, 3, 7], [70, 15, 10, 5])
        return "%sX%09d" % (CUST, self.xseq)

    def new_lkey(self):
        self.lseq += self.weighted([1, 2, 3, 7], [70, 15, 10, 5])
        return "%sL%09d" % (CUST, self.lseq)

    def new_12(self, usrn):
        while True:
            if self.p(0.7):
                k = (usrn, 2, self.r.randrange(24000068000000, 29000073500000))
            else:
                k = (usrn, 1, self.target(11))
            if k not in self.rec[12]:
                return k

    # ------------------------------------------------------------ holding
    def holding(self, n):
        n11, n12 = round(n * .08), round(n * .08)
        n21, n23 = round(n * .30), round(n * .24)
        n24 = n - n11 - n12 - n21 - n23
        for _ in range(n11):
            u = self.fresh(11)
            self.put(11, u, self.street(u))
        for _ in range(n12):
            k = self.new_12(self.target(11))
            self.put(12, k, self.sxref(*k))
        kids = n21 // 3
        uprns = []
        while len(uprns) < n21:
            u = self.fresh(21)
            self.rec[21][u] = None
            uprns.append(u)
        self.rec[21] = {}
        for i, u in enumerate(uprns):
            # tenement flats and units: parent made earlier, number above or below
            par = 0
            if i >= n21 - kids:
                par = uprns[self.r.randrange(n21 - kids)] if not self.p(0.1) else uprns[self.r.randrange(i)]
            self.put(21, u, self.blpu(u, par))
        for _ in range(n23):
            k = self.new_xkey()
            self.put(23, k, self.axref(self.target(21), k))
        for i in range(n24):
            k = self.new_lkey()
            u = uprns[i] if i < n21 and self.p(0.8) else self.target(21)
            self.put(24, k, self.lpi(u, k, self.target(11)))

    def holding_lines(self):
        out, n = [], 0
        for kind in (11, 12, 21, 23, 24):
            for key in sorted(self.rec[kind]):
                n += 1
                out.append("%d,\"I\",%d,%s" % (kind, n, ",".join(self.rec[kind][key])))
        return out

    # ------------------------------------------------------------ changes
    def make_insert(self, todo):
        while True:
            if self.gone and self.p(0.02):                 # put back what was deleted
                kind, key = self.gone.pop(self.r.randrange(len(self.gone)))
                if key in self.rec[kind]:
                    continue
                if kind == 12 and (key[0] not in self.rec[11] or (11, key[0]) in self.doomed):
                    continue
                want = (kind, key)
            elif todo:
                want = todo.pop(0)
            else:
                x = self.r.randrange(100)
                if x < 8:                                  # a new development
                    u = self.fresh(11)
                    todo.append((11, u))
                    for _ in range(self.r.randrange(1, 4)):
                        todo.append((12, u))
                    for _ in range(self.r.randrange(2, 9)):
                        todo.append((21, ("on", u)))
                    continue
                if x < 14:                                 # flats within a building
                    todo += [(21, ("in", self.target(21)))] * self.r.randrange(2, 7)
                    continue
                want = ((12, None) if x < 22 else (21, None) if x < 44 else
                        (23, None) if x < 72 else (24, None))
            kind, hint = want
            if kind == 11:
                if hint in self.rec[11]:
                    continue
                return 11, hint, self.street(hint)
            if kind == 12:
                if isinstance(hint, tuple):
                    k = hint
                else:
                    s = hint if hint in self.rec[11] and (11, hint) not in self.doomed else self.target(11)
                    k = self.new_12(s)
                return 12, k, self.sxref(*k)
            if kind == 21:
                par = 0
                if isinstance(hint, int):
                    u = hint
                else:
                    u = self.fresh(21)
                    if hint and hint[0] == "in" and hint[1] in self.rec[21] and (21, hint[1]) not in self.doomed:
                        par = hint[1]
                    elif self.p(0.15):
                        par = self.target(21)
                    s = hint[1] if hint and hint[0] == "on" else None
                    todo.append((24, ("at", u, s)))
                    if self.p(0.7):
                        todo.append((23, ("at", u)))
                return 21, u, self.blpu(u, par)
            if kind == 23:
                k = hint if isinstance(hint, str) else self.new_xkey()
                u = hint[1] if isinstance(hint, tuple) else None
                if u not in self.rec[21] or (21, u) in self.doomed:
                    u = self.target(21)
                return 23, k, self.axref(u, k)
            k = hint if isinstance(hint, str) else self.new_lkey()
            u = hint[1] if isinstance(hint, tuple) else None
            s = hint[2] if isinstance(hint, tuple) else None
            if u not in self.rec[21] or (21, u) in self.doomed:
                u = self.target(21)
            if s not in self.rec[11] or (11, s) in self.doomed:
                s = self.target(11)
            return 24, k, self.lpi(u, k, s)

    def make_update(self):
        kinds = [11, 12, 21, 23, 24]
        while True:
            kind = self.weighted(kinds, [8, 5, 32, 18, 37])
            if not len(self.pool[kind]):
                continue
            key = self.ch(self.pool[kind].a)
            old = self.rec[kind][key]
            f = list(old)
            if kind == 11:
                g = self.street(key)
                f[7] = day(max(TODAY - self.r.randrange(90), datetime.date.fromisoformat(f[7]).toordinal()))
                for i in ((10, 11, 12, 13) if self.p(0.5) else (3, 4)):
                    f[i] = g[i]
            elif kind == 12:
                f[6] = day(TODAY - self.r.randrange(90))
                if self.p(0.6):
                    f[5] = day(TODAY)
            elif kind == 21:
                f[11] = day(TODAY - self.r.randrange(90))
                x = self.r.randrange(10)
                if x < 5:
                    g = self.blpu(key, 0)
                    f[5], f[6], f[7] = g[5], g[6], g[7]
                elif x < 7 and not any(k == 21 for k, _ in self.deps[21][key]):
                    par = self.target(21)
                    f[4] = "" if f[4] and self.p(0.4) or par == key else self.uprn_text(par)
                elif x < 8:
                    f[1], f[10] = "8", day(TODAY)
                else:
                    f[2], f[3] = "2", day(TODAY - self.r.randrange(400))
            elif kind == 23:
                f[3] = day(TODAY - self.r.randrange(90))
                if self.p(0.15):
                    f[0] = self.uprn_text(self.target(21))
                elif self.p(0.3):
                    f[5] = day(TODAY)
                else:
                    f[6] = self.axref(int(f[0]), key)[6]
            else:
                x = self.r.randrange(10)
                if x < 6:
                    g = self.lpi(int(f[0]), key, int(f[18]))
                    f[2] = g[2]
                    f[8:18], f[19:] = g[8:18], g[19:]
                elif x < 8:
                    f[18] = self.usrn_text(self.target(11))
                elif x < 9:
                    f[0] = self.uprn_text(self.target(21))
                else:
                    f[3], f[5] = "8", day(TODAY)
                f[7] = day(TODAY - self.r.randrange(90))
            if f == old:
                continue
            return kind, key, f

    def make_delete(self, todo):
        while True:
            if todo:
                kind, key = todo.pop(0)
                if key not in self.rec[kind]:
                    continue
                if kind in self.deps and self.deps[kind][key]:
                    # something still refers to it: take that first
                    todo[0:0] = list(self.deps[kind][key]) + [(kind, key)]
                    continue
            else:
                x = self.r.randrange(100)
                if x < 12:                                 # a demolition
                    u = self.target(21)
                    if len(self.deps[21][u]) > 5 or any(k == 21 for k, _ in self.deps[21][u]):
                        continue
                    if len(self.pool[21]) < 20:
                        continue
                    self.doomed.add((21, u))
                    todo.append((21, u))
                    continue
                if x < 15:                                 # a street stopped up
                    s = self.target(11)
                    if len(self.deps[11][s]) > 6 or len(self.pool[11]) < 10:
                        continue
                    self.doomed.add((11, s))
                    todo.append((11, s))
                    continue
                kind = 12 if x < 27 else 23 if x < 67 else 24
                if not len(self.pool[kind]):
                    continue
                key = self.ch(self.pool[kind].a)
            f = list(self.rec[kind][key])
            i = {11: 7, 12: 6, 21: 11, 23: 3, 24: 7}[kind]
            if self.p(0.5):
                f[i] = day(TODAY)
            return kind, key, f

    def changes(self, m, mix):
        nu, nd = round(m * mix[0] / 100), round(m * mix[2] / 100)
        ni = m - nu - nd
        ops = ["U"] * nu + ["I"] * ni + ["D"] * nd
        self.r.shuffle(ops)
        start = self.count()
        lines, ins, dels = [], [], []
        count = start
        for i in range(m):
            if ops[i] == "I" and count == MAX_RECORDS:     # make room first
                j = ops.index("D", i)
                ops[i], ops[j] = ops[j], ops[i]
            if ops[i] == "I":
                kind, key, f = self.make_insert(ins)
                assert key not in self.rec[kind]
                self.put(kind, key, f)
                count += 1
            elif ops[i] == "U":
                kind, key, f = self.make_update()
                self.put(kind, key, f)
            else:
                kind, key, f = self.make_delete(dels)
                self.drop(kind, key)
                count -= 1
            lines.append("%d,\"%s\",%d,%s" % (kind, ops[i], i + 1, ",".join(f)))
        return lines


# ------------------------------------------------------------------- what is written

# name: records, changes, percent of updates, inserts and deletes
CORPORA = {
    "program": (500, 300, (45, 35, 20)),         # within the 65,536 bytes that the program takes
    "small": (700, 400, (45, 35, 20)),
    "half": (3788, 2048, (45, 35, 20)),
    "large": (7577, 4096, (45, 35, 20)),         # grows to 8,192 records
    "full": (8192, 4096, (45, 27.4, 27.6)),      # starts there, and is never above
}
# 4,096 inserts by the order of their keys, and by what their keys share: records before them, and what is made
KEYS = {
    "rising": (0, lambda: streets(sorted)),
    "falling": (0, lambda: streets(lambda numbers: sorted(numbers, reverse=True))),
    "mixed": (0, lambda: streets(mixed)),
    "sharing": (4096, lambda: cross_references()),  # one street's 8,191, of which 4,095 are held
}
# sha256 of the holding followed by the file
SUMS = {
    "program": "95fd77ebb363573b4064726ad7152e9b38fd160479027369b2e811ee6ecc7dc0",
    "small": "0caccaaf17e8e0841ab1f9010b8820c3b5ef56c79c00f8d2b0518863ad86769d",
    "half": "ab9e08b8afac7bdb4d73635e079dd64882a51a53b5b8aaf5167583195a366107",
    "large": "ddb9a8a77ad1a9946a93edaafd5ed3ba1082cf55503ea11f58e9437d6942f559",
    "full": "8bac76f9eb14a074a3040ec3c538a1051d8a8e586e09a082c98634182e1e8f87",
    "rising": "7a596f075eecc0dc62ff240d022e8b7c2b26d6bf12520f475e19a791e39220cd",
    "falling": "c1835b3535474f37a4c8d7be54a7fe87e910510ad7b65c289fb174d857abe050",
    "mixed": "947e33f8b5c7009554c754163526d7adba46980cd3de42abbff85fc57452d9cc",
    "sharing": "2b38a748006df1e4e27269519ed3eecacac8ecd68b340d7b9b3e05e1ec2f3cbb",
}
# files for check_file alone, of so many LPIs: what stands in the two longest texts of each
TEXT_LINES = 1000
TEXTS = {"no-texts": "", "texts-of-ascii": "a" * 90, "texts-of-accents": "ò" * 90}
HEADER = '10,"Stirling Council",%s,2009-04-15,1,2009-04-15,163030,1.0,"B"' % CUST
METADATA = ('29,"Local Property Gazetteer","Properties as defined in the Scottish Gazetteer Conventions",'
            '"Stirling","Stirling Council","cag@stirling.gov.uk",%s,"British National Grid","Metres",2009-04-10,'
            '"Scottish Gazetteer Conventions v1.1","Scottish Gazetteer Conventions v1.1",2009-04-15,"ENG","English"' % CUST)


def joined(lines):
    return "".join(x + "\r\n" for x in lines).encode("utf-8")


def framed(body):
    return joined([HEADER] + body + [METADATA, "99,0,%d,2009-04-15,163031" % len(body)])


def store(folder, name, holding, change):
    os.makedirs(os.path.join(folder, name), exist_ok=True)
    for part, data in (("holding.csv", holding), ("change.csv", change)):
        with open(os.path.join(folder, name, part), "wb") as f:
            f.write(data)


def mixed(numbers):
    numbers = list(numbers)
    random.Random(1).shuffle(numbers)
    return numbers


def lines_of(records):
    return ['%d,"I",%d,%s' % (kind, i, ",".join(f)) for i, (kind, f) in enumerate(records, 1)]


def streets(in_order):
    """Nothing is held, and 4,096 streets are inserted in the order given."""
    g = Gen(1)
    return [], lines_of([(11, g.street(usrn)) for usrn in in_order(range(32000000, 32004096))])


def cross_references():
    """A street with 4,095 cross references is held, and 4,096 more of it are inserted."""
    g, usrn = Gen(1), 32000000
    held, new = (range(24000068000000 + half, 24000068008191, 2) for half in (1, 0))
    of = lambda numbers: [(12, g.sxref(usrn, 2, number)) for number in numbers]
    return lines_of([(11, g.street(usrn))] + of(held)), lines_of(of(mixed(new)))


def changed(name):
    """The lines of a corpus's holding, and of its file's body."""
    if name in KEYS:
        return KEYS[name][1]()
    records, count, mix = CORPORA[name]
    g = Gen(1)
    g.holding(records)
    return g.holding_lines(), g.changes(count, mix)


def make(folder, name):
    held, body = changed(name)
    holding, change = joined(held), framed(body)
    if hashlib.sha256(holding + change).hexdigest() != SUMS[name]:
        raise SystemExit("corpus.py: %s isn't the corpus that was measured before" % name)
    store(folder, name, holding, change)


def make_texts(folder, name):
    lpi = '24,"I",%d,1,"9000L%09d","GAE",1,2009-01-01,,2009-01-01,2009-01-01,,"",,"","%s",,"",,"","%s",1,"",,"Y","","",""'
    store(folder, name, b"", framed([lpi % (i, i, TEXTS[name], TEXTS[name]) for i in range(1, TEXT_LINES + 1)]))


if __name__ == "__main__":
    for texts in TEXTS:
        make_texts(sys.argv[1], texts)
    for corpus in [*CORPORA, *KEYS]:
        make(sys.argv[1], corpus)
        print(corpus)
