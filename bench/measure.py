"""Counts and times every operation of bench/driver.c and bench/sqlite.c on every corpus, and prints one table of them, and one of loads by
the order of keys.

measure.py FOLDER OWN WASM MACHINE ..: FOLDER has insns.so, the corpora, and for each MACHINE a folder with driver and sqlite, which are
counted; OWN is the machine that this runs on, whose programs are timed too, and WASM is muiwash.wasm, timed by node, or empty.
"""
import os
import subprocess
import sys

from corpus import CORPORA, KEYS, TEXT_LINES, TEXTS

FOLDER, OWN, WASM, MACHINES = sys.argv[1], sys.argv[2], sys.argv[3], sys.argv[4:]
RUNS = "25"
# column: program, operation
MEASURED = {"check_file": ("driver", "check_file"), "check_holding": ("driver", "check_holding"), "load": ("driver", "load"),
            "SQLite": ("sqlite", "load"), "floor": ("driver", "floor")}
# From some 3,000 bytes on glibc fills memory by one instruction that goes on byte by byte, which an emulator counts as one for each byte,
# and a machine as one. Both sides fill it by vectors instead.
TUNED = "GLIBC_TUNABLES=glibc.cpu.x86_rep_stosb_threshold=100000000"
HEADS = ["", "`check_file`", "a byte", "`check_holding`", "a byte", "`load`", "SQLite", "`load` to SQLite", "floor"]


def output(stream, *command):
    return getattr(subprocess.run(command, check=True, capture_output=True, text=True), stream)


def executed(machine, program, operation, corpus):
    said = output("stderr", "qemu-" + machine, "-E", TUNED, "-plugin", os.path.join(FOLDER, "insns.so"), "-d", "plugin",
                  os.path.join(FOLDER, machine, program), operation, os.path.join(FOLDER, corpus))
    return int(said.split("instructions: ")[1])


def instructions(machine, corpus):
    """Those of each column, with an empty run taken off."""
    empty = {program: executed(machine, program, "none", corpus) for program in ("driver", "sqlite")}
    return {column: executed(machine, *what, corpus) - empty[what[0]] for column, what in MEASURED.items()}


def times(corpus):
    return {column: float(output("stdout", os.path.join(FOLDER, OWN, program), operation, os.path.join(FOLDER, corpus), RUNS))
            for column, (program, operation) in MEASURED.items()}


def wasm_times(corpus, native):
    """Those of muiwash.wasm, beside SQLite and the floor as this machine's own code."""
    return {column: float(output("stdout", "node", "bench/driver.mjs", WASM, operation, os.path.join(FOLDER, corpus), RUNS))
            if program == "driver" and operation != "floor" else native[column] for column, (program, operation) in MEASURED.items()}


def million(n):
    return "%.2f M" % (n / 1e6) if n < 1e7 else "%.1f M" % (n / 1e6)


def microseconds(n):
    return "{:,.0f} µs".format(n)


def row(title, of, shown, lengths=None):
    """With what each check takes for a byte, where its input's length is given."""
    a_byte = {column: "%.1f" % (of[column] / lengths[column]) if lengths else "" for column in ("check_file", "check_holding")}
    return [title, shown(of["check_file"]), a_byte["check_file"], shown(of["check_holding"]), a_byte["check_holding"],
            shown(of["load"]), shown(of["SQLite"]), "%.2f" % (of["load"] / of["SQLite"]), shown(of["floor"])]


def large_to_half(machine, large, half):
    """The floor has no ratio: memcpy goes another way about long copies."""
    ratio = {column: "%.2f" % (large[column] / half[column]) for column in MEASURED}
    return ["large to half, " + machine, ratio["check_file"], "", ratio["check_holding"], "", ratio["load"], ratio["SQLite"], "", ""]


def a_character(machine, texts):
    """Instructions of check_file for one character more in a text."""
    least, most = (executed(machine, "driver", "check_file", name) - executed(machine, "driver", "none", name) for name in ("no-texts", texts))
    return "%.1f" % ((most - least) / (2 * TEXT_LINES * len(TEXTS[texts])))


def loads(machine, corpus):
    """Instructions of a load alone, and of SQLite's job."""
    return [executed(machine, program, "load", corpus) - executed(machine, program, "none", corpus) for program in ("driver", "sqlite")]


def table(heads, rows):
    for cells in [heads, ["---"] * len(heads)] + rows:
        print("| " + " | ".join(cells) + " |")


def by_keys(machine):
    """A row for each order of keys: what a load takes, beside that of mixed keys and SQLite's job."""
    counted = {corpus: loads(machine, corpus) for corpus in KEYS}
    mixed = counted["mixed"][0]
    return [["{}, {}".format(corpus, machine), "{:,}".format(records), million(ours), "%.2f" % (ours / mixed), million(theirs), "%.2f" % (ours / theirs)]
            for (corpus, (ours, theirs)), (records, _) in zip(counted.items(), KEYS.values())]


def main():
    rows, counted = [], {}
    for corpus, (records, changes, _) in CORPORA.items():
        rows.append(["{}: {:,} lines, {:,} changes".format(corpus, records, changes)] + [""] * (len(HEADS) - 1))
        lengths = {column: os.path.getsize(os.path.join(FOLDER, corpus, name))
                   for column, name in (("check_file", "change.csv"), ("check_holding", "holding.csv"))}
        for machine in MACHINES:
            of = counted[machine, corpus] = instructions(machine, corpus)
            rows.append(row(machine + ", instructions", of, million, lengths))
        if OWN in MACHINES:
            native = times(corpus)
            rows.append(row(OWN + ", time", native, microseconds))
            if WASM:
                rows.append(row("wasm32 in node, time", wasm_times(corpus, native), microseconds))
    rows += [large_to_half(machine, counted[machine, "large"], counted[machine, "half"]) for machine in MACHINES]
    table(HEADS, rows)
    print("\n4,096 inserts, instructions:\n")
    table(["keys", "records held", "`load`", "to mixed", "SQLite", "`load` to SQLite"], [row for machine in MACHINES for row in by_keys(machine)])
    for machine in MACHINES:
        print("\nOne character more in a text costs `check_file` %s instructions on %s where it is ASCII, and %s where it is ò."
              % (a_character(machine, "texts-of-ascii"), machine, a_character(machine, "texts-of-accents")))


main()
