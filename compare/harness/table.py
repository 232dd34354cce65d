"""Runs the crate's program and ours by turns, holds their answers to each other, and prints a table of times.
usage: table.py CRATE OURS ROUNDS TURNS"""

import subprocess
import sys

COMBINES = ("union", "intersect", "subtract", "clone_from")


def run(program, rounds):
    """Each line that the program prints: a heading, or a workload's name, what it answered and left, and its times."""
    done = subprocess.run([program, rounds, "time"], stdout=subprocess.PIPE, text=True, check=True)
    lines = []
    for line in done.stdout.splitlines():
        name, _, rest = line.partition(": ")
        answers, *times = rest.split(", ns ")
        lines.append((name, answers, [int(time) for time in times]))
    return lines


def merged(before, lines):
    """The lines with the lesser of each time; the answers must be the same."""
    if before is None:
        return lines
    if [line[:2] for line in before] != [line[:2] for line in lines]:
        sys.exit("bench: two turns of one program answer differently")
    return [(a[0], a[1], [min(pair) for pair in zip(a[2], b[2])]) for a, b in zip(before, lines)]


def bar(heading, name, kind):
    """The most that a ratio may be, if that is laid down."""
    call = name.split(",")[0]
    if call in ("insert", "remove", "contains", "list"):
        return 1.2
    if call in COMBINES and kind == "with counts":
        return 1.0
    if call in COMBINES and kind == "alone" and heading.startswith("an hour"):
        return 1.5
    return None


def rows(crate, ours):
    """The table's rows: a workload, the kind of the crate's time, both times, their ratio and its bar."""
    heading = ""
    for (name, _, theirs), (_, _, mine) in zip(crate, ours):
        if not theirs:
            heading = name
            yield name, None
            continue
        kinds = ["with counts", "alone"] if len(theirs) == 2 else [""]
        if name == "list":
            kinds = ["to places", "sum"]
        for kind, time in zip(kinds, theirs):
            yield name, (kind, time, mine[0], mine[0] / time, bar(heading, name, kind))


def main():
    crate_program, our_program, rounds, turns = sys.argv[1:]
    crate = ours = None
    for _ in range(int(turns)):
        crate = merged(crate, run(crate_program, rounds))
        ours = merged(ours, run(our_program, rounds))
    different = [(a, b) for a, b in zip(crate, ours) if a[:2] != b[:2]]
    if different or len(crate) != len(ours):
        for theirs, mine in different:
            print(f"crate: {theirs[0]}: {theirs[1]}\nours:  {mine[0]}: {mine[1]}")
        sys.exit("bench: the programs have not done the same work")
    print("| workload | crate's time of | crate ns | our ns | ratio | bar |")
    print("| --- | --- | ---: | ---: | ---: | ---: |")
    for name, row in rows(crate, ours):
        if row is None:
            print(f"| **{name}** | | | | | |")
            continue
        kind, theirs, mine, ratio, most = row
        told = "" if most is None else f"{most:.1f}" if ratio <= most else f"{most:.1f}, missed"
        print(f"| {name} | {kind} | {theirs:,} | {mine:,} | {ratio:.2f} | {told} |")


main()
