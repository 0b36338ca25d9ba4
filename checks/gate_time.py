#!/usr/bin/env python3
"""Tells where the gate's processor time goes: by crate, and there by proof, tests and edits that must fail.

    python3 checks/gate_time.py [--seconds S] [--to FILE] [COMMAND ..]

Runs the command (`rt ci` where none is given) and looks every S seconds (0.5) at the prover's processes on this machine that
are below it. For each it keeps the last processor time that it saw, so what a process used after the last look is left out: with 0.5
seconds some parts in a hundred. At the end it prints a table and the command's own sum, and ends with the command's status.
With --to it writes the table to a file too: `rt ci --anew` with --to checks/gate_seconds.txt, on a machine that does nothing else, is what
below.py and gate_schedule.py go by. A crate that the run kept has 0 there.
Works on Linux (it reads /proc). Python 3 alone.
"""

import argparse
import os
import subprocess
import sys
import time

import gate_seconds
import house

TICKS = os.sysconf("SC_CLK_TCK")


def read(path):
    """Returns a file's bytes, or none where the process is gone."""
    try:
        with open(path, "rb") as file:
            return file.read()
    except OSError:
        return b""


def processes():
    """Yields the number, parent, processor seconds and words of each process."""
    for name in os.listdir("/proc"):
        if name.isdigit():
            stat = read(f"/proc/{name}/stat").rpartition(b")")[2].split()
            if len(stat) > 13:
                words = read(f"/proc/{name}/cmdline").decode(errors="replace").split("\0")
                yield int(name), int(stat[1]), (int(stat[11]) + int(stat[12])) / TICKS, words


def below(root, seen):
    """Returns the processes that stand below the one of a number."""
    children = {}
    for pid, parent, seconds, words in seen:
        children.setdefault(parent, []).append((pid, seconds, words))
    found, waiting = [], [root]
    while waiting:
        for child in children.get(waiting.pop(), []):
            found.append(child)
            waiting.append(child[0])
    return found


def kind_of(pid, words):
    """Returns the crate of a prover's process and what it is at: an edit is tried in a folder of its own."""
    if "--crate-name" not in words or not words[0].endswith("rattle"):
        return None
    crate = words[words.index("--crate-name") + 1]
    try:
        folder = os.path.basename(os.readlink(f"/proc/{pid}/cwd"))
    except OSError:
        folder = ""
    if folder.startswith("rt-edit-"):
        return crate, "edits"
    return crate, "tests" if "--test" in words else "proof"


def watched(command, between):
    """Runs a command and looks at the provers below it. Returns the seconds of each crate by part, one number a process, and the status."""
    running = subprocess.Popen(command)
    used, kinds = {}, {}
    while running.poll() is None:
        for pid, seconds, words in below(running.pid, list(processes())):
            kind = kinds.get(pid) or kind_of(pid, words)
            if kind:
                kinds[pid] = kind
                used[pid] = seconds
        time.sleep(between)
    table = {}
    for pid, seconds in used.items():
        crate, kind = kinds[pid]
        table.setdefault(crate, {}).setdefault(kind, []).append(seconds)
    return table, running.returncode


def tell(table, minutes):
    """Prints the seconds of each crate by part, the dearest first, and the sums."""
    print(f"{'crate':24}" + "".join(f"{part:>10}" for part in gate_seconds.PARTS) + f"{'sum':>10}   runs of edits")
    for crate, kinds in sorted(table.items(), key=lambda row: -sum(map(sum, row[1].values()))):
        sums = [sum(kinds.get(part, [])) for part in gate_seconds.PARTS]
        print(f"{crate:24}" + "".join(f"{number:10.0f}" for number in [*sums, sum(sums)]) + f"{len(kinds.get('edits', [])):10}")
    sums = [sum(sum(row.get(part, [])) for row in table.values()) for part in gate_seconds.PARTS]
    print(f"{'all, in seconds':24}" + "".join(f"{number:10.0f}" for number in [*sums, sum(sums)]))
    print(f"{minutes:.1f} minutes by the clock, {sum(sums) / 60:.1f} processor minutes of the prover")


def keep(table, minutes, path):
    """Writes the seconds of each crate to a file, in the order of crates.txt, for below.py and gate_schedule.py."""
    rooms, _ = house.listed()
    sums = {crate: {part: sum(table.get(crate, {}).get(part, [])) for part in gate_seconds.PARTS} for crate in rooms}
    said = [f"processor seconds of proof, tests and edits in a run of the gate from nothing, {time.strftime('%Y-%m-%d')}, by gate_time.py: {minutes:.0f} minutes on {os.cpu_count()} processors"]
    with open(path, "w", encoding="utf-8") as file:
        file.write(gate_seconds.text_of(sums, said))


def main():
    parser = argparse.ArgumentParser(description=__doc__, formatter_class=argparse.RawDescriptionHelpFormatter)
    parser.add_argument("--seconds", type=float, default=0.5, help="between two looks")
    parser.add_argument("--to", metavar="FILE", help="a file for the seconds of each crate")
    parser.add_argument("command", nargs=argparse.REMAINDER, help="what is run (rt ci)")
    given = parser.parse_args()
    began = time.time()
    table, status = watched(given.command or ["rt", "ci"], given.seconds)
    minutes = (time.time() - began) / 60
    tell(table, minutes)
    if given.to:
        keep(table, minutes, given.to)
    sys.exit(status)


if __name__ == "__main__":
    main()
