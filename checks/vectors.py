#!/usr/bin/env python3
"""Checks that the kernels over columns were built with vector instructions.

    python3 checks/vectors.py PROGRAM

PROGRAM is the tests of sn_test_lanes as the gate or `rt test` builds them for this machine, with their symbols. Disassembles it by objdump, and counts in the
functions of each kernel the instructions that compare, mask and multiply two or more numbers at once. Where the compiler took a kernel into its caller, that
is the function of the tests that calls it and no other kernel. Prints a line for each kernel; the status is 0 only where each has all the kinds that it is
named with. Needs objdump. Python 3 alone."""

import collections
import re
import subprocess
import sys

FUNCTION = re.compile(r"^[0-9a-f]+ <(.*)>:$")
INSTRUCTION = re.compile(r"^\s+[0-9a-f]+:\s+([a-z]\w*)")
KINDS = {
    "comparisons": re.compile(r"v?pcmp(gt|eq)[bwdq]"),
    "masks": re.compile(r"v?(pandn?[dq]?|andn?p[sd])"),
    "products": re.compile(r"v?(pmuludq|pmull[dq])"),
}
# The functions of each kernel, with those that it may stand in, and what it must have.
KERNELS = {
    "compare": (re.compile(r"sn_lanes::compare::|sn_test_lanes::columns::compares\b"), ["comparisons", "masks"]),
    "masks": (re.compile(r"sn_lanes::masks::|sn_test_lanes::columns::keeps\b"), ["masks"]),
    "slots8": (re.compile(r"sn_lanes::slots8::|sn_test_lanes::columns::hashes\b"), ["masks", "products"]),
}


def counted(program):
    """Returns how often each instruction stands in the functions of each kernel."""
    listing = subprocess.run(["objdump", "--disassemble", "--no-show-raw-insn", program], stdout=subprocess.PIPE, text=True, check=True).stdout
    counts, kernel = {name: collections.Counter() for name in KERNELS}, None
    for line in listing.splitlines():
        function = FUNCTION.match(line)
        if function:
            kernel = next((name for name, (functions, _) in KERNELS.items() if functions.match(function[1])), None)
        elif kernel:
            instruction = INSTRUCTION.match(line)
            if instruction:
                counts[kernel][instruction[1]] += 1
    return counts


def main():
    if len(sys.argv) != 2:
        sys.exit(__doc__)
    complete = True
    for kernel, found in counted(sys.argv[1]).items():
        sums = {kind: sum(count for name, count in found.items() if KINDS[kind].fullmatch(name)) for kind in KERNELS[kernel][1]}
        complete &= all(sums.values())
        print(f"{kernel}: {sum(found.values())} instructions, " + ", ".join(f"{count} vector {kind}" for kind, count in sums.items()))
    sys.exit(0 if complete else 1)


if __name__ == "__main__":
    main()
