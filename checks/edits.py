#!/usr/bin/env python3
"""Tries the edits of checks/edits, each of which the prover must refuse, as it must those of crates/*/must-fail.

    python3 checks/edits.py [--keep | --places] [CRATE ..]

The gate tries the few edits of must-fail/ that tell most. The others stand in checks/edits/CRATE, and are tried here, of the crates that
are named or of all. The crates are copied as they stand in the work tree (what git lists there, committed or not) to a temporary
folder. There the edits of checks/edits/CRATE take the place of the crate's own, and one `rt ci CRATE ..` tries them, as many at a time as
the machine has processors. What an earlier run on this machine proved or refused over the same texts is kept, so a run that was ended
goes on where it was. At the end stand the edits that aren't refused, those that can't be applied or read, and those that weren't tried.
The status is 0 only where all are refused.

With --places nothing is proved: it says of each edit, those of must-fail/ too, whether each text that it names stands exactly once in its
file, in a second. So an edit that a change made stale is found at once.

Needs git and the Rattle toolchain's rt, and some GB of disk; --places needs neither. Python 3 alone.
"""

import argparse
import os
import re
import shutil
import subprocess
import sys
import tempfile

ROOT = os.path.dirname(os.path.dirname(os.path.abspath(__file__)))
EDITS = os.path.join(ROOT, "checks", "edits")
VERDICT = re.compile(r"rt: must-fail (\w+)/(\S+\.edit): (refused|NOT REFUSED|BAD EDIT|NOT TRIED)")


def crates_in_order():
    """Returns the names of crates.txt, each after those that it stands on."""
    with open(os.path.join(ROOT, "crates.txt"), encoding="utf-8") as file:
        return [line.partition(":")[0].strip() for line in file if ":" in line]


def edits_by_crate():
    """Returns the names of the edits of checks/edits, by crate."""
    found = {}
    for crate in sorted(os.listdir(EDITS)) if os.path.isdir(EDITS) else []:
        names = [name for name in sorted(os.listdir(os.path.join(EDITS, crate))) if name.endswith(".edit")]
        if names:
            found[crate] = names
    return found


def chosen(names, edits, order):
    """Returns the crates to try, lowest first, or ends with a line on a name that is none."""
    strangers = [crate for crate in edits if crate not in order]
    if strangers:
        sys.exit(f"no crates of crates.txt stand in checks/edits: {', '.join(strangers)}")
    lacking = [name for name in names if name not in edits]
    if lacking:
        sys.exit(f"checks/edits has no edits of {', '.join(lacking)}")
    return [crate for crate in order if crate in edits and (not names or crate in names)]


def copy_crates(folder):
    """Copies the crates of the work tree, without their edits."""
    words = ["git", "ls-files", "-z", "--cached", "--others", "--exclude-standard", "--", "crates", "crates.txt", "HANDLES"]
    listed = subprocess.run(words, cwd=ROOT, stdout=subprocess.PIPE, check=True).stdout.decode()
    for path in listed.split("\0"):
        # What was removed and not yet committed is listed too.
        if os.path.isfile(os.path.join(ROOT, path)) and "must-fail" not in path.split("/"):
            os.makedirs(os.path.dirname(os.path.join(folder, path)), exist_ok=True)
            shutil.copy(os.path.join(ROOT, path), os.path.join(folder, path))


def try_edits(tree, edits, crates):
    """Tries the edits of these crates, and returns what each came to, by crate."""
    for crate in crates:
        shutil.copytree(os.path.join(EDITS, crate), os.path.join(tree, "crates", crate, "must-fail"))
    found = {crate: dict.fromkeys(edits[crate], "NOT TRIED") for crate in crates}
    ran = subprocess.Popen(["rt", "ci", *crates], cwd=tree, stdin=subprocess.DEVNULL, stdout=subprocess.PIPE, stderr=subprocess.STDOUT, text=True, errors="replace")
    for line in ran.stdout:
        said = VERDICT.match(line)
        if said and said[2] in found.get(said[1], {}):
            found[said[1]][said[2]] = said[3]
        if line.startswith("rt: "):
            print(line, end="", flush=True)
    ran.wait()
    return found


def tell(results):
    """Says how many edits are refused, and names the others. Returns whether there is none."""
    others = [(verdict, f"{crate}/{name}") for crate, found in results.items() for name, verdict in found.items() if verdict != "refused"]
    count = sum(len(found) for found in results.values())
    print(f"crates: {len(results)}, edits: {count}, refused: {count - len(others)}")
    for verdict, name in sorted(others):
        print(f"{verdict}: {name}")
    return not others


def applied(crate, path):
    """Returns what keeps an edit from being applied to a crate, or nothing."""
    texts, file, old = {}, "", None
    with open(path, encoding="utf-8") as edit:
        lines = edit.read().splitlines()
    for line in lines:
        word, _, rest = line.partition(": ")
        if word == "file":
            file = os.path.join(ROOT, "crates", crate, rest.strip())
            if file not in texts:
                if not os.path.isfile(file):
                    return f"{rest} is not there"
                with open(file, encoding="utf-8") as source:
                    texts[file] = source.read()
        elif word == "old":
            old = rest
        elif word == "new" and old is not None:
            if texts.get(file, "").count(old) != 1:
                return f"stands {texts.get(file, '').count(old)} times: {old.strip()}"
            texts[file] = texts[file].replace(old, rest)
    return None if texts else "names no file"


def tell_places(crates):
    """Says which edits of these crates can't be applied. Returns whether there is none."""
    found = []
    for crate in crates:
        for folder in (os.path.join(EDITS, crate), os.path.join(ROOT, "crates", crate, "must-fail")):
            names = sorted(os.listdir(folder)) if os.path.isdir(folder) else []
            found += [(f"{crate}/{name}", applied(crate, os.path.join(folder, name))) for name in names if name.endswith(".edit")]
    lost = [(name, why) for name, why in found if why]
    print("\n".join([f"{name}: {why}" for name, why in lost] + [f"edits: {len(found)}, can be applied: {len(found) - len(lost)}"]))
    return not lost


def main():
    parser = argparse.ArgumentParser(description=__doc__, formatter_class=argparse.RawDescriptionHelpFormatter)
    parser.add_argument("--keep", action="store_true", help="leave the temporary folder, and say where it is")
    parser.add_argument("--places", action="store_true", help="only say whether each edit can be applied")
    parser.add_argument("crates", metavar="CRATE", nargs="*", help="a crate that has edits in checks/edits (all that have)")
    given = parser.parse_args()
    edits = edits_by_crate()
    if given.places:
        strangers = [crate for crate in given.crates if crate not in crates_in_order()]
        if strangers:
            sys.exit(f"crates.txt has no {', '.join(strangers)}")
        sys.exit(0 if tell_places(given.crates or crates_in_order()) else 1)
    crates = chosen(given.crates, edits, crates_in_order())
    tree = tempfile.mkdtemp(prefix="sonata-edits-")
    try:
        copy_crates(tree)
        results = try_edits(tree, edits, crates)
    finally:
        if given.keep:
            print(f"kept: {tree}", flush=True)
        else:
            shutil.rmtree(tree, ignore_errors=True)
    sys.exit(0 if tell(results) else 1)


if __name__ == "__main__":
    main()
