#!/usr/bin/env python3
"""Plants bugs one at a time in copies of the repository, and runs the check of each one's crate.

    tools/plant.py                      all bugs of tools/planted.txt, one after another
    tools/plant.py --jobs 2 sponge duplex_challenger   those of two crates, in two copies
    tools/plant.py --dry                only tells whether each text stands where it should
    tools/plant.py --list FILE          those of another list

For each bug it prints: refused (a fact is no longer proved), passes (the check still passes, and the bug stands in a
class of the list whose name begins with `passes:`), PASSES (it passes elsewhere: a contract to strengthen), STOPPED
(it stands in such a class, and is refused), or BAD (the text is not there, or the code does not compile).
Status 1 if an outcome is in capitals.
"""

import argparse
import collections
import concurrent.futures
import pathlib
import queue
import re
import subprocess
import sys
import tempfile

TOP = pathlib.Path(__file__).resolve().parent.parent

Bug = collections.namedtuple("Bug", "kind crate file place old new")


def bugs_of(text):
    """The bugs of a list: `= KIND`, `CRATE FILE [PLACE]`, `- OLD`, `+ NEW`."""
    bugs, kind, head, old = [], "", None, None
    for number, line in enumerate(text.splitlines(), 1):
        if not line or line.startswith("#"):
            continue
        if line.startswith("= "):
            kind = line[2:]
        elif line.startswith("- "):
            old = line[2:]
        elif line.startswith("+"):
            crate, file, *place = head
            bugs.append(Bug(kind, crate, file, int(place[0]) if place else 0, old, line[2:]))
        elif len(line.split()) in (2, 3):
            head = line.split()
        else:
            sys.exit(f"line {number} of the list cannot be read: {line}")
    return bugs


def planted(bug, text):
    """The text with the bug, or None where the old text does not stand as the list says."""
    parts = text.split(bug.old)
    if bug.place == 0 and len(parts) != 2 or bug.place >= len(parts):
        return None
    cut = max(bug.place, 1)
    return bug.old.join(parts[:cut]) + bug.new + bug.old.join(parts[cut:])


def checked(copy, bug):
    """The outcome of a bug in a copy, and the first fact that is no longer proved."""
    path = copy / "crates" / bug.crate / bug.file
    text = path.read_text()
    wrong = planted(bug, text)
    if wrong is None:
        return "BAD", "the text is not there, or not once"
    path.write_text(wrong)
    try:
        done = subprocess.run(["rt", "check"], cwd=copy / "crates" / bug.crate, capture_output=True, text=True, timeout=900)
    except subprocess.TimeoutExpired:
        return "refused", "the check did not end in 15 minutes"
    finally:
        path.write_text(text)
    said = done.stdout + done.stderr
    if "no library was built" in said:
        return "BAD", next(line for line in said.splitlines() if "error" in line)
    expected = bug.kind.startswith("passes:")
    if done.returncode == 0:
        return "passes" if expected else "PASSES", ""
    facts = [line for line in said.splitlines() if "not proved that" in line or re.match(r"\./proofs/.*error", line)]
    return "STOPPED" if expected else "refused", (facts or [said.splitlines()[-1]])[0].replace("so far: ", "")[:200]


def copied(folder):
    """A copy of what is committed or about to be, without what checks leave."""
    files = subprocess.run(["git", "ls-files", "-co", "--exclude-standard"], cwd=TOP, check=True, capture_output=True, text=True).stdout.split("\n")
    copy = pathlib.Path(folder)
    for name in filter(None, files):
        if (TOP / name).is_file():
            (copy / name).parent.mkdir(parents=True, exist_ok=True)
            (copy / name).write_bytes((TOP / name).read_bytes())
    return copy


def run(bugs, jobs):
    copies, outcomes = queue.Queue(), []
    with tempfile.TemporaryDirectory() as folder, concurrent.futures.ThreadPoolExecutor(jobs) as pool:
        for i in range(jobs):
            copies.put(copied(f"{folder}/{i}"))

        def one(bug):
            copy = copies.get()
            try:
                return bug, checked(copy, bug)
            finally:
                copies.put(copy)

        for bug, (outcome, fact) in pool.map(one, bugs):
            print(f"{outcome:8} {bug.kind}: {bug.crate}/{bug.file}: {bug.old}  =>  {bug.new}\n         {fact}", flush=True)
            outcomes.append((bug, outcome))
    return outcomes


def main():
    parser = argparse.ArgumentParser(description=__doc__, formatter_class=argparse.RawDescriptionHelpFormatter)
    parser.add_argument("crates", nargs="*")
    parser.add_argument("--jobs", type=int, default=1)
    parser.add_argument("--dry", action="store_true")
    parser.add_argument("--list", type=pathlib.Path, default=TOP / "tools/planted.txt")
    given = parser.parse_args()
    bugs = [bug for bug in bugs_of(given.list.read_text()) if not given.crates or bug.crate in given.crates]
    if given.dry:
        bad = [bug for bug in bugs if planted(bug, (TOP / "crates" / bug.crate / bug.file).read_text()) is None]
        for bug in bad:
            print(f"BAD      {bug.crate}/{bug.file}: {bug.old}")
        sys.exit(f"{len(bugs)} bugs, {len(bad)} bad" if bad else 0)
    outcomes = run(bugs, given.jobs)
    count = collections.Counter((bug.kind, outcome) for bug, outcome in outcomes)
    for kind in dict.fromkeys(bug.kind for bug, _ in outcomes):
        told = ", ".join(f"{n} {outcome}" for (k, outcome), n in sorted(count.items()) if k == kind)
        print(f"{kind}: {told}")
    sys.exit(any(outcome.isupper() for _, outcome in outcomes))


if __name__ == "__main__":
    main()
