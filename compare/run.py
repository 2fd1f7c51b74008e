#!/usr/bin/env python3
"""Plays scripts through the program and through the published Rust, and compares the answers line by line.

    run.py                       1000 scripts of the seeds 1 to 1000
    run.py --scripts N --seed S  N scripts of the seeds from S on
    run.py FILE..                the scripts in these files

Exit status 1 where a difference stands that KNOWN does not list. scripts.py makes the scripts; README.md has more.
"""

import argparse
import collections
import hashlib
import multiprocessing
import os
import re
import subprocess
import sys

import scripts

PROGRAM = os.path.join(os.path.dirname(scripts.HERE), "crates", "melkwido", "out", "melkwido")

# Differences that stay: a pattern each for the line, the program's answer and the driver's, and the reason.
KNOWN = []

# So many scripts go through the program in one run of it.
BATCH = 200
# A run of the program that takes longer has no answers.
SECONDS = 60
# So many differences are shown in full.
SHOWN = 10

# What every challenger of a kind should have answered in a long enough comparison.
BITS_OR_CODES = {"bits": ["ok", "no 20"], "check": ["ok yes", "ok no", "no 20", "no 23"],
                 "grind": ["ok", "no 20", "no 22", "no 25"], "held": ["held"], "finalize": ["ok"]}
WANTED = {
    "duplex": BITS_OR_CODES | {
        "observe": ["ok", "no 23"], "digest": ["ok", "no 23"], "digest64": ["no-call"], "sample": ["ok"],
        "sample LIMIT": ["bad-line"], "uniform": ["ok", "no 20", "no 21", "no 26"],
        "find": ["ok", "ok none", "no-call"]},
    "multi": BITS_OR_CODES | {
        "observe": ["ok", "no 23"], "digest": ["ok", "no 23"], "digest64": ["no-call"], "sample": ["ok"],
        "sample LIMIT": ["bad-line"], "uniform": ["no-call"], "find": ["no-call"]},
    "hash": {
        "observe": ["ok", "no 24", "not-bytes"], "digest": ["ok", "no 24", "not-bytes"], "digest64": ["no-call"],
        "sample": ["ok"], "sample LIMIT": ["bad-line"], "bits": ["no-call"], "uniform": ["no-call"],
        "check": ["no-call"], "grind": ["no-call"], "find": ["ok", "ok none"], "held": ["held"], "finalize": ["ok"]},
    "serial": BITS_OR_CODES | {
        "observe": ["ok", "no 23", "no 24"], "digest": ["ok", "no 24", "not-bytes"], "digest64": ["ok", "no 24"],
        "sample": ["bad-line"], "sample LIMIT": ["ok", "no 21", "no 26"], "uniform": ["ok", "no 20", "no 21"],
        "find": ["no-call"]},
}
WANTED_MAKES = {"duplex": ["ok", "no 10", "no 14"], "multi": ["ok", "no 10", "no 11", "no 12", "no 13", "no 14"],
                "hash": ["ok", "no 15"], "serial": ["ok", "no 10", "no 11", "no 14", "no 15"]}
WANTED_EXTRA = {"hashof": ["ok"], "helpers": ["ok", "no 11"]}


# ---- playing ----

def play(command, lines):
    """The answers of a program to a script: none where it takes longer than SECONDS."""
    text = "".join(line + "\n" for line in lines)
    try:
        given = subprocess.run(
            command, input=text.encode(), stdout=subprocess.PIPE, stderr=subprocess.DEVNULL, timeout=SECONDS
        )
    except subprocess.TimeoutExpired:
        return []
    return given.stdout.decode().split("\n")[:-1]


def play_each(command, texts):
    """The answers to each of several scripts, where possible from one run over all of them."""
    wanted = [sum(map(scripts.asks, lines)) for lines in texts]
    answers = play(command, [line for lines in texts for line in lines])
    if len(answers) != sum(wanted):
        return [play(command, lines) for lines in texts]
    parts = []
    for count in wanted:
        parts.append(answers[:count])
        answers = answers[count:]
    return parts


# ---- comparing ----

class Difference(collections.namedtuple("Difference", "name number line program driver")):
    """A line with unlike answers: the name of its script, its number there, and both answers."""

    def known(self):
        texts = (self.line, self.program, self.driver)
        return any(all(map(re.fullmatch, entry[:3], texts)) for entry in KNOWN)


def digest_of(line):
    """What hashlib answers to a readable hashof."""
    _, hasher, text = line.split(" ")
    data = b"" if text == "-" else bytes.fromhex(text)
    return "ok " + hashlib.new(hasher.replace("sha3-", "sha3_"), data).hexdigest()


def compare(name, lines, program, driver):
    """The differences in a script. Lines whose challenger the driver was not compiled for are left out."""
    found, skipped, at, left_out = [], 0, 0, False
    for number, line in enumerate(lines, 1):
        if not scripts.asks(line):
            continue
        ours = program[at] if at < len(program) else "(no answer)"
        theirs = driver[at] if at < len(driver) else "(no answer)"
        at += 1
        if line.split(" ")[0] == "make":
            left_out = theirs == "no-pair"
        if left_out:
            skipped += 1
        elif ours != theirs:
            found.append(Difference(name, number, line, ours, theirs))
        elif line.startswith("hashof ") and ours != "bad-line" and ours != digest_of(line):
            found.append(Difference(name, number, line, ours, "hashlib: " + digest_of(line)))
    if at < len(program):
        found.append(Difference(name, len(lines), "(end)", f"{len(program) - at} answers more", ""))
    return found, skipped


# ---- counting ----

def told_by(answer):
    """The kind of an answer."""
    words = answer.split(" ")
    if words[0] == "no" or answer in ("ok yes", "ok no", "ok none"):
        return " ".join(words[:2])
    return words[0]


def counted_as(line, answer, kind):
    """Under what a line is counted that is asked of this kind of challenger."""
    words = line.split(" ")
    if answer == "bad-line" and not re.fullmatch(r"sample( \d+)?", line):
        return "bad-line", "", answer
    if words[0] in ("hashof", "helpers"):
        return words[0], "", told_by(answer)
    if words[0] == "make":
        return "make", words[1], told_by(answer)
    call = "sample LIMIT" if len(words) > 1 and words[0] == "sample" else words[0]
    return kind, call, told_by(answer)


def count(lines, answers):
    """How often each kind of call of each kind of challenger got each kind of answer."""
    counts, kind = collections.Counter(), "none"
    for line, answer in zip(filter(scripts.asks, lines), answers):
        counts[counted_as(line, answer, kind)] += 1
        words = line.split(" ")
        if words[0] == "make":
            kind = words[1] if answer == "ok" else "none"
        elif line == "finalize":
            kind = "none"
    return counts


def not_reached(counts, kinds):
    """The wanted answers that never came."""
    wanted = [(kind, call, told) for kind in kinds for call in WANTED.get(kind, {}) for told in WANTED[kind][call]]
    wanted += [("make", kind, told) for kind in kinds for told in WANTED_MAKES.get(kind, [])]
    wanted += [(kind, "", told) for kind in kinds for told in WANTED_EXTRA.get(kind, [])]
    if "find" not in kinds:
        wanted = [key for key in wanted if key[1] != "find" or key[2] == "no-call"]
    return [" ".join(filter(None, key)) for key in wanted if not counts[key]]


def print_counts(counts):
    rows = collections.defaultdict(list)
    for (kind, call, told), number in sorted(counts.items()):
        rows[kind, call].append(f"{told} {number}")
    for (kind, call), told in rows.items():
        print(f"  {kind:9}{call:13}{', '.join(told)}")


# ---- the smallest script of a difference ----

def differs(words, lines):
    found, _ = compare("", lines, play([words.program, "run"], lines), play([words.driver], lines))
    return any(not difference.known() for difference in found)


def without(items, keeps):
    """The fewest items, by leaving out ever smaller pieces, for which `keeps` still holds."""
    size = len(items)
    while size >= 1:
        at = 0
        while at < len(items):
            fewer = items[:at] + items[at + size:]
            if keeps(fewer):
                items = fewer
            else:
                at += size
        size //= 2
    return items


def shrunk(words, difference, lines):
    """A small script with a difference: lines are left out, then words."""
    lines = without(lines[:difference.number], lambda fewer: differs(words, fewer))
    for i, line in enumerate(lines):
        if line.startswith(("observe", "digest")):
            first, *rest = line.split(" ")
            keeps = lambda fewer: differs(words, lines[:i] + [" ".join([first] + fewer)] + lines[i + 1:])
            lines[i] = " ".join([first] + without(rest, keeps))
    return lines


# ---- the whole comparison ----

Outcome = collections.namedtuple("Outcome", "scripts lines skipped counts differences")


def outcome_of(words, named):
    """Compares scripts, given as name, lines and the driver's answers."""
    played = play_each([words.program, "run"], [lines for _, lines, _ in named])
    counts, differences, compared, left_out = collections.Counter(), [], 0, 0
    for (name, lines, driver), program in zip(named, played):
        found, skipped = compare(name, lines, program, driver)
        counts += count(lines, driver)
        differences += [(difference, lines) for difference in found]
        compared += len(driver) - skipped
        left_out += skipped
    return Outcome(len(named), compared, left_out, counts, differences)


def outcome_of_seeds(job):
    words, seeds = job
    driver = scripts.Driver(words.driver)
    made = [scripts.Script(seed, driver, words.kinds.split(",")).write() for seed in seeds]
    driver.close()
    return outcome_of(words, [(f"seed {script.seed}", script.lines, script.answers) for script in made])


def outcome_of_file(words, path):
    with open(path, newline="\n") as file:
        lines = file.read().removesuffix("\n").split("\n")
    return outcome_of(words, [(path, lines, play([words.driver], lines))])


def outcomes(words):
    if words.files:
        yield from (outcome_of_file(words, path) for path in words.files)
        return
    seeds = range(words.seed, words.seed + words.scripts)
    jobs = [(words, seeds[at:at + BATCH]) for at in range(0, len(seeds), BATCH)]
    with multiprocessing.Pool(words.jobs) as pool:
        yield from pool.imap(outcome_of_seeds, jobs)


def print_difference(words, difference, lines):
    print(f"\n{difference.name}, line {difference.number}: {difference.line[:200]}")
    print(f"  program: {difference.program[:400]}")
    print(f"  driver:  {difference.driver[:400]}")
    if words.shrink:
        print("  a small script that differs:")
        for line in shrunk(words, difference, lines):
            print(f"    {line}")


def first_of_each(differences):
    """The first difference of each script: what follows it in its script often comes from it."""
    firsts = {}
    for difference, lines in differences:
        if not difference.known():
            firsts.setdefault(difference.name, (difference, lines))
    return list(firsts.values())


def report(words, total):
    print(f"scripts {total.scripts}, lines compared {total.lines}, left out for want of a pair {total.skipped}")
    if not words.files:
        print(f"seeds {words.seed} to {words.seed + words.scripts - 1}, kinds {words.kinds}")
    print("the driver's answers, by challenger and call:")
    print_counts(total.counts)
    missed = [] if words.files else not_reached(total.counts, words.kinds.split(","))
    if missed:
        print("never answered: " + "; ".join(missed))
    known = sum(difference.known() for difference, _ in total.differences)
    firsts = first_of_each(total.differences)
    print(f"lines that differ {len(total.differences) - known}, in {len(firsts)} scripts; known differences {known}")
    for difference, lines in firsts[:SHOWN]:
        print_difference(words, difference, lines)
    return 1 if firsts else 0


def read_words():
    parser = argparse.ArgumentParser(description=__doc__, formatter_class=argparse.RawDescriptionHelpFormatter)
    parser.add_argument("files", nargs="*", metavar="FILE")
    parser.add_argument("--scripts", type=int, default=1000)
    parser.add_argument("--seed", type=int, default=1)
    parser.add_argument("--kinds", default=",".join(scripts.KINDS), help="which of " + ",".join(scripts.KINDS))
    parser.add_argument("--program", default=PROGRAM)
    parser.add_argument("--driver", default=scripts.DRIVER)
    parser.add_argument("--jobs", type=int, default=1, help="how many processes make and compare scripts")
    parser.add_argument("--shrink", action="store_true", help="print a small script for each difference shown")
    words = parser.parse_args()
    for path in (words.program, words.driver):
        if not os.access(path, os.X_OK):
            parser.error(f"there is no program {path}: build it first (README.md)")
    return words


def main():
    words = read_words()
    total = Outcome(0, 0, 0, collections.Counter(), [])
    for part in outcomes(words):
        total = Outcome(*(a + b for a, b in zip(total, part)))
    return report(words, total)


if __name__ == "__main__":
    sys.exit(main())
