#!/usr/bin/env python3
"""Stores answers of the Rust, to be replayed where it is not at hand.

    stored.py [FIRST] [COUNT]    scripts of COUNT seeds from FIRST on; 3000001 and 40 if not given

Writes the scripts to crates/test_rust_answers/data/scripts.txt and the driver's answers to crates/test_rust_answers/stdout.
A script with an answer that rests on no call of the Rust for want of a compiled shape (no-pair) is left out.
"""

import os
import subprocess
import sys

import scripts

CRATE = os.path.join(os.path.dirname(scripts.HERE), "crates", "test_rust_answers")
DRIVER = os.path.join(scripts.HERE, "oracle", "target", "checked", "driver")


def output(command, text=None):
    return subprocess.run(command, input=text, check=True, capture_output=True, text=True).stdout


def main():
    first, count = ([int(word) for word in sys.argv[1:]] + [3000001, 40][len(sys.argv) - 1:])[:2]
    kept, answers = [], []
    for seed in range(first, first + count):
        script = output([os.path.join(scripts.HERE, "scripts.py"), str(seed)])
        said = output([DRIVER], script)
        if "no-pair" not in said and "stopped" not in said:
            kept.append(f"# Seed {seed}.\n{script}")
            answers.append(said)
    with open(os.path.join(CRATE, "data", "scripts.txt"), "w") as file:
        file.write("".join(kept))
    with open(os.path.join(CRATE, "stdout"), "w") as file:
        file.write("".join(answers))
    print(f"{len(kept)} scripts of {count}, {sum(said.count(chr(10)) for said in answers)} answers")


if __name__ == "__main__":
    main()
