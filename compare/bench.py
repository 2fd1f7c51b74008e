#!/usr/bin/env python3
"""Times the calls of each challenger beside the published Rust, in one run.

    ./bench.py                   every row, 5 turns
    ./bench.py --turns 9 multi-observe duplex-grind

Both programs play a row as often as takes some tenths of a second, by turns; the least user time of each
counts. The ratio is the Rust's time by ours: above 1 ours is faster. Both must print the same checksum.
"""

import argparse
import pathlib
import resource
import subprocess

HERE = pathlib.Path(__file__).resolve().parent
KINDS = ["duplex", "multi", "sha256", "bytes"]
ROWS = [f"{kind}-{what}" for kind in KINDS for what in ("observe", "sample", "grind", "finalize")]


def played(program, row, count):
    """The seconds of user time of a row played so many times, and what the program printed."""
    before = resource.getrusage(resource.RUSAGE_CHILDREN).ru_utime
    done = subprocess.run([program, row, str(count)], check=True, capture_output=True, text=True)
    return resource.getrusage(resource.RUSAGE_CHILDREN).ru_utime - before, done.stdout


def enough(program, row, seconds):
    """How often a row has to be played to take so long."""
    count = 1
    while True:
        taken, _ = played(program, row, count)
        if taken >= seconds / 4:
            return max(1, round(count * seconds / taken))
        count *= 4


def timed(programs, row, turns):
    """The least seconds of each program, for one play of the row."""
    count = enough(programs[1], row, 0.4)
    best = [float("inf")] * 2
    for _ in range(turns):
        outs = []
        for i, program in enumerate(programs):
            taken, out = played(program, row, count)
            best[i] = min(best[i], taken)
            outs.append(out)
        assert outs[0] == outs[1], f"{row}: the checksums differ"
    return [seconds / count for seconds in best]


def main():
    parser = argparse.ArgumentParser(description=__doc__, formatter_class=argparse.RawDescriptionHelpFormatter)
    parser.add_argument("rows", nargs="*", help="rows of the table in README.md; all if none is given")
    parser.add_argument("--turns", type=int, default=5)
    parser.add_argument("--program", default=HERE.parent / "crates/bench_challengers/out/bench_challengers")
    parser.add_argument("--rust", default=HERE / "oracle/target/release/bench")
    given = parser.parse_args()
    print(f"{'row':16} {'ours, ms':>10} {'Rust, ms':>10} {'ratio':>6}")
    for row in given.rows or ROWS:
        ours, rust = timed([given.program, given.rust], row, given.turns)
        print(f"{row:16} {ours * 1e3:10.2f} {rust * 1e3:10.2f} {rust / ours:6.2f}", flush=True)


if __name__ == "__main__":
    main()
