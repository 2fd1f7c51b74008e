#!/usr/bin/env bash
# Times crates/bench_hashes, with SHA-256 of this repository and of the kit's crate sha2, beside portable C at -O3 and OpenSSL, in one
# run: 1,024-byte inputs, the least processor time, less that of starting the program, of TURNS turns in each of which every program
# takes part, in an order drawn anew. All programs must print the same digest.
#   tools/bench-hash.sh [COUNT [TURNS]]    COUNT hashes a turn, 10000 if not given; TURNS is 60 if not given
# Needs clang, python3 and libssl-dev, and bench_hashes built (`rt run -- sha3 1` in its folder).
set -eu
cd "$(dirname "$0")/.."
count=${1:-10000}
turns=${2:-60}
ours=crates/bench_hashes/out/bench_hashes
dir=$(mktemp -d)
trap 'rm -rf "$dir"' EXIT
${CC:-clang} -O3 -o "$dir/c" tools/bench-hash.c -lcrypto
python3 - "$ours" "$dir/c" "$count" "$turns" <<'PY'
import random, resource, subprocess, sys
ours, c, count, turns = sys.argv[1:]

def taken():
    usage = resource.getrusage(resource.RUSAGE_CHILDREN)
    return usage.ru_utime + usage.ru_stime

def turn(*command):
    before = taken()
    out = subprocess.run(command, check=True, capture_output=True, text=True).stdout
    return taken() - before, out

runs = {
    "sha256 ours": (ours, "sha256"), "sha256 crate sha2": (ours, "sha2"),
    "sha256 portable C": (c, "c-sha256"), "sha256 OpenSSL": (c, "openssl-sha256"),
    "sha3 ours": (ours, "sha3"), "sha3 OpenSSL": (c, "openssl-sha3"),
}
best, start, digest = {}, {}, {}
for _ in range(int(turns)):
    for name in random.sample(list(runs), len(runs)):
        start[name] = min(turn(*runs[name], "0")[0], start.get(name, 1.0))
        seconds, out = turn(*runs[name], count)
        best[name] = min(seconds, best.get(name, seconds))
        hash = name.split()[0]
        assert digest.setdefault(hash, out) == out, f"{name} gives another digest"
ns = {name: (best[name] - start[name]) / int(count) * 1e9 for name in runs}
for name in runs:
    ratio = ns[name] / ns[name.split()[0] + " ours"]
    print(f"{name:20} {ns[name]:8.0f} ns a hash   ours is {ratio:.2f}x as fast")
PY
