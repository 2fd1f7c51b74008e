#!/bin/sh
# Puts the six published files of p3-challenger 0.8.0 beside the stand-ins, unchanged, and builds the driver and the timings.
#   P3_CHALLENGER_SRC   the folder with the published lib.rs and the five files beside it
#   CARGO_TARGET_DIR    where the build's output goes; target/ beside this script if it is not set
set -eu
here=$(cd "$(dirname "$0")" && pwd)
files="lib duplex_challenger grinding_challenger hash_challenger multi_field_challenger serializing_challenger"

fail() {
    echo "build.sh: $1" >&2
    exit 1
}

src=${P3_CHALLENGER_SRC:-}
[ -n "$src" ] || fail "set P3_CHALLENGER_SRC to the folder src of a checkout of p3-challenger 0.8.0"
[ -d "$src" ] || fail "P3_CHALLENGER_SRC is no folder: $src"
for file in $files; do
    [ -f "$src/$file.rs" ] || fail "P3_CHALLENGER_SRC lacks $file.rs: $src"
done

to=$here/p3-challenger
mkdir -p "$to/src"
for file in $files; do
    cp "$src/$file.rs" "$to/src/$file.rs"
    chmod u+w "$to/src/$file.rs"
    cmp "$src/$file.rs" "$to/src/$file.rs"
done
# lib.rs names these two; nothing of them is used here.
: > "$to/src/fs.rs"
: > "$to/README.md"

export CARGO_TARGET_DIR="${CARGO_TARGET_DIR:-$here/target}"
cd "$here"
cargo build --offline --jobs 2 --profile checked --bin driver --bin differences
cargo build --offline --jobs 2 --release --bin bench
echo "the driver:          $CARGO_TARGET_DIR/checked/driver"
echo "the differences:     $CARGO_TARGET_DIR/checked/differences"
echo "the timings:         $CARGO_TARGET_DIR/release/bench"
