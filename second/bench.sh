#!/bin/sh
# Builds the benches from the proved code's static library and the plain C, and
# runs them: first that of the hashes, then that of the engine.
# Usage: bench.sh [STATIC_LIBRARY]
# The library is by default ../target/staticlib/libnectarnook.a, seen from the
# folder of this script.
set -eu

here=$(CDPATH='' cd -- "$(dirname -- "$0")" && pwd)
library=${1:-$here/../target/staticlib/libnectarnook.a}
if [ ! -f "$library" ]; then
    echo "bench.sh: $library: no such file" >&2
    exit 1
fi
objects=$here/target/bench # where build.rs looks for them
mkdir -p "$objects"

# Only the library's functions are to be seen, whatever else it may come to
# define: it could clash with what the benches themselves are linked with.
pulled='' shown=''
for name in nn_sha1 nn_hmac_sha1 \
    nn_build nn_open nn_close nn_abort nn_reset; do
    pulled="$pulled -u $name"
    shown="$shown -G $name"
done
# shellcheck disable=SC2086 # they are lists of words
ld -r --force-group-allocation $pulled -o "$objects/nectarnook.o" "$library"
# shellcheck disable=SC2086
objcopy $shown "$objects/nectarnook.o"

if command -v clang >/dev/null; then cc=clang; else cc=gcc; fi
build="$cc -std=c99 -Wall -Wextra -Wpedantic -O3 -c"
$build "$here/plain/sha1.c" -o "$objects/plain.o"
$build -DUNROLLED "$here/plain/sha1.c" -o "$objects/unrolled.o"

if command -v size >/dev/null; then
    LIBRARY_SIZE=$(size "$objects/nectarnook.o" |
        awk 'NR == 2 { print $1 " bytes of text and constants, " $2 " of data, " $3 " of zeroed data" }')
    export LIBRARY_SIZE
fi

cd "$here"
cargo build -j1 --release --offline --quiet --target-dir target --features bench \
    --bin bench --bin engine_bench
PLAIN_CC_VERSION="$($cc --version | head -n 1), -O3" target/release/bench
echo
exec target/release/engine_bench
