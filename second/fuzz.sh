#!/bin/sh
# Builds engine_fuzz from the proved code's static library and runs it. A
# difference is written as a listing to target/fuzz/difference.txt here.
# Usage: fuzz.sh CALLS SEED [STATIC_LIBRARY]
# The library is by default ../target/staticlib/libnectarnook.a, seen from the
# folder of this script.
set -eu

if [ $# -lt 2 ]; then
    echo "usage: fuzz.sh CALLS SEED [STATIC_LIBRARY]" >&2
    exit 2
fi
here=$(CDPATH='' cd -- "$(dirname -- "$0")" && pwd)
library=${3:-$here/../target/staticlib/libnectarnook.a}
if [ ! -f "$library" ]; then
    echo "fuzz.sh: $library: no such file" >&2
    exit 1
fi
mkdir -p "$here/target/fuzz"
object=$here/target/fuzz/nectarnook.o

# Only the five calls are to be seen, whatever else the library may come to
# define: it could clash with what the program itself is linked with.
ld -r --force-group-allocation -u nn_build -u nn_open -u nn_close -u nn_abort \
    -u nn_reset -o "$object" "$library"
objcopy -G nn_build -G nn_open -G nn_close -G nn_abort -G nn_reset "$object"

cd "$here"
FUZZ_LIBRARY=$object cargo build -j1 --release --offline --quiet --target-dir target \
    --features fuzz --bin engine_fuzz
exec target/release/engine_fuzz "$1" "$2"
