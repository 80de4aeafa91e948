#!/bin/sh
# run.sh SRC LIB OUT [SEED [WORD]]: builds OUT/differential from the Rust's sources SRC and the static library LIB, and runs it.
set -eu
here=$(cd "$(dirname "$0")" && pwd)
sh "$here/../oracle/build.sh" "$1" "$3" differential "$2"
"$3/differential" "$here/../patterns" "${4:-1}" ${5:+"$5"}
