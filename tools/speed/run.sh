#!/bin/sh
# run.sh SRC LIB OUT [ROUNDS]: builds OUT/speed from the Rust's sources SRC and the static library LIB, times both, and counts instructions where valgrind is.
set -eu
here=$(cd "$(dirname "$0")" && pwd)
sh "$here/../oracle/build.sh" "$1" "$3" speed "$2"
"$3/speed" "${4:-21}"
command -v valgrind >/dev/null || exit 0

count() { # CASE WHO: instructions inside `measured`
  valgrind --tool=callgrind --callgrind-out-file=/dev/null --toggle-collect=measured "$3/speed" once "$1" "$2" 2>&1 | sed -n 's/.*Collected : *//p'
}
echo
echo '| Case | Rust, instructions | Ours | Ratio | Zeroing | Ratio without it |'
echo '|---|---|---|---|---|---|'
case=0
for name in 'grid 300 by 300' 'random, n = 10,000' 'random, n = 50,000' 'random, n = 100,000'; do
  rust=$(count "$case" rust "$3") ours=$(count "$case" ours "$3") zeroing=$(count "$case" zeroing "$3")
  awk -v name="$name" -v r="$rust" -v o="$ours" -v z="$zeroing" \
    'BEGIN { printf "| %s | %.1f M | %.1f M | **%.2f** | %.1f M | %.2f |\n", name, r / 1e6, o / 1e6, o / r, z / 1e6, (o - z) / r }'
  case=$((case + 1))
done
