#!/bin/sh
# run.sh BARE OUT: instructions of each step of the elimination, ours and in BARE, the crates of the form without contracts and tests; then both timed.
# Both are compiled as the kit compiles a program for release, from the intermediate code that the kit's `rattle-cases` hands to the compiler.
# OUT/lines WHO FUNCTION then shows a step's instructions, each with how often it ran.
set -eu
here=$(cd "$(dirname "$0")" && pwd)
bare=$(cd "$1" && pwd)
mkdir -p "$2" && out=$(cd "$2" && pwd)
kit=$(cd "$(dirname "$(readlink -f "$(command -v rt)")")/.." && pwd)
machine=$kit/on/$(uname -m)

# a compiler that keeps the intermediate code of the release build
mkdir -p "$out/tools/bin"
ln -sfn "$machine/toolchain/lib" "$out/tools/lib"
for tool in "$machine"/toolchain/bin/*; do ln -sf "$(readlink -f "$tool")" "$out/tools/bin/$(basename "$tool")"; done
rm "$out/tools/bin/clang"
cat > "$out/tools/bin/clang" <<END
#!/bin/sh
case " \$* " in *' -O3 '*) cp module.bc "$out/module.bc" ;; esac
exec "$machine/toolchain/bin/clang" "\$@"
END
chmod +x "$out/tools/bin/clang"

compile() { # WHO MAIN FOLDER CRATES -- STEPS: OUT/WHO.o, its ordering as order_WHO, the steps not inlined
  who=$1 main=$2 crates=$3
  shift 3
  set -- "$@" -- --
  words=
  while [ "$1" != -- ]; do words="$words --lib $1=$crates/$1/src/lib.rt"; shift; done
  shift
  # it compares what the program prints with nothing, which fails and does not matter
  "$machine/bin/rattle-cases" --toolchain "$out/tools" "$main" --crate-name bench --lib "std=$kit/libs/std/src/lib.rt" --lib "io=$kit/libs/io/src/lib.rt" \
    --lib "libc=$kit/libs/libc/src/lib.rt" $words > "$out/$who.log" 2>&1 || true
  clang=$machine/toolchain/bin/clang
  "$clang" -x ir -S -emit-llvm -O0 -Xclang -disable-llvm-passes "$out/module.bc" -o "$out/$who.ll"
  sed -i 's/define internal void @"bench::bench_order"/define void @"bench::bench_order"/' "$out/$who.ll"
  while [ "$1" != -- ]; do sed -i "/^define internal .*@\"$1\"(/s/ #0 {/ noinline #0 {/" "$out/$who.ll"; shift; done
  "$clang" --target=x86_64-unknown-linux-gnu -march=x86-64 -fPIE -ffunction-sections -fdata-sections -O3 -Xclang -fmerge-functions -mllvm -mergefunc-use-aliases -c -x ir "$out/$who.ll" -o "$out/$who.o"
  objcopy --redefine-sym bench::bench_order="order_$who" --redefine-sym main="main_$who" "$out/$who.o"
}

program() { # NAME: OUT/NAME from both forms
  gcc -O2 -o "$out/$1" "$here/driver.c" "$out/bare.o" "$out/ours.o" -lm
}

cp "$here/program.txt" "$out/main.rt" # under a name that rt does not take for a crate's
theirs="amd_cells amd_leaves amd_pattern amd_steps amd_tree amd_order"
these="numbers checks cells pattern chain packed tree sizing placing trimming merging opening elimination ordering"
compile bare "$bare/bench/src/main.rt" "$bare" $theirs
compile ours "$out/main.rt" "$here/../../crates" $these
program timed
compile bare "$bare/bench/src/main.rt" "$bare" $theirs -- amd_steps::find_pivot amd_steps::gather amd_steps::collect amd_steps::size_all amd_steps::update_all amd_steps::merge_all amd_steps::restore amd_steps::eliminate_all
compile ours "$out/main.rt" "$here/../../crates" $these -- chain::find_pivot opening::begin_pivot packed::gather_outside packed::gather_in_place packed::take_all packed::lay packed::collect_rest sizing::size_all trimming::update_all merging::merge_all placing::restore elimination::eliminate_all
program counted

for size in 'grid 300' 'random 10000'; do
  for who in bare ours; do
    echo "$size, $who:"
    valgrind --tool=callgrind --dump-instr=yes --callgrind-out-file="$out/$who.counts" --toggle-collect=measured "$out/counted" $size $who 2>/dev/null
    callgrind_annotate --threshold=100 "$out/$who.counts" | sed -n 's/^ *\([0-9,]*\) .*:\([a-z_]*::[a-z_]*\) .*/  \1 \2/p'
  done
done
printf '#!/bin/sh\npython3 "%s/lines.py" "%s/$1.counts" "%s/counted" "$2"\n' "$here" "$out" "$out" > "$out/lines"
chmod +x "$out/lines"
echo '| Case | Bare, ms | Ours, ms | Ratio |'
echo '|---|---|---|---|'
for size in 'grid 300' 'random 10000' 'random 50000'; do "$out/timed" $size 9; done
