#!/bin/sh
# build.sh SRC OUT [PROGRAM LIB]: OUT/PROGRAM (oracle, where none is named) from tools/PROGRAM, tools/shared and the unchanged Rust
# sources in SRC (crate amd 0.2.2), as a release build. LIB is the static library that it links, target/staticlib/libprobe.a.
set -eu
tools=$(cd "$(dirname "$0")/.." && pwd)
src=$(cd "$1" && pwd)
mkdir -p "$2" && out=$(cd "$2" && pwd)
program=${3:-oracle}
registry=/usr/share/cargo/registry

command -v cargo >/dev/null || apt-get install -y --no-install-recommends cargo
ls -d "$registry"/num-traits-* >/dev/null 2>&1 || apt-get install -y --no-install-recommends librust-num-traits-dev

work=$out/work
rm -rf "$work"
mkdir -p "$work/.cargo" "$work/amd/src" "$work/$program/src" "$work/lib"

# The sources stand twice: as the crate `amd`, for its `order`, and beside main.rs, whose modules they are, because `order` chooses the room itself.
ln -s "$src"/*.rs "$work/amd/src/"
ln -s "$src"/*.rs "$work/$program/src/"
rm "$work/$program/src/lib.rs"
ln -s "$tools/shared"/*.rs "$tools/$program"/*.rs "$work/$program/src/"
[ -z "${4:-}" ] || cp "$4" "$work/lib/libprobe.a"
# lib.rs names these two, which only print
for name in control info; do
  [ -e "$src/$name.rs" ] || echo "pub fn $name() {}" > "$work/amd/src/$name.rs"
done

package() {
  printf '[package]\nname = "%s"\nversion = "0.2.2"\nedition = "2018"\n[features]\ndebug1 = []\ndebug2 = []\ndebug3 = []\ndebug4 = []\n' "$1"
  printf '[dependencies]\nnum-traits = "0.2"\n'
}
package amd > "$work/amd/Cargo.toml"
# under another name, because a module is called amd
{ package "$program"; echo 'whole = { package = "amd", path = "../amd" }'; } > "$work/$program/Cargo.toml"
printf '[workspace]\nmembers = ["amd", "%s"]\n' "$program" > "$work/Cargo.toml"
printf '[source.crates-io]\nreplace-with = "debian"\n[source.debian]\ndirectory = "%s"\n' "$registry" > "$work/.cargo/config.toml"

cd "$work"
RUSTFLAGS="-Awarnings -L native=$work/lib" CARGO_TARGET_DIR="$work/target" cargo build --offline --release --quiet -p "$program"
cp "$work/target/release/$program" "$out/$program"
