#!/bin/sh
# probe.sh: proves crates/probe_c and writes target/staticlib/libprobe.a, the static library that exports order_probe.
set -eu
cd "$(dirname "$0")/.."
(cd crates/probe_c && rt lib)
mkdir -p target/staticlib
cp crates/probe_c/out/libprobe_c.a target/staticlib/libprobe.a
