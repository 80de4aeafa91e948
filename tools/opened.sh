#!/bin/sh
# Writes crates/CRATE/specs/Opened.antt: every `unfoldable pub` definition that the modules of specs/Lib.antt have, on one line, and
# what the `opened` of the crates named after it has. Run it after a new definition: tools/opened.sh definition plain
set -eu
crate=$1; shift
cd "$(dirname "$0")/../crates/$crate/specs"
{
  echo '-- Every definition of this crate on one line: a declaration that says `unfolding opened` computes with all of them.'
  echo '-- Only theorems by computation say so; a proof names the few that it looks into. Written by tools/opened.sh. Assumes nothing.'
  echo 'use mathlib.Core.List.{flat_map}'
  for dep; do echo "use Rattle.$dep.specs.Opened as $dep"; done
  names=flat_map
  for dep; do names="$names $dep.opened"; done
  for module in $(sed -n 's/^pub mod //p' Lib.antt); do
    [ "$module" = Opened ] && continue
    found=$(sed -n 's/^ *unfoldable pub \([^ ]*\).*/\1/p' "$module.antt")
    [ -n "$found" ] || continue
    echo "use Rattle.$crate.specs.$module"
    for name in $found; do names="$names $module.$name"; done
  done
  printf '\nunfoldable pub opened : Unit {0}\nunfolding %s\nopened = tt\n' "$names"
} > Opened.antt
