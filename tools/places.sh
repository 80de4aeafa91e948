#!/bin/sh
# places.sh [COMMIT]: how many places of each point of docs/DESIGN-PASS.md are in src/ at a commit.
set -eu
cd "$(dirname "$0")/.."
at=${1:-HEAD}

lines() { printf '%-58s %s\n' "$1" "$(git grep -nE "$2" "$at" -- 'crates/*/src/*.rt' | wc -l)"; }
proofs() { git ls-tree -r --name-only "$at" crates | grep -E "proofs/.*/$1\.antt" | while read -r file; do git show "$at:$file"; done; }

lines '1 enums of the shape of Option or Result' '^pub enum (Reading|Place|DenseRule) '
lines '1 a test, and beside it the value that it is asked for' 'fn (multiplier_wrong|dense_rule|count_wrong|column_count|sizes_wrong|is_outside)\b'
lines '1 fields of the memory by number' '^pub const [A-Z]+: usize'
lines '1 answers compared by number' 'answer_number\(|number < 2'
lines '1 classes of rows by number' 'fn class_of|thread\(s, n, [012]\)|class_of\(s, n, j\) == c'
lines '1 n where there is none' 'put_parent\(s, n, [a-z]+, n\)|p\.me < n|fn parent\(|fn find_pivot|me: n, degree'
lines '1 0 where there is none, or no; 1 for yes' 'pub mark: usize|pub collected: usize'
lines '2 functions with a twin, or that the library has' 'fn (get|look|set|note|rd|tab|up|put|load|load32|peek|row_at|poke|put32|lists_room|scratch_room|print_statistics|output_cells|list_cells|scratch_cells|number_cells|text_bytes|case_bytes|all_are|all_as_filled|larger|smaller|pair_above|meet_above|order_probe)\b'
lines '3 loops that count by hand' "^ *('[a-z]+: )?(while |loop )|count - 1 - t|n - 1 - k"
lines '4 conversion, order and printing by hand' 'fn (answer_number|larger|smaller|less|print_[a-z]+|put_statistics)\b'
lines '4 fields copied one by one' '^ +([a-z_]+): ([a-z]+\.)?\1,$'
lines '5 clauses with Room or Rows' 'Room n|Rows n'
lines '5 clauses with Brief, Slight, Few, Small, Bounded' '(requires|ensures).*\b(Brief|Slight|Few|Small|Bounded)\b'
lines '5 parameters s, a slice' '\bs: &(mut )?\[i64\]'
lines '5 parameters lists, a slice' 'lists: &(mut )?\[i64\]'
lines '5 parameters aggressive, beside me and flag' '^ +aggressive: bool,$|flag: usize, aggressive'
lines '6 arrays of a fixed size' '\[[a-zA-Z0-9]+; [A-Z0-9_]+\]'
lines '7 closures, dyn, function pointers' 'Fn(Once|Mut)?\(|dyn |: fn\('
printf '%-58s %s\n' '8 answers' "$(proofs Answers | grep -c '^pub .* : goal')"
printf '%-58s %s\n' '8 lines of answers and invariants' "$(proofs '(Answers|Invariants)' | wc -l)"
