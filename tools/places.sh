#!/usr/bin/env bash
# Lists the lines of src/ at a commit (HEAD where none is named) among which the places of docs/DESIGN-PASS.md are looked for.
set -euo pipefail
cd "$(dirname "$0")/.."
commit=${1:-HEAD}
src=':(glob)crates/*/src/**'

lines() { git grep -nE "$1" "$commit" -- "$src" | sed 's/^[^:]*:crates.//' || true; }

echo "== 1: functions that answer a yes, a no or a plain number; flags; options turned by hand"
lines 'fn .*-> (bool|u8|u16|u32|usize)\b|^\s*(pub(\(crate\))? )?\w+: bool,|Some\(\w+\) => (Some|Ok)\(|None => (None|Err)'
echo "== 2: names that more than one function has"
git grep -hoE '\bfn \w+' "$commit" -- "$src" | sort | uniq -c | sort -rn | awk '$1 > 1' || true
echo "== 3: loops"
lines '^\s*(for|while|loop)\b'
echo "== 4: comparisons, conversions, printing and bytes of numbers by hand"
lines 'impl[^{]* (PartialEq|Ord|PartialOrd|Clone|Copy) for|fn (number|from_number|from_numbers|name|meaning|mode_word|print_\w+|write_\w+)\b|256 \*|/ 256\)? as|% 256\)? as|>= 1 &&|1 <= '
echo "== 5: facts that several contracts state"
git grep -hE '^\s*(requires|ensures)' "$commit" -- "$src" \
  | grep -oE '[a-z_0-9 +*]* ≤ length out\.old|in_time \(?[a-z_. ]*\)? ≡ true|total ≡ self\.old\.total|drop result out\.old|length result\.now ≤ \w+' \
  | sed 's/^[ (]*//' | sort | uniq -c | sort -rn || true
echo "== 6: arrays"
lines '\[[^]\[]*; *[A-Za-z_0-9 ]+\]'
echo "== 7: matches on a step, a code or an operation; dyn; function pointers"
lines '\bmatch \*?(step|self|code|operation)\b|\bdyn\b|: fn\('
echo "== 8: proof files of functions; lines of proofs/"
git ls-tree -r --name-only "$commit" | grep -cE '/proofs/.*(Answers|Invariants)\.antt$' || true
git ls-tree -r --name-only "$commit" | grep -E '/proofs/.*\.antt$' | while read -r file; do git show "$commit:$file"; done | wc -l
