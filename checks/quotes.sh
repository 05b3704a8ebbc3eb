#!/usr/bin/env bash
# Each indented line of docs/THEOREM.md quotes a clause or a definition: it stands so, but for its indentation, in the files that are quoted.
set -u
cd "$(dirname "$0")/.." || exit 1

sources="crates/mf_top/src/top.rt crates/mf_top/specs/Answers.antt crates/mf_top/specs/Runs.antt crates/mf_top/specs/Reading.antt crates/mf_top/specs/Slots.antt crates/mf_top/specs/Tellings.antt
  crates/mf_core/specs/LegalHistory.antt crates/mf_spelling/specs/Spelling.antt"

quoted=0
missing=0
while IFS= read -r line; do
  quoted=$((quoted + 1))
  if ! sed 's/^ *//' $sources | grep -qxF -e "$line"; then
    echo "docs/THEOREM.md quotes what isn't there: $line"
    missing=$((missing + 1))
  fi
done < <(sed -n 's/^    *\([^ ]\)/\1/p' docs/THEOREM.md)

echo "quotes: $quoted lines, $missing missing"
[ "$quoted" -gt 0 ] && [ "$missing" -eq 0 ]
