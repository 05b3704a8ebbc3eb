#!/usr/bin/env bash
# Prints the script of a load with macsim_load, and runs it: its replies are those that the summary of `gen` counts.
set -u
cd "$(dirname "$0")/.." || exit 1

folder=$(mktemp -d) || exit 1
trap 'rm -rf "$folder"' EXIT

# The proved program is run, and no other; that which prints the load is built before the first run that counts.
./macsim --proved run </dev/null >/dev/null || exit 1
printer=crates/macsim_load/out/macsim_load
[ -x "$printer" ] || (cd crates/macsim_load && rt run -- 1 1) >"$folder/log" 2>&1 || {
  cat "$folder/log"
  exit 1
}

# The replies of a history, each with how often it came.
replies() {
  awk '$1 == "done" { count[$4 == "no" ? $5 : "ok"]++ } END { for (reply in count) print reply, count[reply] }' | sort
}

failed=0
for load in "1 1" "3 2" "64 4" "200 16"; do
  # shellcheck disable=SC2086
  "$printer" $load >"$folder/script" && ./macsim --proved run <"$folder/script" | replies >"$folder/found"
  # shellcheck disable=SC2086
  ./macsim --proved gen $load | tail -n +2 | sort >"$folder/wanted"
  if ! cmp -s "$folder/found" "$folder/wanted" || ! [ -s "$folder/wanted" ]; then
    echo "loads: gen $load: the script of the load is replied to otherwise"
    diff "$folder/wanted" "$folder/found"
    failed=$((failed + 1))
  fi
done

echo "loads: 4 loads, $failed failed"
[ "$failed" -eq 0 ]
