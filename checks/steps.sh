#!/bin/sh
# Runs each script of examples/ that has no steps, makes steps of its history by examples/steps.awk, and takes them: they print the same
# history again, with the same sources. A line for each failure, then a count.
cd "$(dirname "$0")/.." || exit 1
./macsim --proved run </dev/null >/dev/null || exit 1
folder=$(mktemp -d) || exit 1
trap 'rm -rf "$folder"' EXIT
passed=0
failed=0

# Whether the history of a run of the script is made again by its steps.
is_made_again() {
    ./macsim --proved run <"$1" >"$folder/history" || return 1
    { cat "$1"; echo; awk -f examples/steps.awk "$folder/history"; } >"$folder/stepped"
    ./macsim --proved step <"$folder/stepped" >"$folder/printed" && cmp -s "$folder/printed" "$folder/history"
}

for script in examples/*.macsim; do
    ! grep -q '^[[:blank:]]*steps[[:blank:]]*$' "$script" || continue
    if is_made_again "$script"; then
        passed=$((passed + 1))
    else
        failed=$((failed + 1))
        echo "$script: the steps of its history give another one"
    fi
done
echo "$passed passed, $failed failed"
[ "$failed" -eq 0 ] && [ "$passed" -gt 0 ]
