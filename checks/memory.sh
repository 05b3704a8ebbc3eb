#!/bin/sh
# Refuses the program one allocation after another, and the tests of refused growths too. It takes a
# sample, every 16th, another one each day; `checks/memory.sh --all` takes each, which is half a
# minute's work, and `--every N --from K` every Nth, from number K mod N + 1 on. Needs the kit's clang and
# python3. A line for each script, then a count.
. "$(dirname "$0")/refusing"

tests() {
    echo "crates/$1/out/${1}_tests"
}

# The tests are built before the first of them is run, where the gate hasn't.
build_tests() {
    [ -x "$(tests "$1")" ] || (cd "crates/$1" && rt test) >"$folder/log" 2>&1 || {
        tail "$folder/log"
        exit 1
    }
}

tested=$(grep -rl --include='*.rt' '^fn [a-z_]*after_refused' crates/*/src | cut -d/ -f2 | sort -u)
[ -n "$tested" ] || exit 1
for crate in $tested; do
    build_tests "$crate"
done
python3 -B checks/memory.py --refusing "$refusing" --tested $tested "$@"
