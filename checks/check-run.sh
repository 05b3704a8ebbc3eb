#!/bin/sh
# Has `macsim check` judge the texts that `run` prints of the examples and of scripts of sixteen tasks, and 300 of these in which a line is changed,
# left out, doubled or exchanged with the next: it says `yes` to the first, and of the others what the steps of the text say, which `macsim step` takes:
# `no` with the line where they part from it, or `yes` where it is still that of a run. Then tools/check-run by its words. A line for each failure, then a count.
. "$(dirname "$0")/counting"
python3 -B checks/checking.py
count "$?" "check-run: texts of runs"

# Whether the tool ends with the status and prints these lines.
tells() {
    status=$1 lines=$2
    shift 2
    tools/check-run "$@" >"$folder/printed" 2>"$folder/told"
    [ "$?" -eq "$status" ] && [ "$(cat "$folder/printed")" = "$lines" ]
}

script=examples/01-plainest-denial.macsim
text=${script%.macsim}.out
sed 's/ mac_biba 2$/ mac_biba 1/' "$text" >"$folder/other"
head -n 2 "$text" >"$folder/begun"
check 'its own text' tells 0 yes "$script" "$text"
check 'another check' tells 1 "no 3
done t 1 no EACCES vnode_open_read mac_biba 1" "$script" "$folder/other"
check 'a text that is cut' tells 1 'no 3' "$script" "$folder/begun"
check 'no script' tells 2 '' "$text" "$text"
print_count
