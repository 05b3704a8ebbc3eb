#!/bin/sh
# Holds the ways to fix an order to the outputs of examples/, for each script without steps:
# - examples/in-order.awk: without an order each task's calls come in theirs, task by task; with the order of the replies of a run, that run's
#   replies come again, in that order;
# - tools/orders: each call has as many replies as there were orders, and each is one that the .out file has for it.
# Then inputs that can't be read: they are told, and nothing is printed. A line for each failure, then a count.
. "$(dirname "$0")/counting"

replies() {
    grep -E '^(done|changed) ' "$1"
}

# The task and the number of each call of a script, in its order.
calls() {
    awk '/^#/ || NF == 0 { next }
        task == "" && $1 == "task" { task = $2; line = 0; next }
        task != "" && $1 == "end" { task = ""; next }
        task != "" { print task, ++line }' "$1"
}

goes_task_by_task() {
    awk -f examples/in-order.awk "$1" >"$folder/stepped" && ./macsim --proved step <"$folder/stepped" >"$folder/history" || return 1
    calls "$1" >"$folder/calls"
    replies "$folder/history" | awk '{ print $2, $3 }' | cmp -s - "$folder/calls"
}

comes_again() {
    ./macsim --proved run <"$1" >"$folder/history" || return 1
    replies "$folder/history" >"$folder/wanted"
    order=$(awk '{ print $2 }' "$folder/wanted")
    awk -v order="$(echo $order)" -f examples/in-order.awk "$1" >"$folder/stepped" && ./macsim --proved step <"$folder/stepped" >"$folder/history" || return 1
    replies "$folder/history" | cmp -s - "$folder/wanted"
}

# Whether the counts of each call make up the orders, and each reply is one of the output's.
are_replies() {
    tools/orders --count 4 "$1" >"$folder/counts" || return 1
    awk '
        function settle() { if (call != "" && sum != 4) bad = 1; sum = 0 }
        FILENAME == ARGV[1] {
            if ($1 != "done" && $1 != "changed") next
            key = $2 " " $3
            sub(/^[a-z]+ [^ ]+ [^ ]+ /, "")
            count = split($0, choice, / \| /)
            for (i = 1; i <= count; i++) expected[key, choice[i]] = 1
            wanted++
            next
        }
        /^orders 4, / { settle(); call = ""; last = 1; next }
        /^[^ ]/ { settle(); call = $1 " " $2; found++; next }
        { sum += $1; sub(/^ +[0-9]+ /, ""); if (!((call, $0) in expected)) bad = 1 }
        END { exit bad || !last || found != wanted }' "${1%.macsim}.out" "$folder/counts"
}

# Whether both replies of an example are found, twice alike, and as docs/MANUAL.md shows them.
finds_both() {
    tools/orders --differing examples/10-two-tasks.macsim >"$folder/counts" && [ "$(wc -l <"$folder/counts")" -eq 4 ] || return 1
    sed 's/^/    /' "$folder/counts" | while IFS= read -r line; do grep -qxF -e "$line" docs/MANUAL.md || exit 1; done || return 1
    tools/orders --differing examples/10-two-tasks.macsim | cmp -s - "$folder/counts"
}

# Whether the command ends with that status, prints nothing, and tells the text on the standard error.
refuses() {
    status=$1 text=$2
    shift 2
    "$@" >"$folder/printed" 2>"$folder/told"
    [ "$?" -eq "$status" ] && [ ! -s "$folder/printed" ] && grep -qF -e "$text" "$folder/told"
}

for script in examples/*.macsim; do
    ! has_steps "$script" || continue
    check "task by task: $script" goes_task_by_task "$script"
    check "an order again: $script" comes_again "$script"
    [ ! -e "${script%.macsim}.out" ] || check "random orders: $script" are_replies "$script"
done
check 'the same seed finds the same' finds_both

two=examples/10-two-tasks.macsim
stepped=examples/34-loader-waits.macsim
printf 'task t uid 0 gid 0 label -\nkldstat\n' >"$folder/unended"
printf 'task t uid 0 gid 0 label -\nend\ntask t uid 0 gid 0 label -\nend\n' >"$folder/twice"
printf 'task t uid 0 gid 0 label -\nugidfw add x\nend\n' >"$folder/bad_rule"
printf 'macsim: script line 2 fault 7 BadRule\n' >"$folder/fault"
printf 'boot mac_biba 0\nhello\n' >"$folder/no_history"
printf 'task t uid 0 gid 0 label -\r\nend\r\n' >"$folder/carriage_returns"
head -n 3 examples/01-plainest-denial.out >"$folder/cut_off"
check 'in-order: steps' refuses 1 'line 10: ' awk -f examples/in-order.awk "$stepped"
check 'in-order: no end' refuses 1 'line 3: ' awk -f examples/in-order.awk "$folder/unended"
check 'in-order: no task' refuses 1 'no task' awk -f examples/in-order.awk /dev/null
check 'in-order: a name twice' refuses 1 'line 3: ' awk -f examples/in-order.awk "$folder/twice"
check 'in-order: a carriage return' refuses 1 'line 1: ' awk -f examples/in-order.awk "$folder/carriage_returns"
check 'in-order: no such task' refuses 1 'no task x' awk -v order='writer x' -f examples/in-order.awk "$two"
check 'in-order: one call too many' refuses 1 'no more than 1 calls' awk -v order='writer writer' -f examples/in-order.awk "$two"
check 'orders: steps' refuses 1 'line 10: ' tools/orders "$stepped"
check 'orders: no end' refuses 1 'line 3: ' tools/orders "$folder/unended"
check 'orders: a rule that is none' refuses 1 'script line 2 fault 7 BadRule' tools/orders "$folder/bad_rule"
check 'orders: no file' refuses 1 'nowhere' tools/orders "$folder/nowhere"
for recipe in sources steps; do
    check "$recipe: a fault" refuses 1 'macsim: script line 2 fault 7 BadRule' awk -f "examples/$recipe.awk" "$folder/fault"
    check "$recipe: no history" refuses 1 'line 2 is none of a history' awk -f "examples/$recipe.awk" "$folder/no_history"
done
check 'steps: a history that is cut off' refuses 1 "isn't whole" awk -f examples/steps.awk "$folder/cut_off"
grep -v '^source' examples/01-plainest-denial.out >"$folder/without_sources"
grep -v '^enter' examples/01-plainest-denial.out >"$folder/without_enter"
for recipe in sources steps; do
    check "$recipe: without sources" refuses 1 "isn't whole" awk -f "examples/$recipe.awk" "$folder/without_sources"
done
check 'steps: a line that is left out' refuses 1 'line 2 may not come here' awk -f examples/steps.awk "$folder/without_enter"
check 'steps: no history' refuses 1 'there is no history' awk -f examples/steps.awk /dev/null
check 'sources: no sources' refuses 1 'there are no sources' awk -f examples/sources.awk examples/38-twelve-rules.out
check 'steps: a history of steps' refuses 1 'line 3 is of macsim step' awk -f examples/steps.awk examples/34-loader-waits.out

print_count
