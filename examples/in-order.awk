# Prints a script with steps behind it, in which one call is whole before the next begins. It isn't proved; checks/orders.sh compares the
# order of the replies that come of it.
#
#     awk -f examples/in-order.awk SCRIPT | ./macsim step
#     awk -v order='root* httpd root httpd*' -f examples/in-order.awk SCRIPT | ./macsim step
#
# Without an order the tasks go one after another, as they stand in the script. In an order a task's name is its next call, and NAME* are all
# that are left of it; what the order doesn't name isn't made. What is wrong is told on the standard error, with status 1, and nothing is printed.

function stop(why) {
    print "in-order.awk: " why > "/dev/stderr"
    failed = 1
    exit 1
}

function add_step(step) {
    steps[++step_count] = step
    if (step_count > 65536) stop("these are more than 65536 steps")
}

# Adds the next call of a task. Changes go by a step of their own.
function add_call(task) {
    if (is_change[task, ++made[task]]) {
        add_step("change " task)
    } else {
        add_step("enter " task)
        add_step("plan " task)
        add_step("done " task)
        add_step("leave " task)
    }
}

function add_calls(word) {
    task = word
    all = sub(/\*$/, "", task)
    if (!(task in calls)) stop("order: the script has no task " task)
    if (!all && made[task] == calls[task]) stop("order: " task " has no more than " calls[task] " calls")
    if (!all) add_call(task)
    while (all && made[task] < calls[task]) add_call(task)
}

{ line[NR] = $0 }
/[^\t -~]/ { stop("line " NR ": it has a byte that may not stand in a script") }
NF == 0 || $1 ~ /^#/ { next }
open == "" && $1 == "steps" { stop("line " NR ": the script has steps already") }
open == "" && $1 == "task" && ($2 in calls) { stop("line " NR ": an earlier task has the name " $2) }
open == "" && $1 == "task" { open = $2; calls[open] = 0; in_script = in_script " " open "*"; next }
open != "" && $1 == "end" { open = ""; next }
open != "" {
    at = ($1 ~ /^@/) ? 2 : 1
    is_change[open, ++calls[open]] = $at ~ /^(kldload|kldunload|sysctl)$/ || ($at == "ugidfw" && $(at + 1) != "list")
}

END {
    if (failed) exit 1
    if (open != "") stop("line " NR + 1 ": task " open " has no end")
    if (in_script == "") stop("the script has no task")
    count = split(order == "" ? in_script : order, word, " ")
    for (i = 1; i <= count; i++) add_calls(word[i])
    for (i = 1; i <= NR; i++) print line[i]
    print "steps"
    for (i = 1; i <= step_count; i++) print steps[i]
    print "end"
}
