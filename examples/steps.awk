# Prints a steps part that makes the history of a `run` again: behind the history's script, with `macsim step`, it gives the same lines. What
# is no such history, as the fault of a script, and one that is cut are told on the standard error, with status 1, and nothing is printed; but
# where none of mac_biba, mac_mls and mac_lomac was booted a history has no sources, so a cut between two calls isn't seen. It isn't proved;
# checks/steps.sh compares the two histories.
function stop(why) {
    print why > "/dev/stderr"
    failed = 1
    exit 1
}
# Whether a line may come now. Of a task that is in the kernel `open` is 1, and 2 once its call is done.
function may_come() {
    if (told && $1 != "source") return 0
    if ($1 == "enter") return NF == 2 && !($2 in open)
    if ($1 == "done") return NF > 3 && open[$2] == 1
    if ($1 == "leave") return NF == 2 && open[$2] == 2
    if ($1 == "changed") return NF > 3 && inside == 0
    if ($1 == "source") return NF == 4 && inside == 0
    return $1 == "boot" && count == 0
}
/^macsim:/ { stop($0) }
$1 ~ /^(waits|stale)$/ { stop("steps.awk: line " NR " is of macsim step, whose script has its steps: " $0) }
/[^ -~]/ || $1 !~ /^(boot|enter|done|leave|changed|source)$/ { stop("steps.awk: line " NR " is none of a history: " $0) }
!may_come() { stop("steps.awk: line " NR " may not come here: " $0) }
$1 == "boot" && $2 ~ /^mac_(biba|mls|lomac)$/ { booted[substr($2, 5)] }
$1 == "source" { told++; sources[$2]++ }
$1 == "enter" { open[$2] = 1; inside++ }
$1 == "done" { open[$2] = 2 }
$1 == "leave" { delete open[$2]; inside-- }
$1 == "enter" || $1 == "leave" { step[++count] = $1 " " $2 }
$1 == "done" { step[++count] = "plan " $2 "\ndone " $2 }
$1 == "changed" { step[++count] = "change " $2 }
END {
    if (failed) exit 1
    if (NR == 0) stop("steps.awk: there is no history")
    for (task in open) stop("steps.awk: the history isn't whole, it ends while " task " is in the kernel")
    for (policy in booted) if (!sources[policy]) stop("steps.awk: the history isn't whole, it ends before the sources of mac_" policy)
    print "steps"
    for (i = 1; i <= count; i++) print step[i]
    print "end"
}
