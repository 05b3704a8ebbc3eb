#!/bin/sh
# Holds tools/expect to the outputs of examples/: behind each call of a script a comment is written that expects the reply of its .out file, or
# one of those that may come, and all have to be met; and then one that expects the opposite, and none may be met. Then inputs that can't be
# read: they end with 2, and nothing is printed. A line for each failure, then a count.
. "$(dirname "$0")/counting"

# Prints the script $2 with comments behind its calls: the replies of the output $1, or with $3 the opposite of each.
with_comments() {
    awk -v opposite="$3" '
        function tell(reply) {
            if (opposite) reply = reply ~ /^ok/ ? "no" : "ok"
            print "#= " reply
        }
        FILENAME == ARGV[1] {
            if ($1 != "done" && $1 != "changed") next
            key = $2 " " $3
            sub(/^[a-z]+ [^ ]+ [^ ]+ /, "")
            reply[key] = $0
            next
        }
        { print }
        /^#/ || NF == 0 { next }
        task == "" && $1 == "task" { task = $2; line = 0; next }
        task != "" && $1 == "end" { task = ""; next }
        task != "" {
            count = split(reply[task " " ++line], choice, / \| /)
            for (i = 1; i <= count; i++) tell(choice[i])
        }' "$1" "$2"
}

# How many calls of an output have a reply.
replied() {
    grep -cE '^(done|changed) ' "$1"
}

# Whether the replies of the output are met, and their opposites are not, but for a call that may be done or not.
holds() {
    output=${1%.macsim}.out
    with_comments "$output" "$1" '' >"$folder/met"
    with_comments "$output" "$1" opposite >"$folder/unmet"
    [ "$(tools/expect "$folder/met")" = "$(replied "$output") as expected, 0 not" ] || return 1
    ! grep -q ' | ' "$output" || return 0
    tools/expect --runs 1 "$folder/unmet" >"$folder/told"
    [ "$?" -eq 1 ] && [ "$(tail -n 1 "$folder/told")" = "0 as expected, $(replied "$output") not" ]
}

# Whether a script ends with 2 and the text on the standard error.
is_refused() {
    printf "$1" | tools/expect - >"$folder/printed" 2>"$folder/told"
    [ "$?" -eq 2 ] && [ ! -s "$folder/printed" ] && grep -qF "$2" "$folder/told"
}

for script in examples/*.macsim; do
    [ ! -e "${script%.macsim}.out" ] || ! grep -qE '^(done|changed) ' "${script%.macsim}.out" || check "$script" holds "$script"
done
task='task t uid 0 gid 0 label -\n'
check 'nothing is expected' is_refused "${task}kldstat\nend\n" 'nothing is expected'
check 'no reply' is_refused "${task}kldstat\n#= EPERM\nend\n" 'line 3'
check 'behind no call' is_refused "${task}#= ok\nkldstat\nend\n" 'line 2'
check 'behind the end' is_refused "${task}kldstat\nend\n#= ok\n" 'line 4'
check 'a word that is none' is_refused "${task}kldstart\n#= ok\nend\n" 'line 2'
check 'a rule that is none' is_refused "${task}ugidfw add x\n#= ok\nend\n" 'script line 2 fault 7 BadRule'
check 'a step out of turn' is_refused "${task}kldstat\n#= ok\nend\nsteps\nplan t\nend\n" 'step 1 refused'
check 'no end' is_refused "${task}kldstat\n#= ok\n" 'line 4'
print_count
