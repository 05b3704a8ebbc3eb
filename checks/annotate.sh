#!/bin/sh
# Runs each script of examples/ with `why`, and holds tools/annotate to what is printed: without what it adds its text is what was printed, and for each
# denial the number, the operation, the subject and the object of the last of the checks that it derives are those that are printed, and below stands what each policy
# compared that denied it, what has to hold and what helps. Where mac_lomac lowers, the elements that it tells are those that `getpmac` shows before and
# behind each call. Each reason has one row in the manual. Then the whole text of examples, which line made a rule, that of a text without these lines no
# reason is told, and that it says what is wrong with an input, and prints nothing of it. A line for each failure, then a count.
. "$(dirname "$0")/counting"

# Whether below each denial stand its checks, as many as its number says and the last with its operation and its object, the subject and the object of its line
# `denied`, and as many reasons as it has lines `why`, each with what has to hold and what helps. Prints how many denials there are.
derives_the_denials() {
    awk '
        function finish() {
            if (open && !(derived && asked == subject[key] && about == object[key] && reasons == whys[key] && held == reasons && helped == reasons)) {
                print "not explained: " key
                bad = 1
            }
        }
        FILENAME == ARGV[1] {
            if ($1 == "denied") { subject[$2 " " $3] = $6; object[$2 " " $3] = $7 }
            if ($1 == "why") whys[$2 " " $3]++
            next
        }
        /^[a-z]/ {
            finish()
            open = $4 == "no" && $8 ~ /^[0-9]+$/
            key = $2 " " $3
            operation = $6
            check = $8
            derived = reasons = held = helped = 0
            denials += open
        }
        /^    checks: / {
            number = split(substr($0, 13), checks, ", ")
            split(checks[number], last, " ")
            derived = number == check && last[1] == check && last[2] == operation && last[3] == object[key]
        }
        /^    subject: / { asked = $2 }
        /^    object: / { about = $2 }
        /^    (mac_[a-z]+ (decides|denies too)|nobody grants it), E[A-Z]+: / { reasons++ }
        /^    has to hold: ./ { held++ }
        /^    helps: ./ { helped++ }
        END { finish(); print denials + 0; exit bad }' "$1" "$2"
}

is_explained() {
    run_why "$1" && tools/annotate "$1" "$folder/history" >"$folder/told" || return 1
    sed 's/    .*//; /^$/d' "$folder/told" | cmp -s - "$folder/history" || return 1
    found=$(derives_the_denials "$folder/history" "$folder/told") || return 1
    [ "$found" -eq "$(grep -c '^[cd].* no E.* [0-9][0-9]*$' "$folder/history")" ] || return 1
    denials=$((denials + found))
}

# Whether the tool prints what stands on the standard input.
prints() {
    cat >"$folder/expected"
    tools/annotate "$@" >"$folder/told" && cmp -s "$folder/told" "$folder/expected"
}

# Whether the tool ends with a failure, prints nothing, and says this on the standard error.
complains() {
    said=$1
    shift
    ! tools/annotate "$@" >"$folder/told" 2>"$folder/errors" && [ ! -s "$folder/told" ] && grep -qF -e "$said" "$folder/errors"
}

denials=0
for script in examples/*.macsim; do
    is_explained "$script"
    count $? "$script: a line isn't as in the history, or a denial isn't explained"
done

# Prints a script in which each process shows its label behind each of its calls.
showing() {
    awk '
        { print }
        $1 == "task" { open = 1; next }
        $1 == "end" { open = 0 }
        open && NF && $1 !~ /^#/ && $NF != "exit" { print ($1 ~ /^@/ ? $1 " " : "") "getpmac" }' "$1"
}

# Whether each process goes from the element that it showed last to the one that it shows, by the lowerings between alone. Prints how many these are.
lowers_as_shown() {
    awk '
        /^done/ {
            call = $0
            sub(/.*# line [0-9]*: /, "", call)
            process = $2 (call ~ /^@/ ? substr(call, 1, index(call, " ")) : "")
            last = split(call, words, " ")
            if (call ~ /setpmac /) known[process] = ""
            if (call ~ /fork /) known[$2 "@" words[last] " "] = ""
        }
        /^    lowered: / {
            if (known[process] != "" && known[process] != $6) { print "lowered from " $6 ": " call; bad = 1 }
            known[process] = $8
            count++
        }
        /^done/ && call ~ /getpmac$/ && match($6, /lomac\/[a-z0-9]*/) {
            shown = substr($6, RSTART, RLENGTH)
            if (known[process] != "" && known[process] != shown) { print "not told: " known[process] " to " shown; bad = 1 }
            known[process] = shown
        }
        END { print count + 0; exit bad || !count }'
}

# Whether what lowers in an example is told.
tells_what_lowers() {
    showing "$1" >"$folder/showing" && awk -f examples/in-order.awk "$folder/showing" >"$folder/stepped" && run_why "$folder/stepped" || return 1
    tools/annotate "$folder/stepped" "$folder/history" >"$folder/told" && lowers_as_shown <"$folder/told" >"$folder/count"
}
for script in $(grep -l '^boot mac_lomac' examples/*.macsim); do
    has_steps "$script" || check "what lowers in $script" tells_what_lowers "$script"
done

# Whether a call of an example, by its beginning in the history, is explained by the lines on the standard input.
explains() {
    cat >"$folder/expected"
    tools/annotate "$2" "$folder/history" | grep -A"$(($(wc -l <"$folder/expected") - 1))" -m1 "^$1" | cmp -s - "$folder/expected"
}

# The process is named as it is, and what it was compared by as the look-ups before have lowered it.
script=examples/45-lowered-and-denied.macsim
run_why "$script"
explains 'done t 2 ' "$script" <<'END'
done t 2 no EACCES vnode_open_write mac_lomac 3    # line 9: write /pub/f x
    lowered: check 2 proc:t from lomac/9 to lomac/5 by vnode:/pub
    checks: 1 vnode_lookup vnode:/, 2 vnode_lookup vnode:/pub, 3 vnode_open_write vnode:/pub/f
    subject: proc:t
    object: vnode:/pub/f
    mac_lomac decides, EACCES: modify subject 5 object 9
    has to hold: the subject's element dominates the object's: no write up
    helps: label vnode:/pub/f lomac/5 or lower; or let a process of lomac/9 or higher do it
END
count $? "$script: another text of a denial after a lowering"
script=examples/61-four-deny-one-signal.macsim
run_why "$script"
explains 'done t 2 ' "$script" <<'END'
done t 2 no ESRCH proc_signal mac_biba 1    # line 11: signal u
    checks: 1 proc_signal proc:u
    subject: proc:t
    object: proc:u
    mac_mls denies too, EACCES: modify subject 5 object low
    has to hold: the object's element dominates the subject's: no write down
    helps: label proc:u mls/5; or let a process of mls/low do it
    mac_biba decides, ESRCH: observe subject high object 5
    has to hold: the object's element dominates the subject's: no read down
    helps: label proc:u biba/high; or let a process of biba/5 do it
    mac_seeotheruids denies too, ESRCH: user subject 1001 object 1002
    has to hold: both have the same real uid, or a setting lets the subject see others (Other users)
    helps: nothing, where users are to be kept apart; else a process of uid 1002, or a setting, as that of a group that sees all
    mac_partition denies too, ESRCH: partition subject 3 object 4
    has to hold: the subject is in no partition, or in the object's
    helps: nothing, where proc:u is to be hidden; else both in one partition, or a process in none
END
count $? "$script: another text of four that deny"

# The rule that decides, the others with first match off, and the lines that made them; and the rules that gave.
script=examples/38-twelve-rules.macsim
run_why "$script" all
explains 'done guest 2 ' "$script" <<'END'
done guest 2 no EACCES vnode_open_write mac_bsdextended 3    # line 40: write /www/tool z
    checks: 1 vnode_lookup vnode:/, 2 vnode_lookup vnode:/www, 3 vnode_open_write vnode:/www/tool
    subject: proc:guest
    object: vnode:/www/tool
    mac_bsdextended decides, EACCES: rule 8 wants w gives rsx
    rule 8: line 18: ugidfw add subject object suid mode rsx
    has to hold: the rule that decides gives every letter that is wanted
    helps: give rule 8 the letters w, by ugidfw set 8; or, with first match on, set a rule that gives them under a lesser number, where there is one. With first match off each rule that is told has to give them. Where rule 8 was meant for files and matches a directory on the way: type r in it
END
count $? "$script: another text of a rule that decides"
explains 'done httpd 6 ' "$script" <<'END'
done httpd 6 no EACCES vnode_open_read mac_bsdextended 3    # line 30: read /www/key
    checks: 1 vnode_lookup vnode:/, 2 vnode_lookup vnode:/www, 3 vnode_open_read vnode:/www/key
    subject: proc:httpd
    object: vnode:/www/key
    mac_bsdextended decides, EACCES: rule 3 wants r gives n
    rule 3: line 13: ugidfw add subject uid 80 object gid 777 mode n
    and rule 11 wants r gives n
    rule 11: line 21: ugidfw add subject object type r mode n
    has to hold: the rule that decides gives every letter that is wanted
    helps: give rule 3 the letters r, by ugidfw set 3; or, with first match on, set a rule that gives them under a lesser number, where there is one. With first match off each rule that is told has to give them. Where rule 3 was meant for files and matches a directory on the way: type r in it
END
count $? "$script: another text of rules that deny by themselves"
awk '
    $1 == "denied" { printf "%s%s %s:", (open++ ? "\n" : ""), $2, $3 }
    $1 == "why" { printf " %s", $8 }
    $1 == "also" { printf " %s", $6 }
    END { print "" }' "$folder/history" >"$folder/numbers"
cmp -s - "$folder/numbers" <<'END'
httpd 2: 4
httpd 3: 3
httpd 4: 1
staff 1: 7
staff 2: 8
guest 2: 8
guest 3: 11
httpd 6: 3 11
staff 4: 5
END
count $? "$script: other rules are told"

script=examples/01-plainest-denial.macsim
run "$script"
cp "$folder/history" "$folder/plain"
run_why "$script"
cp "$folder/history" "$folder/whole"
prints "$script" "$folder/whole" <<'END'
boot mac_biba 0    # line 2: boot mac_biba
enter t    # line 5: read /a
done t 1 no EACCES vnode_open_read mac_biba 2    # line 5: read /a
    checks: 1 vnode_lookup vnode:/, 2 vnode_open_read vnode:/a
    subject: proc:t
    object: vnode:/a
    mac_biba decides, EACCES: observe subject high object low
    has to hold: the object's element dominates the subject's: no read down
    helps: label vnode:/a biba/high or higher; or let a process of biba/low or lower do it
leave t    # line 5: read /a
source biba vnode:/ high
source biba vnode:/a low    # line 3: file /a reg uid 0 gid 0 mode 644 label biba/low text hi
source biba proc:t high    # line 4: task t uid 0 gid 0 label biba/high
denied t 1 2 vnode_open_read proc:t vnode:/a
why t 1 mac_biba decides EACCES observe subject high object low
END
count $? "$script: another text"
tools/annotate "$script" "$folder/plain" | sed -n '/ no E/,/^leave/p' >"$folder/told"
cmp -s - "$folder/told" <<'END'
done t 1 no EACCES vnode_open_read mac_biba 2    # line 5: read /a
    checks: 1 vnode_lookup vnode:/, 2 vnode_open_read vnode:/a
    subject: proc:t
    object: vnode:/a
    why: not told here; `macsim run why` and `macsim step why` tell it
leave t    # line 5: read /a
END
count $? "$script: a reason is told that nobody printed"

# The lines that the documents show are what is printed.
quotes() {
    sed 's/^/    /' "$folder/told" >"$folder/shown"
    while IFS= read -r line; do grep -qxF -e "$line" "$1" || return 1; done <"$folder/shown"
}
tools/annotate "$script" "$folder/whole" | sed -n '/ no E/,/^leave/p' | grep -v '^leave' >"$folder/told"
quotes docs/MANUAL.md
count $? "docs/MANUAL.md shows another denial explained"
sed -i 1,4d "$folder/told"
grep -E '^(denied|why) ' "$folder/whole" >"$folder/lines"
quotes README.md && sed 's/^/    /' "$folder/lines" | grep -cxF -f - README.md >"$folder/count" && [ "$(cat "$folder/count")" -eq 2 ]
count $? "README.md shows another denial explained"
sed 's/^/      /' examples/61-four-deny-one-signal.why | head -n 5 | grep -cxF -f - docs/MANUAL.md >"$folder/count" && [ "$(cat "$folder/count")" -eq 5 ]
count $? "docs/MANUAL.md shows other lines of four that deny"

# Parts of a history.
grep ' no E' "$folder/whole" >"$folder/part"
complains "line 1: it doesn't begin with the boot lines" "$script" "$folder/part"
count $? "a part of a history isn't told"
prints --part "$script" "$folder/part" <<'END'
done t 1 no EACCES vnode_open_read mac_biba 2    # line 5: read /a
    checks: unknown
    subject: unknown
    object: unknown
    why: not told here; `macsim run why` and `macsim step why` tell it
END
count $? "$script: another text of a part"
grep -E ' no E|^(denied|why) ' "$folder/whole" >"$folder/part"
prints --part "$script" "$folder/part" <<'END'
done t 1 no EACCES vnode_open_read mac_biba 2    # line 5: read /a
    checks: unknown
    subject: proc:t
    object: vnode:/a
    mac_biba decides, EACCES: observe subject high object low
    has to hold: the object's element dominates the subject's: no read down
    helps: label vnode:/a biba/high or higher; or let a process of biba/low or lower do it
denied t 1 2 vnode_open_read proc:t vnode:/a
why t 1 mac_biba decides EACCES observe subject high object low
END
count $? "$script: another text of a part with its reasons"

# What is wrong with an input.
sed '3s/vnode_open_read mac_biba 2/vnode_lookup mac_biba 2/' "$folder/whole" >"$folder/other"
complains "other line 3: it doesn't belong to this script: check 2 of line 5 \`read /a\` isn't vnode_lookup" "$script" "$folder/other"
count $? "a check that can't be isn't told"
head -n 2 "$folder/whole" >"$folder/cut"
complains 'cut line 3: it ends before the calls of the script do' "$script" "$folder/cut"
count $? "a history that is cut isn't told"
head -n 4 "$folder/whole" >"$folder/cut"
complains 'cut line 5: it ends before its sources do' "$script" "$folder/cut"
count $? "that the sources are cut off isn't told"
head -n 8 "$folder/whole" >"$folder/cut"
complains "cut line 8: the lines of \`why\` don't tell of \`done t 1 no EACCES vnode_open_read mac_biba 2\`" "$script" "$folder/cut"
count $? "that a reason is cut off isn't told"
for change in '9s/mac_biba/mac_mls/' '9s/decides/also/' '9s/EACCES/ENOENT/' '8s/a$/b/' '8s/proc:t/proc:u/' '8s/t 1 2/t 1 1/' '8s/open_read/read/'; do
    sed "$change" "$folder/whole" >"$folder/other"
    complains "other line 8: the lines of \`why\` don't tell of" "$script" "$folder/other"
    count $? "a reason of another denial isn't told: $change"
done
sed '8s/t 1 /t 2 /; 9s/t 1 /t 2 /' "$folder/whole" >"$folder/other"
complains "other line 3: the lines of \`why\` don't tell of" "$script" "$folder/other"
count $? "a denial without reasons isn't told"
{ cat "$folder/whole"; sed -n '8,9s/t 1 /t 2 /p' "$folder/whole"; } >"$folder/other"
complains 'other line 10: there is no such call in the history' "$script" "$folder/other"
count $? "a reason without a denial isn't told"
sed 8d "$folder/whole" >"$folder/other"
complains 'other line 8: the line before this is lacking' "$script" "$folder/other"
count $? "a reason without its line isn't told"
sed 's/^why t 1 /why t one /' "$folder/whole" >"$folder/other"
complains "other line 9: no line of \`why\`" "$script" "$folder/other"
count $? "a line that is none isn't told"
sed 2d "$folder/whole" >"$folder/other"
complains "other line 2: it doesn't belong to this script: \`done t 1 no EACCES vnode_open_read mac_biba 2\` may not come here" "$script" "$folder/other"
count $? "a line that isn't there isn't told"
sed '3s/t 1/t 11111111111111111111/' "$folder/whole" >"$folder/other"
complains 'other line 3: ' "$script" "$folder/other"
count $? "a number that is too long isn't told"
sed "3s/t 1/$(printf 't\351 1')/" "$folder/whole" >"$folder/other"
complains 'other line 3: it has a byte' "$script" "$folder/other"
count $? "a byte that no history has isn't told"
complains "line 1: it doesn't belong to this script: there is no task u" --part "$script" - <<'END'
enter u
END
count $? "a part of another script's history isn't told"
! tools/annotate "$script" "$folder/whole" >/dev/full 2>"$folder/errors" && [ "$(wc -l <"$folder/errors")" -eq 1 ]
count $? "that the output can't be written isn't told"
echo 'macsim: script line 2 fault 2 UnknownWord' >"$folder/fault"
complains 'macsim printed no history' "$script" "$folder/fault"
count $? "the text of an error isn't told"
sed 's/^read/raed/' "$script" >"$folder/faulty"
complains "faulty line 5: there is no call \`raed\`" "$folder/faulty" "$folder/whole"
count $? "a fault of the script isn't told"

# Each reason has its row in the manual, and each row its reason.
python3 -B checks/why_table.py
count $? "the manual has other rows than there are reasons"

echo "$denials denials"
[ "$denials" -gt 0 ] && print_count
