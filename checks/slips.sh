#!/bin/sh
# Tries the lines of docs/ERRORS.md, "Lines of the shell", in the script that is told there: those of the first column have the fault or the
# reply of the second, and those of the last are replied to with ok. Then tools/lint, of which checks/linted.py compares the faults with those of the
# program. A line for each that doesn't, then a count.
. "$(dirname "$0")/counting"

# What is printed of a task with the lines of a file.
replies() {
    {
        printf 'boot mac_biba\nboot mac_partition\nboot mac_bsdextended\nboot mac_portacl\n'
        printf 'file /a reg uid 0 gid 0 mode 644 label -\nfile /d dir uid 0 gid 0 mode 755 label -\ntask t uid 0 gid 0 label -\n'
        cat "$1"
        printf 'end\n'
    } | ./macsim --proved run 2>"$folder/told" | grep -E '^(macsim:|done|changed) '
}

# Whether one line is printed, which ends with the text.
has_ending() {
    [ "$(replies "$1" | sed 's/^macsim: script line 8 //; s/^[a-z]* t 1 //')" = "$2" ]
}

are_ok() {
    replies "$1" >"$folder/replies"
    [ "$(grep -c ' t [0-9]* ok' "$folder/replies")" -eq "$(wc -l <"$1")" ] && ! grep -qv ' t [0-9]* ok' "$folder/replies"
}

sed -n '/^### Lines of the shell/,/^\*\*/s/^| `//p' docs/ERRORS.md >"$folder/rows"
while IFS= read -r row; do
    printf '%s\n' "${row%%\` | *}" >"$folder/pasted"
    rest=${row#*\` | }
    last=${row##* | \`}
    printf '%s\n' "${last%\` |}" | sed 's/`, `/\n/g' >"$folder/corrected"
    check "$(cat "$folder/pasted")" has_ending "$folder/pasted" "${rest%% | *}"
    check "$(cat "$folder/corrected")" are_ok "$folder/corrected"
done <"$folder/rows"

# Whether tools/lint ends with the status over the script on the standard input, and prints what the manual of errors shows.
lints() {
    tools/lint - >"$folder/told"
    [ "$?" -eq "$1" ] && sed 's/^/    /' "$folder/told" | while IFS= read -r line; do grep -qxF -e "$line" docs/ERRORS.md || exit 1; done
}

# Whether it ends with 2, prints nothing, and says this on the standard error.
complains() {
    tools/lint - >"$folder/told" 2>"$folder/errors"
    [ "$?" -eq 2 ] && [ ! -s "$folder/told" ] && grep -qF -e "$1" "$folder/errors"
}

printf 'boot biba\ntask t uid root gid 0 label biba/5\nread a\nend\n' | lints 1 && [ "$(grep -c '^line ' "$folder/told")" -eq 3 ]
count $? "tools/lint tells another text than docs/ERRORS.md"
tools/lint examples/01-plainest-denial.macsim >"$folder/told" && [ "$(cat "$folder/told")" = "0 faults" ]
count $? "tools/lint tells a fault of an example"
head -c 1048577 /dev/zero | complains 'it has more than 1,048,576 bytes'
count $? "tools/lint doesn't tell that a script is too long"
python3 -B checks/linted.py
count $? "tools/lint tells other faults than the program"
print_count
