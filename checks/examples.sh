#!/bin/sh
# Runs each script of examples/, and compares what is printed with the .out file beside it; a picture of its sources with the .dot file, where
# there is one; what `matrix` and `chains` write behind that with the .matrix and the .chains file, and what `why all` does with the .why file, where there are
# such, and `why` with that file without its lines `let`; and the replies with the
# comments `#=` in it, by tools/expect. Each script has an .out file or such comments. A script with steps is run by them, by the word `step`, and its text
# is always the same. Without them the text of a script in which several tasks call depends on their order: it is run several times, and of each run is compared what
# holds in every order. Then examples/README.md lists all of them, in their order, and no other. A line for each failure, then a count.
cd "$(dirname "$0")/.." || exit 1
./macsim --proved run </dev/null >/dev/null || exit 1
printed=$(mktemp) && told=$(mktemp) || exit 1
trap 'rm -f "$printed" "$told"' EXIT
expects='^[[:blank:]]*#='
passed=0
failed=0

# Prints the lines of a history task by task, in the script's order, and then the sources, sorted.
by_task() {
    grep '^boot ' "$2"
    awk '$1 == "task" { print $2 }' "$1" | while read -r task; do
        awk -v task="$task" '$1 ~ /^(enter|done|leave|changed)$/ && $2 == task' "$2"
    done
    grep '^source ' "$2" | LC_ALL=C sort
}

# Whether each line is that of the file, or, but for its first three words, one of those that " | " parts there.
agrees() {
    awk -v expected="$1" '
        {
            if ((getline line <expected) <= 0) { bad = 1; exit }
            split(line, word, " ")
            front = word[1] " " word[2] " " word[3] " "
            found = 0
            count = split(line, choice, / \| /)
            for (i = 1; i <= count; i++) if ($0 == (i == 1 ? "" : front) choice[i]) found = 1
            if (!found) { bad = 1; exit }
        }
        END { if ((getline line <expected) > 0) bad = 1; exit bad }'
}

has_steps() {
    grep -q '^[[:blank:]]*steps[[:blank:]]*$' "$1"
}

# The word that brings the calls of the script into their order.
order_of() {
    if has_steps "$1"; then echo step; else echo run; fi
}

# How many tasks of the script have calls.
callers() {
    awk '
        $1 == "task" { open = 1; next }
        $1 == "end" || $1 == "steps" { open = 0 }
        open && NF && $1 !~ /^#/ { open = 0; count++ }
        END { print count + 0 }' "$1"
}

# Whether the script's text is always the same.
is_settled() {
    has_steps "$1" || [ "$(callers "$1")" -le 1 ]
}

is_as_expected() {
    ./macsim --proved "$(order_of "$1")" <"$1" >"$printed" || return 1
    if is_settled "$1"; then
        cmp -s "$printed" "${1%.macsim}.out"
    else
        by_task "$1" "$printed" >"$told"
        [ "$(wc -l <"$told")" -eq "$(wc -l <"$printed")" ] && agrees "${1%.macsim}.out" <"$told"
    fi
}

is_drawn() {
    [ ! -e "${1%.macsim}.dot" ] || awk -f examples/sources.awk "$printed" | cmp -s - "${1%.macsim}.dot"
}

# Whether each of two words more writes behind the text of the .out file what is in the file with its name, where there is one.
goes_on() {
    for word in matrix chains; do
        further=${1%.macsim}.$word
        [ ! -e "$further" ] || cat "${1%.macsim}.out" "$further" >"$told"
        [ ! -e "$further" ] || ./macsim --proved "$(order_of "$1")" "$word" <"$1" | cmp -s - "$told" || return 1
    done
}

# Whether `why` and `why all` write behind the text of the .out file what is in the .why file, where there is one.
tells_why() {
    told_why=${1%.macsim}.why
    [ -e "$told_why" ] || return 0
    cat "${1%.macsim}.out" "$told_why" >"$told"
    ./macsim --proved "$(order_of "$1")" why all <"$1" | cmp -s - "$told" || return 1
    grep -v '^let ' "$told_why" | cat "${1%.macsim}.out" - >"$told"
    ./macsim --proved "$(order_of "$1")" why <"$1" | cmp -s - "$told"
}

# Whether a script with an .out file prints what is there, in each of several runs where they may differ.
is_as_printed() {
    for run in 1 2 3 4 5; do
        is_as_expected "$1" && is_drawn "$1" && goes_on "$1" && tells_why "$1" || return 1
        ! is_settled "$1" || return 0
    done
}

is_as_told() {
    tools/expect "$1" >"$told" 2>&1 || { cat "$told"; return 1; }
}

has_one() {
    [ -e "${1%.macsim}.out" ] || grep -q "$expects" "$1"
}

for script in examples/*.macsim; do
    why=
    has_one "$script" || why="there is neither ${script%.macsim}.out nor a comment #="
    [ ! -e "${script%.macsim}.out" ] || is_as_printed "$script" || why="the output is not as in ${script%.macsim}.out"
    ! grep -q "$expects" "$script" || is_as_told "$script" || why="the replies are not as the comments #= tell"
    if [ -z "$why" ]; then
        passed=$((passed + 1))
    else
        failed=$((failed + 1))
        echo "$script: $why"
    fi
done

# The list has a line for each example.
listed() {
    sed -n 's/^- \[\([^]]*\)\](\1\.macsim): ..*/examples\/\1.macsim/p' examples/README.md
}

ls examples/*.macsim >"$printed"
listed >"$told"
if ! cmp -s "$told" "$printed"; then
    failed=$((failed + 1))
    echo "examples/README.md lists other examples than there are:"
    diff "$told" "$printed"
fi
echo "$passed passed, $failed failed"
[ "$failed" -eq 0 ]
