#!/bin/sh
# Runs the script ./macsim, which runs the program: its status and standard output are the program's, and on the standard error there is a
# line where the status isn't 0. Then its own words: help, the version, and a file behind the program's words; and what it says at a terminal.
# What it does where the program has to be built is for checks/building.sh. A line for each failure, then a count.
. "$(dirname "$0")/counting"
script=examples/01-plainest-denial.macsim

# Whether a run over this input with these words ends with the status and tells the line.
tells() {
    status=$1 input=$2 line=$3
    shift 3
    ./macsim "$@" <"$input" >"$folder/printed" 2>"$folder/told"
    [ "$?" -eq "$status" ] && [ "$(cat "$folder/told")" = "$line" ] && crates/macsim/out/macsim "$@" <"$input" | cmp -s - "$folder/printed"
}

fails_to_write() {
    ./macsim run <"$script" >/dev/full 2>"$folder/told"
    [ "$?" -eq 5 ] && [ "$(cat "$folder/told")" = "macsim: status 5, the output couldn't be written: docs/ERRORS.md, Input, output and memory" ]
}

# Whether the words are answered with 0, and nothing is told.
answers() {
    ./macsim "$@" </dev/null >"$folder/printed" 2>"$folder/told" && [ ! -s "$folder/told" ]
}

# Whether help has a line for each of the program's words and each tool, and tells where the manual is.
helps() {
    answers "$1" || return 1
    for word in run 'run why' 'run why all' 'run matrix' 'run chains' step matrix chains check 'gen N T' --unproved --proved --path --version; do
        grep -qE "^ *(\./macsim )?$word " "$folder/printed" || return 1
    done
    for tool in tools/*; do
        [ -d "$tool" ] || [ ! -x "$tool" ] || grep -q "^ *$tool " "$folder/printed" || return 1
    done
    grep -qF docs/MANUAL.md "$folder/printed"
}

has_version() {
    commit=$([ -e .git ] && git describe --always --dirty --abbrev=12 --exclude='*' 2>"$folder/other")
    answers --version && printf '%s\n%s\nproved: %s\n' "macsim ${commit:-of no commit that is known here}" \
        "$(rt version)" "$PWD/crates/macsim/out/macsim" | cmp -s - "$folder/printed"
}

# Whether a run over a file with this status is that over the standard input, the words in front as they are.
opens() {
    wanted=$1 file=$2
    shift 2
    ./macsim "$@" "$file" </dev/null >"$folder/printed" 2>"$folder/told"
    status=$?
    ./macsim "$@" <"$file" 2>"$folder/other" | cmp -s - "$folder/printed" && cmp -s "$folder/told" "$folder/other" && [ "$status" -eq "$wanted" ]
}

opens_from_elsewhere() {
    (cd examples && ../macsim run "${script#examples/}" </dev/null) >"$folder/printed" && cmp -s "$folder/printed" "${script%.macsim}.out"
}

# Whether a file that can't be read is told with 4, and nothing is printed.
cannot_open() {
    file=$1
    shift
    ./macsim "$@" "$file" <"$script" >"$folder/printed" 2>"$folder/told"
    [ "$?" -eq 4 ] && [ "$(cat "$folder/told")" = "macsim: $file: can't be read" ] && [ ! -s "$folder/printed" ]
}

# Whether a terminal shows the text, where these words are given, and ends with 0.
shows() {
    text=$1
    shift
    python3 -B checks/terminal.py ./macsim "$@" >"$folder/shown" && [ "$(tr -d '\r' <"$folder/shown")" = "$text" ]
}

begin='macsim: the manual is docs/MANUAL.md; begin with: ./macsim run < examples/01-plainest-denial.macsim'
no_words='macsim: status 2, these words are none of its own: docs/ERRORS.md, Words'
printf 'foo\n' >"$folder/bad"
{ cat "$script"; printf 'steps\nplan t\nend\n'; } >"$folder/refused"
{ printf 'script %d\n' "$(wc -c <"$script")"; cat "$script" "${script%.macsim}.out"; } >"$folder/checked"
head -c 1048577 /dev/zero >"$folder/long"
check 'no words' tells 2 "$script" "$begin"
check 'status 0' tells 0 "$script" '' run
check 'status 2' tells 2 "$script" "$no_words" walk
check 'status 3' tells 3 "$folder/bad" 'macsim: status 3, the input is no script: docs/ERRORS.md, Scripts' run
check 'status 4' tells 4 . "macsim: status 4, the input couldn't be read: docs/ERRORS.md, Input, output and memory" run
check 'status 5' fails_to_write
check 'status 6' tells 6 "$folder/long" 'macsim: status 6, the input is too long: docs/ERRORS.md, Input, output and memory' run
PYTHONPATH=checks python3 -B -c 'import limit_scripts; print(limit_scripts.steps(True), end="")' >"$folder/many"
check 'status 11' tells 11 "$folder/many" 'macsim: status 11, there are too many chains: docs/ERRORS.md, Too many chains' chains
check 'status 7' tells 7 "$folder/refused" 'macsim: status 7, a step was refused: docs/ERRORS.md, Steps' step

for word in --help -h help; do check "$word" helps "$word"; done
check 'help and more' tells 2 "$script" "$no_words" help run
check '--version' has_version
check '--path' answers --path
check 'what --path tells' test "$(cat "$folder/printed")" = "$PWD/crates/macsim/out/macsim"
for word in run matrix chains; do check "a file behind $word" opens 0 "$script" "$word"; done
check 'a file behind step' opens 0 examples/39-rules-first.macsim step
for word in matrix chains; do
    check "a file behind run $word" opens 0 "$script" run "$word"
    check "a file behind step $word" opens 0 examples/39-rules-first.macsim step "$word"
done
for words in why 'why all'; do
    check "a file behind run $words" opens 0 "$script" run $words
    check "a file behind step $words" opens 0 examples/39-rules-first.macsim step $words
done
check 'a file behind check' opens 0 "$folder/checked" check
check 'a file that is no script' opens 3 "$folder/bad" run
check 'a file that is no script, behind two words' opens 3 "$folder/bad" step chains
check 'a file of another folder' opens_from_elsewhere
check 'a file behind --proved' answers --proved run "$script"
check 'a file behind gen' tells 2 "$script" "$no_words" gen 1 1 "$script"
check 'two files' tells 2 "$script" "$no_words" run "$script" "$script"
check 'two files behind two words' tells 2 "$script" "$no_words" run matrix "$script" "$script"
check 'two files behind three words' tells 2 "$script" "$no_words" run why all "$script" "$script"
check 'no file' cannot_open "$folder/nothing" run
check 'no file behind three words' cannot_open "$folder/nothing" step why all
check 'no file behind two words' cannot_open "$folder/nothing" step matrix
check 'no file, where a word stands' cannot_open step run
check 'a folder' cannot_open . step
check 'at a terminal' shows 'macsim: reading the standard input, up to Ctrl-D; a file is read by ./macsim run FILE' run
check 'two words at a terminal' shows 'macsim: reading the standard input, up to Ctrl-D; a file is read by ./macsim step chains FILE' step chains
check 'a file at a terminal' shows '' run "$script"
check 'gen at a terminal' shows '' gen 1 1
print_count
