#!/bin/sh
# Runs the program with words and inputs at their edges, since `main` has no contract: of each run is wanted its exit status, its whole
# standard output, and nothing on the standard error. Devices that fail, stop or wait are those of
# devices.py. A line for each failure, then a count. What ./macsim adds is for checks/wrapper.sh.
. "$(dirname "$0")/counting"
program=crates/macsim/out/macsim
script=examples/01-plainest-denial.macsim
history=${script%.macsim}.out
most=1048576

# A script of so many bytes: a right one, and behind it a comment.
script_of() {
    {
        cat "$script"
        printf '#'
        head -c "$(($1 - $(wc -c <"$script") - 2))" /dev/zero | tr '\0' x
        printf '\n'
    } >"$2"
}

# A text of the program, in a file of that name.
text() {
    printf '%s\n' "$2" >"$folder/$1"
}

# Whether a run over this input with these words ends with the status and prints what the file holds.
ends() {
    status=$1 input=$2 output=$3
    shift 3
    "$program" "$@" <"$input" >"$folder/printed" 2>"$folder/told"
    [ "$?" -eq "$status" ] && cmp -s "$folder/printed" "$output" && [ ! -s "$folder/told" ]
}

# Whether a run with these words leaves the whole input to who reads next.
reads_nothing() {
    { "$program" "$@" >"$folder/printed" 2>&1; cat >"$folder/left"; } <"$script"
    cmp -s "$folder/left" "$script"
}

# Whether the script with these words, where the device takes nothing, tells so by its status.
fails_to_write() {
    "$program" "$@" <"$script" >/dev/full 2>"$folder/told"
    [ "$?" -eq 5 ] && [ ! -s "$folder/told" ]
}

# Whether a run over this device of checks/devices.py ends with the status.
over() {
    python3 -B checks/devices.py "$program" "$script" "$history" "$2"
    [ "$?" -eq "$1" ]
}

# Whether a run over this device ends well, or is stopped by the system before it prints anything.
runs_or_stops() {
    over 0 "$1" || over 100 "$1"
}

# Counts a run that is refused for its words.
check_usage() {
    check "words: $*" ends 2 "$script" "$folder/usage" "$@"
}

text usage 'macsim: usage: run | step | gen N T'
text unknown_word 'macsim: script line 1 fault 2 UnknownWord'
text no_module 'macsim: script line 1 fault 12 BootRefused ENOENT'
text no_end 'macsim: script line 3 fault 10 NoEnd'
text too_many 'macsim: script line 1 fault 11 TooMany'
text read_fault 'macsim: read fault'
text too_long 'macsim: too long'
text refused 'macsim: step 2 refused'
printf 'gen 2 2\nok 2\nENOENT 1\nEACCES 1\n' >"$folder/summary"
printf 'foo\n' >"$folder/bad"
printf 'boot mac_foo' >"$folder/unbooted"
printf 'task t uid 0 gid 0 label -\nread /a\n' >"$folder/unended"
{
    printf 'file /a reg uid 0 gid 0 mode 644 label - text '
    head -c 65537 /dev/zero | tr '\0' a
} >"$folder/heavy"
{ cat "$script"; printf 'steps\nenter t\nend\n'; } >"$folder/stepped"
{ cat "$script"; printf 'steps\nenter t\nplan t\ndone t\nleave t\nend\n'; } >"$folder/all_stepped"
{ cat "$script"; printf 'steps\nenter t\nenter t\nend\n'; } >"$folder/twice"
{ cat "$script"; printf 'steps\nenter t\nleave u\nend\n'; } >"$folder/no_task"
text header 'macsim: check header'
text yes yes
text no_3 'no 3'
{ printf 'script %s\n' "$(wc -c <"$script")"; cat "$script" "$history"; } >"$folder/checked"
{ printf 'script %s\n' "$(wc -c <"$script")"; cat "$script"; head -n 2 "$history"; } >"$folder/checked_in_part"
{ cat "$folder/checked"; head -c "$((16777216 - $(wc -c <"$folder/checked")))" /dev/zero | tr '\0' '\n'; } >"$folder/longest_checked"
{ cat "$folder/longest_checked"; echo; } >"$folder/longer_checked"
text no_8 'no 8'
{
    cat "$history"
    printf 'matrix proc:t vnode:/ rwxs\nmatrix proc:t vnode:/a -w--\nmatrix proc:t proc:t vgdc\n'
} >"$folder/matrix"
{
    cat "$history"
    printf 'chain biba vnode:/ high 0@0\nchain biba vnode:/a low 1@0\nchain biba proc:t high 2@0\n'
} >"$folder/chains"
PYTHONPATH=checks python3 -B -c 'import limit_scripts; print(limit_scripts.steps(True), end="")' >"$folder/many"
{ "$program" run <"$folder/many"; echo 'macsim: too many chains'; } >"$folder/too_many_chains"
awk -f examples/in-order.awk "$folder/many" >"$folder/many_stepped"
script_of "$most" "$folder/longest"
script_of "$((most + 1))" "$folder/longer"

check_usage
check_usage ''
check_usage walk
check_usage Run
check_usage "$(printf '\377')"
check_usage run "$script"
check_usage step "$script"
check_usage check "$script"
check_usage matrix "$script"
check_usage chains "$script"
check_usage chain
check_usage run matrix "$script"
check_usage step chains "$script"
check_usage run run
check_usage run check
check_usage run matrix chains
check_usage matrix chains
check_usage check matrix
check_usage gen matrix
check_usage gen 2
check_usage gen 2 2 2
check_usage gen 0 2
check_usage gen 4097 2
check_usage gen 2 0
check_usage gen 2 17
check_usage gen 2 x
check_usage gen -2 2
check 'words are refused: the input is not read' reads_nothing walk

check 'run: a script' ends 0 "$script" "$history" run
check 'run: a word that is none' ends 3 "$folder/bad" "$folder/unknown_word" run
check 'run: a module that is none' ends 3 "$folder/unbooted" "$folder/no_module" run
check 'run: a task without its end' ends 3 "$folder/unended" "$folder/no_end" run
check 'run: a file that holds too much' ends 3 "$folder/heavy" "$folder/too_many" run
check 'run: steps are left aside' ends 0 "$folder/stepped" "$history" run
check 'run: the longest script' ends 0 "$folder/longest" "$history" run
check 'run: one byte more' ends 6 "$folder/longer" "$folder/too_long" run
check 'run: an input that cannot be read' ends 4 . "$folder/read_fault" run
check 'run: an output that cannot be written' fails_to_write run

check 'step: each step is taken' ends 0 "$folder/all_stepped" "$history" step
check 'step: a step that is out of turn' ends 7 "$folder/twice" "$folder/refused" step
check 'step: a step of no task' ends 7 "$folder/no_task" "$folder/refused" step
check 'step: a word that is none' ends 3 "$folder/bad" "$folder/unknown_word" step
check 'step: one byte more' ends 6 "$folder/longer" "$folder/too_long" step
check 'step: an input that cannot be read' ends 4 . "$folder/read_fault" step

check 'check: a text of a run' ends 0 "$folder/checked" "$folder/yes" check
check 'check: a text that is cut' ends 8 "$folder/checked_in_part" "$folder/no_3" check
check 'check: no header' ends 10 "$script" "$folder/header" check
check 'check: the longest input' ends 8 "$folder/longest_checked" "$folder/no_8" check
check 'check: one byte more' ends 6 "$folder/longer_checked" "$folder/too_long" check
check 'check: an input that cannot be read' ends 4 . "$folder/read_fault" check

for word in matrix chains; do
    check "run $word: a script" ends 0 "$script" "$folder/$word" run "$word"
    check "run $word: a word that is none" ends 3 "$folder/bad" "$folder/unknown_word" run "$word"
    check "step $word: each step is taken" ends 0 "$folder/all_stepped" "$folder/$word" step "$word"
    check "step $word: a step that is out of turn" ends 7 "$folder/twice" "$folder/refused" step "$word"
    check "step $word: a word that is none" ends 3 "$folder/bad" "$folder/unknown_word" step "$word"
    check "step $word: one byte more" ends 6 "$folder/longer" "$folder/too_long" step "$word"
    check "step $word: an input that cannot be read" ends 4 . "$folder/read_fault" step "$word"
    check "step $word: an output that cannot be written" fails_to_write step "$word"
    check "$word: a script" ends 0 "$script" "$folder/$word" "$word"
    check "$word: steps are left aside" ends 0 "$folder/stepped" "$folder/$word" "$word"
    check "$word: no module, no file and no task" ends 0 /dev/null /dev/null "$word"
    check "$word: a word that is none" ends 3 "$folder/bad" "$folder/unknown_word" "$word"
    check "$word: the longest script" ends 0 "$folder/longest" "$folder/$word" "$word"
    check "$word: one byte more" ends 6 "$folder/longer" "$folder/too_long" "$word"
    check "$word: an input that cannot be read" ends 4 . "$folder/read_fault" "$word"
    check "$word: an output that cannot be written" fails_to_write "$word"
done
check 'chains: too many' ends 11 "$folder/many" "$folder/too_many_chains" chains
check 'run chains: too many' ends 11 "$folder/many" "$folder/too_many_chains" run chains
check 'step chains: too many' ends 11 "$folder/many_stepped" "$folder/too_many_chains" step chains

{
    cat "$history"
    printf 'denied t 1 2 vnode_open_read proc:t vnode:/a\nwhy t 1 mac_biba decides EACCES observe subject high object low\n'
} >"$folder/why"
for words in why 'why all'; do
    check "run $words: a script" ends 0 "$script" "$folder/why" run $words
    check "run $words: steps are left aside" ends 0 "$folder/stepped" "$folder/why" run $words
    check "run $words: no module, no file and no task" ends 0 /dev/null /dev/null run $words
    check "run $words: a word that is none" ends 3 "$folder/bad" "$folder/unknown_word" run $words
    check "run $words: one byte more" ends 6 "$folder/longer" "$folder/too_long" run $words
    check "run $words: an input that cannot be read" ends 4 . "$folder/read_fault" run $words
    check "run $words: an output that cannot be written" fails_to_write run $words
    check "step $words: each step is taken" ends 0 "$folder/all_stepped" "$folder/why" step $words
    check "step $words: a step that is out of turn" ends 7 "$folder/twice" "$folder/refused" step $words
    check "step $words: an output that cannot be written" fails_to_write step $words
done
check_usage why "$script"
check_usage why all "$script"
check_usage run why why
check_usage run why all all
check_usage run all
check_usage step why matrix
check_usage check why

check 'run: a closed standard input' over 4 closed_input
check 'run: an input that is open for writing' over 4 input_for_writing
check 'run: a pipe that stops inside a task' over 3 pipe_that_stops
check 'run: a pipe that waits' over 0 pipe_that_waits
check 'run: a pipe without bytes that may not be waited for' over 4 input_without_waiting
check 'run: two mebibytes' over 6 two_mebibytes
check 'run: a terminal to read from' over 0 terminal_input
check 'run: a closed standard output' over 5 closed_output
check 'run: an output that is open for reading' over 5 output_for_reading
check 'run: a pipe that nobody reads' over 5 pipe_without_reader
check 'run: a full pipe that may not be waited for' over 5 output_without_waiting
check 'run: a pipe that is read slowly' over 0 slow_reader
check 'run: a terminal to write to' over 0 terminal_output
check 'run: a stack of 512 KiB' over 0 small_stack
check 'run: a stack of 64 KiB' runs_or_stops stack_of_64_kib

check 'gen: a load' ends 0 "$folder/bad" "$folder/summary" gen 2 2
check 'gen: leading zeros' ends 0 "$folder/bad" "$folder/summary" gen 002 02
check 'gen: the input is not read' reads_nothing gen 2 2

print_count
