#!/bin/sh
# What ./macsim does where the program has to be built, and what the tools and the checks do where no proved one is there: tried in a folder of its
# own, with other programs in the place of `rt` and of checks/unproved.sh. Nothing is proved. A line for each failure, then a count.
. "$(dirname "$0")/counting"
script=examples/01-plainest-denial.macsim
copy=$folder/repository
new=$copy/crates/macsim/out/macsim
unproved=$copy/crates/macsim/out/unproved/macsim

# A program that prints the word.
printing() {
    printf 'printf "#!/bin/sh\\necho %s\\n" >"%s"; chmod +x "%s"' "$1" "$2" "$2"
}

# A folder like the repository, with an `rt` that does as this text says, and notes that it was called; and an unproved build as the second says.
make_copy() {
    rm -rf "$copy" "$folder/bin" "$folder/called"
    mkdir -p "$copy/crates/macsim/src" "$copy/crates/low/src" "$copy/crates/macsim/out" "$copy/checks" "$folder/bin"
    cp -r macsim tools "$copy"
    printf 'low:\nother: low\nmacsim may_wait=2: low\n' >"$copy/crates.txt"
    touch "$copy/crates/macsim/src/main.rt" "$copy/crates/low/src/lib.rt"
    printf '#!/bin/sh\n[ "$1" != run ] || echo >"%s"\n%s\n' "$folder/called" "$1" >"$folder/bin/rt"
    printf '%s\n' "${2:-exit 1}" >"$copy/checks/unproved.sh"
    chmod +x "$folder/bin/rt"
}

# A program that is older than the sources.
add_old_program() {
    printf '#!/bin/sh\necho old\n' >"$new"
    chmod +x "$new"
    touch -d '2000-01-01' "$new" "$copy/crates/macsim/out/built"
}

add_proved_program() {
    add_old_program
    touch "$copy/crates/macsim/out/built"
}

# Runs the copy with these words, by these folders for programs; whether it ends with the status and prints the text.
runs() {
    path=$1 status=$2 text=$3
    shift 3
    PATH=$path "$copy/macsim" "$@" </dev/null >"$folder/printed" 2>"$folder/told"
    [ "$?" -eq "$status" ] && [ "$(cat "$folder/printed")" = "$text" ]
}

told() {
    grep -qF -e "$1" "$folder/told"
}

proves_nothing() {
    [ ! -e "$folder/called" ] && [ ! -e "$new" ]
}

# Whether the words are answered as the program would, and nothing is built.
needs_no_build() {
    runs "$poor" "$@" && proves_nothing
}

helps() {
    PATH=$poor "$copy/macsim" "$1" >"$folder/printed" 2>"$folder/told" && ./macsim --help | cmp -s - "$folder/printed" && [ ! -s "$folder/told" ] && proves_nothing
}

keeps_the_old() {
    add_old_program
    runs "$1" 1 '' run && told 'is still in' && [ "$("$new")" = old ]
}

# Whether the program is built where it isn't there, and is there for the next run, which tells nothing.
builds_once() {
    runs "$rich" 0 new run && told 'two minutes: ./macsim --unproved' && told "$copy/crates/macsim/out/built.log" &&
        runs "$rich" 0 new run && [ ! -s "$folder/told" ]
}

# Whether a terminal shows on one line how many crates are proved.
shows_progress() {
    PATH=$rich python3 -B checks/terminal.py "$copy/macsim" run "$script" >"$folder/shown" &&
        tr '\r' '\n' <"$folder/shown" | grep -qx 'macsim: 1 of 2 crates are proved' && [ "$(grep -c 'of 2 crates' "$folder/shown")" -eq 1 ]
}

# Whether an unproved program is built once, is told each time, and is built anew for other sources alone.
builds_unproved_once() {
    runs "$rich" 0 unproved --unproved run && told 'two minutes' && told 'unproved: ' &&
        runs "$rich" 0 unproved --unproved run && ! told 'two minutes' && told 'unproved: ' && touch "$copy/crates/low/src/lib.rt" &&
        runs "$rich" 0 unproved --unproved run && ! told 'two minutes' && echo 1 >"$copy/crates/low/src/lib.rt" &&
        runs "$rich" 0 unproved --unproved run && told 'two minutes' && proves_nothing
}

refuses_unproved() {
    runs "$rich" 1 '' --unproved run && told 'no such word' && told 'was not built' && [ ! -e "$unproved" ] && proves_nothing
}

# Whether it tells where no `rt` is there that an unproved program is, and how that is run; and nothing of it where that is of other sources.
tells_of_unproved() {
    runs "$rich" 0 unproved --unproved run && rm "$folder/bin/rt" &&
        runs "$poor" 1 '' run && told "isn't on the path" && told 'is built: ./macsim --unproved WORD .. runs it' &&
        runs "$poor" 0 unproved --unproved run && echo 1 >"$copy/crates/low/src/lib.rt" &&
        runs "$poor" 1 '' run && told "isn't on the path" && ! told '--unproved' && proves_nothing
}

# Whether the proved program alone is asked for, and none is built where it isn't there, an unproved one or not.
takes_proved_alone() {
    runs "$rich" 1 '' --proved run && told "isn't built" && runs "$rich" 0 unproved --unproved run && runs "$rich" 1 '' --proved run && proves_nothing
}

# Whether the path for tools is that of the unproved program, which is told, and that of the proved one where it is there.
takes_either() {
    runs "$rich" 0 "$unproved" --path && told 'unproved: ' && proves_nothing &&
        add_proved_program && runs "$rich" 0 "$new" --path && [ ! -s "$folder/told" ]
}

# Whether a tool prints what the proved program has it print, tells once that its program is unproved, and begins no proof.
works_unproved() {
    "$@" >"$folder/wanted" 2>/dev/null && (cd "$copy" && PATH=$rich "$@") >"$folder/printed" 2>"$folder/told" &&
        cmp -s "$folder/wanted" "$folder/printed" && [ "$(grep -c 'unproved: ' "$folder/told")" -eq 1 ] && proves_nothing
}

# The checks of the gate that run the program.
that_run_it() {
    for it in checks/*.sh; do
        # (it names those that it leaves out)
        ! grep -qF "$it" .ci/run || continue
        ! grep -v '^ *#' "$it" | grep -qE '\./macsim|out/macsim|/(counting|refusing)"' || echo "$it"
    done
}

# Whether the check fails in the copy, which has no proved program, and says why.
fails_unproved() {
    (cd "$copy" && PATH=$rich bash "$1") >"$folder/printed" 2>&1
    [ "$?" -ne 0 ] && grep -qF "the proved program isn't built" "$folder/printed" && proves_nothing
}

rich=$folder/bin:$PATH
poor=$folder/tools
mkdir "$poor"
for tool in dirname readlink find head cat awk sort xargs sha256sum; do ln -s "$(command -v $tool)" "$poor/$tool"; done
builder="$(printing new out/macsim); echo 'rt: running out/macsim'"
slowly='mkdir -p ../low/out/rlib; touch ../low/out/rlib/stamp; sleep 3'
unbuilder=$(printing unproved '$1')

make_copy 'exit 1'
rm "$folder/bin/rt"
check 'no rt, and no program' runs "$poor" 1 '' run
check 'help without a program' helps --help
check 'no words' needs_no_build 2 'macsim: usage: run | step | gen N T'
check 'words that are none' needs_no_build 2 'macsim: usage: run | step | gen N T' walk
check 'no file' needs_no_build 4 '' run "$folder/nothing"
check 'the version without a program' needs_no_build 0 "$(printf "macsim of no commit that is known here\nno kit: the command rt isn't on the path\nnot built")" --version
check 'no rt, and an old program' keeps_the_old "$poor"
make_copy 'echo "a proof failed"; exit 1'
check 'a build that fails' keeps_the_old "$rich"
check 'the end of its log' told 'a proof failed'
make_copy "$builder"
check 'a build' builds_once
make_copy "$builder"
add_old_program
check 'a build in place of an old program' builds_once
make_copy "$slowly; $builder"
check 'how far a build is' runs "$rich" 0 new run
check 'how far it is told to be' told 'macsim: 1 of 2 crates are proved'
make_copy "$slowly; $builder"
check 'how far a build is, at a terminal' shows_progress

make_copy 'exit 1' "$unbuilder"
check 'an unproved build' builds_unproved_once
make_copy 'exit 1' 'echo "no such word"; exit 1'
check 'an unproved build that fails' refuses_unproved
make_copy 'exit 1' "$unbuilder"
check 'no rt, and an unproved program' tells_of_unproved
make_copy 'exit 1' "$unbuilder"
check 'the proved program alone' takes_proved_alone
make_copy 'exit 1' "$unbuilder"
check 'either program' takes_either

make_copy 'exit 1' "cp '$PWD/crates/macsim/out/macsim' \"\$1\""
cp -r examples "$copy"
check 'tools/orders' works_unproved tools/orders --count 3 examples/10-two-tasks.macsim
check 'tools/expect' works_unproved tools/expect examples/39-rules-first.macsim
check 'tools/without' works_unproved tools/without mac_bsdextended examples/53-what-the-rules-withhold.macsim
check 'tools/check-run' works_unproved tools/check-run "$script" "${script%.macsim}.out"
cp -r .ci "$copy"
cp checks/counting checks/refusing $(that_run_it) "$copy/checks"
check 'checks that run the program' test "$(that_run_it | wc -l)" -ge 17
for it in $(that_run_it); do check "$it without a proved program" fails_unproved "$it"; done
make_copy 'exit 0' "$unbuilder"
cp -r .ci checks "$copy"
for it in "$copy"/checks/*.sh; do [ -e "$it" ] && that_run_it | grep -qx "checks/${it##*/}" || rm "$it"; done
check '.ci/run without a proved program' fails_unproved .ci/run
print_count
