# The two programs that ./macsim runs, which sources this file: whether they are there, and how they are built. `root` is the top of the repository.
proved=$root/crates/macsim/out/macsim
built=$root/crates/macsim/out/built
unproved=$root/crates/macsim/out/unproved/macsim

say() {
    echo "macsim: $*" >&2
}

# The crates that the program is made of, each behind those that it uses, in the order in which `rt` goes through them.
crates_of_program() {
    awk -F: '
        function list(crate, names, count, place) {
            if (crate in listed || !(crate in used)) return
            listed[crate]
            count = split(used[crate], names, " ")
            for (place = 1; place <= count; place++) list(names[place])
            print crate
        }
        /^[a-z]/ { split($1, words, " "); used[words[1]] = $2 }
        END { list("macsim") }' "$root/crates.txt"
}

# The proved program

is_proved() {
    [ -x "$proved" ] && [ -e "$built" ] &&
        [ -z "$(find "$root/crates.txt" "$root"/crates/*/src "$root"/crates/*/specs "$root"/crates/*/proofs -newer "$built" 2>/dev/null | head -n 1)" ]
}

stop_unbuilt() {
    say "$1"
    [ ! -e "$proved" ] || say "an older program, of other sources, is still in $proved"
    exit 1
}

need_kit() {
    command -v rt >/dev/null && return
    unproved_said=
    ! is_unproved || unproved_said="; an unproved program of these sources is built: ./macsim --unproved WORD .. runs it"
    stop_unbuilt "the program has to be built, and the command rt of the Rattle kit isn't on the path (README.md)$unproved_said"
}

# How many of the crates are proved. They are in the order of the build, so those before the last that it has begun with are: this build found
# them as they were, or proved them.
count_proved() {
    number=0 count=0
    for crate in $crates; do
        rlib=$root/crates/$crate/out/rlib
        [ ! "$rlib" -nt "$built.begun" ] || count=$number
        number=$((number + 1))
        [ ! "$rlib/stamp" -nt "$built.begun" ] || count=$number
    done
    echo "$count"
}

# Tells how many crates are proved, whenever there are more, as long as this script runs; at a terminal on one line.
tell_progress() {
    told=
    while kill -0 $$ 2>/dev/null; do
        now=$(count_proved)
        if [ "$now" = "$told" ]; then
            :
        elif [ -t 2 ]; then
            printf '\rmacsim: %d of %d crates are proved' "$now" "$1" >&2
        else
            say "$now of $1 crates are proved"
        fi
        told=$now
        sleep 2 >/dev/null 2>&1
    done
}

# `rt run` proves, builds and runs a program. Here it is run without words, which it refuses, so its own status tells nothing.
prove_and_build() {
    (cd "$root/crates/macsim" && rt run) </dev/null >"$built.log" 2>&1
    grep -q '^rt: running ' "$built.log" && [ -x "$proved" ]
}

build_proved() {
    need_kit
    say "proving and building the program first, which takes up to an hour on four processors; the log is $built.log"
    say "a program without proofs takes some two minutes: ./macsim --unproved WORD .."
    mkdir -p "$root/crates/macsim/out"
    touch "$built.begun"
    crates=$(crates_of_program)
    all=$(echo "$crates" | wc -l)
    # (in the background goes what tells: who breaks off by a key ends the build too)
    tell_progress "$all" &
    teller=$!
    prove_and_build
    status=$?
    kill "$teller" 2>/dev/null
    [ ! -t 2 ] || echo >&2
    if [ "$status" -ne 0 ]; then
        tail -n 20 "$built.log" >&2
        stop_unbuilt "the program was not built"
    fi
    say "all $all crates are proved, and the program is built"
    mv "$built.begun" "$built"
}

# The unproved program

# The sum of all that the unproved program is made of.
sum_of_sources() {
    (cd "$root" && for crate in $(crates_of_program); do find "crates/$crate/src" -type f; done | LC_ALL=C sort | xargs sha256sum crates.txt | sha256sum)
}

is_unproved() {
    [ -x "$unproved" ] && [ "$(cat "$unproved.sum" 2>/dev/null)" = "$(sum_of_sources)" ]
}

# The program and its sum come into their places whole: another build may do the same beside this one.
build_unproved() {
    need_kit
    say "building an unproved program first, which takes some two minutes; the log is $unproved.log"
    mkdir -p "$(dirname "$unproved")"
    sum=$(sum_of_sources)
    if ! bash "$root/checks/unproved.sh" "$unproved.$$" </dev/null >"$unproved.log" 2>&1; then
        rm -f "$unproved.$$"
        tail -n 20 "$unproved.log" >&2
        stop_unbuilt "the program was not built"
    fi
    rm -f "$unproved.sum"
    mv "$unproved.$$" "$unproved"
    echo "$sum" >"$unproved.sum"
}
