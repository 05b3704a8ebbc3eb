#!/bin/sh
# Holds the tools that show what `matrix` and `chains` print to what they print, over all examples whose text is always the same: the table of tools/matrix has each
# line of the matrix; below each chain of tools/chains stand its words, each told by things that are there and by a line of the script, and the last with the
# thing that it leads to. With mode bits the letters are those of the matrix, but for their marks. Then what they tell of two examples, of mode bits, the
# pictures in docs/, two matrices and a module that is unloaded, and that they say what is wrong with an input, and print nothing of it. A line for each
# failure, then a count.
. "$(dirname "$0")/counting"

# The lines of a matrix, from the table: the titles of the processes are above the columns.
matrix_of_table() {
    awk '
        /: [a-z] / { heading = 1; next }
        heading { heading = 0; for (place = 1; place <= NF; place++) name[place] = $place; next }
        NF { for (place = 2; place <= NF; place++) print "matrix proc:" name[place - 1], $1, $place }'
}

# The lines of a matrix from the table with mode bits, with the marks and without.
with_modes() {
    tools/matrix --modes "$1" "$2" | sed '/^R, W, X: /d' | matrix_of_table
}

unmarked() {
    with_modes "$1" "$2" | awk '{ sub("/$", "", $4); print $1, $2, $3, tolower($4) }'
}

tells_the_matrix() {
    ./macsim --proved matrix <"$1" >"$folder/text" && grep '^matrix ' "$folder/text" | sort >"$folder/wanted" || return 0
    [ -s "$folder/wanted" ] || return 0
    tools/matrix "$folder/text" | matrix_of_table | sort | cmp -s - "$folder/wanted" || return 1
    tools/matrix --width 1 "$folder/text" | matrix_of_table | sort | cmp -s - "$folder/wanted" || return 1
    unmarked "$1" "$folder/text" | sort | cmp -s - "$folder/wanted" || return 1
    matrices=$((matrices + $(wc -l <"$folder/wanted")))
}

# Whether the words below each chain are its own, in their order, and the last tells of its title.
has_its_words() {
    awk '
        function finish() { if (words != "" && (words != found || !ended)) { print "not told: " line; bad = 1 } }
        /^chain / { finish(); line = $0; title = $3; words = $0; sub(/^chain [^ ]+ [^ ]+ [^ ]+ /, "", words); found = ""; next }
        { found = found (found == "" ? "" : " ") $1; ended = index($0, title) > 0 }
        END { finish(); exit bad }'
}

tells_the_chains() {
    ./macsim --proved chains <"$1" >"$folder/text" || return 1
    grep '^chain ' "$folder/text" >"$folder/wanted" || return 0
    tools/chains "$1" "$folder/text" >"$folder/told" && grep '^chain ' "$folder/told" | cmp -s - "$folder/wanted" || return 1
    has_its_words <"$folder/told" || return 1
    chains=$((chains + $(wc -l <"$folder/wanted")))
}

# Whether a command prints what stands on the standard input.
prints() {
    cat >"$folder/expected"
    "$@" >"$folder/told" && cmp -s "$folder/told" "$folder/expected"
}

# Whether a command ends with a failure, prints nothing, and says this on the standard error.
complains() {
    said=$1
    shift
    ! "$@" >"$folder/told" 2>"$folder/errors" && [ ! -s "$folder/told" ] && grep -qF -e "$said" "$folder/errors"
}

matrices=0
chains=0
for script in examples/*.macsim; do
    tells_the_matrix "$script"
    count $? "$script: the table isn't the matrix"
    tells_the_chains "$script"
    count $? "$script: the chains aren't told by their words"
done

key=examples/54-how-the-key-travelled.macsim
./macsim --proved chains <"$key" >"$folder/chains"
prints tools/chains --policy mls --of vnode:/archive --element 5 "$key" "$folder/chains" <<'END'
chain mls vnode:/archive 5 1@0 4@8.2 5@11.0 3@17.1 2@20.2
    1@0     vnode:/key has it from the opening
    4@8.2   proc:backup.job read it from vnode:/key, line 9: @job read /key
    5@11.0  proc:backup.job made pipe:out with it, line 10: @job pipe out
    3@17.1  proc:backup read it from pipe:out, line 12: pread out
    2@20.2  proc:backup wrote it to vnode:/archive, line 13: write /archive secret
END
count $? "$key: another chain is told"
prints tools/chains --of proc:backup.job --element 7 "$key" "$folder/chains" <<'END'
chain mls proc:backup.job 7 4@5
    4@5  proc:backup.job was relabelled to it, line 8: @job setpmac mls/7
END
count $? "$key: another origin is told"

rules=examples/53-what-the-rules-withhold.macsim
./macsim --proved matrix <"$rules" >"$folder/matrix"
prints tools/without mac_bsdextended "$rules" <<'END'
proc:httpd vnode:/www/key ---- r-xs +r +x +s
proc:guest vnode:/ --xs r-xs +r
proc:guest vnode:/www --xs r-xs +r
proc:guest vnode:/www/upload r--s r-xs +x
4 of 27 pairs differ
END
count $? "$rules: something else changes without the rules"
tools/matrix --svg --title "$rules" "$folder/matrix" | cmp -s - docs/matrix.svg
count $? "docs/matrix.svg isn't the picture of $rules"
tools/without --svg mac_bsdextended "$rules" | cmp -s - docs/without-rules.svg
count $? "docs/without-rules.svg isn't the picture of $rules"

# The lines that the documents show of these are what is printed.
quotes() {
    found=$(sed 's/^/    /' "$folder/told" | grep -cxF -f - "$1") && [ "$found" -ge "$(wc -l <"$folder/told")" ]
}
tools/without mac_bsdextended "$rules" >"$folder/told"
quotes docs/MANUAL.md
count $? "docs/MANUAL.md shows something else of $rules without the rules"
tools/matrix "$folder/matrix" | sed '/^$/,$d' >"$folder/told"
quotes docs/MANUAL.md
count $? "docs/MANUAL.md shows another matrix of $rules"
tools/chains --of vnode:/archive --element 5 "$key" "$folder/chains" >"$folder/told"
quotes docs/MANUAL.md && quotes README.md
count $? "docs/MANUAL.md or README.md shows another chain of $key"

tools/matrix --modes "$rules" "$folder/matrix" | sed -n '1,/^$/{/./p}; $p' >"$folder/told"
quotes docs/MANUAL.md
count $? "docs/MANUAL.md shows other mode bits of $rules"

# Whom mode bits refuse what: owner, group and others, whatever those behind are given; uid 0, also what nobody may run; modes that were changed,
# and of what was made; what lies in a directory that is denied, by its mode or by a policy.
cat >"$folder/modes" <<'END'
boot mac_biba
file /own reg uid 1001 gid 20 mode 077 label -
file /group reg uid 0 gid 20 mode 705 label -
file /others reg uid 0 gid 0 mode 706 label -
file /run reg uid 0 gid 0 mode 010 label -
file /late reg uid 0 gid 0 mode 666 label -
file /d dir uid 0 gid 20 mode 750 label -
file /d/f reg uid 0 gid 0 mode 777 label -
file /low dir uid 0 gid 0 mode 755 label biba/low
file /low/f reg uid 0 gid 0 mode 777 label -
task root uid 0 gid 0 label -
chmod /late 600
end
task member uid 1001 gid 5,20 label -
end
task guest uid 1002 gid 1002 label -
create /new
end
END
./macsim --proved matrix <"$folder/modes" >"$folder/text"
tools/matrix --modes "$folder/modes" "$folder/text" | sed '/^$/,$d' >"$folder/told"
cmp -s "$folder/told" - <<'END'
files and directories: r read or list, w write or create in, x run or look up in, s stat
               root   member  guest
vnode:/        rwxs   rWxs    rWxs
vnode:/own     rwxs   RWXs    rwxs
vnode:/group   rwxs   RWXs    rWxs
vnode:/others  rwxs   rwXs    rwXs
vnode:/run     rwxs   RWXs    RWXs
vnode:/late    rwXs   RWXs    RWXs
vnode:/d       rwxs   rWxs    RWXs
vnode:/d/f     rwxs   rwxs    rwxs/
vnode:/low     -w--   -W--    -W--
vnode:/low/f   rwxs/  rwxs/   rwxs/
vnode:/new     rwXs   rWXs    rwXs
END
count $? "mode bits are judged otherwise"
with_modes "$folder/modes" "$folder/text" | sort >"$folder/wanted"
tools/annotate "$folder/modes" "$folder/text" | awk '/^matrix / { print $1, $2, $3, $NF }' | sort | cmp -s - "$folder/wanted"
count $? "tools/annotate marks a matrix otherwise"
complains "doesn't begin with the boot lines" tools/matrix --modes "$key" "$folder/text"
count $? "the modes of another script aren't told"

# A word that is exchanged for another in one line, and a line that is left out.
sed 's/^\(matrix proc:guest vnode:\/www\/key\) r-xs/\1 -w--/; /^matrix proc:guest /!s/ socket:control r-v/ socket:control ---/' "$folder/matrix" >"$folder/other"
prints tools/matrix --before "$folder/matrix" "$folder/other" <<'END'
proc:httpd socket:control r-v --- -r -v
proc:guest vnode:/www/key r-xs -w-- +w -r -x -s
2 of 27 pairs differ
END
count $? "two matrices are compared otherwise"
tools/matrix --html "$folder/matrix" >"$folder/page" && [ "$(grep -o '<td class="[a-z]*" title="proc:[^"]*">[a-z-]*</td>' "$folder/page" | wc -l)" -eq 27 ]
count $? "the page hasn't each pair"

sed '/^matrix proc:httpd socket:control/d' "$folder/matrix" >"$folder/part"
complains 'lacks a line' tools/matrix "$folder/part"
count $? "that a line is lacking isn't told"
complains 'it has no matrix' tools/matrix "$folder/chains"
count $? "that there is no matrix isn't told"
complains 'line 10: there is no call `raed`' sh -c "sed 's/^ugidfw/raed &/' '$rules' | tools/without mac_bsdextended -"
count $? "a fault of the script isn't told"
complains 'mac_biba is not unloaded: no EBUSY - -' tools/without mac_biba "$rules"
count $? "that a module can't be unloaded isn't told"
complains "doesn't begin with the boot lines" tools/chains "$rules" "$folder/chains"
count $? "the chains of another script aren't told"
sed 's/ 4@8.2 5@11.0 / 4@8.2 4@11.0 /' "$folder/chains" >"$folder/other"
complains "it doesn't belong to this script: event 11 makes no proc:backup.job" tools/chains "$key" "$folder/other"
count $? "a step that isn't so isn't told"
sed '/^chain /d' "$folder/chains" >"$folder/part"
complains 'it has no chains' tools/chains "$key" "$folder/part"
count $? "that there are no chains isn't told"
echo 'macsim: too many chains' >>"$folder/part"
complains 'there are too many' tools/chains "$key" "$folder/part"
count $? "that there are too many chains isn't told"

echo "$matrices lines of matrices, $chains chains"
[ "$matrices" -gt 0 ] && [ "$chains" -gt 0 ] && print_count
