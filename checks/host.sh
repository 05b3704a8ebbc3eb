#!/bin/sh
# Runs the tests of the tools that read and write what is of a machine, tools/tests/; makes a machine's outputs of each example with files, and
# compares the matrix of the script that tools/from-host makes of them with that of the example; holds the examples that were made of a machine to what is
# made of its outputs, and docs/HOST.md to what its commands print; has tools/from-host take back the rules that tools/to-host writes; and has the texts of
# all examples come back from JSON. A line for each failure, then a count.
. "$(dirname "$0")/counting"

host=examples/58-made-of-a-web-server
from_host() {
    tools/from-host "$@" 2>"$folder/told"
}

are_well() {
    python3 -B -m unittest discover -q -s tools/tests >"$folder/told" 2>&1 || { cat "$folder/told"; return 1; }
}

is_made_again() {
    from_host --as nginx-705:'read /usr/local/www/site/index.html' --as nginx-705:'read /usr/local/etc/nginx/key.pem' \
        --as nginx-705:'write /var/log/nginx/access.log GET' --as nginx-705:'read /usr/local/www/site/upload/form.pdf' \
        "$host.host" | cmp -s - "$host.macsim"
}

# The same with rules, whose tasks come one after another.
is_made_with_steps() {
    from_host --as sh:'read /srv/internal/plan.txt' --as sh:'read /srv/internal/minutes.txt' --as sh:'read /srv/project/budget.txt' \
        --as vi:'read /srv/project/design.txt' --as vi:'read /srv/project/budget.txt' --as vi:'write /srv/project/budget.txt 7' \
        examples/59-made-of-a-file-server.host | awk -f examples/in-order.awk | cmp -s - examples/59-made-of-a-file-server.macsim
}

# Whether each remark stands in the script's head and on the standard error.
tells_twice() {
    from_host "$host.host" >"$folder/script" && sed -n 's/^from-host: /# /p' "$folder/told" >"$folder/remarks" && [ -s "$folder/remarks" ] &&
        grep -E '^# (left out|beware): ' "$folder/script" | cmp -s - "$folder/remarks"
}

# Whether the rules that to-host writes of a script are those of the script again.
takes_rules_back() {
    ./macsim --proved step <"$1" >"$folder/history" && tools/to-host "$1" "$folder/history" | tr -d "'" | sed -n 's/^ugidfw set //p' >"$folder/rules" || return 1
    count=$(wc -l <"$folder/rules")
    { sed '/^== ugidfw/,$d' "${1%.macsim}.host"; echo '== ugidfw'; echo "$count slots, $count rules"; cat "$folder/rules"; sed -n '/^== passwd/,$p' "${1%.macsim}.host"; } >"$folder/host"
    from_host "$folder/host" | grep '^ugidfw set ' >"$folder/again"
    [ "$count" -gt 0 ] && grep '^ugidfw set ' "$1" | cmp -s - "$folder/again"
}

prints() {
    cat >"$folder/expected"
    "$@" >"$folder/printed" && cmp -s "$folder/printed" "$folder/expected"
}

to_host() {
    run "$1" && tools/to-host "$1" "$folder/history" | grep -v '^# beware: '
}

comes_back() {
    for text in examples/*.out; do
        # (the lines of several orders are no text of macsim)
        grep -v ' | ' "$text" >"$folder/text"
        [ ! -e "${text%.out}.matrix" ] || cat "${text%.out}.matrix" >>"$folder/text"
        [ ! -e "${text%.out}.chains" ] || cat "${text%.out}.chains" >>"$folder/text"
        [ ! -e "${text%.out}.why" ] || cat "${text%.out}.why" >>"$folder/text"
        cat "$folder/text" >>"$folder/texts"
    done
    printf 'waits t 2\nstale t\nmacsim: script line 2 fault 12 BootRefused EEXIST\n' >>"$folder/texts"
    PYTHONPATH=checks python3 -B -c 'import why_scripts; print(*(line for row in why_scripts.ROWS for line in row.lines), sep="\n")' >>"$folder/texts"
    tools/json "$folder/texts" >"$folder/objects" && tools/json --back "$folder/objects" | cmp -s - "$folder/texts" &&
        [ "$(wc -l <"$folder/objects")" -eq "$(wc -l <"$folder/texts")" ] && python3 -B -c 'import json, sys; [json.loads(line) for line in sys.stdin]' <"$folder/objects"
}

# Whether docs/MANUAL.md shows the objects of the first example, and no others.
shows_objects() {
    tools/json examples/01-plainest-denial.out >"$folder/objects" && sed -n 's/^    \({"line": \)/\1/p' docs/MANUAL.md | cmp -s - "$folder/objects"
}

check 'the tests of tools/tests' are_well
check 'a script, outputs of it, and a script again' python3 -B checks/host.py
check "$host" is_made_again
check 'examples/59-made-of-a-file-server' is_made_with_steps
check 'remarks stand in the script and on the standard error' tells_twice
check 'rules of to-host, taken back' takes_rules_back examples/59-made-of-a-file-server.macsim
check 'commands of examples/24-web-server' prints to_host examples/24-web-server.macsim <<'END'
#!/bin/sh
# /boot/loader.conf: mac_biba_load="YES"
# /boot/loader.conf: mac_mls_load="YES"
setfmac -h biba/high,mls/low /www
setfmac -h biba/10,mls/low /www/index.html
setfmac -h biba/high,mls/5 /key
setfmac -h biba/10,mls/low /log
setfmac -h biba/10,mls/2 /log2
# httpd: setpmac 'biba/10(10-10),mls/2(2-2)' COMMAND, or in its class of /etc/login.conf :label=biba/10(10-10),mls/2(2-2): and cap_mkdb /etc/login.conf
# line 16, not done here (no EPERM vnode_relabel mac_mls 2): setfmac mls/2 /key
# line 17, not done here (no EPERM cred_relabel mac_mls 1): setpmac mls/5
END
check 'labels of examples/24-web-server' prints tools/to-host --spec examples/24-web-server.macsim examples/24-web-server.out <<'END'
/key	--	biba/high,mls/5
/log	--	biba/10,mls/low
/log2	--	biba/10,mls/2
/www	-d	biba/high,mls/low
/www/index\.html	--	biba/10,mls/low
END
check 'commands of examples/26-not-and-exclamation-mark' prints to_host examples/26-not-and-exclamation-mark.macsim <<'END'
#!/bin/sh
# /boot/loader.conf: mac_bsdextended_load="YES"
ugidfw set 0 subject '!' uid 0 '!' gid 20 object type r mode n
# line 9, rule 0 has no words on the machine, and stays there as it was: `not` before several tests turns each of them on the machine, and here the part: ugidfw set 0 subject not uid 0 gid 20 object type r mode n
# line 12, rule 0 has no words on the machine, and stays there as it was: `not` before several tests turns each of them on the machine, and here the part: ugidfw set 0 subject not ! uid 0 ! gid 20 object type r mode n
ugidfw set 0 subject '!' uid 0 object type r mode n
ugidfw set 0 subject '!' uid 0 object type r mode n
# line 20, rule 0 has no words on the machine, and stays there as it was: `not` alone fits everything on the machine, and here the part: ugidfw set 0 subject not object type r mode n
END
check 'the texts of the examples, as JSON and back' comes_back
check 'the objects in docs/MANUAL.md' shows_objects
check 'docs/HOST.md' python3 -B checks/host_document.py
for tool in from-host to-host json; do
    check "the help of tools/$tool says that it isn't proved" sh -c "tools/$tool --help | grep -q \"^It isn't proved\""
done
print_count
