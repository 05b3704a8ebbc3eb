#!/bin/sh
# Runs each script of examples/, and holds tools/flows to what is printed: the sources that its flows come to are the lines of sources. Then
# the same of a script in which each operation that moves information is told by the sources alone, of one in which so is each that lowers
# under mac_lomac, and of those that move through descriptors, with revocation and without; what it draws and tells of one example; and that it says what is wrong with an input, and prints nothing of it. A line for
# each failure, then a count.
. "$(dirname "$0")/counting"

has_its_sources() {
    run "$1" || return 1
    grep '^source ' "$folder/history" >"$folder/printed"
    tools/flows --sources "$1" "$folder/history" >"$folder/told" && cmp -s "$folder/told" "$folder/printed"
}

# Whether the tool prints what stands on the standard input, of the last history, which it reads from its own.
prints() {
    cat >"$folder/expected"
    tools/flows "$@" <"$folder/history" >"$folder/told" && cmp -s "$folder/told" "$folder/expected"
}

# Whether the tool ends with a failure, prints nothing, and says this on the standard error.
complains() {
    said=$1
    shift
    ! tools/flows "$@" >"$folder/told" 2>"$folder/errors" && [ ! -s "$folder/told" ] && grep -qF -e "$said" "$folder/errors"
}

for script in examples/*.macsim; do
    has_its_sources "$script"
    count $? "$script: the flows come to other sources than are printed"
done

# What is read is of a grade of its own, and what gets something is written to once.
cat >"$folder/each.macsim" <<'END'
boot mac_biba
file /list dir uid 0 gid 0 mode 755 label biba/1
file /tool reg uid 0 gid 0 mode 755 label biba/2
file /seen reg uid 0 gid 0 mode 644 label biba/3
file /read reg uid 0 gid 0 mode 644 label biba/4
file /mark reg uid 0 gid 0 mode 644 label biba/8
file /written reg uid 0 gid 0 mode 644 label biba/low
file /mode reg uid 0 gid 0 mode 644 label biba/low
file /made dir uid 0 gid 0 mode 755 label biba/low
file /gone dir uid 0 gid 0 mode 755 label biba/low
file /gone/one reg uid 0 gid 0 mode 644 label biba/low
file /kept dir uid 0 gid 0 mode 755 label biba/low
file /kept/full dir uid 0 gid 0 mode 755 label biba/low
file /kept/full/one reg uid 0 gid 0 mode 644 label biba/low
task t uid 0 gid 0 label biba/low
pipe out
socket from
socket to
fork signalled
fork sched
fork debugged
fork a
@a setpmac biba/5
@a pipe five
@a setpmac biba/6
@a pipe six
@a setpmac biba/7
@a socket seven
readdir /list
exec /tool
stat /seen
read /read
pread five
pstat six
recv seven
signal t.signalled
sched t.sched
@debugged read /mark
debug t.debugged
write /written x
chmod /mode 600
create /made/new
unlink /gone/one
unlink /kept/full
pwrite out x
send from to x
fork late
setfmac biba/9 /written
end
END
has_its_sources "$folder/each.macsim"
count $? "the flows of each operation come to other sources than are printed"

# Each child observes one thing, of a grade of its own, and then makes a pipe, whose sources have the element that the child was lowered to.
# One makes a file by a call that lowers it, and the last does what lowers nobody.
cat >"$folder/lowered.macsim" <<'END'
boot mac_lomac
file /list dir uid 0 gid 0 mode 755 label lomac/21
file /tool reg uid 0 gid 0 mode 755 label lomac/22
file /seen reg uid 0 gid 0 mode 644 label lomac/23
file /read reg uid 0 gid 0 mode 644 label lomac/24
file /high reg uid 0 gid 0 mode 644 label -
task t uid 0 gid 0 label lomac/high
fork low
@low setpmac lomac/28
pipe five
setpipemac lomac/25 five
pipe six
setpipemac lomac/26 six
socket seven
setsockmac lomac/27 seven
fork readdir
@readdir readdir /list
@readdir pipe readdir
fork lookup
@lookup read /list/none
@lookup pipe lookup
fork exec
@exec exec /tool
@exec pipe exec
fork stat
@stat stat /seen
@stat pipe stat
fork read
@read read /read
@read pipe read
fork pread
@pread pread five
@pread pipe pread
fork pstat
@pstat pstat six
@pstat pipe pstat
fork recv
@recv recv seven
@recv pipe recv
fork debug
@debug debug t.low
@debug pipe debug
fork denied
@denied create /list/new
@denied setpmac lomac/high
@denied write /high x
@denied pipe denied
fork others
@others signal t.low
@others sched t.low
@others see t.low
@others seesock seven
@others bind seven tcp 80
@others pwrite five x
@others send seven seven x
@others chmod /seen 600
@others write /read x
@others setfmac lomac/3 /tool
@others pipe others
pipe last
end
END
has_its_sources "$folder/lowered.macsim"
count $? "the flows of processes that are lowered come to other sources than are printed"

# Through descriptors that outlive a relabel of the file, of the process, of both, and one that is taken back; each file has a grade of its own,
# and so has what is written to. Under mac_mls each transfer that passes counts; under mac_biba with revocation some are denied.
cat >"$folder/outlived.macsim" <<'END'
boot mac_biba
boot mac_mls
file /file reg uid 0 gid 0 mode 644 label biba/11,mls/11
file /own reg uid 0 gid 0 mode 644 label biba/12,mls/12
file /both reg uid 0 gid 0 mode 644 label biba/13,mls/13
file /back reg uid 0 gid 0 mode 644 label biba/14,mls/14
file /kept reg uid 0 gid 0 mode 644 label biba/15,mls/15
file /written reg uid 0 gid 0 mode 644 label biba/2,mls/31
file /lower reg uid 0 gid 0 mode 644 label biba/3,mls/32
file /d dir uid 0 gid 0 mode 755 label biba/9,mls/30
file /d/gone reg uid 0 gid 0 mode 644 label biba/9,mls/30
task t uid 0 gid 0 label biba/9,mls/30
fork a
@a open /file r
setfmac biba/10 /file
@a fread 0
@a pipe file
fork b
@b open /own r
@b setpmac biba/8
@b fread 0
@b pipe own
fork c
@c open /both r
@c setpmac mls/29
setfmac biba/7 /both
@c fread 0
@c pipe both
fork d
@d open /back r
setfmac biba/9 /back
@d setpmac biba/7
setfmac biba/14 /back
@d setpmac biba/9
@d fread 0
@d pipe back
fork e
@e open /kept r
@e open /written w
@e open /lower w
@e fread 0
setfmac biba/1 /written
@e fwrite 1 x
@e fwrite 2 x
@e close 2
@e fwrite 2 x
@e pipe kept
fork f
@f open /d/gone r
unlink /d/gone
@f fread 0
@f open /kept r
@f exit
end
END
has_its_sources "$folder/outlived.macsim"
count $? "the flows through descriptors come to other sources than are printed"
sed 's/^boot mac_mls/&\ntunable security.mac.biba.revocation_enabled=1/' "$folder/outlived.macsim" >"$folder/revoked.macsim"
has_its_sources "$folder/revoked.macsim"
count $? "the flows through descriptors, with revocation, come to other sources than are printed"

script=examples/19-through-a-process.macsim
run "$script"
prints "$script" <<'END'
digraph flows {
    "vnode:/" -> "proc:t" [label="vnode_lookup 6,7"];
    "vnode:/inbox" -> "proc:t" [label="vnode_open_read 6\nvnode_read 6"];
    "proc:t" -> "vnode:/report" [label="vnode_open_write 7\nvnode_write 7"];
}
END
count $? "$script: another picture"
prints --only --from vnode:/inbox "$script" <<'END'
proc:t from vnode:/inbox by vnode_open_read, line 6: read /inbox
vnode:/report from proc:t by vnode_open_write, line 7: write /report mail
END
count $? "$script: something else may hold what was in /inbox"
prints --from proc:t "$script" <<'END'
vnode:/report from proc:t by vnode_open_write, line 7: write /report mail
END
count $? "$script: something else may hold what was in t"

complains 'there is no thing vnode:/none' --from vnode:/none "$script" "$folder/history"
count $? "a thing that isn't there isn't told"
complains "doesn't belong to this script" examples/02-write-then-read.macsim "$folder/history"
count $? "the history of another script isn't told"
sed '/^source/s/,3/,4/' "$folder/history" >"$folder/other"
complains 'the flows come to other sources' "$script" "$folder/other"
count $? "other sources aren't told"
sed 3d "$folder/history" >"$folder/part"
complains 'part line 3: ' "$script" "$folder/part"
count $? "a history that isn't whole isn't told"
head -n 2 "$folder/history" >"$folder/cut"
complains 'cut line 3: it ends before the calls of the script do' "$script" "$folder/cut"
count $? "a history that is cut isn't told"
echo 'macsim: script line 2 fault 2 UnknownWord' >"$folder/fault"
complains 'macsim printed no history' "$script" "$folder/fault"
count $? "the text of an error isn't told"
sed 's/^read/raed/' "$script" >"$folder/faulty"
complains "faulty line 6: there is no call \`raed\`" "$folder/faulty" "$folder/history"
count $? "a fault of the script isn't told"

print_count
