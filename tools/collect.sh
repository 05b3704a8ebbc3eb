#!/bin/sh
# Prints what tools/from-host reads of a FreeBSD machine: modules, settings, rules of ugidfw(8), names, mounts, the attributes of all files below
# the given directories, and processes. To be run there as root, since others see less. It isn't proved, and was never run on such a machine.
#
#     sh collect.sh PATH.. >web.host
#
# It changes nothing, reads no file's content, and carries no password hash. What it prints is told on the standard error first.
LC_ALL=C
export LC_ALL

if [ "$#" -eq 0 ] || [ "$1" = -h ] || [ "$1" = --help ]; then
    echo 'collect.sh: usage: sh collect.sh PATH.. >OUTPUT, as root, with the directories that the question is about' >&2
    exit 2
fi
cat >&2 <<'SAID'
collect.sh: this is printed, and nothing else:
    uname -a; kldstat; mount; ps and procstat of all processes, with their ids, groups and labels
    sysctl of security.mac, security.bsd.see_other_uids, net.inet.ip.portrange.reservedlow and reservedhigh, kern.securelevel
    ugidfw list; name and ids of each line of passwd, name, id and members of each of group, without passwords
    ls -ldnZB of each given path, of all that is below it on its file system, and of the directories on its way: names, modes, owners, labels, sizes, times
SAID
[ "$(id -u)" -eq 0 ] || echo 'collect.sh: beware: this is not root, so files and processes may be lacking' >&2

section() {
    echo "== $1"
    shift
    "$@"
}

settings() {
    for name in security.mac security.bsd.see_other_uids net.inet.ip.portrange.reservedlow net.inet.ip.portrange.reservedhigh kern.securelevel; do
        sysctl "$name" 2>/dev/null
    done
}

rules() {
    ugidfw list 2>/dev/null
}

users() {
    getent passwd | awk -F: '{ print $1 ":*:" $3 ":" $4 }'
}

groups_of_users() {
    getent group | awk -F: '{ print $1 ":*:" $3 ":" $4 }'
}

# The lines of one path: the directories on its way from the root, and all that is below it.
lines_of() {
    path=$(realpath "$1") || return 1
    directory=$path
    while [ "$directory" != / ]; do
        directory=$(dirname "$directory")
        ls -ldnZB "$directory"
    done
    find "$path" -xdev -print0 | xargs -0 ls -ldnZB
}

files() {
    for path in "$@"; do
        lines_of "$path" || echo "collect.sh: beware: $path is left out" >&2
    done
}

section uname uname -a
section kldstat kldstat
section sysctl settings
section ugidfw rules
section passwd users
section group groups_of_users
section mount mount
section ls files "$@"
section ps ps -axww -o pid,ppid,jid,uid,ruid,svuid,gid,label,comm
section procstat procstat -as
echo '== end'
