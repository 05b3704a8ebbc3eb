# Draws the sources of a run for Graphviz: an edge from each element to each process, file, pipe and socket whose sources have it. What is no
# history, as the fault of a script, and one without sources are told on the standard error, with status 1, and nothing is printed. It isn't
# proved; checks/examples.sh compares one picture.
function stop(why) {
    print why > "/dev/stderr"
    failed = 1
    exit 1
}
/^macsim:/ { stop($0) }
/[^ -~]/ || $1 !~ /^(boot|enter|done|leave|changed|waits|stale|source)$/ || ($1 == "source" && NF != 4) {
    stop("sources.awk: line " NR " is none of a history: " $0)
}
$1 == "source" { told[$2]++; lines++ }
$1 == "boot" && $2 ~ /^mac_(biba|mls|lomac)$/ { booted[substr($2, 5)] }
$1 == "source" && $4 != "-" {
    count = split($4, element, ",")
    for (i = 1; i <= count; i++)
        edge[++edges] = sprintf("    \"%s/%s\" -> \"%s\";", $2, element[i], $3)
}
END {
    if (failed) exit 1
    for (policy in booted) if (!told[policy]) stop("sources.awk: the history isn't whole, it ends before the sources of mac_" policy)
    if (!lines) stop("sources.awk: there are no sources in it, as where none of mac_biba, mac_mls and mac_lomac was booted")
    print "digraph sources {"
    for (i = 1; i <= edges; i++) print edge[i]
    print "}"
}
