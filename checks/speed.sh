#!/usr/bin/env bash
# How fast the program is beside a plain one that proves nothing, and how its cost grows: `checks/speed.sh PLAIN [RUNS]`, where
# PLAIN is the path of a program that has the words `run`, which plans each call anew at its commit where PEER_REPLAN=1 is set,
# and `run1`: one thread, without locks and plans. It isn't part of the gate, since it measures and judges nothing. Instructions
# are counted by valgrind's callgrind, on all threads together; times are the least of RUNS runs (10).
# Whether both print the same, sources left out, tells something of one task alone: of several the order of events differs.
set -u
cd "$(dirname "$0")/.." || exit 1

[ $# -gt 0 ] || {
  echo "speed: usage: checks/speed.sh PLAIN [RUNS]"
  exit 2
}
command -v valgrind >/dev/null || {
  echo "speed: valgrind isn't here"
  exit 2
}
# The proved program is run, and no other.
./macsim --proved run </dev/null >/dev/null || exit 1
exec python3 -B checks/speed.py crates/macsim/out/macsim "$@"
