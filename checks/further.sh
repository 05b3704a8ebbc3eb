#!/bin/sh
# The lines that `matrix`, `chains` and `why` write behind the text of a run, against rules of their own in matrix_rules.py, chain_rules.py and why_rules.py,
# which go by the text of the run alone; and the same lines where the steps of that run are taken, by `step matrix`, `step chains` and `step why`: over the
# examples, worked scripts and 100 scripts of random calls, and with `checks/further.sh --all` over 2,000; at the limits of chains and one past
# each, and of the greatest matrix. A line for each failure, then the counts.
cd "$(dirname "$0")/.." || exit 1

# The proved program is run, and no other.
./macsim --proved run </dev/null >/dev/null || exit 1
exec python3 -B checks/further.py "$@"
