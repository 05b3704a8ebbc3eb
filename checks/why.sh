#!/bin/sh
# The lines that `macsim run why`, `step why`, `run why all` and `step why all` write behind the text of a run, against rules of their own in
# why_rules.py, which go by that text alone: over worked rows with a denial by each test, the examples, worked scripts and 100 scripts of random calls,
# and with `checks/why.sh --all` over 2,000, with the length of the longest text. Needs the kit's clang and python3. A line for each failure, then the
# counts.
. "$(dirname "$0")/refusing"
python3 -B checks/why.py --refusing "$refusing" "$@"
