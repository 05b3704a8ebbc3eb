#!/bin/sh
# Runs the program over scripts of mutated bytes, and at and past each limit: over 2,500 of them,
# and with `checks/mutations.sh --all` over 20,000. Needs python3. A line for each failure, then the
# counts.
cd "$(dirname "$0")/.." || exit 1

# The proved program is run, and no other.
./macsim --proved run </dev/null >/dev/null || exit 1
exec python3 -B checks/mutations.py "$@"
