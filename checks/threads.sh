#!/bin/sh
# Runs scripts of sixteen tasks on one, two and four processors, with threads that can't be made,
# and with memory refused while tasks wait for a change, or are lowered: a sample, every 32nd allocation, another one
# each day; `checks/threads.sh --all` takes each, and `--every N --from K` every Nth, from number
# K mod N + 1 on, with the first fifteen besides. Needs the kit's clang and python3. A line for each kind of run, then a count.
. "$(dirname "$0")/refusing"
python3 -B checks/threads.py --refusing "$refusing" "$@"
