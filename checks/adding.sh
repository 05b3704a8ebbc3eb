#!/usr/bin/env bash
# "Where to add" in docs/ARCHITECTURE.md against the sources: each file that names a call, a module or a word of the program stands in its table, and a
# file that stands there is there and names one; no crate of a policy names another module than its own. Then in how many files a call and a module
# stand. Tests aren't looked at. Rows without such names aren't found where they are new, and of the tables of settings and tunables it is looked
# alone whether their files are there: the head of adding.py says which.
cd "$(dirname "$0")/.." || exit 1
exec python3 -B checks/adding.py
