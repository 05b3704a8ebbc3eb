#!/bin/sh
# Holds the crates of the auditor to what they may use of the program that they judge (docs/THEOREM.md, The auditor): a line for each name that
# isn't allowed, then a count.
cd "$(dirname "$0")/.." || exit 1
python3 -B checks/independent.py
