#!/bin/sh
# Finds what the auditor's crates have in common with those that they judge, line for line (docs/THEOREM.md, The auditor): a line for each copy, then a
# count.
cd "$(dirname "$0")/.." || exit 1
python3 -B checks/copies.py
