#!/usr/bin/env bash
# Computes what has to be believed for the program's theorem, and compares it with the reading list of docs/THEOREM.md.
cd "$(dirname "$0")/.." || exit 1
exec python3 checks/believed.py "$@"
