#!/usr/bin/env bash
# Which entries of the last column of the table of operations the laws of movements need, and which are only believed: see
# checks/movements.py. It isn't part of the gate, since it tries the laws anew for each entry: four processor minutes.
cd "$(dirname "$0")/.." || exit 1
exec python3 -B checks/movements.py
