#!/usr/bin/env bash
# Compares the grammar and the tables of calls in docs/MANUAL.md with the pieces of which scripts are spelled.
cd "$(dirname "$0")/.." || exit 1
exec python3 checks/grammar.py
