#!/bin/sh
# Tests tools/where with notes, small scripts and table files. Each output was worked out by hand.
# It runs no program, so it ignores its argument: `sh checks/where.sh [PROGRAM]`.
exec python3 "$(dirname "$0")/where.py"
