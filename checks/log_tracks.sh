#!/bin/sh
# Tries the bounds that tools/log_to_table --every and --to print, on random logs of a fixed
# seed. It needs Python 3 and runs no program of this repository: it ignores its argument.
set -eu
cd "$(dirname "$0")/.."
exec python3 checks/log_tracks.py
