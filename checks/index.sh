#!/bin/sh
# Fails if the lists of definitions and laws in docs/INDEX.md are not those of the sources.
# `python3 checks/index.py --write` makes them anew. It runs no program and ignores its argument:
# `sh checks/index.sh`.
set -eu
cd "$(dirname "$0")/.."
exec python3 checks/index.py
