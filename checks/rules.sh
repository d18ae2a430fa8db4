#!/bin/sh
# Tries the rules of docs/CONTRIBUTING.md that a script can try, in seconds. It runs no program and
# ignores its argument: `sh checks/rules.sh`.
set -eu
cd "$(dirname "$0")/.."
exec python3 checks/rules.py
