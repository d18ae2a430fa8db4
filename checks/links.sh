#!/bin/sh
# Tries the links, the paths and the names of the documents: README.md, CHANGELOG.md,
# bench/README.md and docs/*.md. It runs no program and ignores its argument: `sh checks/links.sh`.
set -eu
cd "$(dirname "$0")/.."
exec python3 checks/links.py
