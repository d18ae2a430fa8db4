#!/bin/sh
# Tries the tools of tools/ on the logs that checks/make_logs.py makes, and on hostile ones. It
# compares tables with those of the known scene, and answers with computations of its own.
#
# `sh checks/tools.sh PROGRAM` uses that program; without an argument the one that ./try builds.
. "$(dirname "$0")/common"

python3 checks/tools.py "$program"
