#!/bin/sh
# Thins random tables of a fixed seed with mobthin, and compares each with an exact computation.
# What mobthin writes must be the table with the kept points alone, COPY of mobsql must read it as
# exactly that table, and distance 0 must leave it as it is.
#
# `sh checks/thin.sh PROGRAM` uses that mobsql, and the mobthin beside it or in its crate; without
# an argument it builds mobthin, and takes the mobsql that ./try builds. It needs Python 3.
. "$(dirname "$0")/common"
python3 checks/thin.py "$program" "$(program_named mobthin)" "$work"
