#!/bin/sh
# Runs modules and instructions on the processor and compares them with the machine: examples/,
# generated modules and some that end in each way, with 0, 1 and 10 rounds by both words; then each
# instruction of the table. It prints each difference, with what makes it again, and lines of sums:
# processor.sh [--seeds A-B] [--sizes Z,Z] [--files FILE,FILE] [--compiler PROGRAM] [--jobs N]
set -eu
PYTHONPATH=$(cd "$(dirname "$0")/../scripts" && pwd)
export PYTHONPATH
status=0
python3 -m processor.compare "$@" || status=$?
python3 -m processor.instructions || status=$?
exit $status
