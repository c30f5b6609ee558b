#!/usr/bin/env bash
# Measures what hostile bodies and lines cost, each beside an accepted one of the same size.
#
#     hostile.sh [RUNS]      (5 if left out)
#
# The least time of the runs counts.
#
# Needs the built program, which PROGRAM may name, and python3 from 3.10 on. Files go to a temporary folder, or stay in
# BENCH_WORK.
#
# Exit status: 0 if all ran and held; 1 if a reply is another than is expected, or takes more than 3 times as long as
# the accepted one, or something failed; 77, after what is missing, if it could not be run.
set -u
. "$(dirname "${BASH_SOURCE[0]}")/../../tools/common.sh"
need_python
find_program
make_or_keep_work
run_python "$top/bench/hostile/hostile.py" "$program" "$work" "${1:-5}"
end
