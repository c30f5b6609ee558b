#!/usr/bin/env bash
# Whether the program answers as the model of model.py, which states DEFINITIONS.md and FORMATS.md once more.
#
#     model.sh [RUNS [SEED [STEP]]]    (by default 1000 runs from seed 1, in steps of 1)
#
# A run whose seed is a multiple of five is a random session over HTTP on a new file, and each other one a random
# script. The seeds are SEED, SEED + STEP and so on, so `model.sh 1000 5 5` makes 1,000 sessions. Stops at the first
# difference, and prints its seed, the request and both answers; at the latest after an hour.
#
# Needs the built program, which PROGRAM may name, and python3 from 3.10 on.
#
# Exit status: 0 if all runs were made and the answers are the same; 1 if they differ or something else failed; 77,
# after what is missing, if not all runs could be made, as in an hour.
set -u
. "$(dirname "${BASH_SOURCE[0]}")/../tools/common.sh"
need_python
find_program
runs=${1:-1000}
seed=${2:-1}
step=${3:-1}
make_work
echo "$runs runs from seed $seed in steps of $step"
run_python "$top/checks/model_runs.py" "$program" "$work" "$runs" "$seed" "$step"
end
