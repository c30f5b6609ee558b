#!/usr/bin/env bash
# Whether a client gets the whole response to a request that is refused before its body was read.
#
#     responses.sh
#
# responses.py sends such requests to the program, with more than the sockets hold, before it reads.
#
# Needs the built program, which PROGRAM may name, and python3 from 3.10 on.
#
# Exit status: 0 if all ran and held; 1 if a response is another or breaks off or something else failed; 77, after what
# is missing, if it could not be run.
set -u
. "$(dirname "${BASH_SOURCE[0]}")/../tools/common.sh"
need_python
find_program
make_work

"$program" init --db "$work/desk.db" --charter "$top/examples/charter.csv" || fail 'init failed'
run_python "$top/checks/responses.py" "$program" "$work/desk.db"
end
