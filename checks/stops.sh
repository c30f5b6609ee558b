#!/usr/bin/env bash
# Whether the program keeps what it answered when it is killed, and when its disk is full or fails. And whether it says
# what OPERATIONS.md says if others use or change its files.
#
#     stops.sh [LIVES [SEED]]      (200 lives, and a seed that is drawn, if left out)
#
# The cases are in the tables of stops.py. Each begins with a copy of one database, and SQLite reads its tables
# afterwards. Last, lives.py kills the desk at random moments under load.
#
# Needs the built program, which PROGRAM may name, python3 from 3.10 on, sqlite3, curl, prlimit and setpriv, and strace
# with the right to trace.
#
# Exit status: 0 if all ran and held; 1 if something else is found or something failed; 77, after what is missing, if it
# could not be run.
set -u
. "$(dirname "${BASH_SOURCE[0]}")/../tools/common.sh"
need_python
need sqlite3 curl strace prlimit setpriv
strace -D -f -qq -o /dev/null true 2>/dev/null || skip 'no right to trace a process with strace'
find_program
make_work
# Another user runs the program too.
chmod 711 "$work"
install -m 755 "$program" "$work/roadesk" && install -m 644 "$top/examples/charter.csv" "$work" || exit 1
run_python "$top/checks/stops.py" "$work/roadesk" "$work" "${1:-200}" "${2:-$RANDOM}"
end
