#!/usr/bin/env bash
# Whether a second machine that mirrors the disk of the desk has what was answered when the first is killed.
#
#     failover.sh [LIVES [SEED [SECONDS]]]    (100 lives, a seed that is drawn, and 0.5 s at most, if left out)
#
# No two machines and no module of the kernel are needed. record.c records the writes and the syncs of the desk.
# failover.py plays them onto a second pair of files, up to the last sync. That is what a mirror has that answers a sync
# when both machines have synced. The desk is killed at random moments under load, and goes on with the second pair.
# What the mirror itself does is not tested; drbdadm reads the resource file in the blocks of OPERATIONS.md.
#
# Needs the built program, which PROGRAM may name, gcc and python3 from 3.10 on, and for the resource file drbdadm.
#
# Exit status: 0 if all ran and held; 1 if something failed; 77, after what is missing, if not all of it could be run.
set -u
. "$(dirname "${BASH_SOURCE[0]}")/../tools/common.sh"
need_gcc
need_python
find_program
lives=${1:-100}
seed=${2:-$RANDOM}
seconds=${3:-0.5}
make_work
gcc -O2 -Wall -shared -fPIC -o "$work/record.so" "$top/checks/record.c" -ldl || fail 'record.c was not built'
run_python "$top/checks/failover.py" "$program" "$work" "$lives" "$seed" "$seconds"

if have 'the resource file: ' drbdadm; then
    read_file() {
        __DRBD_NODE__=first drbdadm --config-file "$top/examples/drbd/roadesk.res" dump roadesk 2>&1
    }
    expect 'the resource file: drbdadm reads it' "$(read_file >"$work/read" || cat "$work/read")" ''
    expect 'the resource file: its protocol' "$(read_file | grep -c 'protocol *C;')" 1
fi
end
