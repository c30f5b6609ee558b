#!/usr/bin/env bash
# Measures the store against store.c, the same statements in C over libsqlite3, in memory and over files.
#
#     store.sh [RUNS]      (5 if left out)
#
# Needs rt, gcc and libsqlite3 with its header. Files go to a temporary folder, or stay in BENCH_WORK;
# the next run there is quicker, since the program is proved. The two programs run in turn, and of the
# medians of an operation's times the least counts.
#
# Exit status: 0 if both ran; 1 if they answer otherwise than each other or something failed; 77, after what is missing,
# if they could not be run.
# shellcheck disable=SC2086 # a size is two words
set -u
. "$(dirname "${BASH_SOURCE[0]}")/../../tools/common.sh"
need rt
need_libsqlite3
make_or_keep_work
here=$top/bench/store
common=$top/bench/common
runs=${1:-5}

gcc -O2 -Wall -I "$common" -o "$work/plain" "$here/store.c" "$common/tables.c" -lsqlite3 || fail "store.c was not built"
program=$("$top/tools/build.sh" "$here/store.rattle" "$work" memory 2 2) || fail "store.rattle was not built"

# A line an operation: the place, the numbers of holders and authorizations, the operation,
# nanoseconds, and the sum of what was answered.
measure() {
    local place=$1 path=$1
    [ "$place" = memory ] || path=$work/measured.db
    rm -f "$work"/measured.db*
    "$4" "$path" "$2" "$3" "${@:5}" | sed "s/^/$place $2 $3 /"
    return "${PIPESTATUS[0]}"
}

: >"$work/roadesk.lines"
: >"$work/plain.lines"
for _ in $(seq "$runs"); do
    for place in memory file; do
        for size in '1000 10' '100 100'; do
            measure "$place" $size "$program" >>"$work/roadesk.lines" || fail "store.rattle failed"
            measure "$place" $size "$work/plain" "$top/tools/tables.sql" >>"$work/plain.lines" || fail "store.c failed"
        done
    done
done

awk '
    { key = $1 " " $2 " " $3 " " $4 }
    !(key in order) { order[key] = ++keys; names[keys] = key; sum[key] = $6 }
    sum[key] != $6 { print "other answers: " key; differ = 1 }
    FNR == NR { if (!(key in roadesk) || $5 < roadesk[key]) roadesk[key] = $5; next }
    !(key in plain) || $5 < plain[key] { plain[key] = $5 }
    END {
        printf "%-6s  %12s  %-15s  %9s  %9s  %6s\n", "", "rows", "operation", "roadesk", "C", "ratio"
        for (at = 1; at <= keys; at++) {
            key = names[at]
            split(key, part, " ")
            printf "%-6s  %12s  %-15s  %6.1f us  %6.1f us  %6.2f\n", part[1], part[2] " of " part[3], part[4],
                roadesk[key] / 1000, plain[key] / 1000, roadesk[key] / plain[key]
        }
        exit differ
    }' "$work/roadesk.lines" "$work/plain.lines"
