#!/usr/bin/env bash
# Measures `roadesk serve` against serve.c, which answers the same requests in C over libsqlite3.
#
#     serve.sh [--only-c] [RUNS [SIZE]...]      (5, and all sizes, if left out; --only-c runs the C server alone)
#
# A SIZE is as '200 500', the holders, at most 32768, and the authorizations of each, at most 1000; the greatest,
# '25000 40', takes 0.5 GB of files. At '1000 10', '100 100', '10 1000' and '20 0' only those operations are measured
# whose time the size of the holder decides. The two servers run in turn, each first in every other run, and of the
# medians of an operation the least counts, as do the least processor time of the server and the least peak of memory.
#
# Needs the built program, which PROGRAM may name, gcc, libsqlite3 with its header and sqlite3; with strace the calls
# that sync are counted too. Files go to a temporary folder, or stay in BENCH_WORK.
#
# Exit status: 0 if all ran; 1 if the two answer otherwise than each other or leave other rows, or something failed; 77,
# after what is missing, if it could not be run.
# shellcheck disable=SC2086 # a size is two words, and the C server has no first word
set -u
. "$(dirname "${BASH_SOURCE[0]}")/../../tools/common.sh"
need gcc sqlite3
need_libsqlite3
here=$top/bench/serve
common=$top/bench/common
servers='roadesk C'
if [ "${1:-}" = --only-c ]; then
    servers=C
    shift
fi
runs=${1:-5}
sizes=("${@:2}")
[ ${#sizes[@]} != 0 ] || sizes=('200 5' '200 50' '200 500' '20 900' '1 1000' '10000 1' '25000 4' '25000 40'
    '1000 10' '100 100' '10 1000' '20 0')

[ "$servers" = C ] || find_program
make_or_keep_work
gcc -O2 -Wall -I "$common" -o "$work/serve" "$here"/{serve,texts,kept}.c "$common/tables.c" -lsqlite3 ||
    fail "serve.c was not built"
gcc -O2 -Wall -I "$common" -o "$work/client" "$here/client.c" || fail "client.c was not built"

# make_desk HOLDERS AUTHORIZATIONS: the database file desk.db, written by sqlite3.
make_desk() {
    rm -f "$work"/desk.db*
    awk -v holders="$1" -v auths="$2" -f "$here/desk.awk" >"$work/desk.sql" || fail "desk.awk failed"
    { echo 'PRAGMA journal_mode = WAL;' && cat "$top/tools/tables.sql" "$work/desk.sql"; } |
        sqlite3 "$work/desk.db" >/dev/null || fail "sqlite3 failed"
}

declare -A programs=([roadesk]=${program:-} [C]=$work/serve) first_words=([roadesk]=serve [C]='')

# place COUNT: a copy of desk.db, and the `words` of a server of it for so many connections at `port`.
place() {
    free_port && port=$free
    rm -f "$work"/served.db*
    cp "$work/desk.db" "$work/served.db" && sync "$work/served.db" || return 1
    words=(--db "$work/served.db" --listen "127.0.0.1:$port" --count "$1" --day 2026-03-01)
}

# start COUNT COMMAND...: starts the server on a copy of desk.db; `port` and `server` are its port and process.
start() {
    local words
    place "$1" || return 1
    "${@:2}" "${words[@]}" >&2 &
    server=$!
}

sum_of_rows() {
    sqlite3 "$work/served.db" .dump | cksum | tr ' ' -
}

# connections OPERATION COUNT: how many the client makes, with the one after the time of the server is taken.
connections() {
    case $1 in
    first-*) echo $((1 + $2)) ;;
    slurm-*) echo $((2 + 3 * $2)) ;;
    *-validity) echo $((2 + 2 * $2)) ;;
    *) echo $((2 + $2)) ;;
    esac
}

# ask OPERATION HOLDERS AUTHORIZATIONS COUNT COMMAND...: starts the server and prints the client's line and a sum
# of the rows afterwards.
ask() {
    local operation=$1 holders=$2 auths=$3 count=$4 port server line
    shift 4
    start "$(connections "$operation" "$count")" "$@" || return 1
    if ! line=$("$work/client" "$port" "$operation" "$holders" "$auths" "$count" "$server"); then
        kill "$server" 2>/dev/null
        return 1
    fi
    wait "$server" || return 1
    echo "$line $(sum_of_rows)"
}

# ask_at_start OPERATION HOLDERS AUTHORIZATIONS COUNT COMMAND...: the same, but the client starts the server.
ask_at_start() {
    local port words line
    place 1 || return 1
    line=$("$work/client" "$port" "$1" "$2" "$3" "${@:5}" "${words[@]}") || return 1
    echo "$line $(sum_of_rows)"
}

# measure_alone SIZE OPERATION COUNT: of the program alone, since the C server leaves SLURM files out.
measure_alone() {
    local turn=roadesk
    [ "$servers" = C ] || measure "$@"
}

# A line an operation: server, holders, authorizations, operation, median and mean in nanoseconds, the sum of the
# responses, the processor time of the server in nanoseconds, and the sum of the rows.
measure() {
    local size=$1 operation=$2 count=$3 ask=ask server line
    [ "$operation" != start ] || ask=ask_at_start
    for server in $turn; do
        line=$("$ask" "$operation" $size "$count" "${programs[$server]}" ${first_words[$server]}) ||
            fail "$server failed: $operation"
        echo "$server $size $operation $line" >>"$work/serve.lines"
    done
}

# memory: the most memory that the server has taken, and what it takes now, in kB.
memory() {
    awk '/^Vm(HWM|RSS)/ { printf " %d", $2 }' "/proc/$server/status"
}

# ask_for_memory HOLDERS AUTHORIZATIONS COMMAND...: the memory of a server, once it listens, so that its database is
# open, after the validity of a route, for which the day is kept, and after the first payloads.
ask_for_memory() {
    local size="$1 $2" port server operation line
    shift 2
    start 3 "$@" || return 1
    wait_for "$port" "$server" || return
    line=$(memory)
    for operation in first-validity first-payloads; do
        "$work/client" "$port" "$operation" $size 1 >/dev/null || { kill "$server"; return 1; }
        line+=$(memory)
    done
    "$work/client" "$port" first-validity $size 1 >/dev/null && wait "$server" && echo "$line"
}

# print_check SIZE: the most memory that the check of the file by the program's SQLite library takes. The file has a
# table too many, so the program ends after that check, before it reads a row.
print_check() {
    local port words
    [ "$servers" != C ] || return 0
    place 1 && sqlite3 "$work/served.db" 'CREATE TABLE more (x)' || fail "sqlite3 failed"
    printf '%-30s  %8s  %7d kB\n' "${1/ / of }, the check alone" roadesk \
        "$("$work/client" peak "$program" serve "${words[@]}" 2>/dev/null)"
}

# A line: server, holders, authorizations, the number of VRPs, and the memory, most and now, opened, kept and written.
measure_memory() {
    local size=$1 server line vrps
    vrps=$(sqlite3 "$work/desk.db" 'SELECT count(*) FROM claim JOIN entry USING (holder, number)
        WHERE opens <= 20513 AND ends >= 20513')
    for server in $turn; do
        line=$(ask_for_memory $size "${programs[$server]}" ${first_words[$server]}) || fail "$server failed: memory"
        echo "$server $size $vrps $line" >>"$work/memory.lines"
    done
}

# syncs SERVER OPERATION: how often the server synced a file for 100 requests.
syncs() {
    ask "$2" 100 100 100 strace -f -qq -o "$work/syncs" -e trace=fsync,fdatasync \
        "${programs[$1]}" ${first_words[$1]} >/dev/null || fail "$1 failed below strace"
    # Its status is 1 if there is none.
    grep -c 'sync(' "$work/syncs" || [ $? = 1 ]
}

# measure_desk: each operation that is possible at the size.
measure_desk() {
    local operation
    for operation in show list denied validity; do
        measure "$size" "$operation" 1000
    done
    # A holder of 1000 has no room for a create.
    case $size in
    *' 1000') measure "$size" full 200 ;;
    *)
        measure "$size" create 200
        measure "$size" create-validity 200
        ;;
    esac
    measure "$size" withdraw 200
    measure "$size" withdraw-validity 200
    # A what-if withdraws five authorizations. A holder has one import, which makes 100, and one transfer.
    if [ "$auths" -ge 5 ]; then
        measure "$size" what-if 200
        measure_alone "$size" slurm-what-if 20
    fi
    if [ "$holders" -ge 20 ] && [ "$auths" -ge 500 ] && [ "$auths" -le 900 ]; then
        measure "$size" import 20
        measure "$size" import-100 20
        measure "$size" transfer 20
    fi
    measure "$size" payloads 20
    for _ in 1 2 3; do
        measure "$size" first-payloads 1
        [ "$auths" -lt 5 ] || measure "$size" first-what-if 1
        measure "$size" start 1
    done
    measure_memory "$size"
}

# measure_holder: the operations whose time the size of the holder decides.
measure_holder() {
    local once=$((holders < 100 ? holders : 100))
    measure "$size" what-if 200
    # A holder gives its first /24 away once. It has one import that makes 100, if it has room for them.
    measure "$size" transfer-24 "$once"
    measure "$size" import-present 200
    [ "$auths" -gt 900 ] || measure "$size" import-100 "$once"
}

# measure_empty: an import by each of the holders without any authorization.
measure_empty() {
    measure "$size" import-empty "$holders"
}

turn=$servers
: >"$work/serve.lines"
: >"$work/memory.lines"
: >"$work/check.lines"
for size in "${sizes[@]}"; do
    make_desk $size
    read -r holders auths <<<"$size"
    case $size in
    '1000 10' | '100 100' | '10 1000') part=holder ;;
    '20 0') part=empty ;;
    *) part=desk ;;
    esac
    for _ in $(seq "$runs"); do
        "measure_$part"
        turn=$(tr ' ' '\n' <<<"$turn" | tac | xargs)
    done
    [ "$part" != desk ] || print_check "$size" >>"$work/check.lines"
done

awk -v servers="$servers" '
    { row = $2 " of " $3 " " $4; key = row " " $1; answers = $7 " " $9 }
    !(row in first) { first[row] = answers; order[++rows] = row }
    first[row] != answers { print "other answers: " row; differ = 1 }
    !(key in median) || $5 < median[key] { median[key] = $5 }
    !(key in mean) || $6 < mean[key] { mean[key] = $6 }
    !(key in busy) || $8 < busy[key] { busy[key] = $8 }
    # One row over another one, of each server.
    function print_quotient(row, other,   one) {
        if (!(row in first) || !(other in first)) return
        printf "%-30s  over %-30s", row, other
        for (one = 1; one <= count; one++)
            printf "  %s %.2f busy %.2f", server[one], median[row " " server[one]] / median[other " " server[one]],
                busy[row " " server[one]] / busy[other " " server[one]]
        print ""
    }
    END {
        count = split(servers, server, " ")
        printf "%-30s", "rows, operation"
        for (one = 1; one <= count; one++) printf "  %11s  %10s  %11s", server[one], "a second", "busy"
        print (count == 2 ? "   ratio    busy" : "")
        for (at = 1; at <= rows; at++) {
            printf "%-30s", order[at]
            for (one = 1; one <= count; one++) {
                key = order[at] " " server[one]
                if (key in median)
                    printf "  %8.1f us  %10d  %8.1f us", median[key] / 1000, 1e9 / mean[key], busy[key] / 1000
            }
            if (count == 2 && (order[at] " C") in median)
                printf "  %6.2f  %6.2f", median[order[at] " roadesk"] / median[order[at] " C"],
                    busy[order[at] " roadesk"] / busy[order[at] " C"]
            print ""
        }
        print_quotient("200 of 50 validity", "200 of 50 show")
        print_quotient("200 of 500 validity", "200 of 500 show")
        print_quotient("200 of 500 create-validity", "200 of 5 create-validity")
        print_quotient("25000 of 40 show", "25000 of 4 show")
        print_quotient("25000 of 40 validity", "25000 of 4 validity")
        print_quotient("25000 of 40 create-validity", "25000 of 4 create-validity")
        print_quotient("10 of 1000 what-if", "1000 of 10 what-if")
        print_quotient("10 of 1000 transfer-24", "1000 of 10 transfer-24")
        print_quotient("10 of 1000 import-present", "1000 of 10 import-present")
        print_quotient("20 of 900 import-100", "1000 of 10 import-100")
        exit differ
    }' "$work/serve.lines"
same=$?

awk -v servers="$servers" '
    { row = $2 " of " $3 ", " $4 " VRPs"; vrps[row] = $4; key = row " " $1 }
    !(row in seen) { seen[row]; order[++rows] = row }
    !(key in kept) || $7 < kept[key] { opened[key] = $5; kept[key] = $7; written[key] = $9; grown[key] = $8 - $6 }
    END {
        if (!rows) exit
        count = split(servers, server, " ")
        printf "%-30s  %8s  %28s  %21s\n", "rows", "server", "peak opened, kept, written", "bytes a VRP: peak, now"
        for (at = 1; at <= rows; at++)
            for (one = 1; one <= count; one++) {
                row = order[at]
                key = row " " server[one]
                printf "%-30s  %8s  %7d %7d %7d kB  %11.0f %10.0f\n", row, server[one], opened[key], kept[key],
                    written[key], (kept[key] - opened[key]) * 1024 / vrps[row], grown[key] * 1024 / vrps[row]
            }
    }' "$work/memory.lines"
cat "$work/check.lines"

# What shows sync is for the opening and the end.
if command -v strace >/dev/null; then
    make_desk 100 100
    for server in $servers; do
        creates=$(syncs "$server" create) && shows=$(syncs "$server" show) || exit 1
        echo "$server synced $creates times for 100 creates, $shows for 100 shows"
    done
fi
exit "$same"
