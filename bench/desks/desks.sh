#!/usr/bin/env bash
# Measures creates over one desk, two and four: behind one front, and sent to the desks themselves.
#
#     desks.sh [--only-c] [RUNS [COUNT]]      (3 and 400 if left out)
#
# Each desk is a process with a file and a charter of its own; the pools have no address in common. The front is that of
# examples/three-desks with the desks of the run, without TLS and without the limit on requests, which one address would
# reach. Eight clients send COUNT creates each, one after the other, each client at a holder of its own, and the holders
# are spread over the desks. So all runs send the same creates. Afterwards the files have to have all of them. With
# --only-c each desk is the C server of bench/serve.
#
# Needs gcc, nginx, sqlite3, openssl, and the built program, which PROGRAM may name, or for the C server libsqlite3 with
# its header. Files go to a temporary folder, or stay in BENCH_WORK; they should be on the disk that is of interest. Of
# the runs the one with the most creates a second counts.
#
# Exit status: 0 if all ran; 1 if a response or a row is another or something failed; 77, after what is missing, if it
# could not be run.
set -u
. "$(dirname "${BASH_SOURCE[0]}")/../../tools/common.sh"
need gcc nginx sqlite3 openssl
make_or_keep_work
if [ "${1:-}" = --only-c ]; then
    need_libsqlite3
    common=$top/bench/common serve=$top/bench/serve
    gcc -O2 -Wall -I "$common" -o "$work/serve" "$serve"/{serve,texts,kept}.c "$common/tables.c" -lsqlite3 ||
        fail "serve.c was not built"
    server=("$work/serve")
    shift
else
    find_program
    server=("$program" serve)
fi
runs=${1:-3}
count=${2:-400}
clients=8

gcc -O2 -Wall -pthread -I "$top/bench/common" -o "$work/desks-client" "$top/bench/desks/client.c" ||
    fail "client.c was not built"
# The workers of an nginx that root starts are another user.
chmod 711 "$work"
started=()

# The holder of this number, of the desks of this run; its name begins with that of its desk.
holder_of() {
    echo "d$(($1 % desks))-h$1"
}

# make_desk DESK: its file, with its holders, as `init` and an operator leave it. A holder has a /20, and `ann` as its
# manager; day 30000 is far away.
make_desk() {
    local number first
    {
        echo 'PRAGMA journal_mode = WAL;'
        cat "$top/tools/tables.sql"
        echo "INSERT INTO meta VALUES ('schema', 2); INSERT INTO operator VALUES ('reg');"
        for number in $(seq "$1" "$desks" $((clients - 1))); do
            first=$((0x0a000000 + number * 4096))
            printf "INSERT INTO pool VALUES (4, x'%032x', 20);\n" "$first"
            printf "INSERT INTO holder VALUES ('%s', 1, 0);\n" "$(holder_of "$number")"
            printf "INSERT INTO holding VALUES (4, x'%032x', x'%032x', '%s');\n" "$first" $((first + 4095)) \
                "$(holder_of "$number")"
            printf "INSERT INTO granted VALUES ('%s', 1, 'ann', 1, NULL, NULL, NULL, 30000);\n" "$(holder_of "$number")"
        done
    } | sqlite3 "$work/desk$1.db" >/dev/null || fail "sqlite3 failed"
    sync "$work/desk$1.db"
}

# start_desks: `ports` are theirs.
start_desks() {
    local desk
    rm -f "$work"/desk*.db*
    ports=()
    for desk in $(seq 0 $((desks - 1))); do
        make_desk "$desk"
        free_port
        ports+=("$free")
        "${server[@]}" --db "$work/desk$desk.db" --listen "127.0.0.1:$free" --count 1000000 --day 2026-03-01 &
        started+=($!)
    done
    for desk in $(seq 0 $((desks - 1))); do
        wait_for "${ports[desk]}" "${started[desk]}" || fail 'no desk listens'
    done
}

# start_front: on port `front`, with the lines of the three desks replaced by those of this run.
start_front() {
    local desk upstreams='' names=''
    for desk in $(seq 0 $((desks - 1))); do
        upstreams+="upstream d$desk { server 127.0.0.1:${ports[desk]}; } "
        names+="~^/holders/d$desk- d$desk; "
    done
    free_port && front=$free
    mkdir -p "$work/front"
    printf 'ann:%s\n' "$(openssl passwd -apr1 secret)" >"$work/front/callers"
    cp "$top/examples/nginx-trial.conf" "$work/front/nginx.conf"
    sed -e '/upstream \(west\|isles\)/d' -e '/holders\/\(west\|isles\)-/d' -e '/ssl_/d' -e '/^ *limit_req /d' \
        -e "s#upstream east .*#$upstreams#" -e "s#~^/holders/east- east;#$names#" -e 's#/[a-z/]*/roadesk/##' \
        -e "s/listen .*/listen 127.0.0.1:$front;/" "$top/examples/three-desks/nginx.conf" >"$work/front/site.conf"
    nginx -p "$work/front" -c nginx.conf -g 'daemon off;' 2>"$work/front.err" &
    started+=($!)
    wait_for "$front" "${started[-1]}" || fail 'no front listens'
}

stop_all() {
    kill "${started[@]}"
    wait "${started[@]}" 2>/dev/null
    started=()
}

# measure WAY: a line of the number of desks, the way, the creates a second and the median.
measure() {
    local number words=() line made=0 desk
    start_desks
    [ "$1" = direct ] || start_front
    for number in $(seq 0 $((clients - 1))); do
        if [ "$1" = direct ]; then
            words+=("$(holder_of "$number"):${ports[number % desks]}")
        else
            words+=("$(holder_of "$number"):$front")
        fi
    done
    line=$("$work/desks-client" "$count" "${words[@]}") || exit
    stop_all
    for desk in $(seq 0 $((desks - 1))); do
        made=$((made + $(sqlite3 "$work/desk$desk.db" 'SELECT count(*) FROM claim')))
    done
    [ "$made" = $((clients * count)) ] || fail "$made authorizations in the files"
    echo "$desks $1 $line" >>"$work/desks.lines"
}

: >"$work/desks.lines"
for _ in $(seq "$runs"); do
    for desks in 1 2 4; do
        measure direct
        measure front
    done
done

awk '
    { key = $1 " " $2 }
    !(key in most) || $3 > most[key] { most[key] = $3; median[key] = $4 }
    END {
        printf "%5s  %26s  %26s  %s\n", "desks", "behind the front", "to the desks", "front over direct"
        for (desks = 1; desks <= 4; desks *= 2) {
            front = desks " front"; direct = desks " direct"
            printf "%5d  %8d a second %6.2f ms  %8d a second %6.2f ms  %.2f\n", desks, most[front],
                median[front] / 1e6, most[direct], median[direct] / 1e6, most[front] / most[direct]
        }
    }' "$work/desks.lines"
tell_load
