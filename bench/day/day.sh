#!/usr/bin/env bash
# Measures a new day: how long the desk takes to stop, its copy, and the next start, and what clients get meanwhile.
#
#     day.sh [RUNS [SIZE]...]      (3, and '200 500' and '2000 500', if left out)
#
# A SIZE is the holders and the authorizations of each. Each run starts the program on a copy of one database file, asks
# it for the VRPs and makes 100 authorizations. So the day is kept and there is a log. Then it does what
# roadesk-day.service does: it stops the desk, copies its database by the command sqlite3, and starts it on the next
# day. Two fronts are before it, as examples/nginx.conf has them but without TLS: the first as it is, the second with
# examples/wait.conf, whose delay is made DELAY (2s, and 15s from 1,000,000 on, if left out). From the stop to the first
# answer one client asks the first front ten times a second, and another one, whose one request is sent just after the
# stop, waits at the second.
#
# Needs the built program, which PROGRAM may name, nginx, sqlite3, openssl and curl. Files go to a temporary folder, or
# stay in BENCH_WORK; they should be on the disk that is of interest. Of each time the least and the most are printed.
#
# Exit status: 0 if all ran; 1 if the first client gets something else than 502 and then 403 (the denial), the waiting
# one does not get 403, the copy lacks an authorization, or something failed; 77, after what is missing, if it could not
# be run.
set -u
. "$(dirname "${BASH_SOURCE[0]}")/../../tools/common.sh"
need nginx sqlite3 openssl curl
find_program
runs=${1:-3}
sizes=("${@:2}")
[ ${#sizes[@]} != 0 ] || sizes=('200 500' '2000 500')

make_or_keep_work
# The workers of an nginx that root starts are another user.
chmod 711 "$work"

# make_desk HOLDERS AUTHORIZATIONS: the database file desk.db, written by sqlite3.
make_desk() {
    rm -f "$work"/desk.db*
    {
        echo 'PRAGMA journal_mode = WAL; PRAGMA synchronous = OFF;'
        cat "$top/tools/tables.sql"
        awk -v holders="$1" -v auths="$2" -f "$top/bench/serve/desk.awk"
    } | sqlite3 "$work/desk.db" >/dev/null || fail "sqlite3 failed"
    sync "$work/desk.db"
}

# start_desk DAY
start_desk() {
    "$program" serve --db "$work/served.db" --listen "127.0.0.1:$port" --count 1000000 --day "$1" &
    desk=$!
}

# start_front FOLDER LINES: on the port `free`, with these lines more in its server; `started` is its process.
start_front() {
    local folder=$work/$1
    mkdir -p "$folder" && cp -r "$top/console" "$folder"
    sed "s/auth_delay .*/auth_delay $delay;/; s/127.0.0.1:8080/127.0.0.1:$port/" "$top/examples/wait.conf" \
        >"$folder/wait.conf"
    printf 'noc:%s\n' "$(openssl passwd -apr1 secret)" >"$folder/callers"
    free_port
    cp "$top/examples/nginx-trial.conf" "$folder/nginx.conf"
    sed -e 's#/[a-z/]*/roadesk/##' -e '/ssl_/d' -e "s/listen .*/listen 127.0.0.1:$free;/" \
        -e "s/127.0.0.1:8080/127.0.0.1:$port/" -e "s/auth_basic_user_file callers;/& $2/" \
        "$top/examples/nginx.conf" >"$folder/site.conf"
    nginx -p "$folder" -c nginx.conf -g 'daemon off;' 2>>"$work/front.err" &
    started=$!
    wait_for "$free" "$started" || fail 'no front listens'
}

# ask PORT PATH: the status and the seconds of a request for one line; the body goes to a file.
ask() {
    curl -s -u noc:secret -m 600 -o "$work/asked" -w '%{http_code} %{time_total}\n' "http://127.0.0.1:$1$2"
}

# What is asked: an authorization by a caller without grants, which the desk denies.
question=/holders/h0/auths/1

# keep_asking: a line for each request to the first front, until one gets something else than 502.
keep_asking() {
    local line=502
    while [[ $line == 502* ]]; do
        line=$(curl -s -u noc:secret -m 600 -o /dev/null -w '%{http_code} %{time_total}' \
            "http://127.0.0.1:$front_port$question")
        echo "$line"
        sleep 0.1
    done
}

# since TIME: the seconds from then to now.
since() {
    awk -v begun="$1" -v now="$EPOCHREALTIME" 'BEGIN { printf "%.2f", now - begun }'
}

# fill: the day is asked for, and 100 authorizations are made, one after the other, so that there is a log.
fill() {
    local number
    curl -sf -H 'Desk-Caller: noc' -o /dev/null "http://127.0.0.1:$port/payloads" || fail "no VRPs"
    for number in $(seq 100); do
        curl -sf -H 'Desk-Caller: ann' -o /dev/null \
            -d '{"asn":'$((4200000000 + number))',"prefix":"240.0.0.0/24","max":24,"from":"2026-01-01","until":"2026-12-31"}' \
            "http://127.0.0.1:$port/holders/h0/auths" || fail "a create was not answered"
    done
}

# measure SIZE: a line of the size, the seconds of stop, copy, start and first VRPs, how many 502 a client got and the
# longest of them in seconds, and what the one that waited got, with its seconds.
measure() {
    local line=$1 expected=$2 begun stop_of copy_of start_of first_of
    rm -f "$work"/served.db* "$work"/copy.db*
    cp "$work/desk.db" "$work/served.db" || fail "no copy"
    sync "$work/served.db"
    free_port && port=$free
    start_desk 2026-03-01
    wait_for "$port" "$desk" || fail 'no desk listens'
    fill
    start_front front ''
    front=$started front_port=$free
    start_front waiting 'include wait.conf;'
    waiting=$started waiting_port=$free

    begun=$EPOCHREALTIME
    kill "$desk"
    wait "$desk" 2>/dev/null
    stop_of=$(since "$begun")
    keep_asking >"$work/asked.lines" &
    asking=$!
    ask "$waiting_port" "$question" >"$work/waited" &
    local client=$!
    begun=$EPOCHREALTIME
    sqlite3 "$work/served.db" ".backup $work/copy.db" || fail "no backup"
    copy_of=$(since "$begun")
    begun=$EPOCHREALTIME
    start_desk 2026-03-02
    wait_for "$port" "$desk" || fail 'no desk listens'
    start_of=$(since "$begun")
    begun=$EPOCHREALTIME
    curl -sf -H 'Desk-Caller: noc' -o /dev/null "http://127.0.0.1:$port/payloads" || fail "no VRPs"
    first_of=$(since "$begun")
    wait "$asking" "$client"

    awk '$1 != 502 && $1 != 403' "$work/asked.lines" >"$work/others"
    [ ! -s "$work/others" ] || fail "a client got something else: $(cat "$work/others")"
    [[ $(cat "$work/waited") == 403* ]] || fail "who waited got $(cat "$work/waited")"
    [ "$(sqlite3 "$work/copy.db" 'SELECT count(*) FROM claim')" = "$expected" ] || fail 'the copy lacks authorizations'
    echo "$line $stop_of $copy_of $start_of $first_of $(awk '
        $1 == 502 { count++; if ($2 > most) most = $2 } END { print count + 0, most + 0 }' "$work/asked.lines")" \
        "$(cat "$work/waited")" >>"$work/day.lines"
    kill "$desk" "$front" "$waiting"
    wait "$desk" "$front" "$waiting" 2>/dev/null
}

: >"$work/day.lines"
for size in "${sizes[@]}"; do
    read -r holders auths <<<"$size"
    count=$((holders * auths))
    delay=${DELAY:-$([ "$count" -lt 1000000 ] && echo 2s || echo 15s)}
    make_desk "$holders" "$auths"
    for _ in $(seq "$runs"); do
        measure "$count" $((count + 100))
    done
done

awk '
    {
        if (!($1 in times)) sizes[++size] = $1
        times[$1]++
        for (at = 2; at <= 9; at++) if (at != 8) {
            if (!(($1, at) in least) || $at < least[$1, at]) least[$1, at] = $at
            if ($at > most[$1, at]) most[$1, at] = $at
        }
    }
    function spread(one, at) { return sprintf("%.2f-%.2f", least[one, at], most[one, at]) }
    END {
        printf "%14s  %11s  %11s  %13s  %11s  %9s  %12s  %13s\n", "authorizations", "stop", "copy", "start",
            "first VRPs", "502", "502 at most", "waited"
        for (at = 1; at <= size; at++) {
            one = sizes[at]
            printf "%14d  %11s  %11s  %13s  %11s  %4d-%4d  %10.3f s  %13s\n", one, spread(one, 2), spread(one, 3),
                spread(one, 4), spread(one, 5), least[one, 6], most[one, 6], most[one, 7], spread(one, 9)
        }
    }' "$work/day.lines"
tell_load
