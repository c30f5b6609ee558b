#!/usr/bin/env bash
# Measures the two representations of a set of VRPs, ListIndex and Trie, beside one another on generated files.
#
#     trie.sh [ROUTES [VRPS...]]      (1000000, and 10000 and 500000 if left out)
#
# Needs rt, python3 and GNU time at /usr/bin/time. Files go to a temporary folder, or stay in BENCH_WORK; the
# next run there is quicker, since the program is proved. Each runs three times in turn: of the milliseconds of building,
# visiting and judging the least count, and of the memory the greatest peak, which has the VRPs and the routes in it.
#
# Exit status: 0 if both ran; 1 if they answer otherwise than each other or something failed; 77, after what is missing,
# if they could not be run.
set -u
. "$(dirname "${BASH_SOURCE[0]}")/../../tools/common.sh"
need rt python3 /usr/bin/time
make_or_keep_work
routes=${1:-1000000}
sizes=("${@:2}")
[ "${#sizes[@]}" -gt 0 ] || sizes=(10000 500000)

echo 'asn,prefix,maxlength' >"$work/payloads.csv"
echo 'prefix,origin' >"$work/routes.csv"
program=$("$top/tools/build.sh" "$top/bench/trie/trie.rattle" "$work" list "$work/payloads.csv" "$work/routes.csv") ||
    fail "trie.rattle was not built"

# A line a run: VRPs, order, kind, phase, nanoseconds, sum, kilobytes.
measure() {
    /usr/bin/time -o "$work/peak" -f '%M' "$program" "$3" "$work/payloads.csv" "$work/routes.csv" >"$work/phases" || return 1
    sed "s/^/$1 $2 $3 /; s/\$/ $(cat "$work/peak")/" "$work/phases"
}

: >"$work/trie.lines"
for vrps in "${sizes[@]}"; do
    for order in rising shuffled; do
        option=()
        [ "$order" = rising ] || option=(--shuffled)
        python3 "$top/bench/common/generate.py" ${option[@]+"${option[@]}"} "$vrps" "$routes" "$work/payloads.csv" \
            "$work/routes.csv" || fail "no files were generated"
        for _ in 1 2 3; do
            for kind in list trie; do
                measure "$vrps" "$order" "$kind" >>"$work/trie.lines" || fail "the program failed"
            done
        done
    done
done

echo "$routes routes"
awk '
    { key = $1 " " $2 " " $4 }
    !(key in sum) { order[++keys] = key; sum[key] = $6 }
    sum[key] != $6 { print "other answers: " key; differ = 1 }
    !((key, $3) in least) || $5 < least[key, $3] { least[key, $3] = $5 }
    $7 > peak[key, $3] { peak[key, $3] = $7 }
    END {
        printf "%7s  %-8s  %-5s  %10s  %10s  %6s  %9s  %9s\n", "VRPs", "order", "phase", "list", "trie", "ratio", "list", "trie"
        for (at = 1; at <= keys; at++) {
            key = order[at]
            split(key, part, " ")
            list = least[key, "list"]; trie = least[key, "trie"]
            printf "%7d  %-8s  %-5s  %7.1f ms  %7.1f ms  %6.2f  %6.1f MB  %6.1f MB\n", part[1], part[2], part[3],
                list / 1000000, trie / 1000000, trie / list, peak[key, "list"] / 1024, peak[key, "trie"] / 1024
        }
        exit differ
    }' "$work/trie.lines"
