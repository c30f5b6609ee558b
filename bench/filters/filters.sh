#!/usr/bin/env bash
# Measures what prefix filters cost: the first VRPs of a day of 10,000 authorizations, with 4096 filters that match
# none of them, in one SLURM file and in 16, and with none.
#
#     filters.sh [RUNS]      (5 if left out)
#
# The time of one answer is that of a script which asks 101 times less that of one which asks once, by 100, each the
# least of the runs.
#
# Needs the built program, which PROGRAM may name, and python3. Files go to a temporary folder, or stay in BENCH_WORK.
#
# Exit status: 0 if all ran; 1 if a filter changed what is answered or something failed; 77, after what is missing, if
# it could not be run.
set -u
. "$(dirname "${BASH_SOURCE[0]}")/../../tools/common.sh"
need python3
find_program
make_or_keep_work
runs=${1:-5}

sets='0-1 4096-1 4096-16'
for set in $sets; do
    for queries in 1 101; do
        python3 -B "$top/bench/filters/filters.py" "${set%-*}" "${set#*-}" "$queries" "$work/charter.csv" \
            >"$work/$set-$queries.jsonl" || fail "no script"
    done
done

# seconds SET QUERIES: the processor time of the script.
seconds() {
    local TIMEFORMAT=%U
    { time "$program" script --charter "$work/charter.csv" <"$work/$1-$2.jsonl" >"$work/$1-$2.out"; } 2>&1 ||
        fail "the script failed"
}

for set in $sets; do
    for _ in $(seq "$runs"); do
        once=$(seconds "$set" 1) && often=$(seconds "$set" 101) || exit 1
        echo "$set $once $often"
    done
done >"$work/times"

# The last answer has the 10,000 VRPs.
[ "$(tail -n 1 "$work/0-1-101.out" | grep -o '"asn":' | wc -l)" = 10000 ] || fail 'other answers'
for set in $sets; do
    cmp -s "$work/0-1-101.out" "$work/$set-101.out" || fail 'other answers'
done

awk '
    !($1 in once) || $2 < once[$1] { once[$1] = $2 }
    !($1 in often) || $3 < often[$1] { often[$1] = $3 }
    END {
        for (set in once) answer[set] = (often[set] - once[set]) * 10
        none = answer["0-1"]; one = answer["4096-1"]; many = answer["4096-16"]
        printf "no filters                 %6.2f ms\n", none
        printf "4096 filters               %6.2f ms  %.2f times no filters\n", one, one / none
        printf "4096 filters in 16 files   %6.2f ms  %.2f times one file\n", many, many / one
    }' "$work/times"
