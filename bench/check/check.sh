#!/usr/bin/env bash
# Measures `roadesk check` against plain.rs, the same job in plain Rust, on generated files.
#
#     check.sh [VRPS [ROUTES [shuffled]]]      (500000 and 1000000 if left out)
#
# Needs the built program, which PROGRAM may name, rustc, python3 and GNU time at /usr/bin/time. Files go to a temporary
# folder, or stay in BENCH_WORK. Each runs three times: cpu is the least user and system seconds, memory the greatest
# peak.
#
# Exit status: 0 if both ran; 1 if their outputs differ or something failed; 77, after what is missing, if they could
# not be run.
set -u
. "$(dirname "${BASH_SOURCE[0]}")/../../tools/common.sh"
need rustc python3 /usr/bin/time
vrps=${1:-500000}
routes=${2:-1000000}

order=()
case ${3:-} in
    '') ;;
    shuffled) order=(--shuffled) ;;
    *) fail "the third word can only be: shuffled" ;;
esac
find_program
make_or_keep_work

rustc --edition 2021 -O -o "$work/plain" "$top/bench/check/plain.rs" || fail "plain.rs was not built"
python3 "$top/bench/common/generate.py" ${order[@]+"${order[@]}"} "$vrps" "$routes" "$work/payloads.csv" "$work/routes.csv" ||
    fail "no files were generated"

# measure NAME COMMAND...: leaves the output in NAME.out, prints the cpu seconds and the peak in MB.
measure() {
    local name=$1
    shift
    : >"$work/$name.times"
    for _ in 1 2 3; do
        /usr/bin/time -a -o "$work/$name.times" -f '%U %S %M' "$@" "$work/payloads.csv" "$work/routes.csv" \
            >"$work/$name.out" || return 1
    done
    awk '{ cpu = $1 + $2; if (NR == 1 || cpu < least) least = cpu; if ($3 > peak) peak = $3 }
        END { printf "%.2f %.1f\n", least, peak / 1024 }' "$work/$name.times"
}

plain=$(measure plain "$work/plain") || fail "plain failed"
roadesk=$(measure roadesk "$program" check) || fail "roadesk failed"

echo "$vrps VRPs, $routes routes, ${3:-rising}"
echo "$plain $roadesk" | awk '{
    printf "%-8s %8s s cpu %8s MB\n", "plain", $1, $2
    printf "%-8s %8s s cpu %8s MB\n", "roadesk", $3, $4
    printf "%-8s %8s       %8.2f\n", "ratio", ($1 == 0 ? "-" : sprintf("%.2f", $3 / $1)), $4 / $2 }'
if cmp "$work/plain.out" "$work/roadesk.out"; then
    echo "outputs: same"
else
    echo "outputs: different"
    exit 1
fi
