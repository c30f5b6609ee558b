#!/usr/bin/env bash
# Measures imports: 1,000 authorizations by one request over a database file, compared with as many creates, each a
# request of its own. Also the rules of 10,000 rows at a holder with 900 active authorizations, compared with
# import_plain.rs, the same rules in plain Rust.
#
#     import.sh [RUNS]      (5 if left out)
#
# Needs rt and rustc. Files go to a temporary folder, or stay in BENCH_WORK; the next run there is quicker, since
# the programs are proved. The runs are in turn, and the least time counts.
#
# Exit status: 0 if all ran; 1 if the authorizations differ or something failed; 77, after what is missing, if it could
# not be run.
set -u
. "$(dirname "${BASH_SOURCE[0]}")/../../tools/common.sh"
need rt rustc
make_or_keep_work
here=$top/bench/import
runs=${1:-5}

rustc --edition 2021 -O -o "$work/plain" "$here/import_plain.rs" || fail "import_plain.rs was not built"
rules=$("$top/tools/build.sh" "$here/import_rules.rattle" "$work") || fail "import_rules was not built"
rm -f "$work"/built.db*
file=$("$top/tools/build.sh" "$here/import_file.rattle" "$work" "$work/built.db" import) ||
    fail "import_file was not built"

# measure NAME PROGRAM WORD...: a line with the name, the nanoseconds and the sum; files are made anew.
measure() {
    local measured
    rm -f "$work"/measured.db*
    measured=$("${@:2}") || return 1
    echo "$1 $measured"
}

for _ in $(seq "$runs"); do
    measure 'rules roadesk' "$rules" || fail "import_rules failed"
    measure 'rules plain' "$work/plain" || fail "import_plain.rs failed"
    for how in creates import; do
        measure "file $how" "$file" "$work/measured.db" "$how" || fail "import_file failed"
    done
done >"$work/import.lines"

awk '
    !($1 in sum) { sum[$1] = $4 }
    sum[$1] != $4 { print "other authorizations: " $2; differ = 1 }
    !($2 in least) || $3 < least[$2] { least[$2] = $3 }
    END {
        print "1,000 authorizations over a file, for each"
        printf "%-8s  %8.1f us\n", "creates", least["creates"] / 1000000
        printf "%-8s  %8.1f us\n", "import", least["import"] / 1000000
        printf "%-8s  %8.2f\n", "ratio", least["creates"] / least["import"]
        print "the rules of 10,000 rows"
        printf "%-8s  %8.1f ms\n", "roadesk", least["roadesk"] / 1000000
        printf "%-8s  %8.1f ms\n", "plain", least["plain"] / 1000000
        printf "%-8s  %8.2f\n", "ratio", least["roadesk"] / least["plain"]
        exit differ
    }' "$work/import.lines"
