#!/usr/bin/env bash
# What the gate costs, crate by crate.
#
#     cost.sh             prints a table: of each crate its lines, its must-fail edits, and the processor seconds that
#                         this script last measured on this machine
#     cost.sh CRATE...    first measures each of these, lowest first
#
# It measures what the gate does with a crate alone: its proof and that of its tests, each from nothing and with one
# job, and its edits. It does so in a copy of the crates, with what is built of those that the crate uses. What is not
# built of them is proved first, and not measured.
#
# Needs rt if crates are named.
#
# Exit status: 0 if all crates were measured and passed; 1 if something failed; 77, after what is missing, if they could
# not be run.
set -u
. "$(dirname "${BASH_SOURCE[0]}")/../tools/common.sh"
[ $# = 0 ] || need rt
record=${XDG_CACHE_HOME:-$HOME/.cache}/roadesk/cost
mkdir -p "$record" || exit 1

crates() {
    sed -n 's/^\([a-z0-9_]*\):.*/\1/p' "$top/crates.txt"
}

count_lines() {
    find "$top/crates/$1"/{src,specs,proofs} -type f -exec cat {} + 2>/dev/null | wc -l
}

count_edits() {
    find "$top/crates/$1/must-fail" -name '*.edit' 2>/dev/null | wc -l
}

has_tests() {
    grep -rq '#\[test' "$top/crates/$1/src"
}

# check CRATE WORD...: has rt check the crate from nothing.
check() {
    rm -rf "$work/crates/$1/out"
    (cd "$work/crates/$1" && rt check --jobs 1 "${@:2}")
}

# gate CRATE: what is measured.
gate() {
    check "$1" || return
    ! has_tests "$1" || check "$1" --test || return
    [ "$(count_edits "$1")" = 0 ] || (cd "$work" && rt must-fail "$1")
}

# measure CRATE: keeps its seconds if it passes. A check of no function builds what the crate uses.
measure() {
    local TIMEFORMAT='%U %S'
    echo "$1"
    if ! check "$1" --only '' >"$work/said" 2>&1 </dev/null ||
        ! { time gate "$1" >"$work/said" 2>&1 </dev/null; } 2>"$work/times"; then
        cat "$work/said"
        return 1
    fi
    awk '{ printf "%.0f\n", $1 + $2 }' "$work/times" >"$record/$1"
}

for crate in "$@"; do
    crates | grep -qxF "$crate" || fail "no crate $crate"
done
if [ $# -gt 0 ]; then
    make_work
    copy_crates "$work" && copy_built "$work" && cp "$top/HANDLES" "$work" || exit 1
    for crate in $(crates); do
        case " $* " in *" $crate "*) measure "$crate" || failed=1 ;; esac
    done
fi
echo '| crate | lines | edits | processor seconds |'
echo '|---|---|---|---|'
for crate in $(crates); do
    edits=$(count_edits "$crate")
    echo "| \`$crate\` | $(count_lines "$crate") | ${edits/#0/} | $(cat "$record/$crate" 2>/dev/null || echo '?') |"
done
end
