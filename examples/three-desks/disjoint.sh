#!/bin/sh
# Whether the pools of several charters have no address in common:
#
#     disjoint.sh CHARTER.csv...
#
# A desk in memory whose pool is all addresses delegates each prefix, and denies the first that has an address twice.
# Prints the prefixes that it denied and ends with 1 if there are some. ROADESK names another program.
set -eu
work=$(mktemp -d)
trap 'rm -r "$work"' EXIT
printf '%s\n' kind,value operator,reg pool,0.0.0.0/0 pool,::/0 >"$work/charter.csv"
sed -n 's/^pool,//p' "$@" >"$work/prefixes"
{
    echo '{"day":"2026-01-01","caller":"reg","do":"register","holder":"all"}'
    sed 's/.*/{"day":"2026-01-01","caller":"reg","do":"delegate","holder":"all","prefix":"&"}/' "$work/prefixes"
} | "${ROADESK:-roadesk}" script --charter "$work/charter.csv" | tail -n +2 >"$work/replies"
[ "$(wc -l <"$work/prefixes")" = "$(wc -l <"$work/replies")" ]
! paste -d ' ' "$work/prefixes" "$work/replies" | grep -v ' {"done":null}$'
