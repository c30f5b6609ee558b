#!/bin/sh
# Asks several desks for the VRPs of the day, and prints them all under one header:
#
#     merge.sh http://ADDRESS:PORT...
#
# Nothing is printed if one does not answer: routes would become NotFound or Invalid without its VRPs.
set -eu
header=asn,prefix,maxlength
work=$(mktemp -d)
trap 'rm -r "$work"' EXIT
: >"$work/rows"
for desk in "$@"; do
    curl -sSf -m 120 -H 'Desk-Caller: noc' -o "$work/one" "$desk/payloads"
    [ "$(head -n 1 "$work/one")" = "$header" ] || { echo "merge.sh: no VRPs from $desk" >&2; exit 1; }
    tail -n +2 "$work/one" >>"$work/rows"
done
echo "$header"
LC_ALL=C sort -u "$work/rows"
