#!/bin/sh
# Makes the file of routes that `roadesk check` judges, out of a router's table.
#
#     birdc show route all | routes.sh bird AS >routes.csv     # BIRD 2
#     bgpdump -m DUMP | routes.sh mrt AS >routes.csv           # a dump in MRT (RFC 6396)
#
# The origin is that of RFC 6811 section 2: the last AS of the path; NONE if the path ends with an AS_SET; AS, the
# number of the router's own AS, if the path is empty or ends with a confederation. Routes that are not of BGP are
# left out. A route that several neighbours announce with one origin is there once, in the order of `sort`.
#
# Ends with 2 if the words are others.
set -eu
case "$*" in
    *" "*[!0-9]*) set -- ;;  # AS is digits alone, and the last word
esac
case "$*" in
    "bird "[0-9]* | "mrt "[0-9]*) ;;
    *) sed -n '2,/^set/s/^# \{0,1\}//p' "$0" >&2; exit 2 ;;
esac
export LC_ALL=C
awk -v own="$2" -v form="$1" '
    # As RFC 5952 section 4 writes it: without a dotted tail, and with `::` for two groups or more.
    function spelled(prefix, parts, tail) {
        if (prefix !~ /:/) return prefix
        if (match(prefix, /[0-9]+\.[0-9.]+/)) {
            split(substr(prefix, RSTART, RLENGTH), tail, ".")
            prefix = substr(prefix, 1, RSTART - 1) sprintf("%x:%x", tail[1] * 256 + tail[2], tail[3] * 256 + tail[4]) \
                substr(prefix, RSTART + RLENGTH)
            sub(/^::0:/, "::", prefix)
        }
        split(prefix, parts, "/")
        if (parts[1] ~ /::/ && gsub(/[0-9a-f]+/, "&", parts[1]) == 7) {
            sub(/::/, ":0:", parts[1])
            gsub(/^:|:$/, "", parts[1])
        }
        return parts[1] "/" parts[2]
    }
    function route(prefix, path) {
        sub(/ +$/, "", path)
        if (path ~ /}$/ && path !~ /}\)$/) origin = "NONE"
        else if (path == "" || path ~ /[])]$/) origin = "AS" own
        else { sub(/.* /, "", path); origin = "AS" path }
        print spelled(prefix) "," origin
    }
    # A table: prefix, then for each route its attributes. What is of another kind, such as flow4 or vpn4, has none.
    form == "bird" && /^[^ \t]/ { prefix = /^[0-9a-fA-F.:]+\/[0-9]+ / ? $1 : "" }
    form == "bird" && prefix && /^\t(BGP\.as_path|bgp_path):/ { sub(/^[^:]*: */, ""); route(prefix, $0) }
    # A line of a dump: kind, time, B, address and AS of the neighbour, prefix, path. Other routes are of AS 0 in it.
    # With add-path, of which the kind ends with _AP, a number is before the path.
    form == "mrt" {
        split($0, fields, "|")
        if (fields[3] == "B" && fields[5] > 0) route(fields[6], fields[fields[1] ~ /_AP$/ ? 8 : 7])
    }
' | sort -u | { echo prefix,origin; cat; }
