#!/usr/bin/env bash
# Whether BIRD, FRR and OpenBGPD find a hijacked route invalid that another of them announces by BGP. The first two get
# the VRPs of a desk from StayRTR by RTR, the third reads them as a roa-set.
#
#     routers.sh
#
# BIRD and FRR each announce a route whose origin is authorized and one whose origin is not: BIRD a whole prefix of
# another AS, to FRR and OpenBGPD, FRR a part of one, to BIRD. BIRD and OpenBGPD leave the invalid route out, FRR marks
# it. With the route map of examples/frr.conf FRR leaves it out too, and a route that later VRPs make invalid. Twelve
# hours after an export StayRTR drops the VRPs, and BIRD and FRR take all routes. They run in a network namespace.
#
# Takes half a minute.
#
# Needs the built program, which PROGRAM may name, the rights of root, stayrtr, rtrdump, bird, birdc, vtysh, FRR's bgpd
# with its module rpki, OpenBGPD's bgpd and bgpctl, curl, jq and ip.
#
# Exit status: 0 if all ran and held; 1 if something else is found or something failed; 77, after what is missing, if it
# could not be run.
set -u
. "$(dirname "${BASH_SOURCE[0]}")/../tools/common.sh"
PATH=$PATH:/usr/sbin:/sbin
frr=/usr/lib/frr/bgpd
need stayrtr rtrdump bird birdc vtysh "$frr" bgpd bgpctl curl jq ip unshare
compgen -G '/usr/lib/*/frr/modules/bgpd_rpki.so' >/dev/null || skip 'FRR has no module rpki (Debian: frr-rpki-rtrlib)'
unshare -n -m true 2>/dev/null || skip 'no right to make namespaces of the network and of mounts, as root has'
find_program
if [ -z "${IN_NAMESPACE:-}" ]; then
    IN_NAMESPACE=yes PROGRAM=$program exec unshare -n -m "$0"
fi
make_work
cd "$work" && mkdir vty || exit 1
ip link set lo up && ip address add 10.0.0.2/24 dev lo && ip address add 10.0.0.3/24 dev lo &&
    ip address add 10.0.0.4/24 dev lo || exit 1
# OpenBGPD's own, where its parts go.
mount -t tmpfs tmpfs /run && mkdir -m 755 /run/openbgpd || exit 1

# until_done COMMAND...: waits until the command succeeds, half a minute at most.
until_done() {
    for _ in $(seq 150); do
        "$@" >until.log 2>&1 && return
        sleep 0.2
    done
    echo "never: $*" && cat ./*.log && exit 1
}

# ask CALLER METHOD PATH [BODY]
ask() {
    curl -sf -X "$2" -H "Desk-Caller: $1" ${4:+-d "$4"} "http://127.0.0.1:8080$3"
}

# authorize AS PREFIX
authorize() {
    ask ann POST /holders/alpha/auths \
        "{\"asn\":$1,\"prefix\":\"$2\",\"max\":24,\"from\":\"2026-01-01\",\"until\":\"2026-12-31\"}"
}

write_vrps() {
    ask noc GET /payloads >vrps.csv || exit 1
    write_json
}

# As GUIDE.md does.
write_json() {
    jq -R -n -c --argjson made "$(stat -c %Y vrps.csv)" '{roas: [inputs | select(startswith("AS")) | split(",") |
        {asn: .[0], prefix: .[1], maxLength: (.[2] | tonumber), expires: ($made + 43200)}]}' vrps.csv >vrps.json.new &&
        mv vrps.json.new vrps.json
}

make_vrps() {
    printf '%s\n' kind,value operator,reg pool,192.0.2.0/24 pool,198.51.100.0/24 pool,203.0.113.0/24 >charter.csv
    "$program" init --db desk.db --charter charter.csv || exit 1
    "$program" serve --db desk.db --listen 127.0.0.1:8080 --count 1000000 --day 2026-03-01 2>desk.log &
    until_done ask noc GET /payloads
    {
        ask reg PUT /holders/alpha
        for prefix in 192.0.2.0/24 198.51.100.0/24 203.0.113.0/24; do
            ask reg POST /holders/alpha/delegations "{\"prefix\":\"$prefix\"}"
        done
        ask reg POST /holders/alpha/grants '{"name":"ann","role":"manager","scope":"all","until":"2026-12-31"}'
        authorize 64496 192.0.2.0/24 && authorize 64500 198.51.100.0/24 && authorize 64497 203.0.113.0/24
    } >asked.log || exit 1
    write_vrps
    stayrtr -cache vrps.json -bind 127.0.0.1:8282 -metrics.addr '' -checktime=false -refresh 1 2>stayrtr.log &
    until_done rtrdump -connect 127.0.0.1:8282 -file routers.json
}

start_bird() {
    cat >bird.conf <<'END'
router id 192.0.2.2;
roa4 table r4;
protocol device { }
protocol rpki desk { roa4 { table r4; }; remote 127.0.0.1 port 8282; }
protocol static { ipv4; route 192.0.2.0/24 blackhole; route 198.51.100.0/24 blackhole; }
filter judged {
    if roa_check(r4, net, bgp_path.last) = ROA_INVALID then reject;
    accept;
}
protocol bgp beside {
    local 10.0.0.2 port 17901 as 64500;
    neighbor 10.0.0.3 port 17902 as 64497;
    multihop;
    ipv4 { import table; import keep filtered; import filter judged; export where source = RTS_STATIC; };
}
protocol bgp third {
    local 10.0.0.2 port 17901 as 64500;
    neighbor 10.0.0.4 port 17903 as 64498;
    multihop;
    ipv4 { import none; export where source = RTS_STATIC; };
}
END
    bird -f -c bird.conf -s bird.ctl -P bird.pid >bird.log 2>&1 &
    until_done bash -c 'birdc -s bird.ctl show route table r4 | grep AS64497'
}

start_frr() {
    cat >frr.conf <<'END'
rpki
 rpki polling_period 10
 rpki cache 127.0.0.1 8282 preference 1
 exit
router bgp 64497
 bgp router-id 192.0.2.3
 no bgp ebgp-requires-policy
 no bgp network import-check
 neighbor 10.0.0.2 remote-as 64500
 neighbor 10.0.0.2 port 17901
 neighbor 10.0.0.2 ebgp-multihop 2
 neighbor 10.0.0.2 update-source 10.0.0.3
 address-family ipv4 unicast
  network 203.0.113.0/24
  network 198.51.100.128/25
 exit-address-family
END
    "$frr" -S -n -M rpki -f "$work/frr.conf" -i "$work/frr.pid" -z "$work/zserv" --vty_socket "$work/vty" -p 17902 \
        -l 10.0.0.3 -P 0 >frr.log 2>&1 &
}

# What FRR has of each route of the other router: its state and prefix.
of_frr() {
    vtysh --vty_socket "$work/vty" -c 'show bgp ipv4 unicast' 2>/dev/null |
        awk '/10[.]0[.]0[.]2 / { print substr($1, 1, 1), $2 }'
}

# of_frr_is ROUTES
of_frr_is() {
    [ "$(of_frr)" = "$1" ]
}

# As examples/frr.conf says, at the neighbour. The timer would judge all routes again five seconds later.
judge_in_frr() {
    {
        echo 'bgp route-map delay-timer 0'
        sed -n '/^route-map/,$p' "$top/examples/frr.conf"
        printf '%s\n' 'router bgp 64497' 'address-family ipv4 unicast'
        sed -n 's/^! *neighbor ADDRESS/neighbor 10.0.0.2/p' "$top/examples/frr.conf"
    } >judged.conf
    vtysh --vty_socket "$work/vty" -f judged.conf >vtysh.log 2>&1 || exit 1
}

# The prefixes that BIRD has of the other router; with `filtered`, those that it left out.
of_bird() {
    birdc -s bird.ctl "show route ${1:-} protocol beside" | awk '/AS64497/ { print $1 }' | sort
}

# bird_leaves_out PREFIXES
bird_leaves_out() {
    [ "$(of_bird filtered)" = "$1" ]
}

have_exchanged() {
    [ "$(of_frr | grep -c "^[IV]")" = 2 ] && [ -n "$(of_bird)" ] && [ -n "$(of_bird filtered)" ]
}

start_openbgpd() {
    {
        printf '%s\n' 'AS 64498' 'router-id 192.0.2.4' 'listen on 10.0.0.4 port 17903' "socket \"$work/bgpd.ctl\"" \
            'fib-update no' 'roa-set {'
        awk -F, 'NR > 1 { print "    " $2 " maxlen " $3 " source-as " substr($1, 3) }' vrps.csv
        printf '%s\n' '}' 'neighbor 10.0.0.2 {' 'remote-as 64500' 'port 17901' 'multihop 2' 'local-address 10.0.0.4' \
            '}' 'allow from any' 'deny from any ovs invalid'
    } >openbgpd.conf
    chmod 600 openbgpd.conf
    bgpd -d -f openbgpd.conf >openbgpd.log 2>&1 &
}

# What OpenBGPD has of each route, with `in` before its filter: its state and prefix.
of_openbgpd() {
    # shellcheck disable=SC2086 # the word may be none
    bgpctl -s bgpd.ctl show rib ${1:-} 2>/dev/null | sed -n 's#^[*> ]*\([NV!]\) \([0-9.]*/[0-9]*\) .*#\1 \2#p' | sort
}

have_filtered() {
    [ "$(of_openbgpd in | wc -l)" = 2 ] && [ -n "$(of_openbgpd)" ]
}

make_vrps
start_bird
start_frr
start_openbgpd
until_done have_exchanged
expect 'FRR' "$(of_frr)" 'I 192.0.2.0/24
V 198.51.100.0/24'
expect 'BIRD' "$(of_bird)" 203.0.113.0/24
expect 'BIRD leaves out' "$(of_bird filtered)" 198.51.100.128/25
until_done have_filtered
expect 'OpenBGPD' "$(of_openbgpd in)" '! 192.0.2.0/24
V 198.51.100.0/24'
expect 'OpenBGPD takes' "$(of_openbgpd)" 'V 198.51.100.0/24'
judge_in_frr
until_done of_frr_is 'V 198.51.100.0/24'
expect 'FRR takes' "$(of_frr)" 'V 198.51.100.0/24'
{ ask ann DELETE /holders/alpha/auths/2 && authorize 64499 198.51.100.0/24; } >asked.log || exit 1
write_vrps
until_done of_frr_is ''
expect 'FRR takes after the change' "$(of_frr)" ''
# Twelve hours after the export, but for three seconds. What changes is only when the VRPs end.
touch -d '11 hours ago 59 minutes ago 57 seconds ago' vrps.csv && write_json || exit 1
expect 'BIRD leaves out before the VRPs end' "$(of_bird filtered)" 198.51.100.128/25
until_done bird_leaves_out ''
expect 'BIRD takes after they ended' "$(of_bird)" '198.51.100.128/25
203.0.113.0/24'
# FRR 8.4 judges what it left out only when told to.
vtysh --vty_socket "$work/vty" -c 'clear bgp ipv4 unicast * soft in' >vtysh.log 2>&1 || exit 1
until_done of_frr_is 'N 192.0.2.0/24
N 198.51.100.0/24'
expect 'FRR takes after they ended' "$(of_frr)" 'N 192.0.2.0/24
N 198.51.100.0/24'
end
