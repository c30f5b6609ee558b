#!/usr/bin/env bash
# Whether what operators use beside the program does as the guide says: routes.sh on tables that BIRD wrote,
# normalize.py on SLURM files of others, krill-delta.py on exports, fetch.py on a listing and behind a limit,
# sign.py in a folder with others and twice at once, and alarms.jq on a name that is no user's.
#
#     operators.sh [ROUTES]      (1,000,000 if left out)
#
# Two neighbours announce to a BIRD on loopback: paths that end with an AS, with an AS_SET, and empty ones of the
# router's own AS. Both of its tables, `show route all` and a dump in MRT, have to give the same routes, which the
# program judges. Then it judges so many routes of another dump on two VRPs for three of them; how long both take is
# printed.
#
# Takes a minute.
#
# Needs the built program, which PROGRAM may name, python3 from 3.10 on, bird, birdc, bgpdump and jq.
#
# Exit status: 0 if all ran and held; 1 if something else is found or something failed; 77, after what is missing, if it
# could not be run.
set -u
. "$(dirname "${BASH_SOURCE[0]}")/../tools/common.sh"
PATH=$PATH:/usr/sbin
need_python
need bird birdc bgpdump jq
find_program
count=${1:-1000000}
make_work
cd "$work" || exit 1
examples=$top/examples

# start_bird PORT: with a static route, which is not of BGP.
start_bird() {
    cat >bird.conf <<END
router id 192.0.2.1;
protocol device { }
protocol static { ipv4; route 203.0.113.0/24 blackhole; }
template bgp neighbour {
    local 127.0.0.1 port $1 as 64496;
    multihop;
    passive;
    ipv4 { import all; export none; };
    ipv6 { import all; export none; };
}
protocol bgp outer from neighbour { neighbor 127.0.0.2 as 64500; }
protocol bgp inner from neighbour { neighbor 127.0.0.3 as 64496; }
END
    bird -f -c bird.conf -s bird.ctl -P bird.pid >bird.log 2>&1 &
    until birdc -s bird.ctl show status >status.log 2>&1 || ! kill -0 $!; do sleep 0.1; done
}

# announce LOCAL AS PORT: the routes that are read.
announce() {
    python3 -B "$top/checks/speaker.py" "$1" "$2" 127.0.0.1 "$3" <"$1.routes" &
}

# Both neighbours announce one route with the same origin.
announce_all() {
    printf '%s\n' '192.0.2.0/24 64500 64501' '192.0.2.0/25 64500 64501 {64502,64503}' '198.51.100.0/24 64500' \
        '2001:db8::/32 64500 4294967294' '2001:db8:1::/48 64500 {64501}' >127.0.0.2.routes
    printf '%s\n' '198.51.100.0/24 64500' '203.0.113.128/25' '2001:db8:2::/48' >127.0.0.3.routes
    announce 127.0.0.2 64500 "$1"
    announce 127.0.0.3 64496 "$1"
    for _ in $(seq 300); do
        [ "$(birdc -s bird.ctl show route all | grep -c BGP.as_path)" != 8 ] || return
        sleep 0.1
    done
    cat bird.log && exit 1
}

tables_of_bird() {
    local port routes
    free_port && port=$free
    start_bird "$port"
    announce_all "$port"
    routes='prefix,origin
192.0.2.0/24,AS64501
192.0.2.0/25,NONE
198.51.100.0/24,AS64500
2001:db8:1::/48,NONE
2001:db8:2::/48,AS64496
2001:db8::/32,AS4294967294
203.0.113.128/25,AS64496'
    expect 'show route all' "$(birdc -s bird.ctl show route all | "$examples/routes.sh" bird 64496)" "$routes"
    birdc -s bird.ctl 'mrt dump table "master*" to "dump.mrt"' >mrt.log || exit 1
    expect 'a dump in MRT' "$(bgpdump -m dump.mrt 2>>mrt.log | "$examples/routes.sh" mrt 64496)" "$routes"
    printf '%s\n' asn,prefix,maxlength AS64501,192.0.2.0/24,25 AS64496,2001:db8::/32,48 >vrps.csv
    expect 'their states' "$("$program" check vrps.csv <(echo "$routes"))" '192.0.2.0/24,AS64501,Valid
192.0.2.0/25,NONE,Invalid
198.51.100.0/24,AS64500,NotFound
2001:db8:1::/48,NONE,Invalid
2001:db8:2::/48,AS64496,Valid
2001:db8::/32,AS4294967294,Invalid
203.0.113.128/25,AS64496,NotFound'
}

# What routes.sh makes of the table `show route all` of a BIRD with routes of other kinds, and of one of bgpdump, which
# spells some addresses of IPv6 otherwise than RFC 5952.
other_tables() {
    local prefix
    printf '%s\n' 'Table master6:' '2001:db8::/32        unicast [outer 12:00:00.000] * (100) [AS64501i]' \
        $'\tBGP.as_path: 64500 64501' '' 'Table vt:' '64500:1 198.51.100.0/25 blackhole [vpn 12:00:00.000] * (200)' \
        $'\tBGP.as_path: 64511' '' 'Table ft:' 'flow4 { dst 198.51.100.0/24; }  [flows 12:00:00.000] * (200)' \
        $'\tBGP.as_path: 64510' >other.table
    expect 'vpn4 and flow4' "$("$examples/routes.sh" bird 64496 <other.table)" 'prefix,origin
2001:db8::/32,AS64501'
    for prefix in ::ffff:192.0.2.0/120 ::192.0.2.0/120 ::0.0.2.0/120 2001:db8::1:1:1:1:1/128 ::1:1:1:1:1:1:1/128 \
        2001:db8:1:1:1:1:1::/112 2001:db8:0:0:1::/80 ::/0; do
        echo "TABLE_DUMP2|1772323200|B|192.0.2.2|64512|$prefix|64512 64500|IGP|2001:db8::1|0|0||NAG||"
    done >other.table
    expect 'spellings of bgpdump' "$("$examples/routes.sh" mrt 64496 <other.table)" 'prefix,origin
0:1:1:1:1:1:1:1/128,AS64500
2001:db8:0:0:1::/80,AS64500
2001:db8:0:1:1:1:1:1/128,AS64500
2001:db8:1:1:1:1:1:0/112,AS64500
::/0,AS64500
::200/120,AS64500
::c000:200/120,AS64500
::ffff:c000:200/120,AS64500'
}

# Of three routes in turn, one has a VRP of its origin, one a VRP of AS 64512, which is no origin, and one has none.
many_routes() {
    local status
    python3 -B "$top/checks/mrt.py" "$count" >many.mrt || exit 1
    SECONDS=0
    bgpdump -m many.mrt 2>>mrt.log | "$examples/routes.sh" mrt 64496 >many.csv
    expect "routes of a dump" "$(wc -l <many.csv)" $((count + 1))
    expect 'their origins' "$(tail -n +2 many.csv | cut -d , -f 2 | sort -u | paste -sd ' ')" \
        "$(seq -f AS%.0f 64496 64511 | paste -sd ' ') NONE"
    echo "made in $SECONDS s"
    awk -F '[,/]' -v states=many.expected 'BEGIN { print "asn,prefix,maxlength" }
        NR > 1 {
            kind = NR % 3
            if (kind) print (kind == 2 || $3 == "NONE" ? "AS64512" : $3) "," $1 "/" $2 "," $2
            state = kind == 0 ? "NotFound" : kind == 2 || $3 == "NONE" ? "Invalid" : "Valid"
            print $1 "/" $2 "," $3 "," state >states
        }' many.csv >many-vrps.csv
    SECONDS=0
    "$program" check many-vrps.csv many.csv >many.states
    status=$?
    echo "judged on $(($(wc -l <many-vrps.csv) - 1)) VRPs in $SECONDS s"
    expect 'judged' "$status, $(cmp many.states many.expected 2>&1)" '0, '
    expect 'each state' "$(cut -d , -f 3 many.states | sort -u | paste -sd ' ')" 'Invalid NotFound Valid'
}

# put FILE: what a desk answers to the SLURM file.
put() {
    jq -c '{day: "2026-03-01", caller: "reg", do: "slurm", file: .}' "$1" |
        "$program" script --charter "$examples/charter.csv"
}

# A file whose every member is spelled otherwise than the desk has it, and what is then reported.
other_spellings() {
    cat >other.json <<'END'
{"slurmVersion": "1",
 "validationOutputFilters": {"prefixFilters": [{"prefix": "2001:0DB8:0::/48", "asn": "AS64496"}],
                             "bgpsecFilters": [{"asn": 64496}]},
 "locallyAddedAssertions": {"prefixAssertions": [
    {"asn": "64496", "prefix": "2001:DB8::/32", "maxPrefixLength": 48.0, "comment": "de-aggregated"},
    {"asn": 64497, "prefix": "::ffff:192.0.2.0/120"}]}}
END
    expect 'another spelling: the desk' "$(put other.json)" '{"malformed":11,"slurm":3}'
    "$examples/slurm/normalize.py" other.json >spelled.json 2>report
    expect 'its spelling' "$?, $(jq -c . spelled.json)" "0, $(tr -d '\n' <<'END'
{"slurmVersion":1,"validationOutputFilters":{"prefixFilters":[{"prefix":"2001:db8::/48","asn":64496}],
"bgpsecFilters":[]},"locallyAddedAssertions":{"prefixAssertions":[
{"asn":64496,"prefix":"2001:db8::/32","maxPrefixLength":48,"comment":"de-aggregated"},
{"asn":64497,"prefix":"::ffff:c000:200/120"}],"bgpsecAssertions":[]}}
END
)"
    expect 'its report' "$(sed 's/^normalize.py: //' report)" 'slurmVersion: "1" is now 1
bgpsecFilters: 1 taken out
prefixFilters 1 prefix: "2001:0DB8:0::/48" is now "2001:db8::/48"
prefixFilters 1 asn: "AS64496" is now 64496
bgpsecAssertions: is now an empty array
prefixAssertions 1 prefix: "2001:DB8::/32" is now "2001:db8::/32"
prefixAssertions 1 asn: "64496" is now 64496
prefixAssertions 1 maxPrefixLength: 48.0 is now 48
prefixAssertions 2 prefix: "::ffff:192.0.2.0/120" is now "::ffff:c000:200/120"'
    expect 'its spelling: the desk' "$(put spelled.json)" '{"done":null}'
    expect 'spelled again' "$("$examples/slurm/normalize.py" spelled.json 2>&1)" "$(cat spelled.json)"
}

# The file of RFC 8416 section 3.5, whose BGPsec entries the desk refuses first.
example_of_the_standard() {
    cat >standard.json <<'END'
{"slurmVersion": 1,
 "validationOutputFilters": {
    "prefixFilters": [{"prefix": "192.0.2.0/24", "comment": "All VRPs encompassed by prefix"},
        {"asn": 64496, "comment": "All VRPs matching ASN"},
        {"prefix": "198.51.100.0/24", "asn": 64497, "comment": "All VRPs encompassed by prefix, matching ASN"}],
    "bgpsecFilters": [{"asn": 64496, "comment": "All keys for ASN"},
        {"SKI": "Zm9v", "comment": "Key matching Router SKI"},
        {"asn": 64497, "SKI": "YmFy", "comment": "Key for ASN 64497 matching Router SKI"}]},
 "locallyAddedAssertions": {
    "prefixAssertions": [{"asn": 64496, "prefix": "198.51.100.0/24", "comment": "My other important route"},
        {"asn": 64496, "prefix": "2001:DB8::/32", "maxPrefixLength": 48,
            "comment": "My other important de-aggregated routes"}],
    "bgpsecAssertions": [{"asn": 64496, "comment" : "My known key for my important ASN",
        "SKI": "<some base64 SKI>", "routerPublicKey": "<some base64 public key>"}]}}
END
    jq '(.. | .bgpsecFilters?, .bgpsecAssertions? | arrays) = []' standard.json >emptied.json
    expect 'the example of RFC 8416: the desk' "$(put standard.json)" '{"malformed":11,"slurm":5}'
    expect 'without its BGPsec entries' "$(put emptied.json)" '{"malformed":11,"slurm":6}'
    "$examples/slurm/normalize.py" standard.json >spelled.json 2>report
    expect 'its report' "$(sed 's/^normalize.py: //' report)" 'bgpsecFilters: 3 taken out
bgpsecAssertions: 1 taken out
prefixAssertions 2 prefix: "2001:DB8::/32" is now "2001:db8::/32"'
    expect 'its spelling: the desk' "$(put spelled.json)" '{"done":null}'
}

# A file of the desk's own examples with one member changed by jq, and what is reported of it.
refused_file() {
    jq "$1" "$examples/slurm.json" >refused.json
    expect "refused: $1" "$("$examples/slurm/normalize.py" refused.json 2>&1; echo "$?")" "normalize.py: $2
1"
}

refused_files() {
    local filter='.validationOutputFilters.prefixFilters[0]' assertion='.locallyAddedAssertions.prefixAssertions[1]'
    refused_file '.slurmVersion = 2' 'slurmVersion: 2 is no number from 1 to 1'
    refused_file "$filter = {}" 'prefixFilters 1: lacks prefix or asn'
    refused_file "$filter.prefix = \"192.0.2.1/24\"" 'prefixFilters 1 prefix: 192.0.2.1/24 has host bits set'
    refused_file "$filter.max = 25" 'prefixFilters 1: unknown member max'
    refused_file "$assertion.maxPrefixLength = 33" 'prefixAssertions 2 maxPrefixLength: 33 is no number from 24 to 32'
    refused_file "$assertion.asn = 64500.5" 'prefixAssertions 2 asn: 64500.5 is no number from 0 to 4294967295'
    refused_file "del($assertion.asn)" 'prefixAssertions 2: lacks prefix or asn'
    refused_file '.aspaFilters = []' 'the file: unknown member aspaFilters'
    echo '{"slurmVersion": 1, "slurmVersion": 1}' >refused.json
    expect 'refused: a repeated member' "$("$examples/slurm/normalize.py" refused.json 2>&1)" \
        'normalize.py: a member is repeated'
}

deltas() {
    local day header=number,asn,prefix,maxlength,from,until
    printf '%s\n' $header 1,AS64496,192.0.2.0/24,24,2026-01-01,2026-12-31 \
        2,AS64497,192.0.2.0/25,25,2026-03-02,2026-12-31 3,AS64498,2001:db8::/32,48,2026-01-01,2026-03-01 >old.csv
    printf '%s\n' $header 1,AS64496,192.0.2.0/24,26,2026-01-01,2026-12-31 \
        2,AS64497,192.0.2.0/25,25,2026-03-02,2026-12-31 3,AS64498,2001:db8::/32,48,2026-01-01,2026-03-01 >new.csv
    expect 'a delta' "$("$examples/krill-delta.py" old.csv 2026-03-01 new.csv 2026-03-02 | jq -c '.[]')" \
'[{"asn":64496,"prefix":"192.0.2.0/24","max_length":26},{"asn":64497,"prefix":"192.0.2.0/25","max_length":25}]
[{"asn":64496,"prefix":"192.0.2.0/24","max_length":24},{"asn":64498,"prefix":"2001:db8::/32","max_length":48}]'
    expect 'no delta' "$("$examples/krill-delta.py" new.csv 2026-03-02 new.csv 2026-03-03 | jq -c .)" \
        '{"added":[],"removed":[]}'
    for day in '' 20260302 2.3.2026; do
        "$examples/krill-delta.py" old.csv 2026-03-01 new.csv "$day" 2>&1
    done >refusals
    expect 'no day' "$(cat refusals)" "krill-delta.py: '' is no day
krill-delta.py: '20260302' is no day
krill-delta.py: '2.3.2026' is no day"
    expect 'no export' "$("$examples/krill-delta.py" vrps.csv 2026-03-01 new.csv 2026-03-02 2>&1; echo $?)" \
        'krill-delta.py: vrps.csv is no export
1'
}

other_words() {
    local words
    for words in '' bird 'bird AS64496' 'mrt 64496x' 'bird 64496 64497'; do
        # shellcheck disable=SC2086 # several words
        "$examples/routes.sh" $words </dev/null >other.csv 2>usage
        echo "$?, $(cat other.csv)"
    done >others
    expect 'routes.sh: other words' "$(sort -u others)" '2, '
}

# As registry.sql lists them: a holder may have the name of a column.
listed_space() {
    printf '%s\n' holder,grants_made,grants,authorizations_made,authorizations holder,1,1,1,1 zeta,1,1,1,1 \
        holder,first,last holder,192.0.2.0,192.0.2.191 zeta,2001:db8::,2001:db8::f \
        holder,number,caller,role,scope,until zeta,1,ann,manager,all,2026-12-31 >registry.csv
    expect 'fetch.py: the space of a holder that is named holder' "$(PYTHONPATH=$examples/signer python3 -B -c '
import fetch
print(fetch.spaces(open("registry.csv")))')" "{'holder': ['192.0.2.0/25', '192.0.2.128/26'], 'zeta': ['2001:db8::/124']}"
}

# A front whose limit refuses a request now and then.
after_refusals() {
    cat >front.py <<'PYTHON'
import http.server, threading, fetch
statuses = [429, 429, 200]
class Front(http.server.BaseHTTPRequestHandler):
    def do_GET(self):
        self.send_response(statuses.pop(0))
        self.end_headers()
        self.wfile.write(b"answered")
    def log_message(self, *_):
        pass
with http.server.HTTPServer(("127.0.0.1", 0), Front) as front:
    threading.Thread(target=front.serve_forever, daemon=True).start()
    print(fetch.ask(f"http://127.0.0.1:{front.server_port}", "ann", "/"), statuses)
    front.shutdown()
PYTHON
    expect 'fetch.py: after two 429' "$(PYTHONPATH=$examples/signer python3 -B front.py 2>&1)" 'answered []'
}

# The folder may have more in it than the trees of sign.py.
published() {
    mkdir -p tree/other tree/made-before tree/made-now
    PYTHONPATH=$examples/signer python3 -B -c '
import pathlib, sign
tree = pathlib.Path("tree").absolute()
sign.publish(tree, tree / "made-now")' 2>&1
    expect 'sign.py: what it removes' "$(cd tree && echo *), $(readlink tree/now)" 'made-now now other, made-now'
}

# Keys are copied while nobody else may enter. A second run is refused: here of the process that has the lock.
only_one_run() {
    echo '{}' | tee none.json >tree/now/state.json
    expect 'sign.py: a run, and a second at once' "$(PYTHONPATH=$examples/signer python3 -B -c '
import sign
copytree, sign.follow = sign.shutil.copytree, lambda *_: None
def copy(now, made, **words):
    print(oct(made.stat().st_mode)[-3:])
    copytree(now, made, **words)
sign.shutil.copytree = copy
for _ in range(2):
    sign.main("none.json", "tree", "2026-03-01")' 2>&1; stat -c %a tree/now/)" "700
sign.py: another run in $PWD/tree has not ended
755"
}

# Whoever has no password may send any name.
alarms() {
    expect 'alarms: a name with a line end' "$(jq -r -f "$examples/alarms.jq" <<'END'
{"time":"T","caller":"x\nT the desk is away","method":"GET","path":"/","status":"401","seconds":0.001,"desk":""}
END
    )" 'T a wrong password: 401 x\nT the desk is away GET /'
}

tables_of_bird
other_tables
other_words
many_routes
other_spellings
example_of_the_standard
refused_files
deltas
listed_space
after_refusals
published
only_one_run
alarms
end
