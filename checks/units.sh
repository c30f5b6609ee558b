#!/usr/bin/env bash
# Whether the units that packaging/install.sh installs do what they are for.
#
#     units.sh
#
# systemd is not started. The commands of the units are run as it would run them, each case in a network namespace of
# its own. So the ports are those of the units, and nothing else can reach them. In the place of the desk a server
# answers as one would, and `systemctl` is a script that writes down its words.
#
# Needs the right to make a network namespace with rules of nftables, which root has, and nft, ip, ss, unshare, nsenter,
# setpriv, python3, curl, sqlite3, systemd-analyze and systemctl; and no program.
#
# Exit status: 0 if all ran and held; 1 if a command does otherwise or something else failed; 77, after what is missing,
# if it could not be run.
set -u
. "$(dirname "${BASH_SOURCE[0]}")/../tools/common.sh"
need nft ip ss nsenter setpriv python3 curl sqlite3 unshare systemd-analyze systemctl
unshare -n nft list ruleset >/dev/null 2>&1 || skip 'no right to make a network namespace with rules of nftables'
make_work
# The users that connect run curl in it.
chmod 755 "$work"
cd "$work" || exit 1

# As the program and as systemctl: each prints or writes down its words.
mkdir bin run
printf '#!/bin/sh\necho "$@"\n' >bin/roadesk
cat >bin/systemctl <<'SH'
#!/bin/sh
[ "$1" = is-active ] || exec echo "$@" >>systemctl.words
[ "$2" = --quiet ] || cat state
[ "$(cat state)" = active ]
SH
chmod +x bin/*
"$top/packaging/install.sh" bin/roadesk installed || exit 1
units=$work/installed/lib/systemd/system

# In the place of the desk's user, which this machine may not have.
stand_in=daemon
sed "s/\"roadesk\"/\"$stand_in\"/" installed/etc/roadesk/roadesk.nft >roadesk.nft
grep -q "$stand_in" roadesk.nft || fail 'the rules name no user'

# commands UNIT KEY: the commands of a unit, a line each, without the signs that tell systemd how to run them.
commands() {
    sed -n "s/^$2=[-+!]*//p" "$units/$1" | here
}

# Commands with the paths of what is installed.
here() {
    sed "s#/etc/roadesk/roadesk\.nft#$work/roadesk.nft#; s#/usr/sbin/nft#nft#; s#/usr/bin/systemctl#systemctl#
        s#/usr/lib/roadesk/load-rules#sh $work/load-rules#
        s#/usr/lib/roadesk/#$work/installed&#; s#/usr/bin/roadesk#$work/bin/roadesk#"
}
here <installed/usr/lib/roadesk/load-rules >load-rules
export PATH=$work/bin:$PATH

# The settings that systemd gives to the commands.
set -a
# shellcheck source=../packaging/etc/desk.conf
. "$top/packaging/etc/desk.conf"
set +a
export RUNTIME_DIRECTORY=$work/run

# The desk as the probe and the front see it: each request gets the next status, and the last one from then on.
cat >server.py <<'PYTHON'
import http.server, os, pwd, socket, socketserver, sys
user, address, statuses, port = sys.argv[1:]
statuses = statuses.split()
os.setuid(pwd.getpwnam(user).pw_uid)
class Desk(http.server.BaseHTTPRequestHandler):
    def do_GET(self):
        self.send_response(int(statuses.pop(0) if len(statuses) > 1 else statuses[0]))
        self.end_headers()
    def log_message(self, *_):
        pass
class Server(socketserver.TCPServer):
    allow_reuse_address = True
    address_family = socket.AF_INET6 if ":" in address else socket.AF_INET
Server((address, int(port)), Desk).serve_forever()
PYTHON

# shellcheck disable=SC2317 # exported
# serve USER ADDRESS STATUSES PORT: such a desk, once it listens; its process is $!.
serve() {
    python3 server.py "$@" &
    until ss -Hltn "sport = :$4" | grep -qF "$2"; do sleep 0.1; done
}
# shellcheck disable=SC2317 # exported
# who URL: the status that each of four users gets.
who() {
    local user
    for user in www-data root nobody "$stand_in"; do
        printf '%s %s ' "$user" "$(setpriv --reuid="$user" --clear-groups \
            curl -s -m 10 -o /dev/null -w '%{http_code}' "$1")"
    done
    echo
}
export -f serve who
export stand_in

# with_desk STATUSES COMMAND: the command beside such a desk, or none if there are no statuses, in a namespace of
# its own.
with_desk() {
    # shellcheck disable=SC2016 # the words are of the shell inside
    unshare -n bash -c '
        ip link set lo up
        [ -z "$1" ] || serve "$stand_in" 127.0.0.1 "$1" 8080
        MAINPID=${!:-$((1 << 22))}
        export MAINPID
        eval "$2"
        echo "status $?"
        kill $(jobs -p) 2>/dev/null' - "$1" "$2" 2>&1
}

# The probe restarts the desk if its condition ends with 0.
probe=$(commands roadesk-probe.service ExecCondition)
with_desk 503 "$probe" >probe-503 &
with_desk '503 503 403' "$probe" >probe-twice &
with_desk 403 "$probe" >probe-403 &
with_desk '' "$probe" >probe-away &

# The start returns once there is an answer, or no process.
ready=$(commands roadesk.service ExecStartPost)
expect 'ready: a desk that answers' "$(with_desk 403 "$ready")" 'status 0'
expect 'ready: a desk that ended' "$(with_desk '' "$ready")" 'status 1'
expect 'ready: a desk that answers later' "$(with_desk '' "
    { sleep 1; exec python3 server.py $stand_in 127.0.0.1 403 8080; } &
    MAINPID=\$! $ready")" 'status 0'

# The rules, as the unit loads them, loads them again, and takes them away.
firewall() {
    commands roadesk-firewall.service "$1"
}
desk=http://127.0.0.1:8080
with_desk 200 "
    who $desk
    $(firewall ExecStart) && who $desk
    $(firewall ExecReload) && who $desk
    nft list ruleset | grep -c 'tcp dport @desks '
    $(firewall ExecStop) && who $desk" >firewall.printed
all_let_in="www-data 200 root 200 nobody 200 $stand_in 200 "
two_let_in="www-data 200 root 200 nobody 000 $stand_in 000 "
expect 'firewall: before, started, reloaded, the rules once, and stopped' "$(cat firewall.printed)" \
    "$all_let_in
$two_let_in
$two_let_in
1
$all_let_in
status 0"

expect 'firewall: while the desk is away, another user does not answer in its place' "$(with_desk '' "
    $(firewall ExecStart)
    serve nobody 127.0.0.1 200 8080
    who $desk")" "www-data 000 root 000 nobody 000 $stand_in 000 
status 0"

# The desk's port of another address of this machine, another port of its own address, and its port at another machine.
expect 'firewall: nothing else is refused' "$(with_desk 200 "
    $(firewall ExecStart)
    serve nobody 127.0.0.1 200 8081; who http://127.0.0.1:8081
    serve nobody 127.0.0.2 200 8080 && who http://127.0.0.2:8080
    unshare -n sleep 60 & other=\$!
    until [ \$(readlink /proc/\$other/ns/net) != \$(readlink /proc/\$\$/ns/net) ]; do sleep 0.1; done
    ip link add near type veth peer name far netns \$other
    ip address add 192.0.2.1/24 dev near; ip link set near up
    nsenter -t \$other -n sh -c 'ip address add 192.0.2.2/24 dev far; ip link set far up
        exec python3 server.py nobody 192.0.2.2 200 8080' &
    until (: </dev/tcp/192.0.2.2/8080) 2>/dev/null; do sleep 0.1; done
    who http://192.0.2.2:8080
    who $desk")" "$all_let_in
$all_let_in
$all_let_in
$two_let_in
status 0"

expect 'firewall: a second desk, at an address of IPv6' "$(with_desk '' "
    $(firewall ExecStart)
    nft add element inet roadesk desks6 '{ ::1 . 8082 }'
    serve $stand_in ::1 200 8082
    who http://[::1]:8082")" "$two_let_in
status 0"

# nftables.service removes all tables each time it starts or reloads. The rules come back if the unit is active.
for key in ExecStartPost ExecReload; do
    again=$(commands nftables.service.d/roadesk.conf "$key")
    expect "nftables: the rules after its $key" "$(with_desk '' "
        echo active >state; nft flush ruleset; $again; nft list tables
        echo inactive >state; nft flush ruleset; $again; nft list tables" 2>&1)" 'table inet roadesk
status 0'
done

# With the last line of the guide, the rules are loaded along with those that remove them.
include=$(tr '\n' ' ' <"$top/docs/GUIDE.md" | grep -o 'include "/etc/roadesk/[^"]*"')
printf '%s\n' 'flush ruleset' 'table inet filter {' '}' "${include/\/etc\/roadesk/$work}" >nftables.conf
expect 'nftables: the rules by an include, twice' "$(with_desk '' "
    for _ in 1 2; do nft -f nftables.conf && nft list tables; done")" 'table inet filter
table inet roadesk
table inet filter
table inet roadesk
status 0'

expect 'firewall: its port is that of the desk' "$(grep -o '127\.0\.0\.1 \. [0-9]* }' roadesk.nft)" \
    "${LISTEN%:*} . ${LISTEN#*:} }"
expect 'firewall: its port is that which the front asks' "$(grep -o 'proxy_pass http://[0-9.:]*' \
    "$top/examples/nginx.conf")" "proxy_pass http://$LISTEN"

# The words with which the desk is started, on the day of UTC.
sh -c "$(commands roadesk.service ExecStartPre)"
expect 'desk: its words' "$(export "$(cat run/day)" && sh -c "$(commands roadesk.service ExecStart)")" \
    "serve --db desk.db --listen $LISTEN --count 1000000 --day $(date -u +%F)"

# The new day: stop, copy, start, and start if there is no copy. A desk that was stopped stays so.
commands roadesk-day.service ExecStart >day.sh
sqlite3 desk.db 'CREATE TABLE kept (row); INSERT INTO kept VALUES (55)'
sh day.sh
expect 'day: what systemctl is told' "$(cat systemctl.words)" 'stop roadesk.service
start roadesk.service'
expect 'day: the copy' "$(sqlite3 "desk-$(date -u +%F).db" 'SELECT row FROM kept')" 55
expect 'day: a copy that fails keeps nobody from the start' \
    "$(grep -c '^ExecStart=-.*copy' "$units/roadesk-day.service")" 1
for state in active activating inactive failed; do
    echo "$state" >state
    sh -c "$(commands roadesk-day.service ExecCondition)"
    echo "$state $?"
done >days
expect 'day: its condition, by the state of the desk' "$(cat days)" 'active 0
activating 0
inactive 1
failed 1'

# How much of the system each unit may reach, from 0 to 100, by the judgement of systemd.
for unit in roadesk roadesk-day roadesk-probe roadesk-firewall; do
    systemd-analyze security --offline=true --threshold=20 "$units/$unit.service" >rating 2>&1
    expect "$unit: rated below 2.0" $? 0
done
expect 'no unit starts the desk, its day, its probe or the firewall by a shell' \
    "$(grep -l '^Exec[A-Za-z]*=.*/bin/sh' "$units"/*.service)" ''
mkdir read
cp "$units"/*.service "$units"/*.timer read
sed -i 's#/usr/s*bin/\(roadesk\|nft\)\>#/bin/true#; s#/usr/lib/roadesk/[a-z0-9-]*#/bin/true#' read/*.service
expect 'systemd-analyze reads the units' "$(systemd-analyze verify --man=no read/roadesk*[a-z].* 2>&1)" ''

# The templates differ from the units of the one desk in the names of an instance alone.
for unit in "$units"/*@.*; do
    expect "${unit##*/}: its words" "$(grep -c %i "$unit"), $(sed 's/-%i//; s/@%i//; s# (%i)$##; s#/%i\.conf#/desk.conf#' \
        "$unit" | diff - "${unit/@/}" && echo 'and no others')" "$(diff "$unit" "${unit/@/}" | grep -c '^>'), and no others"
done
systemctl() { command -p systemctl "$@"; }
systemctl --root="$work/installed" enable roadesk-firewall.service 2>/dev/null
expect 'firewall: enabled, the desks require it' "$(cd installed/etc/systemd/system && ls -d -- *.requires/*)" \
    'roadesk.service.requires/roadesk-firewall.service
roadesk@.service.requires/roadesk-firewall.service'

wait
expect 'probe: three 503' "$(cat probe-503)" 'status 0'
expect 'probe: two 503' "$(cat probe-twice)" 'status 1'
expect 'probe: a desk that answers' "$(cat probe-403)" 'status 1'
expect 'probe: no desk' "$(cat probe-away)" 'status 1'
end
