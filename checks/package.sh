#!/usr/bin/env bash
# Whether the Debian package makes a service under systemd. It is installed where systemd is the first process, in
# namespaces and over an overlay of this machine's own root. The upper layer of the overlay is memory.
#
#     package.sh [CASE...]      (all cases, in their order, if left out)
#
# Each case is a function below. `installs` and `front` are run before any other, and `versions` and `removes` need
# `desks`. The blocks of GUIDE.md and OPERATIONS.md that install the package, its front and a further desk are run as
# they are printed there. Nothing outside of the namespaces is changed: the settings of the kernel are read-only there, and at
# the end no mount, process or cgroup is left.
#
# Not covered: a second boot, midnight by its timer, what apt fetches as recommended, and a power cut.
#
# Needs the built program, which PROGRAM may name; root, the right to make namespaces, a hierarchy of cgroups v2, a root
# file system that an overlay can have below it, and no roadesk that is installed; Debian's systemd, nginx and nftables
# and the commands below; and for the package before git, with the commit before.
#
# Exit status: 0 if all ran and held; 1 if something is otherwise or something failed; 77, after what is missing, if not
# all of it could be run.
# shellcheck disable=SC2016 # most of these are of a shell inside
set -u
. "$(dirname "${BASH_SOURCE[0]}")/../tools/common.sh"
cases='installs front killed locked connects nftables full days probes first_days desks versions removes'
chosen=" ${*:-$cases} installs front "
for case in $chosen; do
    [[ " $cases " == *" $case "* ]] || fail "no case $case"
done

# want CASE: whether it is to be run.
want() {
    [[ $chosen == *" $1 "* ]]
}

[ "$(id -u)" = 0 ] || skip 'no root: run it as root'
need apt-get dpkg dpkg-deb strip readelf systemctl journalctl nginx logrotate nft curl sqlite3 openssl python3 ip \
    unshare nsenter setpriv runuser tar
need_gcc
[ -x /lib/systemd/systemd ] || skip 'no /lib/systemd/systemd (Debian: systemd)'
for file in /usr/bin/roadesk /var/lib/roadesk /etc/roadesk; do
    [ ! -e $file ] || skip "roadesk is installed here"
done
hierarchy=$(awk '$3 == "cgroup2" { print $2; exit }' /proc/mounts)
[ -n "$hierarchy" ] || skip "no hierarchy of cgroups v2"
find_program

# over_root: mounts an overlay of the machine's root, and goes there.
over_root() {
    mount -t tmpfs tmpfs /mnt && mkdir /mnt/upper /mnt/work /mnt/root &&
        mount -t overlay overlay -o lowerdir=/,upperdir=/mnt/upper,workdir=/mnt/work /mnt/root && cd /mnt/root
}
export -f over_root
unshare --mount --propagation private --pid --fork --net --ipc --uts --cgroup bash -c over_root 2>/dev/null ||
    skip "no right to make namespaces, or no overlay of the root"
group=$hierarchy/roadesk-check-$$
mkdir "$group" 2>/dev/null || skip "no right to make a cgroup"
work=$(mktemp -d) || exit 1
outer=
first=

# stop_system: ends all at once. To power off would first stop what `inside` runs, and nsenter stops with it and no
# longer waits for its end. The cgroups are removed from the leaves up; those of processes that ended take a moment.
stop_system() {
    [ -z "$outer" ] || kill -9 "${first:-$outer}" 2>/dev/null
    wait "$outer" 2>/dev/null
    outer=
    first=
    for _ in $(seq 10); do
        find "$group" -depth -type d -exec rmdir {} + 2>/dev/null
        [ -d "$group" ] || break
        sleep 0.3
    done
}
trap 'stop_system; rm -rf "$work"' EXIT

# What the machine has of this check, and settings of the kernel that a boot would change.
left_behind() {
    grep -e "$group" -e upperdir=/mnt/upper /proc/self/mountinfo
    grep -ls "${group#"$hierarchy"}" /proc/[0-9]*/cgroup
    ls -d "$group" 2>/dev/null
    head /proc/sys/fs/file-max /proc/sys/fs/protected_* /proc/sys/kernel/core_pattern /proc/sys/kernel/sysrq 2>/dev/null
}
rmdir "$group"
before=$(left_behind)
mkdir "$group"

# The packages: of these files, and of those of the commit before, with a lower version. Where there is no such commit, it
# is of these files too.
export SOURCE_DATE_EPOCH=1767225600
version=$(cat "$top/VERSION")
package=$("$top/packaging/package.sh" "$program" "$work/trial/out") || fail 'no package was made'
mkdir "$work/before"
if ! git -C "$top" archive HEAD~1 2>/dev/null | tar -xf - -C "$work/before" 2>/dev/null ||
    [ ! -e "$work/before/packaging/package.sh" ]; then
    ! want versions || not_run 'the package of the commit before: no git (Debian: git), or no such commit in this clone'
    tar -C "$top" -cf - VERSION CHANGELOG.md packaging console docs examples | tar -xf - -C "$work/before"
fi
echo "$version~before" >"$work/before/VERSION"
older=$("$work/before/packaging/package.sh" "$program" "$work/trial/out") || fail 'no package was made of the files before'

# The examples and a `roadesk` that has made its package already, for the blocks of the documents.
cp -r "$top/examples" "$work/trial"
printf '#!/bin/sh\n[ "$*" = package ]\n' >"$work/trial/roadesk"
chmod +x "$work/trial/roadesk"
# Preloaded: refuses each sync while there is such a file.
gcc -shared -fPIC -o "$work/trial/refuse-syncs.so" -xc - <<'C' || exit 1
#include <errno.h>
#include <sys/syscall.h>
#include <unistd.h>
static int sync_of(long call, int file)
{
    if (access("/var/lib/roadesk/refuse", F_OK))
        return syscall(call, file);
    errno = EIO;
    return -1;
}
int fsync(int file) { return sync_of(SYS_fsync, file); }
int fdatasync(int file) { return sync_of(SYS_fdatasync, file); }
C

# make_root WORK GROUP: the root of the system, with none of the machine's own services but nginx.
make_root() {
    set -eu
    over_root
    for folder in run tmp dev; do mount -t tmpfs tmpfs "$folder"; done
    chmod 1777 tmp
    mkdir dev/pts dev/shm
    mknod -m 666 dev/null c 1 3
    mknod -m 666 dev/zero c 1 5
    mknod -m 666 dev/full c 1 7
    mknod -m 666 dev/random c 1 8
    mknod -m 666 dev/urandom c 1 9
    mknod -m 666 dev/tty c 5 0
    ln -s /proc/self/fd dev/fd
    ln -s fd/0 dev/stdin
    ln -s fd/1 dev/stdout
    ln -s fd/2 dev/stderr
    ln -s pts/ptmx dev/ptmx
    mount -t devpts -o newinstance,ptmxmode=0666 devpts dev/pts
    mount -t tmpfs tmpfs dev/shm
    rm -rf etc/systemd/system var/log/journal usr/sbin/policy-rc.d etc/nginx/sites-enabled etc/nftables.conf
    mkdir -p etc/systemd/system/multi-user.target.wants etc/systemd/system-generators etc/nginx/sites-enabled
    : >etc/fstab
    tr -d - </proc/sys/kernel/random/uuid >etc/machine-id
    ln -s /lib/systemd/system/nginx.service etc/systemd/system/multi-user.target.wants/nginx.service
    ln -sf /dev/null etc/systemd/system-generators/systemd-sysv-generator
    # As Debian has it.
    printf '%s\n' 'flush ruleset' 'table inet filter {' '}' >etc/nftables.conf
    # What apt would ask, and fetch: there is no network.
    printf '%s;\n' 'APT::Install-Recommends "false"' 'APT::Get::Assume-Yes "true"' \
        'Dpkg::Options { "--force-confold"; }' >etc/apt/apt.conf.d/zz-check
    cp -r "$1/trial" var/tmp/trial
    install -m 755 "$1/trial/refuse-syncs.so" usr/lib/refuse-syncs.so
    # Before the namespace of cgroups is made.
    echo $$ >"$2/cgroup.procs"
    exec unshare --pid --net --ipc --uts --cgroup --mount --fork --kill-child=KILL bash -c be_first
}

# The first process of the namespaces becomes systemd, which would write to the settings of the machine's kernel.
be_first() {
    set -eu
    ip link set lo up
    mount -t proc proc proc
    mount -t sysfs -o ro sysfs sys
    mount -t cgroup2 cgroup2 sys/fs/cgroup
    for file in proc/sys proc/sysrq-trigger; do
        [ -e "$file" ] || continue
        mount --bind "$file" "$file"
        mount -o remount,bind,ro "$file"
    done
    # Of the network's namespace.
    mount --bind proc/sys/net proc/sys/net
    mount -o remount,bind,rw proc/sys/net
    mkdir .old
    pivot_root . .old
    umount -l /.old
    cd /
    exec setpriv --bounding-set=-sys_time,-sys_module env -i container=roadesk-check \
        PATH=/usr/sbin:/usr/bin:/sbin:/bin /lib/systemd/systemd --unit=multi-user.target
}
export -f make_root be_first

# inside COMMAND...: runs it as root in the system.
inside() {
    nsenter -t "$first" --mount --pid --net --ipc --uts --cgroup --root --wd -- env -i HOME=/root LC_ALL=C \
        DEBIAN_FRONTEND=noninteractive PATH=/usr/sbin:/usr/bin:/sbin:/bin "$@" </dev/null
}

# shell TEXT [WORD...]: runs the text there.
shell() {
    inside bash -c 'cd /var/tmp/trial && eval "$1"' - "$@" 2>&1
}

# block TEXT: the first block of GUIDE.md and OPERATIONS.md that has this text, with the name that the package has here.
block() {
    awk -v text="$1" 'FNR == 1 { within = 0 }
        /^```/ { if (within && index(lines, text)) { printf "%s", lines; exit }
            within = !within; lines = ""; next }
        within { lines = lines $0 "\n" }' "$top"/docs/{GUIDE,OPERATIONS}.md |
        sed "s#out/roadesk_[^ ]*\.deb#out/${package##*/}#" | grep . || echo "exit 2 # no block has $1"
}

boot() {
    local child
    setpriv --pdeathsig KILL unshare --mount --propagation private bash -c 'make_root "$@"' - "$work" "$group" \
        >"$work/boot" 2>&1 &
    outer=$!
    for _ in $(seq 300); do
        child=$(tr -d ' ' <"/proc/$outer/task/$outer/children")
        [ "$(cat "/proc/$child/comm")" != systemd ] || { first=$child && break; }
        kill -0 "$outer" || break
        sleep 0.1
    done 2>/dev/null
    [ -n "$first" ] || { cat "$work/boot" >&2; fail 'systemd did not start'; }
    shell 'for _ in {1..100}; do
        case $(systemctl is-system-running) in running | degraded) break ;; esac
        sleep 0.2
    done' >/dev/null 2>&1
    expect 'systemd: its state, and that of nginx' "$(shell 'systemctl is-system-running; systemctl is-active nginx')" \
        'running
active'
}

# ask CALLER METHOD PATH [BODY]: the response of the desk at PORT of 127.0.0.1, as root.
port=8080
ask() {
    inside curl -s -m 60 -X "$2" -H "Desk-Caller: $1" ${4:+--data-binary "$4"} "http://127.0.0.1:$port$3"
}

# seconds_until_answer: how many whole seconds it takes until the desk answers, at most 60.
seconds_until_answer() {
    local start=$SECONDS
    until [ -n "$(ask probe GET /holders/probe/auths)" ] || [ $((SECONDS - start)) -ge 60 ]; do sleep 0.1; done
    echo $((SECONDS - start))
}

# settle: waits until the unit of the desk is active.
settle() {
    shell 'for _ in {1..150}; do ! systemctl is-active --quiet roadesk || break; sleep 0.1; done'
}

# who PORT: the status that each of four users gets there.
who() {
    shell 'for user in www-data root nobody roadesk; do
        printf "%s %s " $user "$(setpriv --reuid=$user --clear-groups curl -s -m 10 -H "Desk-Caller: probe" \
            -o /dev/null -w "%{http_code}" "http://127.0.0.1:$2/holders/probe/auths")"
    done' "$1"
}
two_let_in='www-data 403 root 403 nobody 000 roadesk 000 '

# day_is DAY: has the unit start the desk on this day from the next start on.
day_is() {
    shell 'mkdir -p /etc/systemd/system/roadesk.service.d
        printf "%s\n" "[Service]" ExecStartPre= "ExecStartPre=/bin/sh -c '"'exec echo DAY=$1 >/run/roadesk/day'"'" \
            >/etc/systemd/system/roadesk.service.d/day.conf
        systemctl daemon-reload'
}

installs() {
    shell "$(block 'apt-get install ./out' | sed '/^cp /,$d')" >"$work/apt" || cat "$work/apt"
    expect 'install: the package' "$(shell 'dpkg-query -W -f "\${Status} \${Version}" roadesk')" \
        "install ok installed $version"
    expect 'install: a start without a database' "$(shell 'systemctl start roadesk; echo $?; systemctl is-active roadesk
        systemctl status roadesk | grep -o "start condition failed\|/var/lib/roadesk/desk.db was not met"
        nft list tables')" '0
inactive
start condition failed
/var/lib/roadesk/desk.db was not met'
    expect 'install: the database, and a desk that answers' "$(shell "$(block 'apt-get install ./out' | sed '/^cp /,$!d
        s/^curl /&-s /')")" 'asn,prefix,maxlength'
    expect 'install: the day of the desk' "$(shell 'cat /run/roadesk/day')" "DAY=$(date -u +%F)"
    expect 'install: enabled' "$(shell 'units="roadesk roadesk-firewall roadesk-day.timer roadesk-probe.timer"
        systemctl is-enabled $units; systemctl is-active $units' | sort | uniq -c | tr -s ' ')" ' 4 active
 4 enabled'
    expect 'install: whose the database is' "$(shell 'stat -c "%U %a" /var/lib/roadesk /var/lib/roadesk/desk.db')" \
        'roadesk 700
roadesk 600'
}

front() {
    shell "$(block 'cp /usr/share/roadesk/nginx-site')
        $(block '-keyout /etc/roadesk/key.pem') 2>/dev/null
        $(block 'install -m 640 -g www-data /dev/null')
        $(block 'openssl rand -hex 16')" >"$work/front"
    password=$(tail -n 1 "$work/front")
    expect 'front: the first holder, by the guide' "$(shell "password=$password
        $(block 'nginx -t' | sed 's/^curl /&-s --retry 9 --retry-delay 1 --retry-connrefused /')" | grep -v 'test is successful\|syntax is ok')" '{"done":null}'
    through="curl -s --cacert /etc/roadesk/cert.pem -u reg:$password"
    expect 'front: a create' "$(shell "through='$through'"'
        one=https://localhost:8443/holders/alpha
        $through -d "{\"prefix\":\"192.0.2.0/24\"}" $one/delegations
        $through -d "{\"name\":\"reg\",\"role\":\"manager\",\"scope\":\"all\",\"until\":\"9999-12-31\"}" $one/grants
        $through -d "{\"asn\":64496,\"prefix\":\"192.0.2.0/24\",\"max\":24,
            \"from\":\"2026-01-01\",\"until\":\"9998-12-31\"}" $one/auths')" '{"done":null}
{"done":1}
{"done":1}'
    expect 'front: other passwords, and the console' "$(shell "curl -s --cacert /etc/roadesk/cert.pem -o /dev/null \
            -w '%{http_code}\n' -u reg:other https://localhost:8443/payloads
        $through -L https://localhost:8443/ | grep -c '<title>'")" '401
1'
    expect 'front: a name that has line ends is not in a response' "$(shell "curl -s --cacert /etc/roadesk/cert.pem \
            -o /dev/null -D - -u $'reg\n\n<p>:other' https://localhost:8443/payloads" |
        grep -c '^HTTP.* 401\|^Desk-Caller')" 1
    expect 'front: nginx as a service' "$(shell 'systemctl restart nginx; echo $?; systemctl is-active nginx
        stat -c "%a %U %G" /var/log/roadesk/*.log
        logrotate -f /etc/logrotate.d/roadesk && echo rotated; sleep 1
        stat -c "%a %U %G %n" /var/log/roadesk/requests.log*')" \
        '0
active
640 www-data adm
640 www-data adm
640 www-data adm
rotated
640 www-data adm /var/log/roadesk/requests.log
640 www-data adm /var/log/roadesk/requests.log.1'
}

payloads() {
    ask noc GET /payloads
}

# They are what `front` made, and no case leaves more of them.
kept='asn,prefix,maxlength
AS64496,192.0.2.0/24,24'

killed() {
    local seconds
    shell 'systemctl kill -s KILL roadesk; sleep 0.2'
    seconds=$(seconds_until_answer)
    echo "killed: the desk is back after $seconds seconds"
    expect 'killed: back within 5 seconds, with what was made' "$([ "$seconds" -le 5 ] && payloads)" "$kept"
}

locked() {
    local seconds
    # It waits for the lock of the desk, and has it in the second before the desk is started again.
    inside runuser -u roadesk -- sqlite3 /var/lib/roadesk/desk.db '.timeout 30000' 'BEGIN EXCLUSIVE' \
        '.shell touch /tmp/held; sleep 9' COMMIT &
    sleep 1
    shell 'systemctl kill -s KILL roadesk; sleep 7; ls /tmp/held; systemctl is-active roadesk
        [ "$(journalctl -q -u roadesk -o cat | grep -c "^roadesk: database$")" -gt 1 ] && echo more starts' \
        >"$work/locked"
    wait $!
    seconds=$(seconds_until_answer)
    echo "locked: the desk is back $seconds seconds after the release"
    expect 'locked: while another holds the file' "$(cat "$work/locked")" '/tmp/held
activating
more starts'
    expect 'locked: back within 5 seconds of the release' "$([ "$seconds" -le 5 ] && payloads)" "$kept"
}

connects() {
    expect 'connects: root and www-data' "$(who 8080)" "$two_let_in"
    # The same port of another machine.
    expect 'connects: to another host' "$(shell 'unshare -n sleep 60 & other=$!
        until [ $(readlink /proc/$other/ns/net) != $(readlink /proc/$$/ns/net) ]; do sleep 0.1; done
        ip link add near type veth peer name far netns $other
        ip address add 192.0.2.1/24 dev near; ip link set near up
        nsenter -t $other -n sh -c "ip address add 192.0.2.2/24 dev far; ip link set far up; cd examples
            exec python3 -m http.server -b 192.0.2.2 8080" >/dev/null 2>&1 & server=$!
        for _ in {1..50}; do (: </dev/tcp/192.0.2.2/8080) && break; sleep 0.1; done 2>/dev/null
        setpriv --reuid=nobody --clear-groups curl -s -m 10 http://192.0.2.2:8080/charter.csv | head -n 1
        kill $server $other; ip link delete near')" kind,value
}

nftables() {
    local action
    for action in start reload restart; do
        shell "systemctl $action nftables; sleep 0.5"
        settle
        expect "nftables: after its $action" "$(shell 'nft list tables; systemctl is-active nftables roadesk')
$(who 8080)" "table inet filter
table inet roadesk
active
active
$two_let_in"
    done
    shell 'systemctl stop nftables'
    expect 'nftables: stopped, and the desk with it' "$(shell 'systemctl is-active roadesk; nft list tables')" inactive
    shell 'systemctl start roadesk'
    expect 'nftables: the desk started again' "$(shell 'nft list tables')
$(who 8080)" "table inet roadesk
$two_let_in"
}

full() {
    # In the place of the folder of the desk, with its database and the log.
    shell 'systemctl stop roadesk; cp -a /var/lib/roadesk /var/tmp/full
        mount -t tmpfs -o "size=2m,mode=0700,uid=$(id -u roadesk),gid=$(id -g roadesk)" tmpfs /var/lib/roadesk
        mv /var/tmp/full/* /var/lib/roadesk; systemctl start roadesk; echo $?
        dd if=/dev/zero of=/var/lib/roadesk/fill bs=4k 2>/dev/null' >"$work/full"
    expect 'full: the desk over a small file system' "$(cat "$work/full")" 0
    shell 'create() {
            curl -s -m 60 -H "Desk-Caller: reg" http://127.0.0.1:8080/holders/alpha/auths -d "{\"asn\":$1,\"max\":24,
                \"prefix\":\"192.0.2.0/24\",\"from\":\"2026-01-01\",\"until\":\"9998-12-31\"}"
        }
        rows() {
            curl -s -m 60 -H "Desk-Caller: reg" http://127.0.0.1:8080/holders/alpha/export | tail -n +2 | wc -l
        }
        made=$(rows)
        for one in {1..900}; do
            response=$(create $((64500 + one)))
            [[ $response == {\"done\":* ]] || break
            made=$((made + 1))
        done
        echo "$made commands" >&2
        echo "$response, $(($(rows) - made)) others"
        rm /var/lib/roadesk/fill
        create 64499 | tr -d 0-9
        systemctl restart roadesk
        echo "$(($(rows) - made))"' >"$work/full"
    expect 'full: a create, room again, a create, and what a restart finds' "$(tail -n 3 "$work/full")" \
        '{"unavailable":true}, 0 others
{"done":}
1'
    expect 'full: the day with no room for its copy' "$(shell 'dd if=/dev/zero of=/var/lib/roadesk/fill 2>/dev/null
        systemctl start roadesk-day; echo $?; systemctl is-active roadesk
        journalctl -q -b -u roadesk-day -o cat | grep "^Error"; ls /var/lib/roadesk | grep -- -')" '0
active
Error: disk I/O error
desk.db-shm
desk.db-wal'
    shell 'systemctl stop roadesk; umount /var/lib/roadesk; systemctl start roadesk'
    expect 'full: the folder that was there before' "$(payloads)" "$kept"
}

days() {
    local copy
    copy=/var/lib/roadesk/desk-$(date -u +%F).db
    day_is 9999-01-01
    expect 'day: no change until the service' "$(payloads)" "$kept"
    expect 'day: its service' "$(shell 'systemctl start roadesk-day; echo $?; systemctl is-active roadesk
        cat /run/roadesk/day')" '0
active
DAY=9999-01-01'
    expect 'day: the payloads of that day' "$(payloads)" 'asn,prefix,maxlength'
    expect 'day: the copy' "$(shell "stat -c '%U %a' $copy; sqlite3 $copy 'SELECT asn, opens, ends FROM claim'")" \
        "roadesk 600
64496|20454|2932531"
    shell 'systemctl stop roadesk; systemctl start roadesk-day'
    expect 'day: a desk that was stopped' "$(shell 'systemctl is-active roadesk')" inactive
    day_is 2026-03-01
    shell 'systemctl start roadesk'
    expect 'day: before that day' "$(payloads)" "$kept"
}

probes() {
    local main
    shell 'printf "%s\n" "[Service]" Environment=LD_PRELOAD=/usr/lib/refuse-syncs.so \
            >/etc/systemd/system/roadesk.service.d/refuse.conf
        systemctl daemon-reload; systemctl restart roadesk'
    main=$(shell 'systemctl show -P MainPID roadesk')
    expect 'probe: before' "$(ask probe GET /holders/probe/auths), $(shell 'systemctl start roadesk-probe
        systemctl show -P MainPID roadesk')" "{\"denied\":\"grant\"}, $main"
    shell 'touch /var/lib/roadesk/refuse'
    expect 'probe: a sync refused' "$(ask reg PUT /holders/refused), $(ask probe GET /holders/probe/auths)" \
        '{"unavailable":true}, {"unavailable":true}'
    shell 'rm /var/lib/roadesk/refuse; systemctl start roadesk-probe'
    expect 'probe: after its service' "$(ask probe GET /holders/probe/auths), $(
        shell 'systemctl show -P MainPID roadesk' | grep -vcx "$main")" '{"denied":"grant"}, 1'
    shell 'rm /etc/systemd/system/roadesk.service.d/refuse.conf; systemctl daemon-reload; systemctl restart roadesk'
    expect 'probe: what was made is there' "$(payloads)" "$kept"
}

# The requests of the guide, of the first days of a registry, under all that confines the desk.
first_days() {
    local examples=/var/tmp/trial/examples holder=/holders/gamma one=/holders/alpha
    local terms rows shown report turns='["Valid","Invalid"]' stays='["Invalid","Invalid"]'
    terms='"from":"2026-01-01","until":"2026-12-31"'
    shown='{"number":1,"asn":64496,"entries":[{"prefix":"198.51.100.0/24","max":24},'
    shown+='{"prefix":"2001:db8::/32","max":48}],'"$terms}"
    day_is 2026-03-01
    shell 'systemctl restart roadesk'
    expect 'first days: holders, space and grants' "$(
        ask reg PUT "$holder"
        ask reg PUT /holders/beta
        ask reg POST "$holder"/delegations '{"prefix":"198.51.100.0/24"}'
        ask reg POST "$holder"/delegations '{"prefix":"2001:db8::/32"}'
        ask reg POST "$holder"/grants '{"name":"ann","role":"manager","scope":"all","until":"2026-12-31"}'
        ask ann POST "$holder"/grants '{"name":"cleo","role":"clerk","scope":"198.51.100.0/25","until":"2026-06-30"}'
        ask ann DELETE "$holder"/grants/2)" '{"done":null}
{"done":null}
{"done":null}
{"done":null}
{"done":1}
{"done":2}
{"done":null}'
    expect 'first days: an authorization' "$(
        ask ann POST "$holder"/auths '{"asn":64496,"entries":[{"prefix":"2001:db8::/32","max":48},
            {"prefix":"198.51.100.0/24","max":24}],'"$terms}"
        ask ann GET "$holder"/auths
        ask ann PATCH "$holder"/auths/1 '{"maxes":[25,48],"until":"2026-12-31"}'
        ask ann GET "$holder"/auths/1
        ask reg GET "$one"/auths/1/content
        ask ann GET "$holder"/export)" '{"done":1}
{"listed":['"$shown"']}
{"done":null}
{"shown":'"${shown/:24/:25}"'}
{"content":"3017020300fbf03010300e0402000130083006030400c00002"}
number,asn,prefix,maxlength,from,until
1,AS64496,198.51.100.0/24,25,2026-01-01,2026-12-31
1,AS64496,2001:db8::/32,48,2026-01-01,2026-12-31'
    report="{\"report\":[$turns,[\"Invalid\",\"Valid\"],$stays,$stays]}"
    rows=$'asn,prefix,maxlength,from,until\nAS64497,198.51.100.0/24,24,2026-03-01,2026-12-31\n'
    expect 'first days: what-if, import and withdrawal' "$(
        ask reg POST "$one"/whatif "@$examples"/what-if.json
        ask ann POST "$holder"/imports "$rows"
        ask ann POST "$holder"/imports "$rows"
        ask ann DELETE "$holder"/auths/2)" "$report
{\"made\":1,\"present\":0}
{\"made\":0,\"present\":1}
{\"done\":null}"
    expect 'first days: SLURM, payloads and validity' "$(
        ask reg PUT /slurm "@$examples"/slurm.json
        ask noc GET /payloads
        ask noc POST /validity '{"routes":[{"prefix":"192.0.2.0/24","origin":64499},
            {"prefix":"198.51.100.0/24","origin":64500}]}'
        ask reg PUT /slurms '{"files":[]}')" '{"done":null}
asn,prefix,maxlength
AS64499,192.0.2.0/24,24
AS64496,198.51.100.0/24,25
AS64500,198.51.100.0/24,25
AS64496,2001:db8::/32,48
{"answers":["Valid","Valid"]}
{"done":null}'
    expect 'first days: a transfer, a reclaim and a withdrawal' "$(
        ask reg POST /transfers '{"prefix":"198.51.100.0/25","giver":"gamma","taker":"beta"}'
        ask reg POST "$holder"/reclaims '{"prefix":"2001:db8::/32"}'
        ask ann POST "$holder"/auths '{"asn":64496,"prefix":"198.51.100.128/25","max":25,'"$terms}"
        ask ann DELETE "$holder"/auths/3)" '{"done":null}
{"done":null}
{"done":3}
{"done":null}'
    expect 'first days: what was made before is there' "$(payloads)" "$kept"
    # The journal says it of a program that is stopped so.
    expect 'first days: calls that are refused' "$(shell 'systemd-run -q -G --wait -p SystemCallFilter=~uname uname
        journalctl -q -b -o cat | grep -c "status=31/SYS"
        journalctl -q -b -o cat | grep "status=31/SYS" | grep roadesk' 2>&1)" 1
}

# Two more desks, by OPERATIONS.md.
desks() {
    shell "$(block 'systemctl enable --now roadesk@east.service')" >"$work/desks"
    shell "$(block 'systemctl enable --now roadesk@east.service' | sed 's/east/west/g; s/8082/8083/g')" \
        >>"$work/desks"
    expect 'desks: all three are active' "$(shell 'systemctl is-active roadesk roadesk@east roadesk@west \
        roadesk-day@east.timer roadesk-probe@west.timer')" 'active
active
active
active
active'
    expect 'desks: each has its own tables' "$(
        for port in 8082 8083; do
            ask reg PUT /holders/beta
            ask reg PUT /holders/beta
        done
        port=8080
        payloads)" "{\"done\":null}
{\"denied\":\"fresh\"}
{\"done\":null}
{\"denied\":\"fresh\"}
$kept"
    expect 'desks: who may connect' "$(who 8082)$(who 8083)$(who 8080)" "$two_let_in$two_let_in$two_let_in"
    expect 'desks: each sees its own folder alone' "$(shell 'for unit in roadesk roadesk@east roadesk@west; do
        ls "/proc/$(systemctl show -P MainPID $unit)/root/var/lib"; done')" 'roadesk
roadesk-east
roadesk-west'
    expect 'desks: the day of one' "$(shell 'systemctl start roadesk-day@east; echo $?
        ls /var/lib/roadesk-*/desk-*.db')" \
        "0
/var/lib/roadesk-east/desk-$(date -u +%F).db"
    expect 'desks: one is stopped' "$(shell 'systemctl stop roadesk@east
        systemctl is-active roadesk roadesk@east roadesk@west')" \
        'active
inactive
active'
    shell 'systemctl start roadesk@east'
}

# installed PACKAGE: its version once apt has installed it, the state of the desks, and the payloads and the day.
installed() {
    shell "apt-get install --allow-downgrades ./out/${1##*/}" >"$work/apt" || cat "$work/apt"
    shell "dpkg-query -W -f '\${Version}\n' roadesk; systemctl is-active roadesk roadesk@east; cat /run/roadesk/day"
    payloads
}

# Back to the package before, and on to this one.
versions() {
    day_is 2026-03-01
    shell 'systemctl restart roadesk; systemctl start roadesk@east'
    expect 'versions: a downgrade' "$(installed "$older")" "$version~before
active
active
DAY=2026-03-01
$kept"
    shell 'echo "# kept" >>/etc/roadesk/desk.conf'
    expect 'versions: an upgrade' "$(installed "$package")" "$version
active
active
DAY=2026-03-01
$kept"
    expect 'versions: a setting that was changed' "$(shell 'tail -n 1 /etc/roadesk/desk.conf')" '# kept'
    shell "systemctl stop roadesk; dpkg -i out/${package##*/}" >"$work/apt"
    expect 'versions: a desk that was stopped' "$(shell 'systemctl is-active roadesk roadesk@east')" 'inactive
active'
    shell 'systemctl start roadesk'
}

removes() {
    expect 'at the end: units that failed' "$(shell 'systemctl --failed --no-legend --plain')" ''
    shell 'systemctl disable roadesk@east roadesk@west roadesk-{day,probe}@{east,west}.timer; apt-get remove roadesk' \
        >"$work/apt" || cat "$work/apt"
    expect 'removed: what stays' "$(shell 'systemctl is-active roadesk roadesk@east roadesk@west roadesk-firewall \
            roadesk-day.timer roadesk-probe@west.timer | sort | uniq -c | tr -s " "
        nft list tables; ls /usr/bin/roadesk 2>&1; ls /var/lib/roadesk/desk.db /etc/roadesk/roadesk.nft
        sqlite3 /var/lib/roadesk/desk.db "SELECT asn FROM claim WHERE holder = '"'alpha'"'"')" " 6 inactive
ls: cannot access '/usr/bin/roadesk': No such file or directory
/etc/roadesk/roadesk.nft
/var/lib/roadesk/desk.db
64496"
    shell 'apt-get purge roadesk' >"$work/apt" || cat "$work/apt"
    expect 'purged: what stays' "$(shell 'ls -d /var/lib/roadesk{,-east/desk.db} /etc/roadesk /var/log/roadesk \
            /etc/nginx/sites-enabled/* 2>/dev/null
        nginx -t 2>/dev/null; echo $?; systemctl restart nginx; systemctl is-active nginx
        systemctl list-unit-files "roadesk*" --no-legend; systemctl --failed --no-legend --plain')" \
        '/var/lib/roadesk-east/desk.db
0
active'
}

nothing_left() {
    stop_system
    expect 'at the end: no mount, process or cgroup, and the settings of the kernel' "$(left_behind)" "$before"
}

boot
for case in $cases; do
    ! want "$case" || $case
done
nothing_left
end
