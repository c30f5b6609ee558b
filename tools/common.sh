# shellcheck shell=bash
# Sourced by the scripts of the checks, of the console and of the benchmarks: how they begin and end.
#
# A script ends with 0 if all that it was to run ran and held, with 1 if something failed, and else with 77, if something
# could not be run here. What that is, and where Debian has it, is then on standard error, in a line that begins with
# the name of the script and `: not run: `.

top=$(cd "$(dirname "${BASH_SOURCE[0]}")/.." && pwd)
# Where the scripts in Python that are started by one in bash find common.py.
export PYTHONPATH=$top/tools${PYTHONPATH:+:$PYTHONPATH}
failed=0
left_out=0

# fail TEXT: ends the script with 1.
fail() {
    echo "$(basename "$0"): $1" >&2
    exit 1
}

# not_run TEXT: says what is missing; the script goes on without it.
not_run() {
    echo "$(basename "$0"): not run: $1" >&2
    left_out=1
}

# skip TEXT: says what is missing, and ends the script.
skip() {
    not_run "$1"
    end
}

# end: ends the script with its status.
end() {
    [ "$failed" = 0 ] || exit 1
    [ "$left_out" = 0 ] || exit 77
    exit 0
}

# place_of COMMAND: where Debian has it; the package has its name unless it is named here.
place_of() {
    local package=$1
    case $1 in
        rt) echo 'of the Rattle toolchain, which Debian does not have' && return ;;
        bgpctl | bgpd) package=openbgpd ;;
        bird | birdc) package=bird2 ;;
        chromedriver) package=chromium-driver ;;
        dpkg-deb) package=dpkg ;;
        drbdadm) package=drbd-utils ;;
        fort) package=fort-validator ;;
        iconv) package=libc-bin ;;
        ip | ss) package=iproute2 ;;
        journalctl | systemctl | systemd-analyze) package=systemd ;;
        man) package=man-db ;;
        node) package=nodejs ;;
        nft) package=nftables ;;
        nsenter | prlimit | runuser | setpriv | unshare) package=util-linux ;;
        readelf | strip) package=binutils ;;
        rtrdump) package=stayrtr ;;
        vtysh | /usr/lib/frr/bgpd) package=frr ;;
        */python3) package=python3 ;;
        /usr/bin/time) package='time' ;;
        apt-get) package=apt ;;
    esac
    echo "Debian: $package"
}

# without COMMAND: says that it is missing, for not_run.
without() {
    echo "no command $1 ($(place_of "$1"))"
}

# have PART COMMAND...: whether all of these commands are there; else the script goes on without that part.
have() {
    local command all=0
    for command in "${@:2}"; do
        command -v "$command" >/dev/null || { not_run "$1$(without "$command")" && all=1; }
    done
    return "$all"
}

# need COMMAND...: ends the script if one of these commands is missing.
need() {
    have '' "$@" || end
}

# need_python: ends the script if there is no python3 from 3.10 on, with its module for SQLite.
need_python() {
    need python3
    python3 -c 'import sys; sys.exit(sys.version_info < (3, 10))' || skip 'no python3 from 3.10 on (Debian: python3)'
    python3 -c 'import sqlite3' 2>/dev/null || skip 'python3 has no module sqlite3 (Debian: libpython3-stdlib)'
}

# run_python SCRIPT WORD...: runs a part of the script that is in Python, which ends as a script does. `python` may name
# another than python3. It is in the background, where it is ended with the script.
run_python() {
    "${python:-python3}" -B "$@" &
    wait $!
    case $? in
        0) ;;
        77) left_out=1 ;;
        *) failed=1 ;;
    esac
}

# need_gcc: ends the script if no shared library can be made of C.
need_gcc() {
    need gcc
    gcc -shared -fPIC -o /dev/null -xc - <<<'#include <dlfcn.h>' 2>/dev/null ||
        skip 'gcc makes no shared library (Debian: libc6-dev)'
}

# need_libsqlite3: ends the script if no program in C can use SQLite.
need_libsqlite3() {
    need gcc
    printf '#include <sqlite3.h>\nint main(void) { return !sqlite3_libversion(); }\n' |
        gcc -o /dev/null -xc - -lsqlite3 2>/dev/null ||
        skip 'gcc makes no program with libsqlite3 (Debian: libsqlite3-dev)'
}

# copy_crates FOLDER: copies crates.txt and the crates into the folder, without what rt made.
copy_crates() {
    cp -a "$top/crates.txt" "$1" &&
        (cd "$top" && find crates -name out -prune -o -type f -print0 | tar -cf - --null -T -) | tar -xf - -C "$1"
}

# copy_built FOLDER: gives a copy of the crates what rt built of them, as hard links if it can, so that it is not proved
# again there.
copy_built() {
    local built
    for built in "$top"/crates/*/out/rlib; do
        [ -d "$built" ] || continue
        built=${built#"$top/"}
        mkdir -p "$1/${built%/rlib}" || return
        cp -al "$top/$built" "$1/$built" 2>/dev/null ||
            { rm -rf "${1:?}/$built" && cp -a "$top/$built" "$1/$built"; } || return
    done
}

# Sets `program` to the path of the proved program. PROGRAM names it, else it is that of the repository: built again
# if a source is newer, and none if it was never built.
find_program() {
    program=${PROGRAM:-$top/crates/cli/out/cli}
    [ -x "$program" ] || skip "no program $program: run ./roadesk build first, or name another in PROGRAM"
    [ -n "${PROGRAM:-}" ] || "$top/roadesk" build || {
        need rt
        fail 'the program was not built'
    }
    program=$(realpath "$program")
}

# end_jobs: ends the processes in the background.
end_jobs() {
    local jobs
    jobs=$(jobs -p)
    # shellcheck disable=SC2086 # a line each
    [ -z "$jobs" ] || { kill $jobs && wait $jobs; } 2>/dev/null
}

# Sets `work` to a temporary folder, which goes at the end of the script, after the processes in the background.
make_work() {
    work=$(mktemp -d) || fail 'no temporary folder'
    trap 'end_jobs; rm -rf "$work"' EXIT
}

# The same, but if BENCH_WORK names a folder it is that, which stays, so that the next run is quicker.
make_or_keep_work() {
    if [ -z "${BENCH_WORK:-}" ]; then
        make_work
    else
        mkdir -p "$BENCH_WORK" || fail "no folder $BENCH_WORK"
        work=$(realpath "$BENCH_WORK")
        trap end_jobs EXIT
    fi
}

# expect NAME FOUND EXPECTED: whether the two are the same; `failed` is 1 if they are not.
expect() {
    if [ "$2" = "$3" ]; then
        echo "$1: ok"
    else
        printf '%s: found\n%s\nexpected\n%s\n' "$1" "$2" "$3"
        failed=1
    fi
}

# free_port: `free` is a port of 127.0.0.1 where nothing listens, and that was not given before.
ports_given=
# shellcheck disable=SC2034
free_port() {
    local port
    for port in $(shuf -i 20000-30000 -n 20); do
        [[ " $ports_given " != *" $port "* ]] || continue
        listens "$port" || { ports_given+=" $port" && free=$port && return; }
    done
    fail 'no port is free'
}

# listens PORT: whether somebody listens there at an address of IPv4. No connection is made, which the desk would count.
listens() {
    grep -q "$(printf ':%04X 00000000:0000 0A' "$1")" /proc/net/tcp
}

# wait_for PORT PROCESS: waits until somebody listens there; false if the process that is to ended before.
wait_for() {
    until listens "$1"; do
        kill -0 "$2" 2>/dev/null || return 1
        sleep 0.01
    done
}

# tell_load: how busy the machine is on which something was measured.
tell_load() {
    echo "$(nproc) processors, load $(cut -d ' ' -f 1-3 /proc/loadavg) at the end"
}
