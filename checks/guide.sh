#!/usr/bin/env bash
# Runs the commands of GUIDE.md and OPERATIONS.md and compares what they print with what these say.
#
#     guide.sh [DOCUMENT...]      (both of docs/, if none is given)
#
# The blocks marked sh run in one shell, in their order, those of the second document after those of the first. They run
# in a temporary folder with a copy of the files that git tracks. So what they make does not stay, and they cannot reach
# what the reader made at the top of the repository, such as desk.db and front/. The copy is taken from a repository in
# use, which has to be the same before and after.
#
# What a block prints, on standard error too, has to be the block after a line that ends with `prints` or `print`. If
# there is no such block, it has to end with status 0.
#
# Needs the built program, which PROGRAM may name and which is run as ./roadesk, and git. A block marked `sh needs
# COMMAND..` is not run without these commands. `netfilter` means the command nft and the right to make a network
# namespace with rules of nftables, which root has, and `rtrlib` the module of FRR that speaks RTR.
#
# Exit status: 0 if all blocks ran and did as the documents say; 1 if one did otherwise or something else failed; 77,
# after what is missing, if not all of them could be run.
set -u
. "$(dirname "${BASH_SOURCE[0]}")/../tools/common.sh"
need git
find_program
[ $# -gt 0 ] || set -- "$top"/docs/{GUIDE,OPERATIONS}.md
make_work
# The workers of an nginx that root starts are another user.
chmod 711 "$work"

# Block N becomes N.sh, with its document and line in N.line, what it needs in N.needs, and what it is said to print in
# N.said.
awk -v work="$work" '
    FNR == 1 {
        inside = is_said = 0
        document = FILENAME
        sub(".*/", "", document)
    }
    /^```/ && inside { inside = 0; next }
    inside { if (file) print >file; next }
    /^```/ {
        inside = 1
        file = ""
        if ($0 ~ /^```sh( needs .*)?$/) {
            file = work "/" ++blocks ".sh"
            print document ":" FNR >(work "/" blocks ".line")
            print substr($0, length("```sh needs ") + 1) >(work "/" blocks ".needs")
        } else if (is_said && blocks)
            file = work "/" blocks ".said"
        if (file) printf "" >file
        is_said = 0
        next
    }
    NF { is_said = /(^| )prints?:?$/ }' "$@" || exit 1
blocks=$(find "$work" -name '*.sh' | wc -l)
[ "$blocks" -gt 0 ] || fail "no blocks in $*"

# A hook of git names its own repository in these.
# shellcheck disable=SC2046
unset $(git rev-parse --local-env-vars)

# copy_tracked FROM TO: copies the files that git tracks, as they are now.
copy_tracked() (
    set -o pipefail
    git -C "$1" ls-files -z | tar -C "$1" --ignore-failed-read -cf - --null -T - | tar -C "$2" --no-same-owner -xf -
)

# sum_used: the checksums of all files of the repository in use.
sum_used() {
    (cd "$work/used" && find . -type f -exec sha256sum {} + | sort)
}

# A repository whose reader followed the documents by hand. The folder for the blocks is made from it.
mkdir -p "$work/used/front" "$work/top"
copy_tracked "$top" "$work/used" && git -C "$work/used" init -q && git -C "$work/used" add -f . || exit 1
for file in desk.db front/key.pem front/cert.pem front/callers; do
    echo "the reader's" >"$work/used/$file"
done
sum_used >"$work/used.before"
copy_tracked "$work/used" "$work/top" && rm "$work/top/roadesk" || exit 1
# The program is built.
printf '#!/bin/sh\n[ "$*" = build ] || exec "%s" "$@"\n' "$program" >"$work/top/roadesk"
chmod +x "$work/top/roadesk"
# As on a terminal, curl does not show how far it is.
printf 'silent\nshow-error\n' >"$work/.curlrc"

is_there() {
    case $1 in
        netfilter) unshare -n nft add table inet roadesk 2>/dev/null ;;
        rtrlib) compgen -G '/usr/lib/*/frr/modules/bgpd_rpki.so' >/dev/null ;;
        *) command -v "$1" >/dev/null ;;
    esac
}

# missing_for N: the commands that block N needs and that are missing.
missing_for() {
    local tool tools
    read -ra tools <"$work/$1.needs"
    for tool in ${tools[@]+"${tools[@]}"}; do
        is_there "$tool" || echo "$tool"
    done
}

# tell_missing: says once of each of them what it is, and where the blocks are that need it.
tell_missing() {
    local tool what block lines
    while read -r tool; do
        case $tool in
            netfilter) what='no right to make a network namespace with rules of nftables, or no nft (Debian: nftables)' ;;
            rtrlib) what='no module rpki of FRR (Debian: frr-rpki-rtrlib)' ;;
            *) what=$(without "$tool") ;;
        esac
        lines=$(for block in $(seq "$blocks"); do
            ! grep -qxF "$tool" "$work/$block.missing" || cat "$work/$block.line"
        done | paste -sd ,)
        not_run "$what, for the blocks at ${lines//,/, }"
    done < <(cat "$work"/*.missing | sort -u)
}

# wait_for_desks BLOCK: until each desk that the block leaves in the background listens, a minute at most.
wait_for_desks() {
    local port
    sed -n 's/.*--listen 127\.0\.0\.1:\([0-9]*\) .*&$/\1/p' "$1" | while read -r port; do
        for _ in $(seq 600); do
            ! listens "$port" || break
            sleep 0.1
        done
    done
}

# Runs the blocks that miss nothing. What one leaves in the background goes on until the last has ended.
run_blocks() {
    trap 'kill $(jobs -p) 2>/dev/null' EXIT
    cd "$work/top" || exit 1
    for guide_block in $(seq "$blocks"); do
        [ ! -s "$work/$guide_block.missing" ] || continue
        # shellcheck source=/dev/null
        . "$work/$guide_block.sh" >"$work/$guide_block.printed" 2>&1 </dev/null
        echo $? >"$work/$guide_block.status"
        wait_for_desks "$work/$guide_block.sh"
        # Other servers need a moment until they listen.
        ! grep -q '&$' "$work/$guide_block.sh" || sleep 2
    done
}

# judge N: the verdict on block N; false if it did otherwise than its document says.
judge() {
    local at=$work/$1
    if [ -s "$at.missing" ]; then
        echo "not run: missing $(paste -sd ' ' "$at.missing")"
    elif [ ! -e "$at.status" ]; then
        echo "did not end"
        return 1
    elif [ -e "$at.said" ]; then
        # HTTP ends its lines with CR LF.
        tr -d '\r' <"$at.printed" | diff "$at.said" - >"$at.diff" && echo "prints what is said" && return
        echo "prints something else:" && cat "$at.diff"
        return 1
    elif [ "$(cat "$at.status")" != 0 ]; then
        echo "ended with status $(cat "$at.status"):" && cat "$at.printed"
        return 1
    else
        echo "ended well"
    fi
}

for block in $(seq "$blocks"); do
    missing_for "$block" >"$work/$block.missing"
done
tell_missing
export work blocks CURL_HOME=$work
export -f run_blocks wait_for_desks listens
# In the background, where it is ended with the script.
timeout 600 bash -c run_blocks &
wait $!

for block in $(seq "$blocks"); do
    verdict=$(judge "$block") || failed=1
    echo "$(cat "$work/$block.line"): $verdict"
done
expect 'a repository in use, before and after' "$(sum_used | diff "$work/used.before" -)" ''
end
