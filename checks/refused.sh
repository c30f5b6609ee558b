#!/usr/bin/env bash
# Whether the program, tests and a trie bear a refused allocation.
#
#     refused.sh [STEP]      (1 if left out)
#
# The program answers seven lines: four set-up lines, the VRPs of a day, a create, and the VRPs again. refuse.c, which
# is preloaded, refuses each of its allocations in turn, in a run of its own. At most one line is Unavailable, it has
# done nothing, and the VRPs are right after it. Or the program ends with its fault at the start. Then all allocations
# from each one on are refused: from a line on all are Unavailable. refused.py does the same for `init`, and for `serve`
# with one connection over a file; of more than 2,000 allocations of a run it refuses each STEPth.
#
# The proved tests that hold under any one refusal are run with each of their allocations refused.
#
# Then refused.rattle makes some allocations for a trie, and rt try refuses each of them in turn; the last run is the
# first of which none is refused. Each run takes half a minute, nothing is proved.
#
# Needs the built program, which PROGRAM may name, gcc and python3 from 3.10 on; for the tests those that `rt test` has
# built, and for the trie rt. Files go to a temporary folder, or stay in BENCH_WORK.
#
# Exit status: 0 if all ran and held; 1 if a reply or a set is not as it has to be or something else failed; 77, after
# what is missing, if not all of it could be run.
set -u
. "$(dirname "${BASH_SOURCE[0]}")/../tools/common.sh"
need_gcc
need_python
find_program
make_or_keep_work
charter=$top/examples/charter.csv
gcc -O2 -shared -fPIC -o "$work/refuse.so" "$top/checks/refuse.c" || fail 'refuse.c was not built'

cat >"$work/lines" <<'END'
{"day":"2026-03-01","caller":"reg","do":"register","holder":"alpha"}
{"day":"2026-03-01","caller":"reg","do":"delegate","holder":"alpha","prefix":"192.0.2.0/24"}
{"day":"2026-03-01","caller":"reg","do":"grant","holder":"alpha","name":"ann","role":"manager","scope":"all","until":"2026-12-31"}
{"day":"2026-03-01","caller":"ann","do":"create","holder":"alpha","asn":64496,"prefix":"192.0.2.0/24","max":24,"from":"2026-01-01","until":"2026-12-31"}
{"day":"2026-12-31","caller":"ann","do":"payloads"}
{"day":"2026-03-01","caller":"ann","do":"create","holder":"alpha","asn":64497,"prefix":"192.0.2.0/25","max":25,"from":"2026-01-01","until":"2026-12-31"}
{"day":"2026-12-31","caller":"ann","do":"payloads"}
END
first='{"asn":64496,"prefix":"192.0.2.0/24","max":24}'
second='{"asn":64497,"prefix":"192.0.2.0/25","max":25}'

# replies NUMBER: what is answered if the line of this number is Unavailable, or none for 0.
replies() {
    local null='{"done":null}' number=$1
    case $number in
        1) printf '%s\n' X '{"denied":"holder"}' '{"denied":"holder"}' '{"denied":"grant"}' '{"payloads":[]}' '{"denied":"grant"}' '{"payloads":[]}' ;;
        2) printf '%s\n' "$null" X '{"done":1}' '{"denied":"held"}' '{"payloads":[]}' '{"denied":"held"}' '{"payloads":[]}' ;;
        3) printf '%s\n' "$null" "$null" X '{"denied":"grant"}' '{"payloads":[]}' '{"denied":"grant"}' '{"payloads":[]}' ;;
        4) printf '%s\n' "$null" "$null" '{"done":1}' X '{"payloads":[]}' '{"done":1}' "{\"payloads\":[$second]}" ;;
        5) printf '%s\n' "$null" "$null" '{"done":1}' '{"done":1}' X '{"done":2}' "{\"payloads\":[$first,$second]}" ;;
        6) printf '%s\n' "$null" "$null" '{"done":1}' '{"done":1}' "{\"payloads\":[$first]}" X "{\"payloads\":[$first]}" ;;
        7) printf '%s\n' "$null" "$null" '{"done":1}' '{"done":1}' "{\"payloads\":[$first]}" '{"done":2}' X ;;
        *) printf '%s\n' "$null" "$null" '{"done":1}' '{"done":1}' "{\"payloads\":[$first]}" '{"done":2}' "{\"payloads\":[$first,$second]}" ;;
    esac | sed 's/^X$/{"unavailable":true}/'
}

# answer NUMBER: runs the lines with this allocation refused; `status` is that of the program.
answer() {
    rm -f "$work/refused"
    REFUSE=$1 REFUSED=$work/refused LD_PRELOAD=$work/refuse.so "$program" script --charter "$charter" \
        <"$work/lines" >"$work/replies" 2>"$work/error"
    status=$?
}

# Whether the program ended with its fault before it answered any line.
ended_early() {
    [ "$status" -ne 0 ] && [ ! -s "$work/replies" ] && grep -q '^roadesk: ' "$work/error"
}

# Each allocation in turn; `counted` is how many the program makes.
refuse_each() {
    local number unavailable early=0
    for number in $(seq 100000); do
        answer "$number"
        if [ -e "$work/refused" ] && ended_early; then
            early=$((early + 1))
            continue
        fi
        unavailable=$(grep -n '"unavailable"' "$work/replies" | head -n 1 | cut -d: -f1)
        if [ "$status" -ne 0 ] || ! replies "${unavailable:-0}" | cmp -s - "$work/replies"; then
            echo "allocation $number refused: status $status, and"
            cat "$work/replies" "$work/error"
            return 1
        fi
        # Where none is refused all are right.
        [ -e "$work/refused" ] || break
        seen[${unavailable:-0}]=$((${seen[${unavailable:-0}]:-0} + 1))
    done
    [ -z "$unavailable" ] || fail 'a reply is Unavailable, and no allocation was refused'
    counted=$((number - 1))
    [ "$counted" -gt 0 ] || fail 'no allocation of the program was refused'
    echo "each of $counted allocations of the program was refused in turn: it ended at its start for $early of them, no"
    echo "reply changed for ${seen[0]:-0}, and one was Unavailable for $((counted - early - ${seen[0]:-0}))"
}

# All allocations from each one on: the replies before a line are as without it, and from it on all are Unavailable.
refuse_from_each() {
    local number line
    export REFUSE_ALL=1
    for number in $(seq "$counted"); do
        answer "$number"
        ended_early && continue
        line=$(grep -n '"unavailable"' "$work/replies" | head -n 1 | cut -d: -f1)
        if [ "$status" -eq 0 ] && {
            replies 0 | head -n $((${line:-8} - 1))
            yes '{"unavailable":true}' | head -n $((8 - ${line:-8}))
        } | cmp -s - "$work/replies"; then
            continue
        fi
        echo "all allocations from $number on refused: status $status, and"
        cat "$work/replies" "$work/error"
        return 1
    done
    unset REFUSE_ALL
    echo "all allocations from each of them on were refused: from a line on every reply was Unavailable"
}

# refuse_test CRATE TEST: a run of the test for each of its allocations, each of which has to pass.
refuse_test() {
    local tests=$top/crates/$1/out/$1_tests number
    if [ ! -x "$tests" ]; then
        not_run "$2: the tests of its crate are not built: run rt test in crates/$1"
        return
    fi
    for number in $(seq 100000); do
        rm -f "$work/refused"
        if ! REFUSE=$number REFUSED=$work/refused LD_PRELOAD=$work/refuse.so "$tests" "$2" >"$work/error" 2>&1; then
            echo "$2: allocation $number refused, and"
            cat "$work/error"
            failed=1
            return
        fi
        [ -e "$work/refused" ] || break
    done
    [ "$number" -gt 1 ] || fail "no allocation of $2 was refused"
    echo "$2: passes with each of its $((number - 1)) allocations refused in turn"
}

declare -a seen
refuse_each || exit 1
refuse_from_each || exit 1
run_python "$top/checks/refused.py" "$program" "$work/refuse.so" "$charter" "$work" "${1:-1}"
refuse_test test_program refused_memory::refused_memory_leaves_an_allowed_run
refuse_test test_program refused_memory::refused_memory_over_http
refuse_test test_library refused_calls::refused_call_is_good_the_next_time
refuse_test test_program prepared_day::a_desk_without_memory_for_its_day_answers

have 'a trie: ' rt || end
folder=$("$top/tools/crate.sh" "$top/checks/refused.rattle" "$work") || fail 'no crate was made'
# More than the program makes.
most=100

cd "$folder" || exit 1
for number in $(seq "$most"); do
    rt try --fail-alloc "$number" </dev/null >"$work/refused.log" 2>&1
    status=$?
    # The last line is that of a program that ended, or else rt try itself failed.
    tail -n 1 "$work/refused.log" | grep -q "^run=ended status=$status " || {
        cat "$work/refused.log" >&2
        fail "rt try failed"
    }
    case $status in
        0)
            echo "each of $((number - 1)) allocations was refused in turn: the set stayed, and took the VRP afterwards"
            [ "$number" -gt 1 ] || fail 'no allocation for the trie was refused'
            end
            ;;
        3) ;;
        *)
            echo "allocation $number refused: the set changed, or did not take the VRP afterwards"
            exit 1
            ;;
    esac
done
fail "more than $most allocations"
