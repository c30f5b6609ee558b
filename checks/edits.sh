#!/usr/bin/env bash
# Whether the prover refuses the wrong bodies in checks/edits, which the gate does not try.
#
#     edits.sh [CRATE...]      (every crate that has some, if left out)
#
# They are put into must-fail/ of a copy of the crates, in the place of those that the gate tries, and rt must-fail
# tries them there, as many at a time as RT_JOBS says. The copy has what is built here of the crates below, and rt proves
# what is not.
#
# Needs rt.
#
# Exit status: 0 if each edit was refused; 1 if one was not, could not be applied or was not tried, or something else
# failed; 77, after what is missing, if it could not be run.
set -u
. "$(dirname "${BASH_SOURCE[0]}")/../tools/common.sh"
need rt
make_work

copy_crates "$work" && copy_built "$work" || exit 1
cp "$top/HANDLES" "$work" || exit 1
rm -rf "$work"/crates/*/must-fail
cd "$top/checks/edits" || exit 1
[ $# -gt 0 ] || set -- *
edits=()
for crate in "$@"; do
    [ -d "$top/crates/$crate" ] || fail "no crate $crate"
    if [ -d "$crate" ]; then
        cp -r "$crate" "$work/crates/$crate/must-fail" || exit 1
        edits+=("$crate"/*.edit)
    fi
done

(cd "$work" && rt must-fail "$@") >"$work/said" 2>&1
status=$?
refused=0
for edit in "${edits[@]}"; do
    said=$(grep -F -m 1 "must-fail $edit: " "$work/said")
    said=${said#*"$edit: "}
    echo "${edit%.edit}: ${said:-not tried}"
    [[ $said != refused* ]] || refused=$((refused + 1))
done
[ "$refused" -eq "${#edits[@]}" ] || grep -v ': refused, as it must be' "$work/said" >&2
echo "${#edits[@]} edits, $refused refused"
[ "$status" -eq 0 ] && [ "$refused" -eq "${#edits[@]}" ] || failed=1
end
