#!/usr/bin/env bash
# Runs the checks beside it and that of the console, which the gate does not run, and says of each whether it passed.
#
#     all.sh [CHECK...]      (by their names, as guide or console; all, if left out)
#
# It leaves out edits.sh unless it is named, which takes half a processor minute an edit and the proofs of the edited
# crates, and cost.sh, which checks nothing.
#
# Needs what each check needs, by its head. PROGRAM may name another program than that of the repository.
#
# Of each check it prints `passed`, `failed` or `not run` with what is missing; and then how many of each there are.
# Exit status: 1 if a check failed, else 77 if one was not run, or not all of it, else 0.
set -u
. "$(dirname "${BASH_SOURCE[0]}")/../tools/common.sh"
make_work
checks=$top/checks
verdicts=()
passed=0
failed=0
not_run=0

names=("$@")
if [ $# = 0 ]; then
    for script in "$checks"/*.sh; do
        case ${script##*/} in all.sh | cost.sh | edits.sh) continue ;; esac
        names+=("$(basename "$script" .sh)")
    done
    names+=(console)
fi

# run SCRIPT: its status. What it writes to standard error stays in `said`, too.
run() {
    { "$1" 2>&1 >&3 3>&- | tee "$work/said" >&2 3>&-; } 3>&1
    return "${PIPESTATUS[0]}"
}

# reason: what the check said that is missing, in a line.
reason() {
    local lines
    lines=$(sed -n 's/^[^ ]*: not run: //p' "$work/said" | sort -u | paste -sd ';' | sed 's/;/; /g')
    echo "${lines:-it does not say why}"
}

for name in "${names[@]}"; do
    script=$checks/$name.sh
    [ "$name" != console ] || script=$top/console/check.sh
    [ -x "$script" ] || fail "no check $name"
    echo "== $name"
    run "$script"
    status=$?
    case $status in
        0) verdict=passed passed=$((passed + 1)) ;;
        1) verdict=failed failed=$((failed + 1)) ;;
        77) verdict="not run: $(reason)" not_run=$((not_run + 1)) ;;
        *) verdict="failed, with status $status" failed=$((failed + 1)) ;;
    esac
    verdicts+=("$name: $verdict")
done
echo "=="
printf '%s\n' "${verdicts[@]}" "$passed passed, $failed failed, $not_run not run"
[ "$not_run" = 0 ] || left_out=1
end
