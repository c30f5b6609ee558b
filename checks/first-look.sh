#!/usr/bin/env bash
# Whether ./roadesk replies before the proof as the proved program does: to the examples, and if there is a fault.
#
#     first-look.sh
#
# Needs the built program, which PROGRAM may name, rt and iconv. A run before the proof takes three minutes; so many as
# JOBS says, or two, are made at a time.
#
# Exit status: 0 if all ran and held; 1 if a reply differs, a run leaves a file behind or something else failed; 77,
# after what is missing, if it could not be run.
set -u
. "$(dirname "${BASH_SOURCE[0]}")/../tools/common.sh"
need rt iconv
find_program
make_work

# A copy of the repository in which the program is not built, and a folder that the runs are started in.
copy=$work/copy
user=$work/user
mkdir "$copy" "$user" "$work/temporary" || exit 1
cp -a "$top/roadesk" "$top/examples" "$copy" || exit 1
copy_crates "$copy" || exit 1
names() { (cd "$copy" && find . -print | sort); }
names >"$work/names"

# case_of NAME INPUT WORD...: standard input and the words of a run.
cases=0
case_of() {
    cases=$((cases + 1))
    mkdir "$work/$cases" || exit 1
    echo "$1" >"$work/$cases/name"
    cp "$2" "$work/$cases/input" || exit 1
    : >"$work/$cases/words"
    [ $# -eq 2 ] || printf '%s\0' "${@:3}" >"$work/$cases/words"
}

# reply CASE KIND COMMAND...: leaves what it writes in KIND.out and KIND.err, and its status in KIND.status.
reply() {
    local at=$work/$1/$2 words=()
    mapfile -d '' words <"$work/$1/words"
    (cd "$user" && exec "${@:3}" "${words[@]}") <"$work/$1/input" >"$at.out" 2>"$at.err"
    echo $? >"$at.status"
}

# run CASE: the reply of both. The first line of standard error is before the proof that of ./roadesk itself.
run() {
    reply "$1" proved "$program"
    TMPDIR=$work/temporary reply "$1" look "$copy/roadesk"
    head -n 1 "$work/$1/look.err" >"$work/$1/look.first"
    sed -i 1d "$work/$1/look.err"
}

# judge CASE: the verdict; false if the replies differ.
judge() {
    local at=$work/$1 part
    if ! grep -q '^roadesk: .* before the proof' "$at/look.first"; then
        echo "does not say that it comes before the proof:"
        cat "$at/look.first"
        return 1
    fi
    for part in status out err; do
        diff "$at/proved.$part" "$at/look.$part" >"$at/diff" && continue
        echo "another $part before the proof:"
        cat "$at/diff"
        return 1
    done
    echo "as the proved program, status $(cat "$at/proved.status")"
}

cp "$top/examples/payloads.csv" "$user/- pay'loads\".csv"
cp "$top/examples/routes.csv" "$user/-routes = "$'\n'"\$1.csv"
printf 'kind,value\noperator,reg\npool,192.0.2.1/24\n' >"$user/faulty.csv"
printf 'kind,value\noperator,reg\npool,192.0.2.0/24\n' >"$user/"$'\xff.csv'

for example in "$top"/examples/*.jsonl; do
    case_of "the example $(basename "$example")" "$example" script --charter "../copy/examples/charter.csv"
done
case_of 'the input of the crate cli' "$top/crates/cli/stdin" script --charter "$top/crates/cli/data/charter.csv"
case_of 'no line of input' /dev/null script --charter "$top/examples/charter.csv"
case_of 'the examples of check, under odd names' /dev/null check "- pay'loads\".csv" "-routes = "$'\n'"\$1.csv"
case_of 'help' /dev/null help
case_of 'no words' /dev/null
case_of 'other words' "$top/examples/first-day.jsonl" script --chart "$top/examples/charter.csv"
case_of 'a name that is not UTF-8' /dev/null script --charter $'\xff.csv'
case_of 'a charter that is missing' "$top/examples/first-day.jsonl" script --charter missing.csv
case_of 'a charter with a fault' "$top/examples/first-day.jsonl" script --charter faulty.csv
case_of 'routes that are a folder' /dev/null check "$top/examples/payloads.csv" .
case_of 'payloads with another header' /dev/null check faulty.csv "$top/examples/routes.csv"

for number in $(seq "$cases"); do
    while [ "$(jobs -pr | wc -l)" -ge "${JOBS:-2}" ]; do
        wait -n
    done
    run "$number" &
done
wait
for number in $(seq "$cases"); do
    verdict=$(judge "$number") || failed=1
    echo "$(cat "$work/$number/name"): $verdict"
done
if ! names | diff "$work/names" -; then
    echo "files of the repository: changed"
    failed=1
fi
if [ -n "$(ls -A "$work/temporary")" ]; then
    echo "temporary files: left behind"
    failed=1
fi
end
