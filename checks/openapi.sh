#!/usr/bin/env bash
# Whether docs/openapi.json and docs/lines.schema.json say the form of what FORMATS.md has, and of what the program
# reads and answers.
#
#     openapi.sh [RUNS [SEED]]      (300 runs from seed 1 if left out)
#
# Both are judged by their meta-schemas. Each path, method and status of FORMATS.md has to be there once. Each example of
# FORMATS.md, and each request and reply of the runs, which are those of model.sh, is validated. It has to be valid if
# the request is well-formed, and invalid if it is malformed by its form. Nothing is required of a request that is
# malformed by its values alone. In such a one a prefix has the loose shape, a day the shape of one or a number another
# spelling, or two members do not go together. Of a CSV file the header is judged, and that a row follows.
#
# Needs the built program, which PROGRAM may name, a python3 from 3.10 on that has jsonschema, and the meta-schema of
# Debian's openapi-specification. Without the program, the model of model.py answers.
#
# Exit status: 0 if all ran and held; 1 if something else is found or something failed; 77, after what is missing, if
# not all of it could be run.
set -u
. "$(dirname "${BASH_SOURCE[0]}")/../tools/common.sh"
metaschema=/usr/share/openapi-specification/schemas/v3.0/schema.json
[ -e "$metaschema" ] || skip "no file $metaschema (Debian: openapi-specification)"
need python3
# Debian has it for its own python3, which another may precede.
for python in python3 /usr/bin/python3 ''; do
    [ -z "$python" ] || ! "$python" -c 'import jsonschema' 2>/dev/null || break
done
[ -n "$python" ] || skip 'no python3 with jsonschema (Debian: python3-jsonschema)'
make_work
words=("$top/docs" "$metaschema" "${1:-300}" "${2:-1}")
if [ -n "${PROGRAM:-}" ] || [ -x "$top/crates/cli/out/cli" ]; then
    find_program
    words+=("$program" "$work")
else
    not_run 'the program, so the model answers: run ./roadesk build first, or name another in PROGRAM'
fi
run_python "$top/checks/openapi.py" "${words[@]}"
end
