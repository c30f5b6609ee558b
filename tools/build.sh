#!/usr/bin/env bash
# Proves and builds a Rattle program that is no crate of the repository.
#
#     build.sh PROGRAM.rattle WORK WORD...
#
# It becomes a crate in the folder WORK, by crate.sh. Prints the path of the program, which has run once with these
# words.
set -u
folder=$("$(dirname "${BASH_SOURCE[0]}")/crate.sh" "$1" "$2") || exit 1
name=$(basename "$folder")

cd "$folder" || exit 1
if ! ${RT:-rt} run -- "${@:3}" >"$2/$name.log" 2>&1; then
    cat "$2/$name.log" >&2
    exit 1
fi
echo "$folder/out/$name"
