#!/usr/bin/env bash
# Makes a crate of a Rattle program that the gate does not prove. Its name ends in .rattle, since rt ci refuses a
# repository with a .rt outside its crates.
#
#     crate.sh PROGRAM.rattle WORK
#
# The crate is made in the folder WORK, beside copies of the crates that it uses, which are those of its `use` lines
# with all below them in crates.txt. What was proved of these is copied too, unless an earlier run left it in WORK.
# Prints the crate's folder.
set -u
top=$(cd "$(dirname "${BASH_SOURCE[0]}")/.." && pwd)
name=bench_$(basename "$1" .rattle)
work=$2
uses=$(sed -n 's/^use \([a-z0-9_]*\)::.*/\1/p' "$1" | grep -vx std | sort -u)

# The crates of the repository that a crate uses, and it itself, lowest first; none if it is the toolchain's.
crates_below() {
    local library
    [ -d "$top/crates/$1" ] || return
    # shellcheck disable=SC2013 # they are the words of a line
    for library in $(sed -n "s/^$1://p" "$top/crates.txt"); do
        crates_below "$library"
    done
    echo "$1"
}

copy_crate() {
    local from=$top/crates/$1 to=$work/crates/$1
    mkdir -p "$to" && find "$to" -mindepth 1 -maxdepth 1 ! -name out -exec rm -rf {} + || return
    [ -d "$to/out" ] || [ ! -d "$from/out" ] || cp -a "$from/out" "$to/" || return
    find "$from" -mindepth 1 -maxdepth 1 ! -name out -exec cp -a {} "$to/" \;
}

folder=$work/crates/$name
mkdir -p "$folder/src" || exit 1
: >"$work/crates.txt"
for crate in $(for used in $uses; do crates_below "$used"; done | awk '!seen[$0]++'); do
    copy_crate "$crate" || exit 1
    grep "^$crate:" "$top/crates.txt" >>"$work/crates.txt"
done
echo "$name: ${uses//$'\n'/ }" >>"$work/crates.txt"
# A file that is the same keeps its time, so that it is not proved again.
cmp -s "$1" "$folder/src/main.rt" || cp "$1" "$folder/src/main.rt" || exit 1
echo "$folder"
