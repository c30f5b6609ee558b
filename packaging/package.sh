#!/usr/bin/env bash
# Makes the Debian package of the program, with what install.sh installs.
#
#     package.sh PROGRAM FOLDER
#
# It is FOLDER/roadesk_VERSION_ARCH.deb, the same octets each time for the same files and SOURCE_DATE_EPOCH, which is by
# default the time of the last commit. Ends with 1 if something failed, with 2 for other words.
set -euo pipefail
here=$(cd "$(dirname "${BASH_SOURCE[0]}")" && pwd)
top=$(dirname "$here")
[ $# = 2 ] || { echo "package.sh: give the program and a folder" >&2; exit 2; }
for command in dpkg dpkg-deb strip readelf; do
    command -v "$command" >/dev/null || { echo "package.sh: no command $command" >&2; exit 1; }
done
version=$(cat "$top/VERSION")
arch=$(dpkg --print-architecture)
export SOURCE_DATE_EPOCH=${SOURCE_DATE_EPOCH:-$(git -C "$top" log -1 --format=%ct)}
export LC_ALL=C
umask 022
work=$(mktemp -d)
trap 'rm -rf "$work"' EXIT
tree=$work/tree

# loaded PROGRAM: its loaded segments: the places in memory and in the file, and a checksum of the octets. The header
# of the file is left out, as it says where what is not loaded begins.
loaded() {
    local offset address size from
    readelf -lW "$1" | awk '$1 == "LOAD" { print $2, $3, $5 }' | while read -r offset address size; do
        from=$((offset < 64 ? 64 : offset))
        echo "$offset $address $size $(tail -c +$((from + 1)) "$1" | head -c $((offset + size - from)) | sha256sum)"
    done
}

strip -o "$work/stripped" "$1"
if [ -z "$(loaded "$1")" ] || [ "$(loaded "$1" 2>&1)" != "$(loaded "$work/stripped" 2>&1)" ]; then
    echo "package.sh: the stripped program is not loaded as the program is" >&2
    exit 1
fi
"$here/install.sh" "$work/stripped" "$tree"

doc=$tree/usr/share/doc/roadesk
install -m 644 "$here/debian/copyright" "$doc/copyright"
# Debian has a form of its own for the log of changes.
printf 'roadesk (%s) unstable; urgency=medium\n\n  * See CHANGELOG.md.\n\n -- %s  %s\n' "$version" \
    "$(sed -n 's/^Maintainer: //p' "$here/debian/control")" "$(date -u -R -d "@$SOURCE_DATE_EPOCH")" |
    gzip -9n >"$doc/changelog.gz"
install -d "$tree/DEBIAN"
install -m 755 "$here"/debian/{pre,post}{inst,rm} "$tree/DEBIAN"
(cd "$tree" && find etc -type f | sort | sed 's#^#/#' >DEBIAN/conffiles)
(cd "$tree" && find . -type f ! -path './DEBIAN/*' ! -path './etc/*' -printf '%P\n' | sort | xargs -d '\n' md5sum \
    >DEBIAN/md5sums)
sed "s/@VERSION@/$version/; s/@ARCH@/$arch/; s/@SIZE@/$(du -sk --apparent-size "$tree" | cut -f 1)/" \
    "$here/debian/control" >"$tree/DEBIAN/control"
find "$tree" -exec touch -h -d "@$SOURCE_DATE_EPOCH" {} +
mkdir -p "$2"
dpkg-deb --root-owner-group -Zxz --build "$tree" "$2/roadesk_${version}_$arch.deb" >/dev/null || exit 1
echo "$2/roadesk_${version}_$arch.deb"
