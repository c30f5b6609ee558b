#!/usr/bin/env bash
# Installs the program with its units, scripts and settings below a folder. The package is made of what this installs,
# and an installation by hand is this with / as the folder.
#
#     install.sh PROGRAM FOLDER
#
# Settings that are there already are kept. It makes no user, and enables and starts nothing. Ends with 1 if a file
# could not be written, with 2 for other words.
set -eu
here=$(cd "$(dirname "${BASH_SOURCE[0]}")" && pwd)
[ $# = 2 ] || { echo "install.sh: give the program and a folder" >&2; exit 2; }
program=$1
root=${2%/}
top=$(dirname "$here")
units=$root/lib/systemd/system

# put MODE FILE TARGET: installs the file as it is.
put() {
    install -D -m "$1" "$here/$2" "$root/$3"
}

# put_setting FILE TARGET: as it is, unless there is one.
put_setting() {
    [ -e "$root/etc/$2" ] || put 644 "etc/$1" "etc/$2"
}

# as_template UNIT: the unit with the names of an instance in place of those of the one desk.
as_template() {
    sed -e 's#/var/lib/roadesk\>#&-%i#' \
        -e 's#^\(StateDirectory\|RuntimeDirectory\|SyslogIdentifier\)=roadesk$#&-%i#' \
        -e 's#/run/roadesk/#/run/roadesk-%i/#' \
        -e 's#/etc/roadesk/desk\.conf#/etc/roadesk/%i.conf#' \
        -e 's#\<roadesk\.service\>#roadesk@%i.service#' \
        -e 's#^Description=.*#& (%i)#' "$here/systemd/$1"
}

install -D -m 755 "$program" "$root/usr/bin/roadesk"
for script in "$here"/lib/*; do
    put 755 "lib/${script##*/}" "usr/lib/roadesk/${script##*/}"
done
for unit in "$here"/systemd/*.service "$here"/systemd/*.timer; do
    put 644 "systemd/${unit##*/}" "lib/systemd/system/${unit##*/}"
done
for unit in roadesk.service roadesk-day.service roadesk-day.timer roadesk-probe.service roadesk-probe.timer; do
    as_template "$unit" >"$units/${unit%.*}@.${unit##*.}" || exit 1
    chmod 644 "$units/${unit%.*}@.${unit##*.}"
done
put 644 systemd/nftables.service.d/roadesk.conf lib/systemd/system/nftables.service.d/roadesk.conf
put 644 sysusers.d/roadesk.conf usr/lib/sysusers.d/roadesk.conf
put 644 tmpfiles.d/roadesk.conf usr/lib/tmpfiles.d/roadesk.conf
put_setting desk.conf roadesk/desk.conf
put_setting roadesk.nft roadesk/roadesk.nft
put_setting logrotate logrotate.d/roadesk
for file in "$top"/console/*.html "$top"/console/*.css "$top"/console/*.js; do
    install -D -m 644 "$file" "$root/usr/share/roadesk/console/${file##*/}"
done
install -D -m 644 "$top/docs/openapi.json" "$root/usr/share/roadesk/openapi.json"
install -D -m 644 "$top/examples/wait.conf" "$root/usr/share/roadesk/wait.conf"
install -D -m 644 "$top/examples/nginx.conf" "$root/usr/share/roadesk/nginx-site"
install -d "$root/usr/share/man/man8" "$root/usr/share/doc/roadesk"
sed "s/@VERSION@/$(cat "$top/VERSION")/" "$here/roadesk.8" | gzip -9n >"$root/usr/share/man/man8/roadesk.8.gz"
chmod 644 "$root/usr/share/man/man8/roadesk.8.gz"
install -m 644 "$top"/docs/{GUIDE,OPERATIONS,FORMATS,DEFINITIONS,ROA-CONTENT}.md "$top"/docs/{openapi,lines.schema}.json \
    "$top/CHANGELOG.md" "$root/usr/share/doc/roadesk"
# Scripts can be run there too, and the mask of the repository's files does not matter.
find "$top/examples" -type f -printf '%P\n' | while IFS= read -r file; do
    mode=644
    [ ! -x "$top/examples/$file" ] || mode=755
    install -D -m "$mode" "$top/examples/$file" "$root/usr/share/doc/roadesk/examples/$file"
done
