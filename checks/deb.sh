#!/usr/bin/env bash
# Whether the Debian package is what it should be: the same octets twice, with what packaging/install.sh installs and
# the program as it is loaded, and without an error of lintian. Nothing is installed on this machine.
#
#     deb.sh
#
# Needs the built program, which PROGRAM may name, and dpkg, dpkg-deb, lintian, readelf, strip, man, nginx and openssl.
#
# Exit status: 0 if all ran and held; 1 if something failed; 77, after what is missing, if it could not be run.
set -u
. "$(dirname "${BASH_SOURCE[0]}")/../tools/common.sh"
need dpkg dpkg-deb lintian readelf strip man nginx openssl
find_program
make_work
cd "$work" || exit 1

# The time of a second run is another, and the mask of its files.
export SOURCE_DATE_EPOCH=1767225600
package=$("$top/packaging/package.sh" "$program" first) || fail "no package was made"
sleep 1.1
(umask 077 && "$top/packaging/package.sh" "$program" second >/dev/null) || fail "no second package was made"
expect 'its name' "$package" "first/roadesk_$(cat "$top/VERSION")_$(dpkg --print-architecture).deb"
expect 'twice the same octets' "$(cmp "$package" "second/${package##*/}" 2>&1)" ''
lintian --fail-on none "$package" >judged 2>&1 || { cat judged >&2 && fail 'lintian failed'; }
expect 'errors of lintian' "$(grep '^E:' judged)" ''

dpkg-deb -R "$package" held || exit 1
"$top/packaging/install.sh" "$program" by-hand || exit 1
# What the package adds and leaves out: its own files, and the form of Debian for the changes.
expect 'the same as by hand' "$(diff -rq by-hand held | sort)" "Files by-hand/usr/bin/roadesk and held/usr/bin/roadesk differ
Only in held/usr/share/doc/roadesk: changelog.gz
Only in held/usr/share/doc/roadesk: copyright
Only in held: DEBIAN"
find by-hand/etc -type f -exec sed -i '$a # kept' {} +
"$top/packaging/install.sh" "$program" by-hand || exit 1
expect 'by hand again: each setting is kept' "$(grep -rL '^# kept$' by-hand/etc)" ''
# runnable FOLDER: the files there that can be run.
runnable() {
    (cd "$1" && find . -type f -perm /111 | sort)
}
expect 'examples: the scripts can be run' "$(runnable held/usr/share/doc/roadesk/examples)" "$(runnable "$top/examples")"
expect 'each setting is kept by dpkg' "$(cat held/DEBIAN/conffiles)" "$(cd held && find etc -type f | sort | sed 's#^#/#')"

# A program of other octets, in what is loaded, is refused.
cat >"$work/strip" <<'SH'
#!/bin/sh
cp "$3" "$2" && printf x | dd of="$2" bs=1 seek="$at" conv=notrunc 2>/dev/null
SH
chmod +x strip
at=$(readelf -lW "$program" | awk '$1 == "LOAD" && $0 ~ / E / { print $2; exit }')
expect 'a program that strip has changed' "$(at=$((at + 16)) PATH=$work:$PATH "$top/packaging/package.sh" "$program" third \
    2>&1)" 'package.sh: the stripped program is not loaded as the program is'

# The man page has all lines on standard error that FORMATS.md has.
man --warnings -l held/usr/share/man/man8/roadesk.8.gz >page 2>warnings
expect 'warnings of man' "$(cat warnings)" ''
# shellcheck disable=SC2016 # these are of Markdown
sed -n '/^## Faults of the program/,/^## Tables/p' "$top/docs/FORMATS.md" | grep -o '`roadesk: [^`]*`' | tr -d '`' |
    sort -u >lines
[ -s lines ] || fail 'FORMATS.md has no lines on standard error'
expect 'lines on standard error that the man page leaves out' "$(grep -v -x -F -f <(sed 's/^ *//' page) lines)" ''

# The site names what the package installs, and nginx finds its logs made.
site=held/usr/share/roadesk/nginx-site
expect 'console: the files that the site serves' "$(ls "held$(sed -n 's/^ *alias \(.*\/\);/\1/p' $site)")" \
    "$(cd "$top/console" && printf '%s\n' *.css *.html *.js | sort)"
expect 'the interface that the site serves' \
    "$(cmp "$top/docs/openapi.json" "held$(sed -n 's/^ *alias \(.*[.]json\);/\1/p' $site)" 2>&1)" ''
expect 'logs: made before nginx starts' "$(sed -n 's/^f \([^ ]*\) 0640 www-data adm -$/\1/p' \
    held/usr/lib/tmpfiles.d/roadesk.conf | sort)" "$(grep -o '/var/log/[a-z./]*' $site | sort)"
# In every text, the folder of these three is the same.
names='cert\.pem|key\.pem|callers'
grep -ohE "/[a-z/]*/($names)" $site held/usr/share/doc/roadesk/{GUIDE,OPERATIONS}.md "$top/packaging/roadesk.8" |
    sort -u >named
expect 'certificate, key and callers: where they are' "$(cat named)" '/etc/roadesk/callers
/etc/roadesk/cert.pem
/etc/roadesk/key.pem'

# nginx reads the site as a part of Debian's configuration, which is replaced by a shorter one of its kind.
mkdir -p etc/roadesk log
openssl req -x509 -newkey ec -pkeyopt ec_paramgen_curve:prime256v1 -nodes -days 1 -subj /CN=localhost \
    -keyout etc/roadesk/key.pem -out etc/roadesk/cert.pem 2>/dev/null || fail 'openssl made no certificate'
sed "s#/etc/roadesk/#$work&#; s#/var/log/roadesk/#$work/log/#" $site >site.conf
[ "$(id -u)" != 0 ] || echo 'user www-data;' >nginx.conf
printf 'pid %s/pid;\nerror_log %s/log/error.log;\nevents {}\nhttp { include %s/site.conf; }\n' \
    "$work" "$work" "$work" >>nginx.conf
expect 'nginx and the site' "$(nginx -t -c "$work/nginx.conf" 2>&1 | sed '/is ok$/d; s/.* test is successful$/read/')" read
end
