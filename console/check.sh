#!/usr/bin/env bash
# Clicks through the console as an operator and as a holder's manager, in Chromium, on the built program behind the
# nginx of examples/nginx.conf. Then it checks what the desk lists. check.py has the tasks. First the tests of the
# modules that need no browser run, in tests/.
#
#     check.sh [FOLDER]
#
# FOLDER, as docs/pictures, gets the pictures. Needs the built program, which PROGRAM may name, and Debian's packages
# chromium, chromium-driver, python3-selenium, nodejs, nginx, openssl and curl.
#
# Exit status: 0 if all ran and held; 1 if something failed; 77, after what is missing, if it could not be run.
set -u
. "$(dirname "${BASH_SOURCE[0]}")/../tools/common.sh"
need chromium chromedriver node nginx openssl curl /usr/bin/python3
/usr/bin/python3 -c 'import selenium' 2>/dev/null || skip 'python3 has no module selenium (Debian: python3-selenium)'
find_program
pictures=$(realpath "${1:-/nonexistent}" 2>/dev/null)
work=$(mktemp -d) || fail 'no temporary folder'
# The workers of an nginx that root starts are another user.
chmod 711 "$work"
clicks=
# A check that is ended ends its servers and browsers before its folder goes.
trap '[ -z "$clicks" ] || { kill "$clicks" && wait "$clicks"; } 2>/dev/null; rm -rf "$work"' EXIT
trap 'exit 1' HUP INT TERM

tests=$(node --test --test-reporter tap "$top"/console/tests/*.test.js 2>&1)
expect 'the tests of the modules' "$(grep -E '^not ok|^# fail [1-9]' <<<"$tests"; grep -cE '^# pass [1-9]' <<<"$tests")" 1

mkdir "$work/agreement"
free_port
node "$top/console/tests/agreement.js" "$program" "$work/agreement" "$free" >"$work/agreement/said" &
clicks=$!
wait "$clicks" && verdict=same || verdict=$(cat "$work/agreement/said")
clicks=
cat "$work/agreement/said"
expect 'what the page and the desk read' "$verdict" same

mkdir "$work/front" "$work/pictures" "$work/downloads"
cp -r "$top/console" "$work/front/"
free_port && desk=$free
free_port && front=$free
# A late reply is 504 after two seconds, so that the check need not wait for a minute.
sed "s#/[a-z/]*/roadesk/##; s/127.0.0.1:8443/127.0.0.1:$front/; s/127.0.0.1:8080/127.0.0.1:$desk/
    s/proxy_read_timeout 60s/proxy_read_timeout 2s/" "$top/examples/nginx.conf" >"$work/front/site.conf"
cp "$top/examples/nginx-trial.conf" "$work/front/nginx.conf"
openssl req -x509 -newkey ec -pkeyopt ec_paramgen_curve:prime256v1 -nodes -days 2 -subj /CN=localhost \
    -addext subjectAltName=DNS:localhost -keyout "$work/front/key.pem" -out "$work/front/cert.pem" 2>/dev/null || fail 'no certificate was made'
for user in reg ann; do
    printf '%s:%s\n' "$user" "$(openssl passwd -apr1 "secret-of-$user")"
done >"$work/front/callers"
"$program" init --db "$work/desk.db" --charter "$top/examples/charter.csv" || fail 'no desk was made'

# Browsers leave files in the folder for temporary ones.
TMPDIR=$work /usr/bin/python3 "$top/console/check.py" "$top" "$work" "$program" "$desk" "$front" &
clicks=$!
wait "$clicks" || failed=1
clicks=
expect 'each picture is below 150 KB' "$(find "$work/pictures" -name '*.png' -size +149k)" ''
if [ -d "$pictures" ]; then
    cp "$work"/pictures/*.png "$pictures"
fi
[ "$failed" = 0 ] || [ ! -f "$work/accessibility.txt" ] || cat "$work/accessibility.txt"
end
