#!/usr/bin/env bash
# Sends the lines and the messages of FORMATS.md to the program, and compares its replies with those that it says.
#
#     formats.sh
#
# The block marked jsonl has a line and its reply in turn; the blocks marked http a request and its response in turn.
# openssl reads each content of a reply as the elements of a vector of ROA-CONTENT.md.
#
# Needs the built program, which PROGRAM may name, and for the contents openssl and xxd.
#
# Exit status: 0 if all ran and held; 1 if something failed; 77, after what is missing, if not all of it could be run.
set -u
. "$(dirname "${BASH_SOURCE[0]}")/../tools/common.sh"
find_program
charter=$top/examples/charter.csv
make_work

# blocks LANGUAGE: each block of the language as a file N.LANGUAGE, counted from 1.
blocks() {
    awk -v work="$work" -v language="$1" '
        /^```/ && file { close(file); file = ""; next }
        file { print >file }
        $0 == "```" language { file = work "/" ++n "." language; printf "" >file }' "$top/docs/FORMATS.md"
}

# A request as it is sent: the lines of its head end with CR LF, its body without the block's last line feed.
sent() {
    awk '!body { printf "%s\r\n", $0; body = !NF; next }
        { printf "%s%s", (lines++ ? "\n" : ""), $0 }' "$1"
}

check_lines() {
    blocks jsonl
    [ -s "$work/1.jsonl" ] || fail 'FORMATS.md has no lines'
    awk 'NR % 2' "$work/1.jsonl" | "$program" script --charter "$charter" >"$work/replied" || return
    awk 'NR % 2 == 0' "$work/1.jsonl" | diff - "$work/replied"
}

# Each word of the table of requests has a line.
check_words() {
    local word missing=0
    # shellcheck disable=SC2016 # these are of Markdown
    sed -n '/^| `do` |/,/^$/s/^| \(`[a-z`, ]*`\) | .*/\1/p' "$top/docs/FORMATS.md" | tr -d '`,' | tr ' ' '\n' |
        grep -vx 'do' >"$work/words"
    [ -s "$work/words" ] || fail 'FORMATS.md has no table of requests'
    while read -r word; do
        grep -q "\"do\":\"$word\"" "$work/1.jsonl" && continue
        echo "no line with the word $word"
        missing=1
    done <"$work/words"
    return "$missing"
}

# elements: those of the content in hex that is read, each as its depth, tag and length.
elements() {
    xxd -r -p | openssl asn1parse -inform DER |
        sed 's/.*d=\([0-9]*\) .* l= *\([0-9]*\) [a-z]*: \([A-Z ]*[A-Z]\).*/\1 \3 \2/' | paste -s -d ';' | sed 's/;/; /g'
}

check_contents() {
    local content found strange=0
    sed -n 's/^{"content":"\(.*\)"}$/\1/p' "$work/1.jsonl" >"$work/contents"
    [ -s "$work/contents" ] || fail 'FORMATS.md has no reply with a content'
    while read -r content; do
        found=$(elements <<<"$content")
        grep -qF "| $found |" "$top/docs/ROA-CONTENT.md" && continue
        echo "no vector of ROA-CONTENT.md has the elements $found"
        strange=1
    done <"$work/contents"
    return "$strange"
}

# ask N PORT: the response to the request of block N.
ask() {
    local connection
    exec {connection}<>"/dev/tcp/127.0.0.1/$2" || return
    sent "$work/$1.http" >&"$connection"
    cat <&"$connection"
    exec {connection}>&-
}

check_messages() {
    local count port server block differs=0
    blocks http
    count=$(find "$work" -name '*.http' | wc -l)
    [ "$count" -gt 0 ] || fail 'FORMATS.md has no messages'
    free_port && port=$free
    "$program" init --db "$work/desk.db" --charter "$charter" || return
    "$program" serve --db "$work/desk.db" --listen "127.0.0.1:$port" --count $((count / 2)) --day 2026-03-01 &
    server=$!
    wait_for "$port" "$server" || return
    for block in $(seq 1 2 "$count"); do
        # A response ends with a line feed.
        ask "$block" "$port" | diff <(sent "$work/$((block + 1)).http" && echo) - >"$work/differs" && continue
        echo "$(head -n 1 "$work/$block.http"):"
        cat "$work/differs"
        differs=1
    done
    if [ "$differs" = 0 ] && ! { timeout 60 tail --pid="$server" -f /dev/null && wait "$server"; }; then
        echo 'the program does not end after so many connections, or not with status 0'
        differs=1
    fi
    return "$differs"
}

# report TEXT COMMAND...: the text if the command held.
report() {
    if "${@:2}"; then
        echo "$1"
    else
        failed=1
    fi
}

report 'lines: as said' check_lines
report 'words: each has a line' check_words
! have 'contents: ' openssl xxd || report 'contents: elements as said' check_contents
report 'messages: as said' check_messages
end
