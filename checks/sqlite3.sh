#!/usr/bin/env bash
# Whether the command sqlite3 reads a database that a store made, and a store reads one that sqlite3 wrote.
#
#     sqlite3.sh
#
# Needs rt and sqlite3. Files go to a temporary folder, or stay in BENCH_WORK; the next run there is quicker, since the
# programs are proved.
#
# Exit status: 0 if all ran and held; 1 if something else is found or something failed; 77, after what is missing, if it
# could not be run.
set -u
. "$(dirname "${BASH_SOURCE[0]}")/../tools/common.sh"
need rt sqlite3
make_or_keep_work
schema=$top/tools/tables.sql
rm -f "$work"/*.db*

# What a store made, read by sqlite3.
store=$("$top/tools/build.sh" "$top/bench/store/store.rattle" "$work" memory 2 2) || fail 'store.rattle was not built'
made=$work/made.db
"$store" "$made" 10 10 >"$work/made.lines" || fail "store.rattle failed"
expect 'the schema of a new store' "$(sqlite3 "$made" .schema | sort)" "$(sort "$schema")"
expect 'its integrity' "$(sqlite3 "$made" 'PRAGMA integrity_check')" ok
expect 'its foreign keys' "$(sqlite3 "$made" 'PRAGMA foreign_key_check')" ''
expect 'its number' "$(sqlite3 "$made" 'SELECT name, value FROM meta')" 'schema|2'
expect 'its holders' "$(sqlite3 "$made" 'SELECT count(*), sum(grants) FROM holder')" '10|10'
# The AS of an authorization is its number: 1 to 10 at each of the 10 holders, and one each from 211 to 410.
expect 'its authorizations' "$(sqlite3 "$made" 'SELECT count(*), sum(asn) FROM claim')" '300|62650'
joined='claim JOIN entry USING (holder, number, asn)'
expect 'their entries' "$(sqlite3 "$made" "SELECT count(*), sum(asn) FROM $joined")" '300|62650'
expect 'the table of schema 1' "$(sqlite3 "$made" 'SELECT count(*) FROM auth')" 0

# What sqlite3 wrote, opened as a store.
open=$("$top/tools/build.sh" "$top/checks/open.rattle" "$work" "$work/first.db") || fail "open.rattle was not built"
rows="
INSERT INTO meta VALUES ('schema', 2);
INSERT INTO operator VALUES ('reg');
INSERT INTO pool VALUES (4, x'000000000000000000000000c0000200', 24);
INSERT INTO holder VALUES ('alpha', 1, 1);
INSERT INTO holding VALUES (4, x'000000000000000000000000c0000200', x'000000000000000000000000c00002ff', 'alpha');
INSERT INTO granted VALUES ('alpha', 1, 'ann', 1, NULL, NULL, NULL, 20818);
INSERT INTO claim VALUES ('alpha', 1, 64496, 20454, 20818);
INSERT INTO entry VALUES ('alpha', 1, 64496, 4, x'000000000000000000000000c0000200', 24, 24);"
whole='operators 1, pool 1
AS64496 192.0.2.0/24 24'

# expect_opened NAME EXPECTED TABLES [SQL]: of a database with these tables, the rows above and more.
expect_opened() {
    rm -f "$work"/written.db*
    printf '%s\n' "$3" "$rows" "${4:-}" | sqlite3 "$work/written.db" >"$work/written.lines" || fail "sqlite3 failed: $1"
    expect "$1" "$("$open" "$work/written.db")" "$2"
}

tables=$(cat "$schema")
expect_opened 'tables of sqlite3' "$whole" "$tables"
expect 'its integrity afterwards' "$(sqlite3 "$work/written.db" 'PRAGMA integrity_check')" ok
expect_opened 'without the index' "$whole" "$tables" 'DROP INDEX holding_of;'
expect 'the schema afterwards' "$(sqlite3 "$work/written.db" .schema | sort)" \
    "$(grep -v INDEX "$schema" | sort)"
expect_opened 'with a write-ahead log' "$whole" "PRAGMA journal_mode = WAL; $tables"
# The index is made last, so the tables have the same places without it, and if sqlite3 writes them anew: it then
# makes all tables before the indexes.
expect_opened 'made without the index' "$whole" "$(grep -v INDEX "$schema")"
expect_opened 'after a vacuum' "$whole" "$tables" "VACUUM; VACUUM INTO '$work/into.db';"
expect 'a vacuum into another file' "$("$open" "$work/into.db")" "$whole"
sqlite3 "$work/written.db" .dump | sqlite3 "$work/dumped.db" || fail 'sqlite3 failed: a dump'
expect 'made from a dump' "$("$open" "$work/dumped.db")" "$whole"

# Claims of other numbers of entries than one.
block="x'20010db8000000000000000000000000'"
two="
INSERT INTO pool VALUES (6, $block, 32);
INSERT INTO holding VALUES (6, $block, x'20010db8ffffffffffffffffffffffff', 'alpha');
INSERT INTO entry VALUES ('alpha', 1, 64496, 6, $block, 32, 48);"
# With the two these are 65.
more="
INSERT INTO entry WITH RECURSIVE longer(len) AS (SELECT 33 UNION ALL SELECT len + 1 FROM longer WHERE len < 95)
    SELECT 'alpha', 1, 64496, 6, $block, len, len FROM longer;"
both='operators 1, pool 2
AS64496 192.0.2.0/24 24
AS64496 2001:db8::/32 48'
expect_opened 'a claim of two entries' "$both" "$tables" "$two"
expect_opened 'the same after a vacuum' "$both" "$tables" "$two VACUUM; VACUUM INTO '$work/both.db';"
expect 'a vacuum of it into another file' "$("$open" "$work/both.db")" "$both"
expect_opened 'a claim of 65 entries' schema "$tables" "$two $more"
sqlite3 "$work/written.db" 'DELETE FROM entry WHERE len = 95' || fail 'sqlite3 failed: an entry fewer'
expect 'one of 64 entries' "$("$open" "$work/written.db" | grep -c ^AS)" 64
expect_opened 'a claim without an entry' schema "$tables" 'DELETE FROM entry;'
expect_opened 'an entry of another AS' schema "$tables" 'UPDATE entry SET asn = 64497;'

early=$(sed '/^CREATE TABLE claim/i CREATE INDEX run_of ON holding (holder);' "$schema")
expect_opened 'an index before the last tables' database "$early"
expect_opened 'the same after a vacuum' "$whole" "$early" 'VACUUM;'
expect_opened 'tables in another order' database "$(tac "$schema" | grep -v INDEX)"
expect_opened 'another number' schema "$tables" 'UPDATE meta SET value = 3;'
old="INSERT INTO auth SELECT holder, number, asn, family, lo, len, max, opens, ends FROM $joined;"
expect_opened 'a row of schema 1' schema "$tables" "$old"
expect_opened 'no table of entries' schema "$tables" 'DROP TABLE entry;'
expect_opened 'no table but those of schema 1' database "$tables" 'DROP TABLE entry; DROP TABLE claim;'

# Databases of schema 1, which are moved.
new_rows=$rows
rows=$(sed "s/('schema', 2)/('schema', 1)/; /^INSERT INTO entry/d
    s/^INSERT INTO claim.*/INSERT INTO auth VALUES ('alpha', 1, 64496, 4, x'000000000000000000000000c0000200', 24, 24, 20454, 20818);/" <<<"$rows")
old_tables=$(grep -v '^CREATE TABLE \(claim\|entry\)' "$schema")
expect_opened 'a database of schema 1' "$whole" "$old_tables"
expect 'the schema that it has then' "$(sqlite3 "$work/written.db" .schema | sort)" "$(sort "$schema")"
expect 'its rows' "$(sqlite3 "$work/written.db" 'SELECT * FROM meta; SELECT * FROM claim; SELECT count(*) FROM auth' \
    'SELECT holder, number, asn, family, hex(lo), len, max FROM entry')" "schema|2
alpha|1|64496|20454|20818
0
alpha|1|64496|4|000000000000000000000000C0000200|24|24"
expect 'its integrity and foreign keys' "$(sqlite3 "$work/written.db" 'PRAGMA integrity_check' 'PRAGMA foreign_key_check')" ok
expect 'opened again' "$("$open" "$work/written.db")" "$whole"
expect_opened 'one without the index' "$whole" "$(grep -v INDEX <<<"$old_tables")"
expect_opened 'one with an index of its own' database "$old_tables" 'CREATE INDEX auth_by_as ON auth (asn);'
expect 'which stays' "$(sqlite3 "$work/written.db" 'SELECT * FROM meta; SELECT count(*) FROM auth')" 'schema|1
1'
expect_opened 'one with another number' schema "$old_tables" 'UPDATE meta SET value = 2;'
rows=$new_rows

expect_opened 'a run of nobody' refused "$tables" 'DELETE FROM holder;'
expect_opened 'an entry of no claim' refused "$tables" 'DELETE FROM claim;'
: >"$work/empty.db"
expect 'an empty file' "$("$open" "$work/empty.db")" schema
echo 'register,alpha' >"$work/text.db"
expect 'a file that is no database' "$("$open" "$work/text.db")" refused

end
