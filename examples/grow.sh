#!/bin/sh
# Adds operators and pool prefixes to a desk that is stopped, and takes none away.
#
#     grow.sh DESK.db CHARTER.csv
#
# The charter is the whole new one: all that the desk has, and more. `roadesk init` reads it and makes its rows, in a
# database of its own; ROADESK names another program. They are added in one transaction, or none is: a charter that
# lacks what the desk has is refused, and so is a desk that runs.
set -eu
desk=$1
[ -s "$desk" ] || { echo "grow.sh: no desk $desk" >&2; exit 1; }
work=$(mktemp -d)
trap 'rm -r "$work"' EXIT
"${ROADESK:-roadesk}" init --db "$work/grown.db" --charter "$2"
sqlite3 -bail "$desk" <<SQL
ATTACH '$work/grown.db' AS grown;
BEGIN IMMEDIATE;
CREATE TEMP TABLE lost (row TEXT CONSTRAINT "the charter lacks what the desk has" CHECK (row IS NULL));
INSERT INTO lost SELECT name FROM main.operator EXCEPT SELECT name FROM grown.operator;
INSERT INTO lost SELECT hex(lo) || len FROM (SELECT * FROM main.pool EXCEPT SELECT * FROM grown.pool);
INSERT INTO main.operator SELECT * FROM grown.operator EXCEPT SELECT * FROM main.operator;
INSERT INTO main.pool SELECT * FROM grown.pool EXCEPT SELECT * FROM main.pool;
COMMIT;
SQL
