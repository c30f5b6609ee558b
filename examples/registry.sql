-- What no request lists: the holders, the address space of each and the grants with their numbers.
--
--     sqlite3 copy.db <examples/registry.sql
--
-- Read a copy: while the desk runs, the file is locked. Nothing is written, the views are of this session alone.
.headers on
.mode csv

-- The longest run of zero groups is left out of an IPv6 address (RFC 5952).
CREATE TEMP TABLE zeros AS
WITH RECURSIVE longer(groups, text) AS (
    SELECT 2, ':0:0:' UNION ALL SELECT groups + 1, text || '0:' FROM longer WHERE groups < 8)
SELECT groups, text FROM longer;

-- The addresses of all rows as text: IPv4 in four decimal numbers, IPv6 in groups of hex digits.
CREATE TEMP TABLE spelling AS
WITH RECURSIVE
    address(family, octets) AS (
        SELECT family, lo FROM holding UNION SELECT family, hi FROM holding
        UNION SELECT family, lo FROM granted WHERE lo IS NOT NULL UNION SELECT family, lo FROM pool),
    part(family, octets, place, text) AS (
        SELECT family, octets, iif(family = 4, 12, 0), iif(family = 4, '', ':') FROM address
        UNION ALL
        SELECT family, octets, place + iif(family = 4, 1, 2), text || iif(family = 4,
                (instr('123456789ABCDEF', substr(hex(octets), 2 * place + 1, 1)) * 16
                + instr('123456789ABCDEF', substr(hex(octets), 2 * place + 2, 1)))
                || iif(place < 15, '.', ''),
                iif(substr(hex(octets), 2 * place + 1, 4) = '0000', '0',
                    lower(ltrim(substr(hex(octets), 2 * place + 1, 4), '0'))) || ':')
        FROM part WHERE place < 16)
SELECT family, octets, iif(family = 4, text, coalesce(
        (SELECT trim(substr(part.text, 1, instr(part.text, zeros.text) - 1), ':') || '::'
                || trim(substr(part.text, instr(part.text, zeros.text) + length(zeros.text)), ':')
            FROM zeros WHERE instr(part.text, zeros.text) ORDER BY groups DESC LIMIT 1),
        trim(text, ':'))) AS text
FROM part WHERE place = 16;

-- Each holder, how many grants and authorizations were made, and how many are left.
SELECT name AS holder, grants AS grants_made,
    (SELECT count(*) FROM granted WHERE holder = name) AS grants,
    auths AS authorizations_made,
    (SELECT count(*) FROM claim WHERE holder = name) AS authorizations
FROM holder ORDER BY name;

-- The runs of addresses of each holder, with their first and last.
SELECT holder, first.text AS first, last.text AS last
FROM holding
    JOIN temp.spelling AS first ON first.family = holding.family AND first.octets = lo
    JOIN temp.spelling AS last ON last.family = holding.family AND last.octets = hi
ORDER BY holder, holding.family, lo;

-- The grants that are not revoked, by the numbers that revoke them.
SELECT holder, number, caller,
    CASE role WHEN 1 THEN 'manager' WHEN 2 THEN 'clerk' ELSE 'auditor' END AS role,
    iif(lo IS NULL, 'all', text || '/' || len) AS scope,
    date(until * 86400, 'unixepoch') AS until
FROM granted LEFT JOIN temp.spelling ON spelling.family = granted.family AND octets = lo
ORDER BY holder, number;
