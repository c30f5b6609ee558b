#include "tables.h"

#include <endian.h>
#include <err.h>
#include <sqlite3.h>
#include <stdio.h>
#include <string.h>

/* There is one thread, so SQLite takes no locks between threads. */
enum { ONE_THREAD = SQLITE_OPEN_READWRITE | SQLITE_OPEN_CREATE | SQLITE_OPEN_NOMUTEX };

static sqlite3 *db;

static sqlite3_stmt *begin, *commit, *insert_holder, *insert_holding, *insert_grant, *insert_claim, *insert_entry;
static sqlite3_stmt *set_grants, *set_auths, *delete_holding, *delete_entries, *delete_claim;
static sqlite3_stmt *counters_of, *holdings_of, *grants_of, *claims_of, *entries_of;
static sqlite3_stmt *scopes_of, *claim_of, *entries_of_claim, *near_entries, *run_at, *same_entry;
static sqlite3_stmt *operator_of, *claims_past;
static sqlite3_stmt *in_force, *exceptions;

_Noreturn void fail(const char *what)
{
    errx(2, "%s: %s", what, db ? sqlite3_errmsg(db) : "no database");
}

static sqlite3_stmt *prepared(const char *sql)
{
    sqlite3_stmt *statement;
    if (sqlite3_prepare_v3(db, sql, -1, SQLITE_PREPARE_PERSISTENT, &statement, NULL) != SQLITE_OK)
        fail(sql);
    return statement;
}

static void prepare_all(void)
{
    begin = prepared("BEGIN");
    commit = prepared("COMMIT");
    insert_holder = prepared("INSERT INTO holder (name, grants, auths) VALUES (?1, 0, 0)");
    insert_holding = prepared("INSERT INTO holding (family, lo, hi, holder) VALUES (?1, ?2, ?3, ?4)");
    insert_grant = prepared("INSERT INTO granted (holder, number, caller, role, family, lo, len, until)"
                            " VALUES (?1, ?2, ?3, ?4, ?5, ?6, ?7, ?8)");
    insert_claim = prepared("INSERT INTO claim (holder, number, asn, opens, ends) VALUES (?1, ?2, ?3, ?4, ?5)");
    insert_entry = prepared("INSERT INTO entry (holder, number, asn, family, lo, len, max)"
                            " VALUES (?1, ?2, ?3, ?4, ?5, ?6, ?7)");
    set_grants = prepared("UPDATE holder SET grants = ?2 WHERE name = ?1");
    set_auths = prepared("UPDATE holder SET auths = ?2 WHERE name = ?1");
    delete_holding = prepared("DELETE FROM holding WHERE family = ?1 AND lo = ?2");
    delete_entries = prepared("DELETE FROM entry WHERE holder = ?1 AND number = ?2");
    delete_claim = prepared("DELETE FROM claim WHERE holder = ?1 AND number = ?2");
    counters_of = prepared("SELECT grants, auths FROM holder WHERE name = ?1");
    holdings_of = prepared("SELECT family, lo, hi FROM holding WHERE holder = ?1 ORDER BY family, lo");
    grants_of = prepared("SELECT number, caller, role, family, lo, len, until FROM granted"
                         " WHERE holder = ?1 ORDER BY number");
    claims_of = prepared("SELECT number, asn, opens, ends FROM claim WHERE holder = ?1 ORDER BY number");
    entries_of = prepared("SELECT number, asn, family, lo, len, max FROM entry"
                          " WHERE holder = ?1 ORDER BY number, family, lo, len");
    scopes_of = prepared("SELECT family, lo, len FROM granted"
                         " WHERE holder = ?1 AND caller = ?2 AND role <= ?3 AND until >= ?4");
    claim_of = prepared("SELECT number, asn, opens, ends FROM claim WHERE holder = ?1 AND number = ?2");
    entries_of_claim = prepared("SELECT number, asn, family, lo, len, max FROM entry"
                                " WHERE holder = ?1 AND number = ?2 ORDER BY family, lo, len");
    near_entries = prepared("SELECT number, family, lo, len FROM entry WHERE holder = ?1 AND family = ?2"
                            " AND (lo >= ?3 OR len < ?4) AND lo <= ?5 ORDER BY number");
    operator_of = prepared("SELECT 1 FROM operator WHERE name = ?1");
    run_at = prepared("SELECT lo, hi, holder FROM holding WHERE family = ?1 AND lo <= ?2 ORDER BY lo DESC LIMIT 1");
    same_entry = prepared("SELECT 1 FROM entry"
                          " WHERE asn = ?1 AND family = ?2 AND lo = ?3 AND len = ?4 AND max = ?5 AND holder = ?6");
    claims_past = prepared("SELECT 1 FROM claim WHERE holder = ?1 LIMIT 1 OFFSET ?2");
    in_force = prepared("SELECT entry.asn, family, lo, len, max FROM claim JOIN entry USING (holder, number)"
                        " WHERE opens <= ?1 AND ends >= ?1");
    exceptions = prepared("SELECT 1 FROM slurm LIMIT 1");
}

static void run_text(const char *sql)
{
    if (sqlite3_exec(db, sql, NULL, NULL, NULL) != SQLITE_OK)
        fail(sql);
}

static void run_file(const char *path)
{
    static char text[1 << 16];
    FILE *file = fopen(path, "r");
    if (!file)
        fail(path);
    text[fread(text, 1, sizeof text - 1, file)] = 0;
    fclose(file);
    run_text(text);
}

void open_database(const char *path, const char *statements)
{
    if (sqlite3_open_v2(path, &db, ONE_THREAD, NULL) != SQLITE_OK)
        fail(path);
    run_text("PRAGMA foreign_keys = ON; PRAGMA locking_mode = EXCLUSIVE;"
             "PRAGMA journal_mode = WAL; PRAGMA synchronous = FULL");
    if (statements)
        run_file(statements);
    prepare_all();
}

void close_database(void)
{
    sqlite3_stmt *statement;
    while ((statement = sqlite3_next_stmt(db, NULL)))
        sqlite3_finalize(statement);
    if (sqlite3_close(db) != SQLITE_OK)
        fail("close");
}

static void bind_number(sqlite3_stmt *statement, int at, int64_t number)
{
    if (sqlite3_bind_int64(statement, at, number) != SQLITE_OK)
        fail("bind");
}

static void bind_text(sqlite3_stmt *statement, int at, const char *text)
{
    if (sqlite3_bind_text(statement, at, text, -1, SQLITE_TRANSIENT) != SQLITE_OK)
        fail("bind");
}

/* An address is a blob of 16 bytes, the greatest one first, for both families. */
static void bind_address(sqlite3_stmt *statement, int at, address bound)
{
    uint64_t halves[2] = {htobe64((uint64_t)(bound >> 64)), htobe64((uint64_t)bound)};
    if (sqlite3_bind_blob(statement, at, halves, sizeof halves, SQLITE_TRANSIENT) != SQLITE_OK)
        fail("bind");
}

static address address_in(sqlite3_stmt *statement, int at)
{
    uint64_t halves[2];
    const void *bytes = sqlite3_column_blob(statement, at);
    if (!bytes || sqlite3_column_bytes(statement, at) != sizeof halves)
        fail("an address");
    memcpy(halves, bytes, sizeof halves);
    return (address)be64toh(halves[0]) << 64 | be64toh(halves[1]);
}

/* The prefix of the three columns from this one on. */
static struct prefix prefix_in(sqlite3_stmt *statement, int at)
{
    struct prefix prefix = {.family = sqlite3_column_int(statement, at)};
    prefix.first = address_in(statement, at + 1);
    prefix.length = sqlite3_column_int(statement, at + 2);
    return prefix;
}

/* The scope all, or the one in the three columns from this one on. */
static struct prefix scope_in(sqlite3_stmt *statement, int at)
{
    return sqlite3_column_type(statement, at) == SQLITE_NULL ? (struct prefix){0} : prefix_in(statement, at);
}

static void bind_prefix(sqlite3_stmt *statement, int at, const struct prefix *prefix)
{
    bind_number(statement, at, prefix->family);
    bind_address(statement, at + 1, prefix->first);
    bind_number(statement, at + 2, prefix->length);
}

/* Whether there is a further row. At the end the statement is ready for its next run. */
static int has_row(sqlite3_stmt *statement)
{
    int step = sqlite3_step(statement);
    if (step == SQLITE_ROW)
        return 1;
    if (step != SQLITE_DONE)
        fail("step");
    sqlite3_reset(statement);
    return 0;
}

static void execute(sqlite3_stmt *statement)
{
    while (has_row(statement))
        ;
}

/* Whether there is a row at all. */
static int has_any(sqlite3_stmt *statement)
{
    int found = has_row(statement);
    sqlite3_reset(statement);
    return found;
}

static void load_counters(const char *holder, struct rows *rows)
{
    rows->found = 0;
    bind_text(counters_of, 1, holder);
    while (has_row(counters_of)) {
        rows->found = 1;
        rows->granted = sqlite3_column_int64(counters_of, 0);
        rows->created = sqlite3_column_int64(counters_of, 1);
    }
}

static void load_runs(const char *holder, struct rows *rows)
{
    rows->runs_count = 0;
    bind_text(holdings_of, 1, holder);
    while (has_row(holdings_of)) {
        if (rows->runs_count == MAX_RUNS)
            fail("too many runs");
        struct run *run = &rows->runs[rows->runs_count++];
        run->family = sqlite3_column_int(holdings_of, 0);
        run->first = address_in(holdings_of, 1);
        run->last = address_in(holdings_of, 2);
    }
}

static void load_grants(const char *holder, struct rows *rows)
{
    rows->grants_count = 0;
    bind_text(grants_of, 1, holder);
    while (has_row(grants_of)) {
        if (rows->grants_count == MAX_GRANTS)
            fail("too many grants");
        struct grant *grant = &rows->grants[rows->grants_count++];
        grant->number = sqlite3_column_int64(grants_of, 0);
        snprintf(grant->caller, NAME_SIZE, "%s", (const char *)sqlite3_column_text(grants_of, 1));
        grant->role = sqlite3_column_int(grants_of, 2);
        grant->scope = scope_in(grants_of, 3);
        grant->until = sqlite3_column_int64(grants_of, 6);
    }
}

/* An authorization without an entry, of the columns of a claim. */
static struct auth claim_in(sqlite3_stmt *statement)
{
    return (struct auth){
        .number = sqlite3_column_int64(statement, 0),
        .asn = sqlite3_column_int64(statement, 1),
        .opens = sqlite3_column_int64(statement, 2),
        .ends = sqlite3_column_int64(statement, 3),
    };
}

/* Whether the entry is of the authorization, which then has it. */
static int take_entry(sqlite3_stmt *statement, struct auth *auth)
{
    if (auth->number != sqlite3_column_int64(statement, 0) || auth->asn != sqlite3_column_int64(statement, 1))
        return 0;
    auth->prefix = prefix_in(statement, 2);
    auth->max = sqlite3_column_int(statement, 5);
    return 1;
}

static void load_claims(const char *holder, struct rows *rows)
{
    rows->auths_count = 0;
    bind_text(claims_of, 1, holder);
    while (has_row(claims_of)) {
        if (rows->auths_count == MAX_AUTHS)
            fail("too many authorizations");
        rows->auths[rows->auths_count++] = claim_in(claims_of);
    }
}

/* Of the authorizations that were loaded, of which each has one entry; both rise by number. */
static void load_entries(const char *holder, struct rows *rows)
{
    unsigned found = 0;
    bind_text(entries_of, 1, holder);
    while (has_row(entries_of)) {
        if (found == rows->auths_count || !take_entry(entries_of, &rows->auths[found]))
            fail("an entry of no claim");
        found++;
    }
    if (found != rows->auths_count)
        fail("a claim without an entry");
}

void load(const char *holder, struct rows *rows)
{
    load_counters(holder, rows);
    load_runs(holder, rows);
    load_grants(holder, rows);
    load_claims(holder, rows);
    load_entries(holder, rows);
}

unsigned find_scopes(const char *holder, const char *caller, enum role most, int64_t day, struct prefix *scopes)
{
    unsigned count = 0;
    bind_text(scopes_of, 1, holder);
    bind_text(scopes_of, 2, caller);
    bind_number(scopes_of, 3, most);
    bind_number(scopes_of, 4, day);
    while (has_row(scopes_of)) {
        if (count == MAX_GRANTS)
            fail("too many grants");
        scopes[count++] = scope_in(scopes_of, 0);
    }
    return count;
}

unsigned find_auth(const char *holder, uint32_t number, struct auth *entries)
{
    struct auth claim = {0};
    unsigned count = 0;
    bind_text(claim_of, 1, holder);
    bind_number(claim_of, 2, number);
    while (has_row(claim_of))
        claim = claim_in(claim_of);
    if (!claim.number)
        return 0;
    bind_text(entries_of_claim, 1, holder);
    bind_number(entries_of_claim, 2, number);
    while (has_row(entries_of_claim)) {
        if (count == MAX_ENTRIES || !take_entry(entries_of_claim, &claim))
            fail("an entry of no claim");
        entries[count++] = claim;
    }
    if (!count)
        fail("a claim without an entry");
    return count;
}

/* Claims and entries rise by number, so both are asked for once and walked together. */
unsigned find_auths(const char *holder, struct auth *entries)
{
    struct auth claim = {0};
    unsigned count = 0;
    bind_text(claims_of, 1, holder);
    bind_text(entries_of, 1, holder);
    while (has_row(entries_of)) {
        if (count == MAX_AUTHS * MAX_ENTRIES)
            fail("too many entries");
        if (!take_entry(entries_of, &claim)) {
            if (!has_row(claims_of))
                fail("an entry of no claim");
            claim = claim_in(claims_of);
            if (!take_entry(entries_of, &claim))
                fail("a claim without an entry");
        }
        entries[count++] = claim;
    }
    if (has_row(claims_of))
        fail("a claim without an entry");
    return count;
}

unsigned find_near(const char *holder, const struct prefix *prefix, address last, struct auth *entries)
{
    unsigned count = 0;
    bind_text(near_entries, 1, holder);
    bind_prefix(near_entries, 2, prefix);
    bind_address(near_entries, 5, last);
    while (has_row(near_entries)) {
        if (count == MAX_AUTHS * MAX_ENTRIES)
            fail("too many entries");
        entries[count].number = sqlite3_column_int64(near_entries, 0);
        entries[count++].prefix = prefix_in(near_entries, 1);
    }
    return count;
}

int is_operator(const char *name)
{
    bind_text(operator_of, 1, name);
    return has_any(operator_of);
}

int is_registered(const char *holder)
{
    bind_text(counters_of, 1, holder);
    return has_any(counters_of);
}

/* Runs do not overlap, so an address is in the last run that begins at or before it, if in any. */
int find_run(const char *holder, int family, address within, struct run *run)
{
    bind_number(run_at, 1, family);
    bind_address(run_at, 2, within);
    int found = has_row(run_at) && !strcmp((const char *)sqlite3_column_text(run_at, 2), holder);
    if (found)
        *run = (struct run){family, address_in(run_at, 0), address_in(run_at, 1)};
    sqlite3_reset(run_at);
    return found && within <= run->last;
}

int is_held(const char *holder, int family, address first, address last)
{
    struct run run;
    return find_run(holder, family, first, &run) && last <= run.last;
}

int has_same(const char *holder, const struct auth *auth)
{
    bind_number(same_entry, 1, auth->asn);
    bind_prefix(same_entry, 2, &auth->prefix);
    bind_number(same_entry, 5, auth->max);
    bind_text(same_entry, 6, holder);
    return has_any(same_entry);
}

uint32_t made_at(const char *holder)
{
    uint32_t made = 0;
    bind_text(counters_of, 1, holder);
    while (has_row(counters_of))
        made = sqlite3_column_int64(counters_of, 1);
    return made;
}

int has_as_many(const char *holder, int64_t count)
{
    bind_text(claims_past, 1, holder);
    bind_number(claims_past, 2, count - 1);
    return count <= 0 || has_any(claims_past);
}

void ask_vrps(int64_t day)
{
    bind_number(in_force, 1, day);
}

int next_vrp(struct vrp *vrp)
{
    if (!has_row(in_force))
        return 0;
    vrp->asn = sqlite3_column_int64(in_force, 0);
    vrp->prefix = prefix_in(in_force, 1);
    vrp->max = sqlite3_column_int(in_force, 4);
    return 1;
}

int has_exceptions(void)
{
    return has_any(exceptions);
}

void begin_change(void)
{
    execute(begin);
}

void commit_change(void)
{
    execute(commit);
}

void put_holder(const char *holder)
{
    bind_text(insert_holder, 1, holder);
    execute(insert_holder);
}

void put_run(const char *holder, const struct run *run)
{
    bind_number(insert_holding, 1, run->family);
    bind_address(insert_holding, 2, run->first);
    bind_address(insert_holding, 3, run->last);
    bind_text(insert_holding, 4, holder);
    execute(insert_holding);
}

void take_run(const struct run *run)
{
    bind_number(delete_holding, 1, run->family);
    bind_address(delete_holding, 2, run->first);
    execute(delete_holding);
}

void put_grant(const char *holder, const struct grant *grant)
{
    sqlite3_clear_bindings(insert_grant);
    bind_text(insert_grant, 1, holder);
    bind_number(insert_grant, 2, grant->number);
    bind_text(insert_grant, 3, grant->caller);
    bind_number(insert_grant, 4, grant->role);
    if (grant->scope.family)
        bind_prefix(insert_grant, 5, &grant->scope);
    bind_number(insert_grant, 8, grant->until);
    execute(insert_grant);
    bind_text(set_grants, 1, holder);
    bind_number(set_grants, 2, grant->number);
    execute(set_grants);
}

static void insert_auth(const char *holder, const struct auth *auth)
{
    bind_text(insert_claim, 1, holder);
    bind_number(insert_claim, 2, auth->number);
    bind_number(insert_claim, 3, auth->asn);
    bind_number(insert_claim, 4, auth->opens);
    bind_number(insert_claim, 5, auth->ends);
    execute(insert_claim);
    bind_text(insert_entry, 1, holder);
    bind_number(insert_entry, 2, auth->number);
    bind_number(insert_entry, 3, auth->asn);
    bind_prefix(insert_entry, 4, &auth->prefix);
    bind_number(insert_entry, 7, auth->max);
    execute(insert_entry);
}

void put_auths(const char *holder, const struct auth *auths, unsigned count)
{
    for (unsigned i = 0; i < count; i++)
        insert_auth(holder, &auths[i]);
    bind_text(set_auths, 1, holder);
    bind_number(set_auths, 2, auths[count - 1].number);
    execute(set_auths);
}

void put_auth(const char *holder, const struct auth *auth)
{
    put_auths(holder, auth, 1);
}

void take_auth(const char *holder, uint32_t number)
{
    bind_text(delete_entries, 1, holder);
    bind_number(delete_entries, 2, number);
    execute(delete_entries);
    bind_text(delete_claim, 1, holder);
    bind_number(delete_claim, 2, number);
    execute(delete_claim);
}
