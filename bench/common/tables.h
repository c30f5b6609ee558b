/* The rows of a desk and the statements of the store, over libsqlite3. */
#ifndef TABLES_H
#define TABLES_H

#include <stdint.h>

/* The most grants and authorizations that a holder may have, the most entries of an authorization, and the most runs
 * that are taken here. */
enum { NAME_SIZE = 33, MAX_RUNS = 64, MAX_GRANTS = 64, MAX_AUTHS = 1000, MAX_ENTRIES = 64 };

typedef unsigned __int128 address;

enum role { MANAGER = 1, CLERK = 2, AUDITOR = 3 };

struct prefix {
    int family, length;
    address first;
};

struct run {
    int family;
    address first, last;
};

/* Of the family 0 where the scope is all. */
struct grant {
    uint32_t number;
    char caller[NAME_SIZE];
    enum role role;
    struct prefix scope;
    int64_t until;
};

/* An authorization with one of its entries. */
struct auth {
    uint32_t number, asn;
    struct prefix prefix;
    int max;
    int64_t opens, ends;
};

struct vrp {
    uint32_t asn;
    struct prefix prefix;
    int max;
};

/* What the tables have of a holder; `found` is 1 where it is registered, else 0. */
struct rows {
    unsigned found, runs_count, grants_count, auths_count;
    uint32_t granted, created;
    struct run runs[MAX_RUNS];
    struct grant grants[MAX_GRANTS];
    struct auth auths[MAX_AUTHS];
};

_Noreturn void fail(const char *what);

/* Opens the database of a path with the settings of the crate `sqlite`: a write-ahead log, synchronous
 * FULL, and the file locked for one connection. Runs the file of statements at the other path, if any. */
void open_database(const char *path, const char *statements);
void close_database(void);

/* All rows of a holder, of whose authorizations each has one entry. */
void load(const char *holder, struct rows *rows);

/* The scopes of the grants at a holder that a caller has on a day, of this role or a lower number; how many. */
unsigned find_scopes(const char *holder, const char *caller, enum role most, int64_t day, struct prefix *scopes);

/* The entries of the authorization of a number, in the order of prefixes; how many, 0 where there is none. */
unsigned find_auth(const char *holder, uint32_t number, struct auth *entries);

/* The same of all authorizations of a holder, by rising number. */
unsigned find_auths(const char *holder, struct auth *entries);

/* The entries of a holder that begin in the prefix, whose last address is given, or before it and are shorter: of each
 * its number and prefix, by rising number; how many. All that share an address with the prefix are among them. */
unsigned find_near(const char *holder, const struct prefix *prefix, address last, struct auth *entries);

int is_operator(const char *name);
int is_registered(const char *holder);

/* Whether the holder has the address; then the run is the one that has it. */
int find_run(const char *holder, int family, address within, struct run *run);

/* Whether the holder has each address from the first to the last one. */
int is_held(const char *holder, int family, address first, address last);

/* Whether an authorization of the holder has this AS and this entry. */
int has_same(const char *holder, const struct auth *auth);

/* How many authorizations were made at the holder; 0 also where it is not registered. */
uint32_t made_at(const char *holder);

/* Whether the holder has so many authorizations, or more. */
int has_as_many(const char *holder, int64_t count);

/* Asks for the VRPs of a day. Each call of next_vrp then gives one, in no order; 0 after the last one. */
void ask_vrps(int64_t day);
int next_vrp(struct vrp *vrp);

/* Whether there are SLURM exceptions. */
int has_exceptions(void);

void begin_change(void);
void commit_change(void);

void put_holder(const char *holder);
void put_run(const char *holder, const struct run *run);
void take_run(const struct run *run);

/* Each sets the holder's counter to its number too, of several to the last one's. */
void put_grant(const char *holder, const struct grant *grant);
void put_auth(const char *holder, const struct auth *auth);
void put_auths(const char *holder, const struct auth *auths, unsigned count);

/* With its entries. */
void take_auth(const char *holder, uint32_t number);

#endif
