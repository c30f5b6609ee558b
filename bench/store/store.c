/* Times the store's statements in C over libsqlite3, in memory or over a file that it makes:
 *
 *     plain PLACE HOLDERS AUTHORIZATIONS TABLES     (PLACE is `memory` or the path of a new file)
 *
 * TABLES is the file of the statements that make the tables. The rows, the operations, their numbers
 * and the lines that are printed are those of store.rattle.
 */
#include <stdint.h>
#include <stdio.h>
#include <stdlib.h>
#include <string.h>

#include "tables.h"
#include "times.h"

enum { READS = 1000, CHANGES = 200, WALKS = 20, TODAY = 20250 };

static const char *name_of(unsigned holder)
{
    static char name[NAME_SIZE];
    snprintf(name, sizeof name, "h%u", holder);
    return name;
}

/* The address of 10.0.0.0/8 that is so many after the first one of a holder, who has 8192. */
static address address_of(unsigned holder, unsigned at)
{
    return (10u << 24) + holder * 8192 + at;
}

/* Each change of the store looks first whether the holder is registered. */
static void begin_change_of(unsigned holder)
{
    begin_change();
    made_at(name_of(holder));
}

static void create(unsigned holder, unsigned number)
{
    struct auth auth = {.number = number, .asn = number, .max = 28, .ends = 30000};
    auth.prefix = (struct prefix){.family = 4, .length = 28, .first = address_of(holder, number * 16)};
    auth.opens = 20000 + number % 4 * 100;
    begin_change_of(holder);
    put_auth(name_of(holder), &auth);
    commit_change();
}

static void withdraw(unsigned holder, unsigned number)
{
    begin_change_of(holder);
    take_auth(name_of(holder), number);
    commit_change();
}

static void fill_holder(unsigned holder, unsigned auths)
{
    struct run run = {.family = 4, .first = address_of(holder, 0), .last = address_of(holder, 8191)};
    struct grant grant = {.number = 1, .caller = "h0", .role = MANAGER, .until = 30000};
    put_holder(name_of(holder));
    put_run(name_of(holder), &run);
    put_grant(name_of(holder), &grant);
    for (unsigned number = 1; number <= auths; number++)
        create(holder, number);
}

/* All rows of a holder; a sum over them. */
static uint64_t load_all(unsigned holder)
{
    static struct rows rows;
    load(name_of(holder), &rows);
    uint64_t sum = (uint64_t)rows.granted + rows.created;
    for (unsigned i = 0; i < rows.runs_count; i++)
        sum += rows.runs[i].first <= rows.runs[i].last;
    for (unsigned i = 0; i < rows.grants_count; i++)
        sum += rows.grants[i].number;
    for (unsigned i = 0; i < rows.auths_count; i++)
        sum += rows.auths[i].number;
    return sum;
}

static uint64_t all_on(unsigned day)
{
    uint64_t sum = 0;
    struct vrp vrp;
    ask_vrps(day);
    while (next_vrp(&vrp))
        sum += vrp.asn;
    return sum;
}

static unsigned holders, auths;

enum operation { LOAD, CREATE, LOAD_AND_CREATE, WITHDRAW, ALL_ON_A_DAY, OPERATIONS };

static const struct {
    const char *name;
    unsigned count;
} operations[OPERATIONS] = {
    {"load", READS},       {"create", CHANGES},    {"load-and-create", CHANGES},
    {"withdraw", CHANGES}, {"all-on-a-day", WALKS},
};

/* Does the operation once more; a sum of what was answered. */
static uint64_t perform(enum operation operation, unsigned at)
{
    unsigned holder = at * 7919 % holders;
    unsigned number = auths + at + 1;
    uint64_t sum = 0;
    switch (operation) {
    case LOAD:
        return load_all(holder);
    case CREATE:
        create(holder, number);
        return 0;
    case LOAD_AND_CREATE:
        sum = load_all(holder);
        create(holder, number + CHANGES);
        return sum;
    case WITHDRAW:
        withdraw(holder, number);
        return 0;
    default:
        return all_on(TODAY);
    }
}

static void measure(enum operation operation)
{
    static int64_t times[READS];
    unsigned count = operations[operation].count;
    uint64_t sum = 0;
    for (unsigned at = 0; at < count; at++) {
        int64_t start = nanoseconds();
        sum += perform(operation, at);
        times[at] = nanoseconds() - start;
    }
    printf("%s %lld %llu\n", operations[operation].name, (long long)median(times, count), (unsigned long long)sum);
}

int main(int count, char **words)
{
    if (count != 5) {
        fprintf(stderr, "store.c: PLACE HOLDERS AUTHORIZATIONS TABLES\n");
        return 2;
    }
    holders = atoi(words[2]);
    auths = atoi(words[3]);
    open_database(strcmp(words[1], "memory") ? words[1] : ":memory:", words[4]);
    for (unsigned holder = 0; holder < holders; holder++)
        fill_holder(holder, auths);
    for (int operation = 0; operation < OPERATIONS; operation++)
        measure(operation);
    return 0;
}
