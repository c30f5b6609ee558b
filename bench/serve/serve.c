/* Answers some requests of the desk over HTTP, as `roadesk serve` does, in C over libsqlite3:
 *
 *     serve --db FILE --listen ADDRESS:PORT --count N --day DAY
 *
 * README.md says which requests, and what is left out. One connection after the other, one request a
 * connection, and 30 seconds for a whole connection.
 */
#define _GNU_SOURCE
#include <arpa/inet.h>
#include <err.h>
#include <stdio.h>
#include <stdlib.h>
#include <string.h>
#include <strings.h>
#include <sys/socket.h>
#include <unistd.h>

#include "kept.h"
#include "tables.h"
#include "texts.h"
#include "times.h"

enum { HEAD_MOST = 8192, BODY_MOST = 1 << 20, ANSWER_HEAD = 256, ANSWER_ROOM = 1 << 26 };
enum { MOST_MADE = 999999, MOST_ROUTES = 10000, MOST_ROWS = 10000, MOST_CHANGES = 1000 };
enum { MOST_ENTRIES = MAX_AUTHS * MAX_ENTRIES };

static const int64_t TIME_LIMIT = 30000000000;

static int64_t today;

/* A connection, and when its time is up. */
struct stream {
    int socket;
    int64_t end;
};

/* Sets what is left of the time; 0 where nothing is. */
static int set_time(const struct stream *stream, int option)
{
    int64_t left = (stream->end - nanoseconds()) / 1000;
    struct timeval time = {left / 1000000, left % 1000000};
    return left > 0 && !setsockopt(stream->socket, SOL_SOCKET, option, &time, sizeof time);
}

/* How many bytes came, at most these; 0 where none will. */
static size_t read_some(const struct stream *stream, char *bytes, size_t most)
{
    ssize_t count = set_time(stream, SO_RCVTIMEO) ? read(stream->socket, bytes, most) : -1;
    return count > 0 ? count : 0;
}

static int write_all(const struct stream *stream, const char *bytes, size_t count)
{
    while (count) {
        ssize_t taken = set_time(stream, SO_SNDTIMEO) ? send(stream->socket, bytes, count, MSG_NOSIGNAL) : -1;
        if (taken <= 0)
            return 0;
        bytes += taken;
        count -= taken;
    }
    return 1;
}

/* A request as it came; `bytes` is its head, which ends with `body`, and what was read of its body. */
struct request {
    char bytes[HEAD_MOST + BODY_MOST + 1];
    size_t length, body_length;
    char *method, *target, *body, *caller;
};

/* Reads until the head has ended; 0 where it does not. */
static int read_head(const struct stream *stream, struct request *request)
{
    char *end = NULL;
    request->length = 0;
    while (!end && request->length < HEAD_MOST) {
        size_t count = read_some(stream, request->bytes + request->length, HEAD_MOST - request->length);
        if (!count)
            return 0;
        request->length += count;
        end = memmem(request->bytes, request->length, "\r\n\r\n", 4);
    }
    if (!end)
        return 0;
    *end = 0;
    request->body = end + 4;
    return 1;
}

/* The value of a field of this name, or none; the text begins with a line of the head. */
static char *value_in(char *line, const char *name)
{
    size_t length = strlen(name);
    if (strncasecmp(line, name, length) || line[length] != ':')
        return NULL;
    char *value = line + length + 1;
    return value + strspn(value, " \t");
}

/* Cuts the head into its lines and these into their parts; 0 where it is none. */
static int split_head(struct request *request)
{
    char *rest = request->bytes, *line = strsep(&rest, "\r"), *value;
    uint64_t length = 0;
    request->caller = NULL;
    request->method = strsep(&line, " ");
    request->target = strsep(&line, " ");
    while (rest && (line = strsep(&rest, "\r"))) {
        line++;
        if ((value = value_in(line, "Desk-Caller")))
            request->caller = value;
        else if ((value = value_in(line, "Content-Length")) && !read_number(value, BODY_MOST, &length))
            return 0;
        else if (value_in(line, "Transfer-Encoding"))
            return 0;
    }
    request->body_length = length;
    return request->target && request->caller;
}

static int read_body(const struct stream *stream, struct request *request)
{
    char *end = request->body + request->body_length;
    while (request->bytes + request->length < end) {
        char *next = request->bytes + request->length;
        size_t count = read_some(stream, next, end - next);
        if (!count)
            return 0;
        request->length += count;
    }
    *end = 0;
    return 1;
}

static char *skipped(char *at)
{
    return at + strspn(at, " \t\r\n");
}

/* Cuts a member of an object out of JSON, and leaves the mark that follows it. Gives what comes after
 * the mark, or none where there is no member. */
static char *cut_member(char *at, char **name, char **value, char *mark)
{
    char *end = *at == '"' ? strchr(*name = at + 1, '"') : NULL;
    if (!end)
        return NULL;
    *end = 0;
    at = skipped(end + 1);
    if (*at != ':')
        return NULL;
    at = skipped(at + 1);
    *value = *at == '"' ? at + 1 : at;
    end = *at == '"' ? strchr(at + 1, '"') : at + strspn(at, "0123456789");
    if (!end)
        return NULL;
    at = skipped(*end == '"' ? end + 1 : end);
    *mark = *at;
    *end = 0;
    return at + 1;
}

/* What comes after the text, or none where something else comes next. */
static char *past(char *at, const char *text)
{
    size_t length = strlen(text);
    at = at ? skipped(at) : NULL;
    return at && !strncmp(at, text, length) ? at + length : NULL;
}

enum member {
    ASN = 1,
    PREFIX = 2,
    MAX = 4,
    FROM = 8,
    UNTIL = 16,
    ORIGIN = 32,
    GIVER = 64,
    TAKER = 128,
    AUTH_NUMBER = 256,
    TO_CREATE = 512,
    TO_WITHDRAW = 1024,
};

static const int AUTH_MEMBERS = ASN | PREFIX | MAX | FROM | UNTIL, ROUTE_MEMBERS = PREFIX | ORIGIN;
static const int TRANSFER_MEMBERS = PREFIX | GIVER | TAKER;

static int read_auth_number(const char *text, uint64_t *number)
{
    return read_number(text, MOST_MADE, number) && *number;
}

static int is_name(const char *text)
{
    size_t length = strspn(text, "abcdefghijklmnopqrstuvwxyz0123456789-");
    return length && length < NAME_SIZE && !text[length] && *text != '-';
}

static int read_asn(const char *text, uint32_t *asn)
{
    uint64_t number;
    int is_read = read_number(text, UINT32_MAX, &number);
    *asn = number;
    return is_read;
}

static int read_max(const char *text, int *max)
{
    uint64_t number;
    int is_read = read_number(text, UINT8_MAX, &number);
    *max = number;
    return is_read;
}

/* Puts the value in its place; 0 where it is no member of a `create`. */
static int take_auth_member(const char *name, const char *value, void *place)
{
    struct auth *auth = place;
    if (!strcmp(name, "asn") && read_asn(value, &auth->asn))
        return ASN;
    if (!strcmp(name, "max") && read_max(value, &auth->max))
        return MAX;
    if (!strcmp(name, "prefix") && read_prefix(value, &auth->prefix))
        return PREFIX;
    if (!strcmp(name, "from") && read_day(value, &auth->opens))
        return FROM;
    if (!strcmp(name, "until") && read_day(value, &auth->ends))
        return UNTIL;
    return 0;
}

struct route {
    struct prefix prefix;
    uint32_t origin;
};

/* The same for a route. */
static int take_route_member(const char *name, const char *value, void *place)
{
    struct route *route = place;
    if (!strcmp(name, "origin") && read_asn(value, &route->origin))
        return ORIGIN;
    return !strcmp(name, "prefix") && read_prefix(value, &route->prefix) ? PREFIX : 0;
}

/* Names are in the body. */
struct transfer {
    struct prefix prefix;
    const char *giver, *taker;
};

/* The same for a transfer. */
static int take_transfer_member(const char *name, const char *value, void *place)
{
    struct transfer *transfer = place;
    if (!strcmp(name, "giver") && is_name(value)) {
        transfer->giver = value;
        return GIVER;
    }
    if (!strcmp(name, "taker") && is_name(value)) {
        transfer->taker = value;
        return TAKER;
    }
    return !strcmp(name, "prefix") && read_prefix(value, &transfer->prefix) ? PREFIX : 0;
}

/* A create, or the withdrawal of the authorization of this number. */
struct change {
    int is_create;
    struct auth auth;
};

/* The same for a change. */
static int take_change_member(const char *name, const char *value, void *place)
{
    struct change *change = place;
    uint64_t number;
    if (!strcmp(name, "do")) {
        change->is_create = !strcmp(value, "create");
        return change->is_create ? TO_CREATE : !strcmp(value, "withdraw") ? TO_WITHDRAW : 0;
    }
    if (!strcmp(name, "number") && read_auth_number(value, &number)) {
        change->auth.number = number;
        return AUTH_NUMBER;
    }
    return take_auth_member(name, value, &change->auth);
}

/* What comes after an object, or none where that does not come next. A value is put in its place by `take`, which says
 * which member it is, or 0; none may come twice, and those that came are `taken`. */
static char *read_members(char *at, int (*take)(const char *, const char *, void *), void *place, int *taken)
{
    char *name, *value, mark = ',';
    *taken = 0;
    at = past(at, "{");
    while (at && mark == ',') {
        at = cut_member(skipped(at), &name, &value, &mark);
        int member = at ? take(name, value, place) : 0;
        if (!member || *taken & member)
            return NULL;
        *taken |= member;
    }
    return mark == '}' ? at : NULL;
}

/* What comes after a route, or none where that does not come next. */
static char *read_route(char *at, void *place)
{
    int taken;
    at = read_members(at, take_route_member, place, &taken);
    return taken == ROUTE_MEMBERS ? at : NULL;
}

/* The same for a change. */
static char *read_change(char *at, void *place)
{
    int taken;
    at = read_members(at, take_change_member, place, &taken);
    return taken == (TO_CREATE | AUTH_MEMBERS) || taken == (TO_WITHDRAW | AUTH_NUMBER) ? at : NULL;
}

/* The items of an array, each of this size, that are read, and the most. */
struct array {
    void *items;
    size_t size;
    unsigned most, count;
};

/* What comes after the member of this name, an array, or none where that does not come next. */
static char *read_array(char *at, const char *name, char *(*read_item)(char *, void *), struct array *array)
{
    char *end;
    at = past(past(past(at, name), ":"), "[");
    if (past(at, "]"))
        return past(at, "]");
    while (at && array->count < array->most) {
        at = read_item(at, (char *)array->items + array->count++ * array->size);
        if ((end = past(at, "]")))
            return end;
        at = past(at, ",");
    }
    return NULL;
}

/* Whether nothing follows what was read. */
static int is_end(char *at)
{
    return at && !*skipped(at);
}

/* Whether the body is that of a `create`. */
static int read_auth(char *body, struct auth *auth)
{
    int taken;
    return is_end(read_members(body, take_auth_member, auth, &taken)) && taken == AUTH_MEMBERS;
}

/* Whether it is that of a transfer. */
static int read_transfer(char *body, struct transfer *transfer)
{
    int taken;
    return is_end(read_members(body, take_transfer_member, transfer, &taken)) && taken == TRANSFER_MEMBERS;
}

/* Whether it is that of a `validity`. */
static int read_routes(char *body, struct array *routes)
{
    return is_end(past(read_array(past(body, "{"), "\"routes\"", read_route, routes), "}")) && routes->count;
}

/* Whether it is that of a what-if. */
static int read_what_if(char *body, struct array *changes, struct array *routes)
{
    char *at = past(read_array(past(body, "{"), "\"changes\"", read_change, changes), ",");
    return is_end(past(read_array(at, "\"routes\"", read_route, routes), "}")) && routes->count;
}

/* Cuts off what comes before the mark, or all; the rest is what comes after it, or none. */
static char *cut(char **rest, char mark)
{
    char *piece = *rest, *end = piece ? strchr(piece, mark) : NULL;
    if (end)
        *end++ = 0;
    *rest = end;
    return piece;
}

/* Whether the line is a row of an import. */
static int read_row(char *line, struct auth *row)
{
    const char *asn = cut(&line, ','), *prefix = cut(&line, ','), *max = cut(&line, ',');
    const char *opens = cut(&line, ','), *ends = cut(&line, ',');
    return ends && !line && !strncmp(asn, "AS", 2) && read_asn(asn + 2, &row->asn) &&
           read_prefix(prefix, &row->prefix) && read_max(max, &row->max) && read_day(opens, &row->opens) &&
           read_day(ends, &row->ends);
}

/* How many rows the body of an import has; 0 where it is malformed. */
static unsigned read_rows(char *body, struct auth *rows)
{
    unsigned count = 0;
    char *line = cut(&body, '\n');
    if (strcmp(line, "asn,prefix,maxlength,from,until"))
        return 0;
    while ((line = cut(&body, '\n')) && *line)
        if (count == MOST_ROWS || !read_row(line, &rows[count++]))
            return 0;
    return body ? 0 : count;
}

static int contains(const struct prefix *scope, const struct prefix *prefix)
{
    return scope->family == prefix->family && scope->length <= prefix->length && scope->first <= prefix->first &&
           last_of(prefix) <= last_of(scope);
}

/* The scopes of a caller's current grants of the roles that a request allows. */
struct scopes {
    unsigned count;
    struct prefix scopes[MAX_GRANTS];
};

static void find_current(const char *holder, const char *caller, enum role most, struct scopes *scopes)
{
    scopes->count = find_scopes(holder, caller, most, today, scopes->scopes);
}

static int is_permitted(const struct scopes *scopes, const struct prefix *prefix)
{
    for (unsigned i = 0; i < scopes->count; i++)
        if (!scopes->scopes[i].family || contains(&scopes->scopes[i], prefix))
            return 1;
    return 0;
}

static int are_permitted(const struct scopes *scopes, const struct auth *entries, unsigned count)
{
    for (unsigned i = 0; i < count; i++)
        if (!is_permitted(scopes, &entries[i].prefix))
            return 0;
    return 1;
}

/* Entries in the order of their VRPs; there is room for all of a holder, and for those that a request makes. */
struct entries {
    unsigned count;
    struct auth entries[MOST_ENTRIES + MAX_AUTHS];
};

/* The first one that is not less, or the end. */
static struct auth *place_in(struct entries *list, const struct auth *entry)
{
    struct auth *from = list->entries, *to = from + list->count;
    while (from < to) {
        struct auth *middle = from + (to - from) / 2;
        if (compare_entries(middle, entry) < 0)
            from = middle + 1;
        else
            to = middle;
    }
    return from;
}

static struct auth *found_in(struct entries *list, const struct auth *entry)
{
    struct auth *place = place_in(list, entry);
    return place < list->entries + list->count && !compare_entries(place, entry) ? place : NULL;
}

static void add_to(struct entries *list, const struct auth *entry)
{
    struct auth *place = place_in(list, entry);
    memmove(place + 1, place, (list->entries + list->count - place) * sizeof *entry);
    *place = *entry;
    list->count++;
}

static void take_from(struct entries *list, struct auth *entry)
{
    list->count--;
    memmove(entry, entry + 1, (list->entries + list->count - entry) * sizeof *entry);
}

/* What a create or a withdrawal at a holder is judged on, beside the tables: what the parts of its request before it
 * put and took of the entries there, and how many authorizations they made and ended. Where all entries of the holder
 * were put, the tables are not asked for any. */
struct standing {
    const char *holder;
    struct scopes scopes;
    struct entries put, taken;
    unsigned made, ended;
    int has_all;
};

/* Nothing is put or taken yet. */
static void stand(struct standing *standing, const char *holder, const char *caller)
{
    standing->holder = holder;
    find_current(holder, caller, CLERK, &standing->scopes);
    standing->put.count = standing->taken.count = standing->made = standing->ended = 0;
    standing->has_all = 0;
}

static int is_same(struct standing *standing, const struct auth *auth)
{
    if (found_in(&standing->put, auth))
        return 1;
    return !standing->has_all && !found_in(&standing->taken, auth) && has_same(standing->holder, auth);
}

/* The first rule of `create` that does not hold, or none; then the authorization has its number. The tables are asked
 * for what a rule needs when its turn has come. */
static const char *denial_of_create(struct standing *standing, struct auth *auth)
{
    const char *holder = standing->holder;
    if (!standing->scopes.count)
        return "grant";
    if (!is_permitted(&standing->scopes, &auth->prefix))
        return "scope";
    if (auth->ends < auth->opens || auth->ends < today)
        return "dates";
    if (auth->max < auth->prefix.length || auth->max > width_of(auth->prefix.family))
        return "length";
    if (!is_held(holder, auth->prefix.family, auth->prefix.first, last_of(&auth->prefix)))
        return "held";
    if (is_same(standing, auth))
        return "same";
    uint32_t made = made_at(holder) + standing->made;
    int64_t room = (int64_t)MAX_AUTHS + standing->ended - standing->made;
    if (made >= MOST_MADE || (made >= MAX_AUTHS && has_as_many(holder, room)))
        return "room";
    auth->number = made + 1;
    return NULL;
}

/* The same; where each rule holds, the authorization is put. */
static const char *denial_or_put(struct standing *standing, struct auth *auth)
{
    const char *rule = denial_of_create(standing, auth);
    if (!rule) {
        add_to(&standing->put, auth);
        standing->made++;
    }
    return rule;
}

struct reply {
    const char *status, *type;
    struct text body;
};

static void refuse(struct reply *reply, const char *status, const char *error)
{
    reply->status = status;
    put(&reply->body, "{\"error\":");
    put(&reply->body, error);
    put(&reply->body, "}\n");
}

/* Of a row or a change the place is counted from 1; it is 0 where the request is not of several. */
static void deny_part(struct reply *reply, const char *rule, unsigned place)
{
    reply->status = "403 Forbidden";
    put(&reply->body, "{\"denied\":\"");
    put(&reply->body, rule);
    put(&reply->body, place ? "\",\"row\":" : "\"}\n");
    if (place) {
        put_number(&reply->body, place);
        put(&reply->body, "}\n");
    }
}

static void deny(struct reply *reply, const char *rule)
{
    deny_part(reply, rule, 0);
}

static void put_entry(struct text *body, const struct auth *entry)
{
    put(body, "\"prefix\":\"");
    put_prefix(body, &entry->prefix);
    put(body, "\",\"max\":");
    put_number(body, entry->max);
}

static void put_entries(struct text *body, const struct auth *entries, unsigned count)
{
    for (unsigned i = 0; i < count; i++) {
        put(body, i ? ",{" : "\"entries\":[{");
        put_entry(body, &entries[i]);
        put(body, "}");
    }
    put(body, "]");
}

static void put_authorization(struct text *body, const struct auth *entries, unsigned count)
{
    put(body, "{\"number\":");
    put_number(body, entries->number);
    put(body, ",\"asn\":");
    put_number(body, entries->asn);
    put(body, ",");
    if (count == 1)
        put_entry(body, entries);
    else
        put_entries(body, entries, count);
    put(body, ",\"from\":\"");
    put_day(body, entries->opens);
    put(body, "\",\"until\":\"");
    put_day(body, entries->ends);
    put(body, "\"}");
}

/* The entries of the authorization of this number; 0, and the reply says why, where the caller has no such access to
 * it. */
static unsigned find_accessible(const char *holder, const char *caller, enum role most, uint32_t number,
                                struct auth *entries, struct reply *reply)
{
    struct scopes scopes;
    find_current(holder, caller, most, &scopes);
    if (!scopes.count) {
        deny(reply, "grant");
        return 0;
    }
    unsigned count = find_auth(holder, number, entries);
    if (count && are_permitted(&scopes, entries, count))
        return count;
    deny(reply, "number");
    return 0;
}

static void show(const char *holder, const char *caller, uint32_t number, struct reply *reply)
{
    struct auth entries[MAX_ENTRIES];
    unsigned count = find_accessible(holder, caller, AUDITOR, number, entries, reply);
    if (!count)
        return;
    put(&reply->body, "{\"shown\":");
    put_authorization(&reply->body, entries, count);
    put(&reply->body, "}\n");
}

/* How many of the entries are of the first one's authorization. */
static unsigned entries_of_first(const struct auth *entries, unsigned most)
{
    unsigned count = 1;
    while (count < most && entries[count].number == entries->number)
        count++;
    return count;
}

static void list(const char *holder, const char *caller, struct reply *reply)
{
    static struct auth entries[MAX_AUTHS * MAX_ENTRIES];
    struct scopes scopes;
    find_current(holder, caller, AUDITOR, &scopes);
    if (!scopes.count) {
        deny(reply, "grant");
        return;
    }
    unsigned count = find_auths(holder, entries), size, listed = 0;
    put(&reply->body, "{\"listed\":[");
    for (unsigned at = 0; at < count; at += size) {
        size = entries_of_first(entries + at, count - at);
        if (!are_permitted(&scopes, entries + at, size))
            continue;
        put(&reply->body, listed++ ? "," : "");
        put_authorization(&reply->body, entries + at, size);
    }
    put(&reply->body, "]}\n");
}

static void withdraw(const char *holder, const char *caller, uint32_t number, struct reply *reply)
{
    struct auth entries[MAX_ENTRIES];
    unsigned count = find_accessible(holder, caller, CLERK, number, entries, reply);
    if (!count)
        return;
    begin_change();
    take_auth(holder, number);
    commit_change();
    follow_taken(entries, count);
    put(&reply->body, "{\"done\":null}\n");
}

static void create(const char *holder, const char *caller, struct auth *auth, struct reply *reply)
{
    static struct standing standing;
    stand(&standing, holder, caller);
    const char *rule = denial_of_create(&standing, auth);
    if (rule) {
        deny(reply, rule);
        return;
    }
    begin_change();
    put_auth(holder, auth);
    commit_change();
    follow_made(auth, 1);
    put(&reply->body, "{\"done\":");
    put_number(&reply->body, auth->number);
    put(&reply->body, "}\n");
}

/* Puts all entries of the holder. Those of an authorization of several have days that no row names. */
static void put_all(struct standing *standing)
{
    struct auth *entries = standing->put.entries;
    unsigned count = find_auths(standing->holder, entries), size;
    for (unsigned at = 0; at < count; at += size) {
        size = entries_of_first(entries + at, count - at);
        for (unsigned i = 0; size > 1 && i < size; i++)
            entries[at + i].opens = -1;
    }
    qsort(entries, count, sizeof *entries, compare_entries);
    standing->put.count = count;
    standing->has_all = 1;
}

/* Whether the row is already authorized. */
static int is_present(struct standing *standing, const struct auth *row)
{
    const struct auth *found = found_in(&standing->put, row);
    return found && found->opens == row->opens && found->ends == row->ends &&
           is_permitted(&standing->scopes, &row->prefix);
}

/* The holder's authorizations are in memory for the whole import, since each row may be one of them. */
static void import(const char *holder, const char *caller, char *body, struct reply *reply)
{
    static struct auth rows[MOST_ROWS], made[MAX_AUTHS];
    static struct standing standing;
    unsigned count = read_rows(body, rows);
    if (!count) {
        refuse(reply, "400 Bad Request", "400");
        return;
    }
    stand(&standing, holder, caller);
    put_all(&standing);
    for (unsigned i = 0; i < count; i++) {
        if (is_present(&standing, &rows[i]))
            continue;
        const char *rule = denial_or_put(&standing, &rows[i]);
        if (rule) {
            deny_part(reply, rule, i + 1);
            return;
        }
        made[standing.made - 1] = rows[i];
    }
    if (standing.made) {
        begin_change();
        put_auths(holder, made, standing.made);
        commit_change();
        follow_made(made, standing.made);
    }
    put(&reply->body, "{\"made\":");
    put_number(&reply->body, standing.made);
    put(&reply->body, ",\"present\":");
    put_number(&reply->body, count - standing.made);
    put(&reply->body, "}\n");
}

/* Whether a part before put the authorization of this number, which is taken back then. It is the caller's own, so
 * permitted. */
static int ends_put(struct standing *standing, uint32_t number)
{
    for (unsigned i = 0; i < standing->put.count; i++)
        if (standing->put.entries[i].number == number) {
            take_from(&standing->put, &standing->put.entries[i]);
            return 1;
        }
    return 0;
}

/* Whether the tables have it, no part before took it, and the caller is permitted it; then it is taken. */
static int ends_found(struct standing *standing, uint32_t number)
{
    struct auth entries[MAX_ENTRIES];
    unsigned count = find_auth(standing->holder, number, entries);
    if (!count || !are_permitted(&standing->scopes, entries, count) || found_in(&standing->taken, entries))
        return 0;
    for (unsigned i = 0; i < count; i++)
        add_to(&standing->taken, &entries[i]);
    return 1;
}

/* The first rule of the change that does not hold, or none; then its entries are put or taken. */
static const char *denial_of_change(struct standing *standing, struct change *change)
{
    if (change->is_create)
        return denial_or_put(standing, &change->auth);
    if (!standing->scopes.count)
        return "grant";
    if (!ends_put(standing, change->auth.number) && !ends_found(standing, change->auth.number))
        return "number";
    standing->ended++;
    return NULL;
}

static const char *const state_texts[] = {
    [VALID] = "\"Valid\"",
    [INVALID] = "\"Invalid\"",
    [NOT_FOUND] = "\"NotFound\"",
};

static const struct vrps no_vrps;

/* The states of the routes, now and after what was put and taken. */
static void put_report(struct text *body, struct standing *standing, const struct route *routes, unsigned count)
{
    static struct vrps added, less;
    const struct vrps *vrps = vrps_on(today);
    take_in_force(&added, standing->put.entries, standing->put.count);
    take_in_force(&less, standing->taken.entries, standing->taken.count);
    for (unsigned i = 0; i < count; i++) {
        const struct prefix *prefix = &routes[i].prefix;
        struct states kept = states_in(vrps, &less, prefix, routes[i].origin);
        struct states new = states_in(&added, &no_vrps, prefix, routes[i].origin);
        put(body, i ? ",[" : "{\"report\":[[");
        put(body, state_texts[kept.all]);
        put(body, ",");
        put(body, state_texts[kept.rest < new.all ? kept.rest : new.all]);
        put(body, "]");
    }
    put(body, "]}\n");
}

static void suppose(const char *holder, const char *caller, char *body, struct reply *reply)
{
    static struct change changes[MOST_CHANGES];
    static struct route routes[MOST_ROUTES];
    static struct standing standing;
    struct array read_changes = {changes, sizeof *changes, MOST_CHANGES};
    struct array read_routes = {routes, sizeof *routes, MOST_ROUTES};
    if (!read_what_if(body, &read_changes, &read_routes)) {
        refuse(reply, "400 Bad Request", "400");
        return;
    }
    stand(&standing, holder, caller);
    for (unsigned i = 0; i < read_changes.count; i++) {
        const char *rule = denial_of_change(&standing, &changes[i]);
        if (rule) {
            deny_part(reply, rule, i + 1);
            return;
        }
    }
    put_report(&reply->body, &standing, routes, read_routes.count);
}

/* The first rule of a transfer that does not hold, or none; then the run of the giver is that with the prefix. */
static const char *denial_of_transfer(const char *caller, const struct transfer *transfer, struct run *run)
{
    const struct prefix *prefix = &transfer->prefix;
    if (!is_operator(caller))
        return "operator";
    if (!is_registered(transfer->giver) || !is_registered(transfer->taker))
        return "holder";
    if (!strcmp(transfer->giver, transfer->taker))
        return "distinct";
    if (!find_run(transfer->giver, prefix->family, prefix->first, run) || run->last < last_of(prefix))
        return "held";
    return NULL;
}

/* The entries of the holder's authorizations that share an address with the prefix; how many. */
static unsigned find_ended(const char *holder, const struct prefix *prefix, struct auth *ended)
{
    static struct auth near[MOST_ENTRIES];
    unsigned count = find_near(holder, prefix, last_of(prefix), near), found = 0;
    for (unsigned i = 0; i < count; i++) {
        int is_shared = contains(prefix, &near[i].prefix) || contains(&near[i].prefix, prefix);
        if (is_shared && (!found || ended[found - 1].number != near[i].number))
            found += find_auth(holder, near[i].number, ended + found);
    }
    return found;
}

/* Takes the addresses of one run out of another one of the holder. */
static void cut_run(const char *holder, const struct run *run, const struct run *cut)
{
    struct run before = {run->family, run->first, cut->first - 1}, after = {run->family, cut->last + 1, run->last};
    take_run(run);
    if (run->first < cut->first)
        put_run(holder, &before);
    if (cut->last < run->last)
        put_run(holder, &after);
}

/* Puts a run at the holder, joined with those beside it. */
static void join_run(const char *holder, struct run joined)
{
    struct run before, after;
    int is_before = joined.first && find_run(holder, joined.family, joined.first - 1, &before);
    int is_after = joined.last + 1 && find_run(holder, joined.family, joined.last + 1, &after);
    if (is_before) {
        take_run(&before);
        joined.first = before.first;
    }
    if (is_after) {
        take_run(&after);
        joined.last = after.last;
    }
    put_run(holder, &joined);
}

static void transfer_prefix(const char *caller, const struct transfer *transfer, struct reply *reply)
{
    static struct auth ended[MOST_ENTRIES];
    const struct prefix *prefix = &transfer->prefix;
    struct run run, moved = {prefix->family, prefix->first, last_of(prefix)};
    const char *rule = denial_of_transfer(caller, transfer, &run);
    if (rule) {
        deny(reply, rule);
        return;
    }
    unsigned count = find_ended(transfer->giver, prefix, ended);
    begin_change();
    cut_run(transfer->giver, &run, &moved);
    for (unsigned at = 0; at < count; at += entries_of_first(ended + at, count - at))
        take_auth(transfer->giver, ended[at].number);
    join_run(transfer->taker, moved);
    commit_change();
    follow_taken(ended, count);
    put(&reply->body, "{\"done\":null}\n");
}

static void list_payloads(struct reply *reply)
{
    const struct vrps day = *vrps_on(today);
    reply->type = "text/csv";
    put(&reply->body, "asn,prefix,maxlength\n");
    for (size_t i = 0; i < day.count; i++) {
        struct prefix prefix = {day.vrps[i].family, day.vrps[i].length, day.vrps[i].first};
        put(&reply->body, "AS");
        put_number(&reply->body, day.vrps[i].asn);
        put(&reply->body, ",");
        put_prefix(&reply->body, &prefix);
        put(&reply->body, ",");
        put_number(&reply->body, day.vrps[i].max);
        put(&reply->body, "\n");
    }
}

/* Answers the validity of routes. */
static void judge(char *body, struct reply *reply)
{
    static struct route routes[MOST_ROUTES];
    struct array read = {routes, sizeof *routes, MOST_ROUTES};
    if (!read_routes(body, &read)) {
        refuse(reply, "400 Bad Request", "400");
        return;
    }
    const struct vrps *vrps = vrps_on(today);
    for (unsigned i = 0; i < read.count; i++) {
        put(&reply->body, i ? "," : "{\"answers\":[");
        put(&reply->body, state_texts[states_in(vrps, &no_vrps, &routes[i].prefix, routes[i].origin).all]);
    }
    put(&reply->body, "]}\n");
}

/* Cuts a path into what its strokes part. */
static int split_path(char *path, char **parts, int most)
{
    int count = 0;
    while (path && count < most)
        parts[count++] = strsep(&path, "/");
    return count;
}

static void answer(const struct request *request, struct reply *reply)
{
    enum { HOLDER = 2, NUMBER = 4, MOST_PARTS = 6 };
    char *parts[MOST_PARTS];
    uint64_t number;
    struct auth auth;
    struct transfer transfer;
    int count = split_path(request->target, parts, MOST_PARTS);
    int is_get = !strcmp(request->method, "GET"), is_post = !strcmp(request->method, "POST");
    int is_delete = !strcmp(request->method, "DELETE");
    int is_holder = count > 3 && !strcmp(parts[1], "holders"), is_post_at = is_holder && count == 4 && is_post;
    int is_auths = is_holder && !strcmp(parts[3], "auths") &&
                   ((count == 4 && (is_post || is_get)) || (count == 5 && (is_get || is_delete)));
    int is_import = is_post_at && !strcmp(parts[3], "imports"), is_what_if = is_post_at && !strcmp(parts[3], "whatif");
    int is_transfer = count == 2 && is_post && !strcmp(parts[1], "transfers");
    if (count == 2 && is_get && !strcmp(parts[1], "payloads"))
        list_payloads(reply);
    else if (count == 2 && is_post && !strcmp(parts[1], "validity"))
        judge(request->body, reply);
    else if (is_transfer && is_name(request->caller) && read_transfer(request->body, &transfer))
        transfer_prefix(request->caller, &transfer, reply);
    else if (is_transfer)
        refuse(reply, "400 Bad Request", "400");
    else if (!is_import && !is_what_if && !is_auths)
        refuse(reply, "404 Not Found", "404");
    else if (!is_name(parts[HOLDER]) || !is_name(request->caller))
        refuse(reply, "400 Bad Request", "400");
    else if (is_import)
        import(parts[HOLDER], request->caller, request->body, reply);
    else if (is_what_if)
        suppose(parts[HOLDER], request->caller, request->body, reply);
    else if (is_post && read_auth(request->body, &auth))
        create(parts[HOLDER], request->caller, &auth, reply);
    else if (is_get && count == 4)
        list(parts[HOLDER], request->caller, reply);
    else if (is_get && read_auth_number(parts[NUMBER], &number))
        show(parts[HOLDER], request->caller, number, reply);
    else if (is_delete && read_auth_number(parts[NUMBER], &number))
        withdraw(parts[HOLDER], request->caller, number, reply);
    else
        refuse(reply, "400 Bad Request", "400");
}

/* The head goes into the room before the body, so that both are written in one piece. */
static int write_reply(const struct stream *stream, const struct reply *reply)
{
    char head[ANSWER_HEAD];
    int length = snprintf(head, sizeof head,
                          "HTTP/1.1 %s\r\nContent-Type: %s\r\nContent-Length: %zu\r\nConnection: close\r\n\r\n",
                          reply->status, reply->type, reply->body.length);
    char *start = reply->body.bytes - length;
    memcpy(start, head, length);
    return write_all(stream, start, length + reply->body.length);
}

/* 0 where a read or a write failed. */
static int serve_one(const struct stream *stream)
{
    static struct request request;
    static char bytes[ANSWER_HEAD + ANSWER_ROOM];
    struct reply reply = {"200 OK", "application/json", {bytes + ANSWER_HEAD, 0, ANSWER_ROOM}};
    if (!read_head(stream, &request))
        return 0;
    if (!split_head(&request))
        refuse(&reply, "400 Bad Request", "400");
    else if (!read_body(stream, &request))
        return 0;
    else
        answer(&request, &reply);
    return write_reply(stream, &reply);
}

static int listen_on(char *place)
{
    struct sockaddr_in address = {.sin_family = AF_INET};
    char *host = strsep(&place, ":");
    int yes = 1, listener = socket(AF_INET, SOCK_STREAM | SOCK_CLOEXEC, 0);
    if (!place || inet_pton(AF_INET, host, &address.sin_addr) != 1)
        errx(2, "ADDRESS:PORT is asked for");
    address.sin_port = htons(atoi(place));
    if (listener < 0 || setsockopt(listener, SOL_SOCKET, SO_REUSEADDR, &yes, sizeof yes) ||
        bind(listener, (struct sockaddr *)&address, sizeof address) || listen(listener, 128))
        err(2, "listen");
    return listener;
}

int main(int count, char **words)
{
    if (count != 9 || !read_day(words[8], &today))
        errx(2, "--db FILE --listen ADDRESS:PORT --count N --day DAY");
    open_database(words[2], NULL);
    int listener = listen_on(words[4]);
    for (int left = atoi(words[6]); left > 0; left--) {
        int socket = accept(listener, NULL, NULL);
        if (socket < 0)
            err(2, "accept");
        struct stream stream = {socket, nanoseconds() + TIME_LIMIT};
        if (!serve_one(&stream))
            warnx("a connection failed");
        close(socket);
    }
    close_database();
    return 0;
}
