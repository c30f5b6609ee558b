/* Asks a server of a desk the same over and over, one connection for each request:
 *
 *     client PORT OPERATION HOLDERS AUTHORIZATIONS COUNT [SERVER]
 *     client PORT start HOLDERS AUTHORIZATIONS COMMAND...
 *     client peak COMMAND...
 *
 * The desk is that of desk.awk, with so many holders and authorizations of each. Before an operation, except for
 * those called first, the payloads are asked for once, so that the server has kept the day. Before each request of an
 * operation called slurm, a SLURM file is put in force and a show is asked for, neither of them timed. So the show waits
 * for what the server does after it has answered the file. A line is printed: the
 * median of the times from the connection to the end of the response, of two requests to the end of the second,
 * and their mean, in nanoseconds, and a sum over all bytes of all responses. A response with an unexpected status
 * ends the client with 1. With SERVER, the process that answers, the mean of its processor time follows, and after that
 * time, so that the end of the server is not in it, the payloads are asked for once more, and are in the sum.
 *
 * The second form starts the server by its COMMAND, the path of a program and its words. The times are those from then
 * to the end of the response of a show, and the processor time is that of the whole process. The third form prints the
 * most memory that a COMMAND has taken when it has ended, in kB.
 */
#include <arpa/inet.h>
#include <err.h>
#include <errno.h>
#include <signal.h>
#include <stdio.h>
#include <stdlib.h>
#include <string.h>
#include <sys/resource.h>
#include <sys/socket.h>
#include <sys/wait.h>
#include <unistd.h>

#include "times.h"

enum { BODY_MOST = 1 << 20, REQUEST_MOST = BODY_MOST + 1024, PREFIX_SIZE = 64, RESPONSE_MOST = 1 << 26 };
enum { COUNT_MOST = 10000, TRY_AGAIN_AFTER = 100 };
enum { CHANGES = 10, ROUTES_OF_WHAT_IF = 100 };

static const int64_t TIME_TO_LISTEN = 600000000000;
static const uint64_t NO_SUM = 14695981039346656037u;

static unsigned holders, auths;

/* The IPv4 prefix of this length that begins so many addresses after the first one of a holder. */
static void put_v4(char *prefix, unsigned holder, unsigned at, unsigned length)
{
    unsigned first = (240u << 24) + holder * 8192 + at;
    snprintf(prefix, PREFIX_SIZE, "%u.%u.%u.%u/%u", first >> 24, first >> 16 & 255, first >> 8 & 255, first & 255,
             length);
}

static unsigned subnet_of(unsigned number)
{
    return number <= 10 ? number : 16 + number % 496;
}

/* The prefix of the authorization of this number of a holder, as desk.awk has it, or one that it contains. */
static void put_prefix(char *prefix, unsigned holder, unsigned number, int is_longer)
{
    if (number % 5)
        put_v4(prefix, holder, subnet_of(number) * 16, is_longer ? 30 : 28);
    else
        snprintf(prefix, PREFIX_SIZE, "2001:db8:%x:%x::/%u", holder + 1, number, is_longer ? 80 : 64);
}

static unsigned asn_of(unsigned number)
{
    return 64496 + number;
}

static unsigned max_of(unsigned number)
{
    return number % 5 ? 28 : 64;
}

/* Each of these appends to a body, and gives its end. */

/* What creates this authorization: an object that begins so. */
static char *put_auth(char *body, const char *start, unsigned holder, unsigned number)
{
    char prefix[PREFIX_SIZE];
    put_prefix(prefix, holder, number, 0);
    return body + sprintf(body,
                          "%s\"asn\":%u,\"prefix\":\"%s\",\"max\":%u,\"from\":\"2026-01-01\",\"until\":\"2026-12-31\"}",
                          start, asn_of(number), prefix, max_of(number));
}

/* Of an authorization that is there the days are those of desk.awk. */
static char *put_row(char *body, unsigned holder, unsigned number)
{
    static const char *const opens[] = {"2025-05-06", "2025-08-14", "2025-11-22", "2026-03-02"};
    char prefix[PREFIX_SIZE];
    int is_there = number <= auths;
    put_prefix(prefix, holder, number, 0);
    return body + sprintf(body, "AS%u,%s,%u,%s,%s\n", asn_of(number), prefix, max_of(number),
                          is_there ? opens[number % 4] : "2026-01-01", is_there ? "2052-02-20" : "2026-12-31");
}

/* So many rows, of which so many are to make an authorization, at equal distances. The others name all authorizations
 * of the holder over and over; if it has none, those that earlier rows made. */
static char *put_import(char *body, unsigned holder, unsigned rows, unsigned to_make)
{
    unsigned made = 0;
    body += sprintf(body, "asn,prefix,maxlength,from,until\n");
    for (unsigned row = 0; row < rows; row++)
        if (to_make && row % (rows / to_make) == 0)
            body = put_row(body, holder, auths + ++made);
        else
            body = put_row(body, holder, (row - made) % (auths ? auths : made) + 1);
    return body;
}

enum routes { AUTHORIZED, ANOTHER_AS, LONGER, ROUTES };

/* Such a route of an authorization. */
static char *put_route(char *body, unsigned holder, unsigned number, enum routes route)
{
    char prefix[PREFIX_SIZE];
    put_prefix(prefix, holder, number, route == LONGER);
    return body + sprintf(body, "{\"prefix\":\"%s\",\"origin\":%u}", prefix,
                          asn_of(number) + (route == ANOTHER_AS));
}

static char *put_routes(char *body, unsigned holder, unsigned number, enum routes route)
{
    body = put_route(body + sprintf(body, "{\"routes\":["), holder, number, route);
    return body + sprintf(body, "]}");
}

/* In turn a withdrawal, of the authorizations from this number on, and a create; and in turn routes of authorizations
 * from this number on and of those that would be made. */
static char *put_what_if(char *body, unsigned holder, unsigned number)
{
    body += sprintf(body, "{\"changes\":");
    for (unsigned i = 0; i < CHANGES; i++)
        if (i % 2)
            body = put_auth(body, ",{\"do\":\"create\",", holder, auths + 1 + i / 2);
        else
            body += sprintf(body, "%s{\"do\":\"withdraw\",\"number\":%u}", i ? "," : "[", (number + i / 2) % auths + 1);
    body += sprintf(body, "],\"routes\":");
    for (unsigned i = 0; i < ROUTES_OF_WHAT_IF; i++) {
        unsigned other = i / 2, made = auths + 1 + other % (CHANGES / 2);
        *body++ = i ? ',' : '[';
        body = put_route(body, holder, i % 2 ? made : (number + other) % auths + 1, i % ROUTES);
    }
    return body + sprintf(body, "]}");
}

/* The prefix has the subnets of the first 511 authorizations of a holder, of which each fifth is of IPv6; or, of IPv4,
 * those of the first 10. */
static char *put_transfer(char *body, unsigned holder, int is_v4)
{
    char prefix[PREFIX_SIZE];
    if (is_v4)
        put_v4(prefix, holder, 0, 24);
    else
        snprintf(prefix, PREFIX_SIZE, "2001:db8:%x::/55", holder + 1);
    return body + sprintf(body, "{\"prefix\":\"%s\",\"giver\":\"h%u\",\"taker\":\"h%u\"}", prefix, holder,
                          (holder + 1) % holders);
}

/* One filter and one assertion, of other AS numbers each time. */
static char *put_slurm(char *body, unsigned at)
{
    return body + sprintf(body,
                          "{\"slurmVersion\":1,\"validationOutputFilters\":{\"prefixFilters\":[{\"asn\":%u}],"
                          "\"bgpsecFilters\":[]},\"locallyAddedAssertions\":{\"prefixAssertions\":[{\"asn\":%u,"
                          "\"prefix\":\"198.51.100.0/24\"}],\"bgpsecAssertions\":[]}}",
                          asn_of(auths + at), asn_of(at));
}

static void put_request(char *request, const char *caller, const char *method, const char *path, const char *body)
{
    char length[96] = "";
    if (*body)
        snprintf(length, sizeof length, "Content-Type: application/json\r\nContent-Length: %zu\r\n", strlen(body));
    snprintf(request, REQUEST_MOST,
             "%s %s HTTP/1.1\r\nHost: 127.0.0.1\r\nUser-Agent: client\r\nAccept: */*\r\nDesk-Caller: %s\r\n%s\r\n%s",
             method, path, caller, length, body);
}

/* CREATE makes a new authorization. SAME and FULL are denied: one that is there, and a new one where a holder has as
 * many as it may. VALIDITY asks about routes of all kinds, VALIDITY_OF_MADE about that of what CREATE made,
 * VALIDITY_OF_TAKEN about that of what WITHDRAW took away. IMPORT_PRESENT makes nothing. The other imports and the
 * transfers are of each holder once. */
enum kind {
    NOTHING,
    SHOW,
    LIST,
    SAME,
    FULL,
    CREATE,
    WITHDRAW,
    PAYLOADS,
    VALIDITY,
    VALIDITY_OF_MADE,
    VALIDITY_OF_TAKEN,
    IMPORT,
    IMPORT_ALL_MADE,
    IMPORT_PRESENT,
    IMPORT_INTO_NONE,
    WHAT_IF,
    TRANSFER,
    TRANSFER_V4,
    SLURM,
};

/* How many rows an import has, and how many of them make an authorization. */
static const struct {
    unsigned rows, to_make;
} imports[] = {
    [IMPORT] = {10000, 100},
    [IMPORT_ALL_MADE] = {100, 100},
    [IMPORT_PRESENT] = {100, 0},
    [IMPORT_INTO_NONE] = {10000, 1000},
};

struct operation {
    const char *name;
    int keeps_first, puts_slurm;
    enum kind first, second;
};

static const struct operation operations[] = {
    {"show", 1, 0, SHOW, NOTHING},
    {"list", 1, 0, LIST, NOTHING},
    {"denied", 1, 0, SAME, NOTHING},
    {"full", 1, 0, FULL, NOTHING},
    {"create", 1, 0, CREATE, NOTHING},
    {"withdraw", 1, 0, WITHDRAW, NOTHING},
    {"payloads", 1, 0, PAYLOADS, NOTHING},
    {"validity", 1, 0, VALIDITY, NOTHING},
    {"create-validity", 1, 0, CREATE, VALIDITY_OF_MADE},
    {"withdraw-validity", 1, 0, WITHDRAW, VALIDITY_OF_TAKEN},
    {"import", 1, 0, IMPORT, NOTHING},
    {"import-100", 1, 0, IMPORT_ALL_MADE, NOTHING},
    {"import-present", 1, 0, IMPORT_PRESENT, NOTHING},
    {"import-empty", 1, 0, IMPORT_INTO_NONE, NOTHING},
    {"what-if", 1, 0, WHAT_IF, NOTHING},
    {"transfer", 1, 0, TRANSFER, NOTHING},
    {"transfer-24", 1, 0, TRANSFER_V4, NOTHING},
    {"first-payloads", 0, 0, PAYLOADS, NOTHING},
    {"first-validity", 0, 0, VALIDITY, NOTHING},
    {"first-what-if", 0, 0, WHAT_IF, NOTHING},
    {"slurm-what-if", 1, 1, WHAT_IF, NOTHING},
};

/* The request of a kind that comes after so many others. Those to the same holder have numbers of their own, as long as
 * there are some. */
static void make_request(char *request, enum kind kind, unsigned at)
{
    static char body[BODY_MOST];
    char path[64];
    unsigned holder = at * 7919 % holders, made = auths + at + 1;
    unsigned number = auths ? (at % holders + at / holders) % auths + 1 : 0;
    *body = 0;
    snprintf(path, sizeof path, "/holders/h%u/auths", holder);
    switch (kind) {
    case NOTHING:
        return;
    case SHOW:
    case WITHDRAW:
        snprintf(path, sizeof path, "/holders/h%u/auths/%u", holder, number);
        put_request(request, "ann", kind == SHOW ? "GET" : "DELETE", path, body);
        return;
    case LIST:
        put_request(request, "ann", "GET", path, body);
        return;
    case PAYLOADS:
        put_request(request, "ann", "GET", "/payloads", body);
        return;
    case VALIDITY:
        put_routes(body, holder, number, at % ROUTES);
        put_request(request, "ann", "POST", "/validity", body);
        return;
    case VALIDITY_OF_MADE:
    case VALIDITY_OF_TAKEN:
        put_routes(body, holder, kind == VALIDITY_OF_MADE ? made : number, AUTHORIZED);
        put_request(request, "ann", "POST", "/validity", body);
        return;
    case SAME:
    case FULL:
    case CREATE:
        put_auth(body, "{", holder, kind == SAME ? number : made);
        put_request(request, "ann", "POST", path, body);
        return;
    case IMPORT:
    case IMPORT_ALL_MADE:
    case IMPORT_PRESENT:
    case IMPORT_INTO_NONE:
        put_import(body, holder, imports[kind].rows, imports[kind].to_make);
        snprintf(path, sizeof path, "/holders/h%u/imports", holder);
        put_request(request, "ann", "POST", path, body);
        return;
    case WHAT_IF:
        put_what_if(body, holder, number);
        snprintf(path, sizeof path, "/holders/h%u/whatif", holder);
        put_request(request, "ann", "POST", path, body);
        return;
    case TRANSFER:
    case TRANSFER_V4:
        put_transfer(body, holder, kind == TRANSFER_V4);
        put_request(request, "reg", "POST", "/transfers", body);
        return;
    case SLURM:
        put_slurm(body, at);
        put_request(request, "reg", "PUT", "/slurm", body);
    }
}

static int connected(const struct sockaddr_in *server)
{
    int stream = socket(AF_INET, SOCK_STREAM, 0);
    if (stream < 0)
        err(2, "socket");
    if (!connect(stream, (const struct sockaddr *)server, sizeof *server))
        return stream;
    close(stream);
    return -1;
}

static int has_ended(pid_t child)
{
    return child && waitpid(child, NULL, WNOHANG) == child;
}

/* The server may need some time to listen; it is the child, if there is one. */
static int connected_at_last(const struct sockaddr_in *server, pid_t child)
{
    for (int64_t end = nanoseconds() + TIME_TO_LISTEN; nanoseconds() < end; usleep(TRY_AGAIN_AFTER)) {
        int stream = connected(server);
        if (stream >= 0)
            return stream;
        if (has_ended(child))
            errx(2, "the server has ended");
    }
    if (child)
        kill(child, SIGTERM);
    errx(2, "nothing listens");
}

/* A request that is made, and its response. */
struct exchange {
    enum kind kind;
    char request[REQUEST_MOST], response[RESPONSE_MOST];
    size_t length;
};

/* Writes the request and reads the response to its end. */
static void ask(int stream, struct exchange *exchange)
{
    ssize_t length = strlen(exchange->request), count;
    exchange->length = 0;
    if (write(stream, exchange->request, length) != length)
        err(2, "write");
    while ((count = read(stream, exchange->response + exchange->length, RESPONSE_MOST - exchange->length)) > 0)
        exchange->length += count;
    if (count < 0 || exchange->length == RESPONSE_MOST)
        err(2, "read");
    close(stream);
}

static void prepare(struct exchange *exchange, enum kind kind, unsigned at)
{
    exchange->kind = kind;
    make_request(exchange->request, kind, at);
}

/* The sum (FNV-1a) of the bytes of a response and of what was summed before. */
static uint64_t checked_sum(uint64_t sum, const struct exchange *exchange)
{
    int is_denied = exchange->kind == SAME || exchange->kind == FULL;
    const char *status = is_denied ? "HTTP/1.1 403 " : "HTTP/1.1 200 ";
    if (exchange->length < strlen(status) || strncmp(exchange->response, status, strlen(status)))
        errx(1, "another status: %.*s", (int)exchange->length, exchange->response);
    for (size_t at = 0; at < exchange->length; at++)
        sum = (sum ^ (unsigned char)exchange->response[at]) * 1099511628211;
    return sum;
}

static int connected_or_end(const struct sockaddr_in *server)
{
    int stream = connected(server);
    if (stream < 0)
        err(2, "connect");
    return stream;
}

/* The processor time of a process in nanoseconds; 0 for none. */
static int64_t processor_time(pid_t process)
{
    clockid_t clock;
    struct timespec now;
    if (!process)
        return 0;
    if (clock_getcpuclockid(process, &clock) || clock_gettime(clock, &now))
        errx(2, "no time of process %d", (int)process);
    return now.tv_sec * 1000000000LL + now.tv_nsec;
}

/* The server ends after a number of connections, so with this one. */
static uint64_t sum_with_payloads(const struct sockaddr_in *server, uint64_t sum)
{
    static struct exchange last;
    prepare(&last, PAYLOADS, 0);
    ask(connected_or_end(server), &last);
    return checked_sum(sum, &last);
}

/* Puts a SLURM file in force, and asks for a show. */
static void put_in_force(const struct sockaddr_in *server, unsigned at)
{
    static struct exchange exchange;
    static const enum kind kinds[] = {SLURM, SHOW};
    for (size_t i = 0; i < sizeof kinds / sizeof *kinds; i++) {
        prepare(&exchange, kinds[i], at);
        ask(connected_or_end(server), &exchange);
        checked_sum(NO_SUM, &exchange);
    }
}

static void measure(const struct sockaddr_in *server, const struct operation *operation, unsigned count, pid_t process)
{
    static int64_t times[COUNT_MOST];
    static struct exchange first, second;
    uint64_t sum = NO_SUM;
    int64_t all = 0;
    int stream = connected_at_last(server, 0);
    if (operation->keeps_first) {
        prepare(&first, PAYLOADS, 0);
        ask(stream, &first);
        sum = checked_sum(sum, &first);
        stream = -1;
    }
    int64_t before = processor_time(process);
    for (unsigned at = 0; at < count; at++) {
        if (operation->puts_slurm)
            put_in_force(server, at);
        prepare(&first, operation->first, at);
        prepare(&second, operation->second, at);
        int64_t start = nanoseconds();
        ask(stream >= 0 ? stream : connected_or_end(server), &first);
        if (operation->second != NOTHING)
            ask(connected_or_end(server), &second);
        all += times[at] = nanoseconds() - start;
        stream = -1;
        sum = checked_sum(sum, &first);
        if (operation->second != NOTHING)
            sum = checked_sum(sum, &second);
    }
    int64_t taken = processor_time(process) - before;
    if (process)
        sum = sum_with_payloads(server, sum);
    printf("%lld %lld %016llx", (long long)median(times, count), (long long)all / count, (unsigned long long)sum);
    if (process)
        printf(" %lld", (long long)taken / count);
    puts("");
}

static long long nanoseconds_of(const struct timeval *time)
{
    return time->tv_sec * 1000000000LL + time->tv_usec * 1000LL;
}

static pid_t started(char **command)
{
    pid_t child = fork();
    if (child < 0)
        err(2, "fork");
    if (child)
        return child;
    dup2(STDERR_FILENO, STDOUT_FILENO);
    execvp(*command, command);
    err(2, "%s", *command);
}

/* The command is a server, which ends after one connection. */
static void measure_start(const struct sockaddr_in *server, char **command)
{
    static struct exchange first;
    struct rusage usage;
    int status;
    prepare(&first, SHOW, 0);
    int64_t start = nanoseconds();
    pid_t child = started(command);
    ask(connected_at_last(server, child), &first);
    int64_t time = nanoseconds() - start;
    uint64_t sum = checked_sum(NO_SUM, &first);
    if (wait4(child, &status, 0, &usage) != child || status)
        errx(2, "the server failed");
    printf("%lld %lld %016llx %lld\n", (long long)time, (long long)time, (unsigned long long)sum,
           nanoseconds_of(&usage.ru_utime) + nanoseconds_of(&usage.ru_stime));
}

static void print_peak(char **command)
{
    struct rusage usage;
    pid_t child = started(command);
    if (wait4(child, NULL, 0, &usage) != child)
        err(2, "wait4");
    printf("%ld\n", usage.ru_maxrss);
}

static const struct operation *operation_of(const char *name)
{
    for (size_t at = 0; at < sizeof operations / sizeof *operations; at++)
        if (!strcmp(name, operations[at].name))
            return &operations[at];
    errx(2, "no operation %s", name);
}

int main(int count, char **words)
{
    if (count > 2 && !strcmp(words[1], "peak")) {
        print_peak(words + 2);
        return 0;
    }
    int is_start = count > 5 && !strcmp(words[2], "start");
    if (!is_start && (count < 6 || count > 7 || atoi(words[5]) < 1 || atoi(words[5]) > COUNT_MOST))
        errx(2, "PORT OPERATION HOLDERS AUTHORIZATIONS COUNT [SERVER]");
    struct sockaddr_in server = {.sin_family = AF_INET, .sin_port = htons(atoi(words[1]))};
    server.sin_addr.s_addr = htonl(INADDR_LOOPBACK);
    holders = atoi(words[3]);
    auths = atoi(words[4]);
    if (is_start)
        measure_start(&server, words + 5);
    else
        measure(&server, operation_of(words[2]), atoi(words[5]), count == 7 ? atoi(words[6]) : 0);
    return 0;
}
