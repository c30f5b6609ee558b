/* Creates authorizations at several holders at once, one connection for each request:
 *
 *     client COUNT HOLDER:PORT...
 *
 * A thread for each holder sends COUNT creates, one after the other, to its port of 127.0.0.1. A holder has a /20 of
 * 10.0.0.0/8, the first of the number after its last `h`: h0 has 10.0.0.0/20, h1 10.0.16.0/20. A request has the
 * caller for a desk and the user for a front. A line is printed: the creates a second from the first start to the last
 * end, and the median of the times from a connection to the end of the response, in nanoseconds. Another response than
 * the one of this create ends the client with 1.
 */
#include <arpa/inet.h>
#include <err.h>
#include <pthread.h>
#include <stdio.h>
#include <stdlib.h>
#include <string.h>
#include <sys/socket.h>
#include <unistd.h>

#include "times.h"

enum { REQUEST_SIZE = 1024, BODY_SIZE = 256, RESPONSE_SIZE = 4096, CLIENTS_MOST = 64, COUNT_MOST = 1000 };

/* ann:secret */
static const char *const USER = "Basic YW5uOnNlY3JldA==";

struct client {
    pthread_t thread;
    char *holder;
    unsigned number;
    struct sockaddr_in server;
};

static unsigned count;
static int64_t times[CLIENTS_MOST * COUNT_MOST];
static struct client clients[CLIENTS_MOST];
static pthread_barrier_t all_are_ready;

/* The request for the create at this place: of 256 prefixes, and a further AS when these are used up. */
static size_t put_request(char *request, const struct client *client, unsigned at)
{
    char body[BODY_SIZE];
    unsigned first = client->number * 256 + at % 256;
    int length = snprintf(body, BODY_SIZE,
                          "{\"asn\":%u,\"prefix\":\"10.%u.%u.%u/28\",\"max\":28,\"from\":\"2026-01-01\","
                          "\"until\":\"2026-12-31\"}",
                          64496 + at / 256, first >> 12, first >> 4 & 255, first % 16 * 16);
    return snprintf(request, REQUEST_SIZE,
                    "POST /holders/%s/auths HTTP/1.1\r\nHost: 127.0.0.1\r\nConnection: close\r\nDesk-Caller: ann\r\n"
                    "Authorization: %s\r\nContent-Type: application/json\r\nContent-Length: %d\r\n\r\n%s",
                    client->holder, USER, length, body);
}

static int connected(const struct client *client)
{
    int stream = socket(AF_INET, SOCK_STREAM, 0);
    if (stream < 0 || connect(stream, (const struct sockaddr *)&client->server, sizeof client->server))
        err(2, "connect");
    return stream;
}

static void create(const struct client *client, unsigned at)
{
    char request[REQUEST_SIZE], response[RESPONSE_SIZE], done[64];
    size_t length = put_request(request, client, at), taken = 0;
    int stream = connected(client);
    ssize_t part;
    if (write(stream, request, length) != (ssize_t)length)
        err(2, "write");
    while ((part = read(stream, response + taken, RESPONSE_SIZE - 1 - taken)) > 0)
        taken += part;
    if (part < 0)
        err(2, "read");
    close(stream);
    response[taken] = 0;
    snprintf(done, sizeof done, "\r\n\r\n{\"done\":%u}\n", at + 1);
    if (strncmp(response, "HTTP/1.1 200 ", 13) || !strstr(response, done))
        errx(1, "another response at %s, create %u: %s", client->holder, at + 1, response);
}

static void *run(void *argument)
{
    const struct client *client = argument;
    int64_t *mine = times + (client - clients) * count;
    pthread_barrier_wait(&all_are_ready);
    for (unsigned at = 0; at < count; at++) {
        int64_t start = nanoseconds();
        create(client, at);
        mine[at] = nanoseconds() - start;
    }
    return NULL;
}

static void read_client(struct client *client, char *word)
{
    char *port = strrchr(word, ':'), *number = strrchr(word, 'h');
    if (!port || !number)
        errx(2, "HOLDER:PORT");
    *port = 0;
    client->holder = word;
    client->number = atoi(number + 1);
    client->server.sin_family = AF_INET;
    client->server.sin_port = htons(atoi(port + 1));
    client->server.sin_addr.s_addr = htonl(INADDR_LOOPBACK);
}

int main(int words, char **word)
{
    int number = words - 2;
    if (number < 1 || number > CLIENTS_MOST || atoi(word[1]) < 1 || atoi(word[1]) > COUNT_MOST)
        errx(2, "COUNT HOLDER:PORT...");
    count = atoi(word[1]);
    pthread_barrier_init(&all_are_ready, NULL, number + 1);
    for (int at = 0; at < number; at++) {
        read_client(&clients[at], word[at + 2]);
        if (pthread_create(&clients[at].thread, NULL, run, &clients[at]))
            errx(2, "no thread");
    }
    pthread_barrier_wait(&all_are_ready);
    int64_t start = nanoseconds();
    for (int at = 0; at < number; at++)
        pthread_join(clients[at].thread, NULL);
    int64_t all = nanoseconds() - start;
    printf("%.0f %lld\n", 1e9 * number * count / all, (long long)median(times, number * count));
    return 0;
}
