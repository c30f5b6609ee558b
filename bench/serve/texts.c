#define _GNU_SOURCE
#include "texts.h"

#include <arpa/inet.h>
#include <endian.h>
#include <err.h>
#include <string.h>
#include <time.h>

enum { DAY_SECONDS = 86400 };

static void put_bytes(struct text *text, const void *bytes, size_t count)
{
    if (count > text->room - text->length)
        errx(2, "a text is too long");
    memcpy(text->bytes + text->length, bytes, count);
    text->length += count;
}

void put(struct text *text, const char *more)
{
    put_bytes(text, more, strlen(more));
}

void put_number(struct text *text, uint64_t number)
{
    char digits[20];
    int at = sizeof digits;
    do {
        digits[--at] = '0' + number % 10;
        number /= 10;
    } while (number);
    put_bytes(text, digits + at, sizeof digits - at);
}

/* The number in so many digits. */
static void put_digits(struct text *text, uint64_t number, int count)
{
    char digits[20];
    for (int at = count; at > 0; number /= 10)
        digits[--at] = '0' + number % 10;
    put_bytes(text, digits, count);
}

static void put_ipv4(struct text *text, address first)
{
    for (int shift = 24; shift >= 0; shift -= 8) {
        put_number(text, (uint8_t)(first >> shift));
        put(text, shift ? "." : "");
    }
}

static void put_ipv6(struct text *text, address first)
{
    uint64_t halves[2] = {htobe64((uint64_t)(first >> 64)), htobe64((uint64_t)first)};
    char address_text[INET6_ADDRSTRLEN];
    put(text, inet_ntop(AF_INET6, halves, address_text, sizeof address_text));
}

void put_prefix(struct text *text, const struct prefix *prefix)
{
    if (prefix->family == 4)
        put_ipv4(text, prefix->first);
    else
        put_ipv6(text, prefix->first);
    put(text, "/");
    put_number(text, prefix->length);
}

void put_day(struct text *text, int64_t day)
{
    struct tm date;
    time_t start = day * DAY_SECONDS;
    gmtime_r(&start, &date);
    put_digits(text, date.tm_year + 1900, 4);
    put(text, "-");
    put_digits(text, date.tm_mon + 1, 2);
    put(text, "-");
    put_digits(text, date.tm_mday, 2);
}

int read_number(const char *from, uint64_t most, uint64_t *number)
{
    *number = 0;
    size_t length = strspn(from, "0123456789");
    if (!length || length > 10 || from[length] || (*from == '0' && length > 1))
        return 0;
    for (; *from; from++)
        *number = *number * 10 + (*from - '0');
    return *number <= most;
}

static address address_of_bytes(const unsigned char *bytes, int count)
{
    address value = 0;
    for (int i = 0; i < count; i++)
        value = value << 8 | bytes[i];
    return value;
}

static int are_same(const struct text *text, const char *other)
{
    return text->length == strlen(other) && !memcmp(text->bytes, other, text->length);
}

/* Whether the text is the one spelling of the prefix. */
static int spells_prefix(const char *from, const struct prefix *prefix)
{
    char bytes[PREFIX_SIZE];
    struct text spelling = {.bytes = bytes, .room = sizeof bytes};
    put_prefix(&spelling, prefix);
    return are_same(&spelling, from);
}

address bits_past(const struct prefix *prefix)
{
    int below = width_of(prefix->family) - prefix->length;
    return below == 128 ? ~(address)0 : ((address)1 << below) - 1;
}

int read_prefix(const char *from, struct prefix *prefix)
{
    char before[PREFIX_SIZE];
    unsigned char bytes[16];
    uint64_t length;
    size_t size = strcspn(from, "/");
    if (size >= sizeof before || !from[size])
        return 0;
    memcpy(before, from, size);
    before[size] = 0;
    prefix->family = strchr(before, ':') ? 6 : 4;
    int width = width_of(prefix->family);
    if (inet_pton(width == 32 ? AF_INET : AF_INET6, before, bytes) != 1)
        return 0;
    if (!read_number(from + size + 1, width, &length))
        return 0;
    prefix->first = address_of_bytes(bytes, width / 8);
    prefix->length = length;
    return spells_prefix(from, prefix) && !(prefix->first & bits_past(prefix));
}

/* The number of the day on which a month begins, of which the thirteenth is in the next year. It is counted in years
 * that begin with March, so that a leap day is the last one. */
static int64_t first_of(int year, int month)
{
    year -= month < 3;
    return 365 * year + year / 4 - year / 100 + year / 400 + (153 * ((month + 9) % 12) + 2) / 5 - 719468;
}

/* The number that is written in so many digits; -1 where they are none. */
static int number_in(const char *digits, int count)
{
    int number = 0;
    for (int i = 0; i < count; i++) {
        if (digits[i] < '0' || digits[i] > '9')
            return -1;
        number = number * 10 + (digits[i] - '0');
    }
    return number;
}

int read_day(const char *from, int64_t *day)
{
    if (strlen(from) != DAY_SIZE - 1 || from[4] != '-' || from[7] != '-')
        return 0;
    int year = number_in(from, 4), month = number_in(from + 5, 2), of_month = number_in(from + 8, 2);
    if (year < 1970 || month < 1 || month > 12 || of_month < 1)
        return 0;
    *day = first_of(year, month) + of_month - 1;
    return *day < first_of(year, month + 1);
}

int width_of(int family)
{
    return family == 4 ? 32 : 128;
}

address last_of(const struct prefix *prefix)
{
    return prefix->first | bits_past(prefix);
}
