/* Values of the desk as texts. A text is read where it is the one spelling of its value. */
#ifndef TEXTS_H
#define TEXTS_H

#include <stddef.h>
#include <stdint.h>

#include "tables.h"

/* The longest text of a prefix is an IPv6 address, a stroke and 128. */
enum { PREFIX_SIZE = 50, DAY_SIZE = 11 };

struct text {
    char *bytes;
    size_t length, room;
};

void put(struct text *text, const char *more);
void put_number(struct text *text, uint64_t number);
void put_prefix(struct text *text, const struct prefix *prefix);
void put_day(struct text *text, int64_t day);

/* Each is 1 where the text was read, else 0. */
int read_number(const char *from, uint64_t most, uint64_t *number);
int read_prefix(const char *from, struct prefix *prefix);
int read_day(const char *from, int64_t *day);

/* The number of bits of an address. */
int width_of(int family);

/* The bits of an address past the length of the prefix. */
address bits_past(const struct prefix *prefix);

/* The last address of the prefix. */
address last_of(const struct prefix *prefix);

#endif
