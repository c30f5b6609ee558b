/* The VRPs of one day in rising order, kept from request to request. */
#ifndef KEPT_H
#define KEPT_H

#include <stddef.h>
#include <stdint.h>

#include "tables.h"

struct kept_vrp {
    address first;
    uint32_t asn;
    uint8_t family, length, max;
};

/* VRPs in rising order. */
struct vrps {
    struct kept_vrp *vrps;
    size_t count, room;
};

/* The better one first. */
enum state { VALID, INVALID, NOT_FOUND };

struct states {
    enum state all, rest;
};

/* The order of the VRPs that authorizations with one entry give. */
int compare_entries(const void *left, const void *right);

/* The VRPs of the day. Where another day is kept, or none, those of the day are first asked for and sorted, in the
 * place of the others. */
const struct vrps *vrps_on(int64_t day);

/* Has the VRPs of those entries that are in force on the day that is kept, in the place of its own. */
void take_in_force(struct vrps *vrps, const struct auth *entries, unsigned count);

/* The validation states of a route (RFC 6811) by all VRPs, and by those that are not among the others. */
struct states states_in(const struct vrps *vrps, const struct vrps *others, const struct prefix *route,
                        uint32_t origin);

/* What was made is put in, and what was taken away is taken out, where it is in force on the day that is kept. */
void follow_made(const struct auth *entries, unsigned count);
void follow_taken(const struct auth *entries, unsigned count);

#endif
