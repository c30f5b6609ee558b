#include "kept.h"

#include <err.h>
#include <stdlib.h>
#include <string.h>

#include "texts.h"

static const int64_t NO_DAY = INT64_MIN;

static int64_t kept_day = NO_DAY;
static struct vrps kept;

static struct kept_vrp vrp_of(const struct prefix *prefix, int max, uint32_t asn)
{
    return (struct kept_vrp){prefix->first, asn, prefix->family, prefix->length, max};
}

static int compare(address left, address right)
{
    return (left > right) - (left < right);
}

static int compare_vrps(const void *a, const void *b)
{
    const struct kept_vrp *left = a, *right = b;
    int order = compare(left->family, right->family);
    order = order ? order : compare(left->first, right->first);
    order = order ? order : compare(left->length, right->length);
    order = order ? order : compare(left->max, right->max);
    return order ? order : compare(left->asn, right->asn);
}

static struct kept_vrp vrp_of_entry(const struct auth *entry)
{
    return vrp_of(&entry->prefix, entry->max, entry->asn);
}

int compare_entries(const void *left, const void *right)
{
    struct kept_vrp left_vrp = vrp_of_entry(left), right_vrp = vrp_of_entry(right);
    return compare_vrps(&left_vrp, &right_vrp);
}

static void make_room(struct vrps *vrps, size_t more)
{
    if (more <= vrps->room - vrps->count)
        return;
    vrps->room = 2 * vrps->room + more;
    vrps->vrps = realloc(vrps->vrps, vrps->room * sizeof *vrps->vrps);
    if (!vrps->vrps)
        errx(2, "no memory");
}

static void sort(struct vrps *vrps)
{
    if (vrps->count)
        qsort(vrps->vrps, vrps->count, sizeof *vrps->vrps, compare_vrps);
}

const struct vrps *vrps_on(int64_t day)
{
    struct vrp vrp;
    if (kept_day == day)
        return &kept;
    if (has_exceptions())
        errx(2, "SLURM exceptions are left out");
    kept.count = 0;
    ask_vrps(day);
    while (next_vrp(&vrp)) {
        make_room(&kept, 1);
        kept.vrps[kept.count++] = vrp_of(&vrp.prefix, vrp.max, vrp.asn);
    }
    sort(&kept);
    kept_day = day;
    return &kept;
}

void take_in_force(struct vrps *vrps, const struct auth *entries, unsigned count)
{
    vrps->count = 0;
    make_room(vrps, count);
    for (unsigned i = 0; i < count; i++)
        if (entries[i].opens <= kept_day && kept_day <= entries[i].ends)
            vrps->vrps[vrps->count++] = vrp_of_entry(&entries[i]);
    sort(vrps);
}

/* The first place, of those from one to another, of a VRP that is not less; the other one where each is. */
static size_t place_in(const struct vrps *vrps, size_t from, size_t to, const struct kept_vrp *vrp)
{
    while (from < to) {
        size_t middle = from + (to - from) / 2;
        if (compare_vrps(&vrps->vrps[middle], vrp) < 0)
            from = middle + 1;
        else
            to = middle;
    }
    return from;
}

static int has_vrp(const struct vrps *vrps, const struct kept_vrp *vrp)
{
    return vrps->count && bsearch(vrp, vrps->vrps, vrps->count, sizeof *vrp, compare_vrps);
}

static int has_prefix(const struct kept_vrp *vrp, const struct prefix *prefix)
{
    return vrp->family == prefix->family && vrp->first == prefix->first && vrp->length == prefix->length;
}

/* How many bits two addresses of a family have in common before the first that differs. */
static int common_bits(int family, address left, address right)
{
    uint64_t high = (left ^ right) >> 64, low = left ^ right;
    int leading = high ? __builtin_clzll(high) : low ? 64 + __builtin_clzll(low) : 128;
    return leading - (128 - width_of(family));
}

/* The shortest prefix that covers the route and does not sort before the VRP, which itself sorts before the route. */
static struct prefix next_covering(const struct kept_vrp *vrp, const struct prefix *route)
{
    int common = common_bits(route->family, vrp->first, route->first);
    struct prefix covering = {route->family, vrp->length <= common ? vrp->length : common + 1, route->first};
    covering.first &= ~bits_past(&covering);
    return covering;
}

static enum state better(enum state left, enum state right)
{
    return left < right ? left : right;
}

/* The places of the prefixes that cover a route rise with their lengths, so a search begins where the last one ended,
 * and the VRP there says which lengths have none. */
struct states states_in(const struct vrps *vrps, const struct vrps *others, const struct prefix *route,
                        uint32_t origin)
{
    struct states states = {NOT_FOUND, NOT_FOUND};
    struct kept_vrp least = {.family = route->family}, past = vrp_of(route, UINT8_MAX, UINT32_MAX);
    size_t end = place_in(vrps, 0, vrps->count, &past), at = place_in(vrps, 0, end, &least);
    while (at < end) {
        struct prefix covering = next_covering(&vrps->vrps[at], route);
        least = vrp_of(&covering, 0, 0);
        for (at = place_in(vrps, at, end, &least); at < end && has_prefix(&vrps->vrps[at], &covering); at++) {
            const struct kept_vrp *vrp = &vrps->vrps[at];
            enum state state = origin && vrp->asn == origin && route->length <= vrp->max ? VALID : INVALID;
            states.all = better(states.all, state);
            if (!has_vrp(others, vrp))
                states.rest = better(states.rest, state);
            if (states.rest == VALID)
                return states;
        }
    }
    return states;
}

/* Moves each of the kept VRPs past the first place at most once, the last ones first. */
void follow_made(const struct auth *entries, unsigned count)
{
    static struct vrps made;
    take_in_force(&made, entries, count);
    make_room(&kept, made.count);
    size_t end = kept.count, at;
    for (size_t i = made.count; i > 0; i--, end = at) {
        at = place_in(&kept, 0, end, &made.vrps[i - 1]);
        memmove(kept.vrps + at + i, kept.vrps + at, (end - at) * sizeof *kept.vrps);
        kept.vrps[at + i - 1] = made.vrps[i - 1];
    }
    kept.count += made.count;
}

/* The same, the first ones first. */
void follow_taken(const struct auth *entries, unsigned count)
{
    static struct vrps taken;
    take_in_force(&taken, entries, count);
    size_t at = taken.count ? place_in(&kept, 0, kept.count, taken.vrps) : 0, end;
    for (size_t i = 0; i < taken.count; i++, at = end) {
        end = i + 1 < taken.count ? place_in(&kept, at + 1, kept.count, &taken.vrps[i + 1]) : kept.count;
        memmove(kept.vrps + at - i, kept.vrps + at + 1, (end - at - 1) * sizeof *kept.vrps);
    }
    kept.count -= taken.count;
}
