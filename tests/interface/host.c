/*
 * The host forms against the calls by value: the same calls on two windows, refused ones included; after each call answers, counts,
 * headers and all lists are equal, and the header's point is the one that packet_window_get tells.
 */
#include "packet_window.h"

#include <stdio.h>
#include <string.h>

#define WINDOW_SIZE 5000
#define CALLS 300000u

typedef struct {
    packet_window_header header;
    uint32_t sequences[PACKET_WINDOW_CAPACITY(WINDOW_SIZE)];
    uint32_t values[PACKET_WINDOW_CAPACITY(WINDOW_SIZE)];
    uint64_t pages[PACKET_WINDOW_PAGE_WORDS(WINDOW_SIZE)];
    uint64_t blocks[PACKET_WINDOW_BLOCK_WORDS(WINDOW_SIZE)];
    uint32_t returned[PACKET_WINDOW_RETURN_PLACES];
} window;

static window host, by_value;

#define LENGTH(list) (sizeof(list) / sizeof((list)[0]))
#define LIST(list) (list), LENGTH(list)
#define LISTS(w) LIST((w).sequences), LIST((w).values), LIST((w).pages), LIST((w).blocks)

static uint64_t state = 88172645463325252u;

/* xorshift64 */
static uint32_t below(uint32_t bound)
{
    state ^= state << 13;
    state ^= state >> 7;
    state ^= state << 17;
    return (uint32_t)((state >> 32) * bound >> 32);
}

/* How often each code was given, and each refusal by its number. Room for more of both than there are. */
#define MOST 64
static unsigned given[MOST], refused[MOST];

/* The furthest that a point was from its base. */
static uint32_t furthest;

/* Pages that the host form of remove made sparse. */
static unsigned host_demotions;

/* What a call by value gave, as a host form gives it: the window keeps the header. */
static packet_window_outcome keep(window *w, packet_window_step step)
{
    packet_window_outcome outcome;
    w->header = step.window;
    outcome.answer = step.answer;
    outcome.count = step.count;
    return outcome;
}

static int same(packet_window_outcome a, packet_window_outcome b)
{
    if (a.answer.code < MOST)
        given[a.answer.code]++;
    if (a.answer.code == PACKET_WINDOW_REFUSED && a.answer.first < MOST)
        refused[a.answer.first]++;
    return memcmp(&a, &b, sizeof(a)) == 0 && memcmp(&host, &by_value, sizeof(host)) == 0;
}

static int insert(uint32_t sequence, uint32_t store, size_t places)
{
    packet_window_outcome a = packet_window_host_insert(&host.header, LISTS(host), host.returned, places, sequence, store);
    return same(a, keep(&by_value, packet_window_insert(by_value.header, LISTS(by_value), by_value.returned, places, sequence, store)));
}

static int remove_one(uint32_t sequence)
{
    uint64_t before = host.header.single_demotions;
    packet_window_outcome a = packet_window_host_remove(&host.header, LISTS(host), sequence);
    host_demotions += host.header.single_demotions != before;
    return same(a, keep(&by_value, packet_window_remove(by_value.header, LISTS(by_value), sequence)));
}

static int release_retired(uint32_t budget)
{
    packet_window_outcome a = packet_window_host_release_retired(&host.header, LISTS(host), LIST(host.returned), budget);
    return same(a, keep(&by_value, packet_window_release_retired(by_value.header, LISTS(by_value), LIST(by_value.returned), budget)));
}

/* A range is removed by value on both, so that there is something to release. */
static int remove_range(uint32_t first, uint32_t last)
{
    packet_window_outcome a = keep(&host, packet_window_remove_range(host.header, LISTS(host), LIST(host.returned), first, last));
    return same(a, keep(&by_value, packet_window_remove_range(by_value.header, LISTS(by_value), LIST(by_value.returned), first, last)));
}

/* The base is set, and the front taken, by value on both, so that the host forms have a point to keep. */
static int set_base(uint32_t base)
{
    packet_window_outcome a = keep(&host, packet_window_set_base(host.header, LISTS(host), base));
    return same(a, keep(&by_value, packet_window_set_base(by_value.header, LISTS(by_value), base)));
}

static int take_front(void)
{
    packet_window_outcome a = keep(&host, packet_window_take_front(host.header, LISTS(host)));
    return same(a, keep(&by_value, packet_window_take_front(by_value.header, LISTS(by_value))));
}

/* The header's point is the first sequence from the base that packet_window_get does not find. */
static int right_point(void)
{
    packet_window_header w = host.header;
    uint32_t reach = 0;
    while (reach < WINDOW_SIZE && packet_window_get(w, LISTS(host), (w.base + reach) & 0x7fffffffu).answer.code == PACKET_WINDOW_FOUND)
        reach++;
    if (furthest < reach)
        furthest = reach;
    return w.point == ((w.base + reach) & 0x7fffffffu);
}

/* A page that is thinned: the sequence of its first position, and how many positions are still to be removed. */
static uint32_t thinned, positions;

static int call(void)
{
    uint32_t sequence = below(WINDOW_SIZE + 4000) | (below(40) == 0 ? 0x80000000u : 0);
    size_t places = PACKET_WINDOW_RETURN_PLACES - (below(50) == 0);
    if (positions != 0)
        return remove_one(thinned + --positions);
    switch (below(20)) {
    case 9:
        if (below(100) == 0) {
            thinned = below(WINDOW_SIZE) / PACKET_WINDOW_PAGE_SLOTS * PACKET_WINDOW_PAGE_SLOTS;
            positions = PACKET_WINDOW_PAGE_SLOTS;
        }
        return 1;
    case 0:
        return below(10) != 0 || remove_range(sequence, sequence + below(WINDOW_SIZE));
    case 5:
    case 6:
    case 7:
        return insert(host.header.point, below(1u << 31), places);
    case 8:
        return below(10) != 0 ? take_front() : set_base(below(20) == 0 ? 0x80000000u : sequence);
    case 1:
        return release_retired(below(260));
    case 2:
    case 3:
    case 4:
        return remove_one(sequence);
    default:
        return insert(sequence, below(1u << 31), places);
    }
}

int main(void)
{
    uint32_t number;
    host.header = packet_window_new(LISTS(host), WINDOW_SIZE, 8, 4).window;
    by_value = host;
    for (number = 0; number < CALLS; number++) {
        if (!call()) {
            printf("call %u: the host form and the call by value differ\n", (unsigned)number);
            return 1;
        }
        if (!right_point()) {
            printf("call %u: the point is not right\n", (unsigned)number);
            return 1;
        }
    }
    if (!given[PACKET_WINDOW_NEW] || !given[PACKET_WINDOW_REPLACED] || !given[PACKET_WINDOW_ABSENT] || !given[PACKET_WINDOW_FOUND] ||
        !given[PACKET_WINDOW_RELEASED] || !refused[PACKET_WINDOW_REFUSED_OCCUPIED] || !refused[PACKET_WINDOW_REFUSED_SHORT_MEMORY] ||
        !refused[PACKET_WINDOW_REFUSED_BUDGET] || !refused[PACKET_WINDOW_REFUSED_BASE] || !refused[PACKET_WINDOW_REFUSED_SEQUENCE] ||
        furthest < 10) {
        printf("an answer was never given\n");
        return 1;
    }
    if (!host_demotions || !host.header.range_demotions || packet_window_demotions(&host.header) > host.header.promotions) {
        printf("demotions: %u by the host form, %u of ranges\n", host_demotions, (unsigned)host.header.range_demotions);
        return 1;
    }
    printf("%u calls alike\n", (unsigned)CALLS);
    return 0;
}
