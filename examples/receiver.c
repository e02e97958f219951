/*
 * A receiver: packets come out of order, are acknowledged by the window's point and taken from its front; those that have not come are
 * reported to the sender, which sends them again; a late range is dropped, and retired stores are released within a budget for each visit.
 *
 *     cc -std=c99 -Iinclude -o receiver examples/receiver.c target/libpacket_window.a
 *
 * Each value in the window is the number of a packet store. A ledger says of every store whether the window has it; the program ends
 * with status 1 if a store comes back that is not out, or if one is still out at the end.
 */
#include "packet_window.h"

#include <arpa/inet.h>
#include <stdio.h>
#include <stdlib.h>

#define WINDOW_SIZE 1000
#define SPARSE_CELLS 8
#define DEMOTE_AT 4
#define FIRST_SEQUENCE 2147483000u /* the 31-bit sequence numbers wrap during the run */
#define PACKETS 900u
#define OLDEST_KEPT 400u /* packets before this one the sender no longer has when it is told that they are lost */
#define STORES 1024u
#define BUDGET 64u

/* ---- the window: a header, and the memory that it is lent */

static packet_window_header window;
static uint32_t sequences[PACKET_WINDOW_CAPACITY(WINDOW_SIZE)];
static uint32_t values[PACKET_WINDOW_CAPACITY(WINDOW_SIZE)];
static uint64_t pages[PACKET_WINDOW_PAGE_WORDS(WINDOW_SIZE)];
static uint64_t blocks[PACKET_WINDOW_BLOCK_WORDS(WINDOW_SIZE)];
static uint32_t returned[PACKET_WINDOW_RETURN_PLACES];

/* The arguments for the lists: start and length of each. */
#define LENGTH(list) (sizeof(list) / sizeof((list)[0]))
#define LIST(list) (list), LENGTH(list)
#define LISTS LIST(sequences), LIST(values), LIST(pages), LIST(blocks)

/* A loss list, in host order and as a packet carries it, and what it says of each packet. */
static uint32_t words[PACKET_WINDOW_LOSS_WORDS(WINDOW_SIZE)];
static uint32_t wire[PACKET_WINDOW_LOSS_WORDS(WINDOW_SIZE)];
static uint8_t lost[WINDOW_SIZE];

/* ---- 31-bit sequence numbers */

static uint32_t after(uint32_t sequence, uint32_t steps)
{
    return (sequence + steps) & 0x7fffffffu;
}

static uint32_t distance(uint32_t first, uint32_t sequence)
{
    return (sequence - first) & 0x7fffffffu;
}

/* Packet i of the stream. */
static uint32_t sequence_of(uint32_t i)
{
    return after(FIRST_SEQUENCE, i);
}

/* ---- the ledger of packet stores */

static int is_out[STORES];

static void fail(const char *why, uint32_t number)
{
    printf("%s: %u\n", why, (unsigned)number);
    exit(1);
}

static uint32_t free_store(void)
{
    uint32_t store = 0;
    while (store < STORES && is_out[store])
        store++;
    if (store == STORES)
        fail("no free store of", STORES);
    return store;
}

static void comes_back(uint32_t store)
{
    if (store >= STORES || !is_out[store])
        fail("a store came back that is not out", store);
    is_out[store] = 0;
}

static uint32_t stores_out(void)
{
    uint32_t store, count = 0;
    for (store = 0; store < STORES; store++)
        count += is_out[store] ? 1 : 0;
    return count;
}

/* ---- the calls */

/* After every call: keep the header, and take back what is in the return list. */
static packet_window_answer keep(packet_window_step step)
{
    uint32_t place;
    window = step.window;
    for (place = 0; place < step.count; place++)
        comes_back(returned[place]);
    return step.answer;
}

static void expect(packet_window_answer answer, uint32_t code)
{
    if (answer.code == PACKET_WINDOW_REFUSED)
        fail("refused", answer.first);
    if (answer.code != code)
        fail("answer with code", answer.code);
}

/* The packet to be shown next. Those before it are no longer waited for. */
static void begin_at(uint32_t sequence)
{
    expect(keep(packet_window_set_base(window, LISTS, sequence)), PACKET_WINDOW_DONE);
}

/* The number that an acknowledgement carries: the first packet, from the one to be shown next, that has not come. */
static uint32_t acknowledged(void)
{
    return window.point;
}

/* A packet has come: its bytes go into a free store, and the store into the window. */
static void receive(uint32_t sequence)
{
    uint32_t store = free_store();
    packet_window_answer answer = keep(packet_window_insert(window, LISTS, LIST(returned), sequence, store));
    switch (answer.code) {
    case PACKET_WINDOW_NEW:
        is_out[store] = 1;
        break;
    case PACKET_WINDOW_REPLACED: /* sent twice: the window has the new store now, and gives the old one back */
        is_out[store] = 1;
        comes_back(answer.first);
        break;
    default: /* refused, as too early or as no sequence: the store is still ours */
        if (answer.first != PACKET_WINDOW_REFUSED_OCCUPIED && answer.first != PACKET_WINDOW_REFUSED_SEQUENCE)
            fail("insert refused", answer.first);
        break;
    }
}

/* The packets first to last that have not come, as the words of a loss report (NAK) to the sender; how many words. */
static uint32_t write_report(uint32_t first, uint32_t last)
{
    packet_window_answer answer = packet_window_write_losses(window, LISTS, LIST(words), first, last).answer;
    uint32_t i;
    expect(answer, PACKET_WINDOW_FOUND);
    for (i = 0; i < answer.first; i++)
        wire[i] = htonl(words[i]);
    return answer.first;
}

/* The sender reads a report of so many words: which packets of first to last it names, and how many. */
static uint32_t read_report(uint32_t first, uint32_t last, uint32_t count)
{
    packet_window_answer answer;
    uint32_t i;
    for (i = 0; i < count; i++)
        words[i] = ntohl(wire[i]);
    answer = packet_window_read_losses(window, LISTS, words, count, LIST(lost), first, last).answer;
    expect(answer, PACKET_WINDOW_FOUND); /* a report that was damaged on the way is refused, 12, or names other packets */
    return answer.first;
}

/* The next packet in order is shown, and its store is free again; 0 if it has not come. */
static int deliver(void)
{
    packet_window_answer answer = keep(packet_window_take_front(window, LISTS));
    if (answer.code == PACKET_WINDOW_ABSENT)
        return 0;
    expect(answer, PACKET_WINDOW_FOUND);
    comes_back(answer.first);
    return 1;
}

/* Packets first to last are too late. Some of their stores come back now, the others are retired. */
static uint32_t drop_late(uint32_t first, uint32_t last)
{
    uint32_t before = window.len;
    packet_window_answer answer = keep(packet_window_remove_range(window, LISTS, LIST(returned), first, last));
    expect(answer, PACKET_WINDOW_FOUND);
    if (answer.first != before - window.len)
        fail("wrong number of packets dropped", answer.first);
    return answer.first;
}

/* Retired stores come back, as many as the budget allows. */
static void release_some(void)
{
    expect(keep(packet_window_release_retired(window, LISTS, LIST(returned), BUDGET)), PACKET_WINDOW_RELEASED);
}

static uint32_t live_pairs(void)
{
    uint32_t count = 0, cell = 0;
    for (;;) {
        packet_window_answer answer = packet_window_iter(window, LISTS, cell).answer;
        if (answer.code != PACKET_WINDOW_PAIR)
            return count;
        cell = answer.third;
        count++;
    }
}

/* ---- the run */

static void report(const char *what, uint32_t number)
{
    printf("%s %u: %u live, %u retired, %u stores out; acknowledged to %u\n", what, (unsigned)number, (unsigned)window.len,
           (unsigned)window.retired_held, (unsigned)stores_out(), (unsigned)acknowledged());
    if (stores_out() != window.len + window.retired_held || live_pairs() != window.len)
        fail("the ledger and the window differ", stores_out());
    expect(packet_window_check(window, LISTS).answer, PACKET_WINDOW_DONE);
}

/* Whether single removals or ranges made pages sparse again: by this demote_at is chosen. */
static void report_demotions(void)
{
    printf("pages made sparse again %u: %u by deliveries, %u by dropped ranges\n", (unsigned)packet_window_demotions(&window),
           (unsigned)window.single_demotions, (unsigned)window.range_demotions);
    if (packet_window_demotions(&window) > window.promotions)
        fail("more pages were made sparse than dense", (uint32_t)packet_window_demotions(&window));
}

/* A gap is seen: packets after the acknowledged one have come. The lost ones are reported, and the sender sends those again that it has. */
static void fill_gap(void)
{
    uint32_t first = acknowledged(), last = sequence_of(PACKETS - 1), sequence;
    uint32_t count = write_report(first, last), losses = read_report(first, last, count);
    printf("reported lost %u, in %u words\n", (unsigned)losses, (unsigned)count);
    if (window.len + losses != PACKETS)
        fail("another number of packets is reported than have not come", losses);
    for (sequence = sequence_of(OLDEST_KEPT); sequence != after(last, 1); sequence = after(sequence, 1))
        if (lost[distance(first, sequence)])
            receive(sequence);
    if (write_report(sequence_of(OLDEST_KEPT), last) != 0)
        fail("a packet that was sent again is reported lost", words[0]);
}

int main(void)
{
    uint32_t i, visits;

    if (packet_window_version() != PACKET_WINDOW_VERSION)
        fail("the library is of another version than the header:", packet_window_version());
    expect(keep(packet_window_new(LISTS, WINDOW_SIZE, SPARSE_CELLS, DEMOTE_AT)), PACKET_WINDOW_DONE);
    begin_at(sequence_of(0));

    for (i = 0; i < PACKETS; i++) {
        uint32_t packet = i * 7 % PACKETS;           /* each once, out of order */
        if (packet % 100 != 70 && packet / 10 != 45) /* some are lost, one by one and ten in a row */
            receive(sequence_of(packet));
    }
    receive(sequence_of(0));                                   /* sent twice */
    receive(sequence_of(PACKET_WINDOW_CAPACITY(WINDOW_SIZE))); /* too early: packet 0 has its position */
    receive(sequence_of(70) | 0x80000000u);                    /* the top bit of its number is set: it is no sequence */
    report("received, of packets", PACKETS);

    fill_gap();
    report("sent again, from packet", OLDEST_KEPT);

    for (i = 0; deliver(); i++)
        ;
    report("delivered in order", i);
    if (sequence_of(i) != acknowledged())
        fail("another packet is acknowledged than the first that has not come", acknowledged());

    report("dropped late", drop_late(sequence_of(i), sequence_of(799)));
    begin_at(sequence_of(800)); /* the sender need not send them again */
    report("begun again at packet", 800);

    for (i = PACKETS; window.retired_held != 0; i++) { /* packets keep coming; a packet for a retired page releases that page */
        receive(sequence_of(i));
        if (i % 128 == 0)
            release_some();
    }
    report("received while releasing", i - PACKETS);

    expect(keep(packet_window_clear(window, LISTS, LIST(returned))), PACKET_WINDOW_DONE);
    report("cleared, pages made dense", (uint32_t)window.promotions);
    report_demotions();

    for (visits = 0; window.retired_held != 0; visits++)
        release_some();
    report("released, visits", visits);

    if (stores_out() != 0)
        fail("stores still out", stores_out());
    printf("every store came back exactly once\n");
    return 0;
}
