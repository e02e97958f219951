/*
 * The version of packet_window.h is the library's. Its macros, for every window_size, are document 01's lengths: packet_window_new takes
 * lists of these lengths and refuses one that is shorter. PACKET_WINDOW_LOSS_WORDS is the number of words that packet_window_write_losses
 * writes where every third sequence is live, and a list with a place fewer is refused. packet_window_demotions adds the header's two
 * counts of demotions modulo 2^64, and these are counted by remove and by remove_range. C99 and C++11.
 */
#include "packet_window.h"

#include <stdio.h>

#if PACKET_WINDOW_CAPACITY(1000) != 1024 || PACKET_WINDOW_BLOCK_WORDS(4097) != 6 || PACKET_WINDOW_LOSS_WORDS(1000) != 667
#error "the macros are no constant expressions for the preprocessor"
#endif

#define LARGEST 65536

static uint32_t sequences[PACKET_WINDOW_CAPACITY(LARGEST)];
static uint32_t values[PACKET_WINDOW_CAPACITY(LARGEST)];
static uint64_t pages[PACKET_WINDOW_PAGE_WORDS(LARGEST)];
static uint64_t blocks[PACKET_WINDOW_BLOCK_WORDS(LARGEST)];
static uint32_t returned[PACKET_WINDOW_RETURN_PLACES];
static uint32_t words[PACKET_WINDOW_LOSS_WORDS(LARGEST)];

enum { SEQUENCES, VALUES, PAGES, BLOCKS, LISTS };

/* The lists with the lengths for a window_size. */
#define LISTS_OF(window_size)                                                                                                           \
    sequences, PACKET_WINDOW_CAPACITY(window_size), values, PACKET_WINDOW_CAPACITY(window_size), pages,                                 \
        PACKET_WINDOW_PAGE_WORDS(window_size), blocks, PACKET_WINDOW_BLOCK_WORDS(window_size)

/* Document 01: "capacity = window_size, at least 64, raised to a power of two"; 64 positions make a page, 64 pages a block. */
static void named_lengths(uint32_t window_size, size_t lengths[LISTS])
{
    size_t capacity = 64, page_count;
    while (capacity < window_size)
        capacity *= 2;
    page_count = capacity / 64;
    lengths[SEQUENCES] = capacity;
    lengths[VALUES] = capacity;
    lengths[PAGES] = 3 * page_count;
    lengths[BLOCKS] = 3 * (page_count / 64 + (page_count % 64 != 0));
}

static packet_window_step new_with(uint32_t window_size, const size_t lengths[LISTS])
{
    return packet_window_new(sequences, lengths[SEQUENCES], values, lengths[VALUES], pages, lengths[PAGES], blocks, lengths[BLOCKS],
                             window_size, 8, 4);
}

static int is_refused(packet_window_answer answer, uint32_t refusal)
{
    return answer.code == PACKET_WINDOW_REFUSED && answer.first == refusal;
}

static int macros_hold(uint32_t window_size, const size_t lengths[LISTS])
{
    return PACKET_WINDOW_CAPACITY(window_size) == lengths[SEQUENCES] && PACKET_WINDOW_PAGE_WORDS(window_size) == lengths[PAGES] &&
           PACKET_WINDOW_BLOCK_WORDS(window_size) == lengths[BLOCKS];
}

static int refuses_shorter(uint32_t window_size, const size_t lengths[LISTS])
{
    int list, refused = 0;
    for (list = 0; list < LISTS; list++) {
        size_t shorter[LISTS] = {lengths[0], lengths[1], lengths[2], lengths[3]};
        shorter[list]--;
        refused += is_refused(new_with(window_size, shorter).answer, PACKET_WINDOW_REFUSED_SHORT_MEMORY);
    }
    return refused == LISTS;
}

/* A new window of the largest size with the sequences 2, 5, 8 and so on. */
static packet_window_header every_third_live(const size_t lengths[LISTS])
{
    packet_window_header header = new_with(LARGEST, lengths).window;
    uint32_t sequence;
    for (sequence = 2; sequence < LARGEST; sequence += 3)
        header = packet_window_insert(header, sequences, lengths[SEQUENCES], values, lengths[VALUES], pages, lengths[PAGES], blocks,
                                      lengths[BLOCKS], returned, PACKET_WINDOW_RETURN_PLACES, sequence, 0)
                     .window;
    return header;
}

static packet_window_answer losses_of(packet_window_header header, const size_t lengths[LISTS], uint32_t count, size_t places)
{
    return packet_window_write_losses(header, sequences, lengths[SEQUENCES], values, lengths[VALUES], pages, lengths[PAGES], blocks,
                                      lengths[BLOCKS], words, places, 0, count - 1)
        .answer;
}

/* Of the sequences 0 to count - 1 two in three are lost, and no three in a row: each is a word. */
static int loss_words_hold(packet_window_header header, const size_t lengths[LISTS], uint32_t count)
{
    packet_window_answer answer = losses_of(header, lengths, count, PACKET_WINDOW_LOSS_WORDS(count));
    uint32_t sequence, lost = 0;
    for (sequence = 0; sequence < count; sequence++)
        lost += sequence % 3 != 2;
    return answer.code == PACKET_WINDOW_FOUND && answer.first == lost && PACKET_WINDOW_LOSS_WORDS(count) == lost &&
           is_refused(losses_of(header, lengths, count, lost - 1), PACKET_WINDOW_REFUSED_SHORT_LIST);
}

/* packet_window_demotions of a header with these counts. */
static uint64_t demotions_of(uint64_t single, uint64_t range)
{
    packet_window_header header = packet_window_new(LISTS_OF(64), 64, 8, 4).window;
    header.single_demotions = single;
    header.range_demotions = range;
    return packet_window_demotions(&header);
}

/* The sequences 0 to 9 in one page, which is dense, and then six of them removed: one by one, or as a range. */
static packet_window_header thinned(int by_range)
{
    packet_window_header header = packet_window_new(LISTS_OF(64), 64, 8, 4).window;
    uint32_t sequence;
    for (sequence = 0; sequence < 10; sequence++)
        header = packet_window_insert(header, LISTS_OF(64), returned, PACKET_WINDOW_RETURN_PLACES, sequence, 0).window;
    if (by_range)
        return packet_window_remove_range(header, LISTS_OF(64), returned, PACKET_WINDOW_RETURN_PLACES, 0, 5).window;
    for (sequence = 0; sequence < 6; sequence++)
        header = packet_window_remove(header, LISTS_OF(64), sequence).window;
    return header;
}

static int demotions_hold(void)
{
    packet_window_header single = thinned(0), range = thinned(1);
    return demotions_of(0, 0) == 0 && demotions_of(3, 4) == 7 && demotions_of(UINT64_MAX, 2) == 1 && demotions_of(2, UINT64_MAX) == 1 &&
           demotions_of(UINT64_MAX, 0) == UINT64_MAX && demotions_of(UINT64_MAX, UINT64_MAX) == UINT64_MAX - 1 &&
           single.single_demotions == 1 && single.range_demotions == 0 && packet_window_demotions(&single) == 1 &&
           range.single_demotions == 0 && range.range_demotions == 1 && packet_window_demotions(&range) == 1;
}

int main(void)
{
    uint32_t window_size, count;
    size_t lengths[LISTS];
    packet_window_header header;
    if (packet_window_version() != PACKET_WINDOW_VERSION) {
        printf("the library's version is %u, the header's %u\n", (unsigned)packet_window_version(), (unsigned)PACKET_WINDOW_VERSION);
        return 1;
    }
    if (!demotions_hold()) {
        printf("the demotions are wrong\n");
        return 1;
    }
    for (window_size = 1; window_size <= LARGEST; window_size++) {
        named_lengths(window_size, lengths);
        if (!macros_hold(window_size, lengths) || new_with(window_size, lengths).answer.code != PACKET_WINDOW_DONE ||
            !refuses_shorter(window_size, lengths)) {
            printf("the lengths for window_size %u are wrong\n", (unsigned)window_size);
            return 1;
        }
    }
    named_lengths(LARGEST, lengths);
    header = every_third_live(lengths);
    for (count = 1; count <= LARGEST; count += count < 1000 ? 1 : 331) {
        if (!loss_words_hold(header, lengths, count)) {
            printf("the words for %u sequences are wrong\n", (unsigned)count);
            return 1;
        }
    }
    return 0;
}
