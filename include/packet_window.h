/*
 * The adaptive receiver packet window: the C interface of libpacket_window.a, for the System V ABI on x86-64. C99 or C++11.
 *
 * VERSION. Before the first call, see that packet_window_version() is PACKET_WINDOW_VERSION.
 *
 * The window holds packets by sequence number. A value is a 32-bit number of the caller's choice, here the number of a packet store.
 * A sequence's position is its remainder by the capacity; at most one value is live at a position.
 *
 * SEQUENCES. A sequence number has 31 bits, as on the wire: 0 to 2147483647, and 2147483647 is followed by 0. A number with the top bit
 * set is none: every call that takes a sequence, a first or a last refuses it 10, packet_window_set_base refuses it 9. So the first word
 * of a data packet may be handed over as it came (in host order), and one whose reserved top bit is set is turned away.
 *
 * MEMORY. The library allocates nothing, keeps no pointer and has no variables of its own; it needs memcpy and memset. A window is a
 * header and four lists that the caller lends to each call:
 *
 *     list         element     length for a window_size                       one element
 *     sequences    uint32_t    PACKET_WINDOW_CAPACITY(window_size)            of a cell, the sequence
 *     values       uint32_t    PACKET_WINDOW_CAPACITY(window_size)            of a cell, the value
 *     pages        uint64_t    PACKET_WINDOW_PAGE_WORDS(window_size)          three words a page: kind, occupied, filled
 *     blocks       uint64_t    PACKET_WINDOW_BLOCK_WORDS(window_size)         three words a block: nonempty, retired, live
 *     returned     uint32_t    PACKET_WINDOW_RETURN_PLACES, any window        a value handed back; for the calls that name it
 *
 * The loss reports take two lists more, whose lengths go by the number of sequences of the range. Of words fewer places do if all words
 * fit, and a list that is read may have any length:
 *
 *     words        uint32_t    PACKET_WINDOW_LOSS_WORDS(number)               a word of a loss list
 *     lost         uint8_t     number                                         of a sequence, 1 if it is lost, 0 if not
 *
 * A list is two arguments, its start and its length in elements. A list may be longer than named; a shorter one is refused. What lies
 * past the named lengths is never written. A start is not NULL, that of an empty list neither, and is aligned for its element. The lists
 * of one call do not overlap each other. The library cannot test these: it trusts the start and the length that it is given.
 *
 * The header and the first four lists are one window. From packet_window_new on, the calls alone write them, and each call gets them as
 * the last call left them. Between calls they may be moved, all together, since they hold no address. All memory stays the caller's.
 * Before it is used for anything else, take the values back: packet_window_clear, then packet_window_release_retired until retired_held
 * is 0. The return list, words and lost serve one call; between calls they may be used for anything, and several windows may share them.
 *
 * Calls on different windows may run at the same time. Calls on one window may not, save those that write nothing of it. Each call names
 * below what it writes; calls that run at the same time do not share a list that one of them writes.
 *
 * HEADER. It goes in by value and comes back by value, in packet_window_step. Always keep the one that came back, whatever the answer:
 *
 *     step = packet_window_insert(header, sequences, CAPACITY, values, CAPACITY, pages, PAGE_WORDS, blocks, BLOCK_WORDS,
 *                                 returned, PACKET_WINDOW_RETURN_PLACES, sequence, store);
 *     header = step.window;
 *
 * Its counts, base and point may be read (len, retired_held, promotions, single_demotions, range_demotions; packet_window_demotions adds
 * the last two); no field is to be written by the caller. The host forms of insert, remove and release_retired, at the end, take the
 * caller's header by its address instead and update it in place.
 *
 * ACKNOWLEDGE POINT. The header's base is 0 in a new window; packet_window_set_base sets it, and packet_window_take_front moves it by
 * one. Its point is the first sequence from the base, in 31-bit circular order, that is not live (packet_window_get does not find it), or
 * base + window_size if the window_size sequences from the base are all live; sums are modulo 2^31. Every call leaves it right, refused
 * ones too. It is the number that an acknowledgement carries. Each call takes a bounded number of steps for it, but for two: an insert at
 * the point passes over what is live after it, and packet_window_set_base to a sequence that is not in base .. point looks from there on.
 * So take values by packet_window_take_front, or set the base on before the values before it are removed.
 *
 * CHANGES OF KIND. A page that gets more than n values becomes dense (promotions). A removal that leaves a dense page with 1 to demote_at
 * values makes it sparse again: single_demotions counts those by packet_window_remove (its host form too) and packet_window_take_front,
 * range_demotions those by packet_window_remove_range. No other call raises them, no refused one, and no page that is emptied counts. The
 * counts begin at 0 and go on from 2^64 - 1 to 0, so take what came in between as the difference of two readings, unsigned. How to read
 * them, for the choice of demote_at: a dense page that single removals empty is counted once on its way, so single_demotions that keep up
 * with promotions tell that pages are packed shortly before they are empty, work that a lower demote_at saves, with 0 all of it;
 * range_demotions tell that ranges leave pages with few values, which stay sparse until they fill again. A range that goes round into the
 * page in which it began tests that page twice, and may count a page that it then empties.
 *
 * VALUES HANDED BACK. The window gives each accepted value back exactly once:
 *     - in answer.first, when packet_window_insert answers PACKET_WINDOW_REPLACED, and when packet_window_exchange,
 *       packet_window_remove or packet_window_take_front answers PACKET_WINDOW_FOUND;
 *     - in the first `count` places of the return list. Look there after each call that takes one, also after a refusal.
 * Accepted are the values of packet_window_insert unless it is refused, and of packet_window_exchange if it answers
 * PACKET_WINDOW_FOUND. A value that is not accepted stays with the caller.
 *
 * RETIRED VALUES. After packet_window_remove_range, packet_window_clear and packet_window_clear_bounded no call finds the values that they
 * removed, but some may still be held: these are retired, and retired_held counts them. They come back by
 * packet_window_release_retired, by a later remove_range, clear or clear_bounded, or by an insert into their page.
 *
 * REFUSALS leave header and lists as they came and return nothing, save PACKET_WINDOW_REFUSED_UNSOUND. They are tested in the order in
 * which each call below names them.
 *
 * UNSOUND STATES. A state that came from packet_window_new and from calls alone is sound: each call keeps it so. If other code, or a
 * fault of the memory, wrote the header or the lists, the state may be unsound. packet_window_check says whether it is; it cannot see a
 * change that leaves a sound state, such as another value in a cell. On an unsound state every other call still ends, stays inside the
 * lists, writes nothing past their named lengths and nothing past `count` in the return list, and refuses 5, 6, 8, 9 and 10 as
 * always. Beyond that its answer (4 included), the header and the lists are free. It may be refused 7, with a count of values that it has
 * handed back. The loss reports alter no window all the same: packet_window_read_losses answers and refuses (11 and 12 too) as always,
 * packet_window_write_losses writes just as many places of words as it answers, and none if it is refused.
 */
#ifndef PACKET_WINDOW_H
#define PACKET_WINDOW_H

#include <stddef.h>
#include <stdint.h>

#ifdef __cplusplus
extern "C" {
#endif

/* ---- version */

/* 10000 * major + 100 * minor + patch: 0.6.0. CHANGELOG.md says what each version changed. */
#define PACKET_WINDOW_VERSION 600u

/*
 * The version of the library that is linked. Compare it with PACKET_WINDOW_VERSION once, before the first call: with another version the
 * header's fields, the lengths or the numbers may be others.
 */
uint32_t packet_window_version(void);

/* ---- constants and lengths */

/* Positions of a page. */
#define PACKET_WINDOW_PAGE_SLOTS 64u

/* The largest budget of packet_window_release_retired, and number of packet_window_clear_bounded. */
#define PACKET_WINDOW_MAX_RETIRED_RELEASED_PER_VISIT 256u

/* The least length of a return list. */
#define PACKET_WINDOW_RETURN_PLACES 384u

/*
 * Lengths for a window_size of 1 to 65536; packet_window_new refuses any other. With a constant argument they are constant expressions:
 * for #if, and for arrays, also static ones. The argument is evaluated more than once.
 */

/* Positions: window_size, at least 64, raised to a power of two. The length of sequences and of values. */
#define PACKET_WINDOW_CAPACITY(window_size)                                                                                             \
    ((window_size) <= 64      ? 64u                                                                                                     \
     : (window_size) <= 128   ? 128u                                                                                                    \
     : (window_size) <= 256   ? 256u                                                                                                    \
     : (window_size) <= 512   ? 512u                                                                                                    \
     : (window_size) <= 1024  ? 1024u                                                                                                   \
     : (window_size) <= 2048  ? 2048u                                                                                                   \
     : (window_size) <= 4096  ? 4096u                                                                                                   \
     : (window_size) <= 8192  ? 8192u                                                                                                   \
     : (window_size) <= 16384 ? 16384u                                                                                                  \
     : (window_size) <= 32768 ? 32768u                                                                                                  \
                              : 65536u)

/* Pages: 64 positions each. At most 1024. */
#define PACKET_WINDOW_PAGES(window_size) (PACKET_WINDOW_CAPACITY(window_size) / PACKET_WINDOW_PAGE_SLOTS)

/* Blocks: 64 pages each, the last perhaps fewer. At most 16. */
#define PACKET_WINDOW_BLOCKS(window_size) ((PACKET_WINDOW_PAGES(window_size) + 63u) / 64u)

/* The length of pages, and that of blocks. */
#define PACKET_WINDOW_PAGE_WORDS(window_size) (3u * PACKET_WINDOW_PAGES(window_size))
#define PACKET_WINDOW_BLOCK_WORDS(window_size) (3u * PACKET_WINDOW_BLOCKS(window_size))

/*
 * The most words that a loss list of `count` sequences has: packet_window_write_losses over so many is not refused 11 with a list of so
 * many places. `count` is at most the window_size; PACKET_WINDOW_LOSS_WORDS(window_size) places serve for every range.
 */
#define PACKET_WINDOW_LOSS_WORDS(count) ((count) - (count) / 3u)

/* ---- header */

typedef struct packet_window_header {
    /* As given to packet_window_new. */
    uint32_t window_size;
    uint32_t n;
    uint32_t demote_at;
    /* Live values. */
    uint32_t len;
    /* Retired values still held. */
    uint32_t retired_held;
    /* The page that packet_window_release_retired inspects next. */
    uint32_t release_cursor;
    /* Below 2147483648. 0, or as packet_window_set_base and packet_window_take_front left it. */
    uint32_t base;
    /* The first sequence from the base that is not live; base + window_size, modulo 2^31, if that many from the base are live. */
    uint32_t point;
    /* Bit b: a page of block b holds a value. */
    uint64_t nonempty_summary;
    /* Bit b: every page of block b counts as retired. */
    uint64_t retired_blocks;
    /* Pages that became sparse again by packet_window_remove and packet_window_take_front; modulo 2^64. */
    uint64_t single_demotions;
    /* Pages that became sparse again by packet_window_remove_range; modulo 2^64. */
    uint64_t range_demotions;
    /* Pages that became dense; modulo 2^64. */
    uint64_t promotions;
} packet_window_header;

/* All pages that became sparse again, by either cause; modulo 2^64. */
static inline uint64_t packet_window_demotions(const packet_window_header *header)
{
    return header->single_demotions + header->range_demotions;
}

/* ---- answers */

/* packet_window_answer.code. The numbers first to fourth that a code does not name here carry nothing. */
enum packet_window_code {
    /* Nothing to tell; fourth: for packet_window_iter, as below. */
    PACKET_WINDOW_DONE = 0,
    /* Inserted at a free position. */
    PACKET_WINDOW_NEW = 1,
    /* Inserted in place of the same sequence's value. first: the old value, handed back. */
    PACKET_WINDOW_REPLACED = 2,
    /* None there. */
    PACKET_WINDOW_ABSENT = 3,
    /* first: a value, a sequence or a number, as the call says. */
    PACKET_WINDOW_FOUND = 4,
    /* first: a sequence; second: its value; for packet_window_iter third: the cell to go on from; fourth: how many blocks it entered. */
    PACKET_WINDOW_PAIR = 5,
    /* first: values handed back; second: units used. */
    PACKET_WINDOW_RELEASED = 6,
    /* first: an enum packet_window_refusal. */
    PACKET_WINDOW_REFUSED = 7
};

enum packet_window_refusal {
    /* packet_window_new: window_size is not within 1 to 65536. */
    PACKET_WINDOW_REFUSED_WINDOW_SIZE = 1,
    /* packet_window_new: n is not within 1 to 63. */
    PACKET_WINDOW_REFUSED_SPARSE_CELLS = 2,
    /* packet_window_new: demote_at is above n. */
    PACKET_WINDOW_REFUSED_DEMOTE_AT = 3,
    /* packet_window_insert: another sequence holds the position. */
    PACKET_WINDOW_REFUSED_OCCUPIED = 4,
    /*
     * packet_window_remove_range, packet_window_stranger, packet_window_write_losses, packet_window_read_losses: the range counts more
     * than window_size sequences.
     */
    PACKET_WINDOW_REFUSED_RANGE_COUNT = 5,
    /* A list is shorter than named, or the header is outside the limits of 1 to 3, as that of a refused packet_window_new is. */
    PACKET_WINDOW_REFUSED_SHORT_MEMORY = 6,
    /* The state is not sound. packet_window_check: exactly then. Any other call: perhaps, and the count may then be above 0. */
    PACKET_WINDOW_REFUSED_UNSOUND = 7,
    /* packet_window_release_retired, packet_window_clear_bounded: the number is above 256. */
    PACKET_WINDOW_REFUSED_BUDGET = 8,
    /* packet_window_set_base: a base of 2147483648 or more. */
    PACKET_WINDOW_REFUSED_BASE = 9,
    /* Every call that takes a sequence, a first or a last: it is 2147483648 or more. */
    PACKET_WINDOW_REFUSED_SEQUENCE = 10,
    /* packet_window_write_losses: words has fewer places than there are words; packet_window_read_losses: lost, than sequences. */
    PACKET_WINDOW_REFUSED_SHORT_LIST = 11,
    /* packet_window_read_losses: a list that packet_window_write_losses could write for no set of losses of this range. */
    PACKET_WINDOW_REFUSED_LOSS_LIST = 12
};

typedef struct packet_window_answer {
    uint32_t code;
    uint32_t first;
    uint32_t second;
    uint32_t third;
    uint32_t fourth;
} packet_window_answer;

/* What a call gives back: the header to keep, the answer, and how many places of the return list it has written, from the first. */
typedef struct packet_window_step {
    packet_window_header window;
    packet_window_answer answer;
    uint32_t count;
} packet_window_step;

/* What a host form gives back: a step without the header, which it has updated. */
typedef struct packet_window_outcome {
    packet_window_answer answer;
    uint32_t count;
} packet_window_outcome;

/* ---- a new window */

/*
 * An empty window over lists of any content. n: the cells of a sparse page, 1 to 63; a page with more values becomes dense. demote_at:
 * a dense page that a removal leaves with this many values or fewer becomes sparse again; at most n, and 0 for never. Neither changes
 * what insert, get, exchange, remove, set_base, take_front, successor_after, first_from, remove_range, write_losses and read_losses answer.
 * Writes pages and blocks. What an earlier window in the same lists held is forgotten and not handed back.
 * Answers: PACKET_WINDOW_DONE, with the new header. Refused: 1, 2, 3, 6; the header that comes back is then all zero, and every call
 * with it is refused 6. The lists stay as they were, and an earlier window in them goes on with its own header.
 */
packet_window_step packet_window_new(
    uint32_t *sequences, size_t sequences_length, uint32_t *values, size_t values_length,
    uint64_t *pages, size_t pages_length, uint64_t *blocks, size_t blocks_length,
    uint32_t window_size, uint32_t n, uint32_t demote_at);

/* ---- one sequence */

/*
 * Puts a value at a sequence. If the page of its position is retired, the retired values of that page are handed back first, in the
 * return list.
 * Writes all lists.
 * Answers: PACKET_WINDOW_NEW, or PACKET_WINDOW_REPLACED with the old value; count values in the return list. Refused: 6, 10, 4; the
 * value then stays with the caller.
 */
packet_window_step packet_window_insert(
    packet_window_header w,
    uint32_t *sequences, size_t sequences_length, uint32_t *values, size_t values_length,
    uint64_t *pages, size_t pages_length, uint64_t *blocks, size_t blocks_length,
    uint32_t *returned, size_t returned_length,
    uint32_t sequence, uint32_t value);

/*
 * The value of a sequence. It stays in the window.
 * Writes nothing.
 * Answers: PACKET_WINDOW_FOUND with the value, or PACKET_WINDOW_ABSENT. Refused: 6, 10.
 */
packet_window_step packet_window_get(
    packet_window_header w,
    const uint32_t *sequences, size_t sequences_length, const uint32_t *values, size_t values_length,
    const uint64_t *pages, size_t pages_length, const uint64_t *blocks, size_t blocks_length,
    uint32_t sequence);

/*
 * Puts a value in place of the one that the sequence has.
 * Writes values.
 * Answers: PACKET_WINDOW_FOUND with the old value, handed back; or PACKET_WINDOW_ABSENT, and the new value stays with the caller.
 * Refused: 6, 10.
 */
packet_window_step packet_window_exchange(
    packet_window_header w,
    const uint32_t *sequences, size_t sequences_length, uint32_t *values, size_t values_length,
    const uint64_t *pages, size_t pages_length, const uint64_t *blocks, size_t blocks_length,
    uint32_t sequence, uint32_t value);

/*
 * Removes the value of a sequence.
 * Writes sequences, values, pages, blocks.
 * Answers: PACKET_WINDOW_FOUND with the value, handed back; or PACKET_WINDOW_ABSENT. Refused: 6, 10.
 */
packet_window_step packet_window_remove(
    packet_window_header w,
    uint32_t *sequences, size_t sequences_length, uint32_t *values, size_t values_length,
    uint64_t *pages, size_t pages_length, uint64_t *blocks, size_t blocks_length,
    uint32_t sequence);

/* ---- the base and its point */

/*
 * Sets the base, forwards or backwards, also away from all values. The point follows; nothing is removed.
 * Writes nothing but the header.
 * Answers: PACKET_WINDOW_DONE. Refused: 6, 9.
 */
packet_window_step packet_window_set_base(
    packet_window_header w,
    const uint32_t *sequences, size_t sequences_length, const uint32_t *values, size_t values_length,
    const uint64_t *pages, size_t pages_length, const uint64_t *blocks, size_t blocks_length,
    uint32_t base);

/*
 * Removes the value of the base and moves the base by one, modulo 2^31. If the base has none, nothing moves.
 * Writes sequences, values, pages, blocks.
 * Answers: PACKET_WINDOW_FOUND with the value, handed back; or PACKET_WINDOW_ABSENT. Refused: 6.
 */
packet_window_step packet_window_take_front(
    packet_window_header w,
    uint32_t *sequences, size_t sequences_length, uint32_t *values, size_t values_length,
    uint64_t *pages, size_t pages_length, uint64_t *blocks, size_t blocks_length);

/* ---- searches */

/*
 * The first live sequence by position, from the position after the given sequence's, round the capacity, to its own last of all. The
 * sequence found may lie outside the caller's range, since the search goes by position.
 * Writes nothing.
 * Answers: PACKET_WINDOW_FOUND with the sequence, or PACKET_WINDOW_ABSENT if none is live. Refused: 6, 10.
 */
packet_window_step packet_window_successor_after(
    packet_window_header w,
    const uint32_t *sequences, size_t sequences_length, const uint32_t *values, size_t values_length,
    const uint64_t *pages, size_t pages_length, const uint64_t *blocks, size_t blocks_length,
    uint32_t sequence);

/* The same, from the given sequence's own position. */
packet_window_step packet_window_first_from(
    packet_window_header w,
    const uint32_t *sequences, size_t sequences_length, const uint32_t *values, size_t values_length,
    const uint64_t *pages, size_t pages_length, const uint64_t *blocks, size_t blocks_length,
    uint32_t sequence);

/*
 * One step over the live pairs, in the order of pages, then of cells: the next from a cell on. Begin with cell 0 and go on with the
 * cell that the answer carries, with no call between that writes anything of the window.
 * A step enters the block of its cell and each block after it up to that of the pair, or to the last; on entering a block it reads the
 * block's retired word, once, and not at each of its 64 pages. fourth is the number of these reads: 1 to 16, and 0 from a cell of the
 * capacity or more.
 * Writes nothing.
 * Answers: PACKET_WINDOW_PAIR with sequence, value, the cell to go on from and the reads; or PACKET_WINDOW_DONE with the reads as fourth,
 * also from a cell of the capacity or more. Refused: 6.
 */
packet_window_step packet_window_iter(
    packet_window_header w,
    const uint32_t *sequences, size_t sequences_length, const uint32_t *values, size_t values_length,
    const uint64_t *pages, size_t pages_length, const uint64_t *blocks, size_t blocks_length,
    uint32_t cell);

/* ---- ranges, release and clear */

/*
 * Removes the values at the positions of first to last, whatever their sequences are. The range counts
 * ((last - first) modulo 2^32, lowest 31 bits) + 1 positions, in a row from first's, round the capacity. Then releases with a budget of
 * 256. What is not handed back by this call stays retired.
 * Writes all lists.
 * Answers: PACKET_WINDOW_FOUND with the number of values that were live; count values in the return list, more or fewer than these.
 * Refused: 6, 10, 5.
 */
packet_window_step packet_window_remove_range(
    packet_window_header w,
    uint32_t *sequences, size_t sequences_length, uint32_t *values, size_t values_length,
    uint64_t *pages, size_t pages_length, uint64_t *blocks, size_t blocks_length,
    uint32_t *returned, size_t returned_length,
    uint32_t first, uint32_t last);

/*
 * Hands retired values back, within a budget of 0 to 256 units: one unit for each page inspected and one for each value. Calls whose
 * budgets' halves, rounded down, add up to at least retired_held leave none retired, if no other call comes between.
 * A budget may be split: a call with a and then one with b, a + b at most 256 and no other call between, hand back the values that one
 * call with a + b would, in its order, save perhaps its last one, which stays held. A larger budget hands back what a smaller one would,
 * in its order, and then perhaps more.
 * Writes pages, blocks, returned.
 * Answers: PACKET_WINDOW_RELEASED with the number of values and the units used; count is that number of values. Refused: 6, 8.
 */
packet_window_step packet_window_release_retired(
    packet_window_header w,
    const uint32_t *sequences, size_t sequences_length, const uint32_t *values, size_t values_length,
    uint64_t *pages, size_t pages_length, uint64_t *blocks, size_t blocks_length,
    uint32_t *returned, size_t returned_length,
    uint32_t budget);

/*
 * Retires all values, then releases with a budget of 256. What is not handed back by this call stays retired.
 * Writes pages, blocks, returned.
 * Answers: PACKET_WINDOW_DONE; count values in the return list. Refused: 6.
 */
packet_window_step packet_window_clear(
    packet_window_header w,
    const uint32_t *sequences, size_t sequences_length, const uint32_t *values, size_t values_length,
    uint64_t *pages, size_t pages_length, uint64_t *blocks, size_t blocks_length,
    uint32_t *returned, size_t returned_length);

/*
 * Retires all values, then hands back as many as are held, at most `number`, which is 0 to 256. The rest stays retired.
 * Writes pages, blocks, returned.
 * Answers: PACKET_WINDOW_FOUND with how many were handed back; count is the same. Refused: 6, 8.
 */
packet_window_step packet_window_clear_bounded(
    packet_window_header w,
    const uint32_t *sequences, size_t sequences_length, const uint32_t *values, size_t values_length,
    uint64_t *pages, size_t pages_length, uint64_t *blocks, size_t blocks_length,
    uint32_t *returned, size_t returned_length,
    uint32_t number);

/*
 * ---- loss reports
 *
 * A loss list names the sequences of a range first to last that are lost, in circular order from first, as the loss report (NAK) of SRT
 * carries them. A word is a sequence; a run of three or more lost in a row is two words, its first sequence with the top bit set, and its
 * last. With nothing live, 5 to 7 is 0x80000005 7, 5 to 6 is 5 6, and 2147483647 to 1 is 0xffffffff 1. A run goes on from 2147483647
 * to 0, and ends with the range. Words are in host order; a report on the wire has them in network order, so a sender swaps them (htonl)
 * and a receiver swaps them back (ntohl) before it reads them. A set of losses has just one list.
 *
 * The lists of these two calls are no return lists: nothing in them is handed back, and count is 0.
 */

/*
 * The loss list of the sequences of first to last that are not live (packet_window_get does not find them), from the first place of
 * `words` on. PACKET_WINDOW_LOSS_WORDS(sequences of the range) places are always enough; fewer may be. Places past the words stay as they
 * were.
 * Writes words. The window is not altered, sound or not.
 * Answers: PACKET_WINDOW_FOUND with the number of words; 0 if nothing is lost. Refused: 6, 10, 5, 11; words stays as it was.
 */
packet_window_step packet_window_write_losses(
    packet_window_header w,
    const uint32_t *sequences, size_t sequences_length, const uint32_t *values, size_t values_length,
    const uint64_t *pages, size_t pages_length, const uint64_t *blocks, size_t blocks_length,
    uint32_t *words, size_t words_length,
    uint32_t first, uint32_t last);

/*
 * What the whole list `words` says of the sequences of first to last: a byte for each, in order, 1 if it is lost and 0 if not, from the
 * first place of `lost` on. An empty list says that none is. Places past the bytes stay as they were. Nothing of the window is looked at
 * but the header's limits and the lengths of the lists.
 * Writes lost. The window is not altered, sound or not.
 * Answers: PACKET_WINDOW_FOUND with how many are lost. Refused: 6, 10, 5, 11, 12; lost stays as it was.
 */
packet_window_step packet_window_read_losses(
    packet_window_header w,
    const uint32_t *sequences, size_t sequences_length, const uint32_t *values, size_t values_length,
    const uint64_t *pages, size_t pages_length, const uint64_t *blocks, size_t blocks_length,
    const uint32_t *words, size_t words_length, uint8_t *lost, size_t lost_length,
    uint32_t first, uint32_t last);

/* ---- audits */

/*
 * A live pair at a position of first to last whose sequence is none of the range's.
 * Writes nothing.
 * Answers: PACKET_WINDOW_PAIR with sequence and value, or PACKET_WINDOW_ABSENT exactly if there is none. Refused: 6, 10, 5.
 */
packet_window_step packet_window_stranger(
    packet_window_header w,
    const uint32_t *sequences, size_t sequences_length, const uint32_t *values, size_t values_length,
    const uint64_t *pages, size_t pages_length, const uint64_t *blocks, size_t blocks_length,
    uint32_t first, uint32_t last);

/*
 * Whether the state is sound. It looks at every page.
 * Writes nothing.
 * Answers: PACKET_WINDOW_DONE if it is. Refused: 6; 7 exactly if it is not.
 */
packet_window_step packet_window_check(
    packet_window_header w,
    const uint32_t *sequences, size_t sequences_length, const uint32_t *values, size_t values_length,
    const uint64_t *pages, size_t pages_length, const uint64_t *blocks, size_t blocks_length);

/*
 * ---- host forms
 *
 * Each is the call of its name, with the same answers, refusals and writes, but the caller's header is lent by its address and updated
 * in place. A refusal leaves it as it was, but writes it back all the same: it must not lie in memory that is for reading only. The
 * address is not NULL and is aligned; the header does not overlap a list.
 */

packet_window_outcome packet_window_host_insert(
    packet_window_header *w,
    uint32_t *sequences, size_t sequences_length, uint32_t *values, size_t values_length,
    uint64_t *pages, size_t pages_length, uint64_t *blocks, size_t blocks_length,
    uint32_t *returned, size_t returned_length,
    uint32_t sequence, uint32_t value);

packet_window_outcome packet_window_host_remove(
    packet_window_header *w,
    uint32_t *sequences, size_t sequences_length, uint32_t *values, size_t values_length,
    uint64_t *pages, size_t pages_length, uint64_t *blocks, size_t blocks_length,
    uint32_t sequence);

packet_window_outcome packet_window_host_release_retired(
    packet_window_header *w,
    const uint32_t *sequences, size_t sequences_length, const uint32_t *values, size_t values_length,
    uint64_t *pages, size_t pages_length, uint64_t *blocks, size_t blocks_length,
    uint32_t *returned, size_t returned_length,
    uint32_t budget);

/* ---- the layout that the library has; a compiler that lays the structs out otherwise stops here */

#ifdef __cplusplus
#define PACKET_WINDOW_HOLDS(name, condition) static_assert(condition, #name)
#else
#define PACKET_WINDOW_HOLDS(name, condition) typedef char packet_window_holds_##name[(condition) ? 1 : -1]
#endif
#define PACKET_WINDOW_AT(type, field, offset) PACKET_WINDOW_HOLDS(type##_##field, offsetof(packet_window_##type, field) == (offset))
#define PACKET_WINDOW_SIZE(type, size) PACKET_WINDOW_HOLDS(type##_size, sizeof(packet_window_##type) == (size))

PACKET_WINDOW_HOLDS(pointers, sizeof(void *) == 8 && sizeof(size_t) == 8);
PACKET_WINDOW_AT(header, window_size, 0);
PACKET_WINDOW_AT(header, n, 4);
PACKET_WINDOW_AT(header, demote_at, 8);
PACKET_WINDOW_AT(header, len, 12);
PACKET_WINDOW_AT(header, retired_held, 16);
PACKET_WINDOW_AT(header, release_cursor, 20);
PACKET_WINDOW_AT(header, base, 24);
PACKET_WINDOW_AT(header, point, 28);
PACKET_WINDOW_AT(header, nonempty_summary, 32);
PACKET_WINDOW_AT(header, retired_blocks, 40);
PACKET_WINDOW_AT(header, single_demotions, 48);
PACKET_WINDOW_AT(header, range_demotions, 56);
PACKET_WINDOW_AT(header, promotions, 64);
PACKET_WINDOW_SIZE(header, 72);
PACKET_WINDOW_AT(answer, code, 0);
PACKET_WINDOW_AT(answer, first, 4);
PACKET_WINDOW_AT(answer, second, 8);
PACKET_WINDOW_AT(answer, third, 12);
PACKET_WINDOW_AT(answer, fourth, 16);
PACKET_WINDOW_SIZE(answer, 20);
PACKET_WINDOW_AT(step, window, 0);
PACKET_WINDOW_AT(step, answer, 72);
PACKET_WINDOW_AT(step, count, 92);
PACKET_WINDOW_SIZE(step, 96);
PACKET_WINDOW_AT(outcome, answer, 0);
PACKET_WINDOW_AT(outcome, count, 20);
PACKET_WINDOW_SIZE(outcome, 24);

#undef PACKET_WINDOW_AT
#undef PACKET_WINDOW_SIZE
#undef PACKET_WINDOW_HOLDS

#ifdef __cplusplus
}
#endif

#endif
