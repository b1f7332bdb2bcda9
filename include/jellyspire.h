// Jellyspire for C and C++: the slot table of a chip with an Aethereal-style network inside.
//
// A caller says what its chip is (jellyspire_chip) and lends two buffers (jellyspire_buffers) to each call:
//   the table, 64 bytes for each of 1 to 64 channels, channel c from byte 64 * c on. A cell is 0 if it is free, or the
//     number of the flow that holds it. Cells from n on are 0.
//   the list, 64 bytes for each of 1 to 64 flows, flow f from byte 64 * (f - 1) on, as below. All zeros: every flow closed.
// A new table and a new list are zeros. Both are kept by the calls below; other writers are at their own risk, and what
// they break the next call refuses with 4.
//
// Set a struct to zeros and fill in what you know, as `jellyspire_chip chip = {0}; chip.n = 8;` or `{.n = 8, ..}` does. Later
// versions add fields; what you leave at 0 is refused with a number of its own where it is needed, and never guessed: a chip
// of zeros with 1, no table with 2, no list with 3.
//
// Table and list do not overlap, and each has as many bytes as its size says. A null pointer is a buffer of size 0. No call
// allocates, keeps a pointer or calls back; each needs less than 64 KiB of stack.
//
// A number of 0 is a yes. Otherwise it is the refusal: the first that holds in the order that stands with the call. A
// refusal changes no byte of table or list, and every other value of the answer is 0.
//
// Link libjellyspire.a, which tools/archive makes (docs/ARCHIVE.md).
#ifndef JELLYSPIRE_H
#define JELLYSPIRE_H

#include <stddef.h>
#include <stdint.h>

#ifdef __cplusplus
extern "C" {
#endif

// A record of the list: 32 numbers of 16 bits, low byte first.
//   bytes  0.. 1  state: 0 closed, 1 open
//          2.. 3  words asked for in a revolution; 0 if closed
//          4.. 5  deadline in slots, 65535 for a longer one; 0 if closed
//          6.. 7  path length, 1 to 16; 0 if closed
//          8..39  sixteen channel numbers; 0 from the path length on
//         40..47  the chosen slots, bit s of the 64-bit number is slot s; 0 if closed
//         48..63  reserved, 0
// Anything else is no record, and table and list do not agree: 4.
enum {
    JELLYSPIRE_ROW_BYTES = 64,
    JELLYSPIRE_RECORD_BYTES = 64,
    JELLYSPIRE_PATH_CHANNELS = 16
};

// What a call answers first: yes, or why not.
typedef enum {
    JELLYSPIRE_YES = 0,
    JELLYSPIRE_BAD_WHEEL = 1,      // n, s, h or p of the chip lies outside its range
    JELLYSPIRE_BAD_TABLE = 2,      // the table is not 64 bytes for each of 1 to 64 channels
    JELLYSPIRE_BAD_LIST = 3,       // the list is not 64 bytes for each of 1 to 64 flows
    JELLYSPIRE_DISAGREE = 4,       // table and list do not agree, or a record is none
    JELLYSPIRE_PATH_LENGTH = 5,    // the path has no channel, or more than 16
    JELLYSPIRE_NO_CHANNEL = 6,     // an entry of the path is no channel of the table
    JELLYSPIRE_CHANNEL_TWICE = 7,  // a channel stands twice in the path
    JELLYSPIRE_NO_FLOW = 8,        // the flow is 0, or the list has no such flow
    JELLYSPIRE_ALREADY_OPEN = 9,   // the flow is open
    JELLYSPIRE_NOT_OPEN = 10,      // the flow is not open
    JELLYSPIRE_NO_WORDS = 11,      // no words are asked for
    JELLYSPIRE_NO_TIME = 12,       // the deadline is not above the path length; in bare selection, the limit is 0
    JELLYSPIRE_TOO_MUCH = 13,      // no set of free slots delivers so many words
    JELLYSPIRE_TOO_FAR = 14,       // some set does, but none of those keeps its gaps small enough
    JELLYSPIRE_SLOT_BEYOND = 15    // a free slot is named at n or beyond
} jellyspire_number;

// What the chip is: a wheel of n slots (1 to 64) with s words in a slot (2 to 64), h header words (0 to s - 1) and a header
// every p slots of a run (1 to 64).
typedef struct {
    size_t n;
    size_t s;
    size_t h;
    size_t p;
} jellyspire_chip;

// The buffers that are lent, each with its size in bytes. jellyspire_report, jellyspire_agree and jellyspire_row only read.
typedef struct {
    uint8_t *table;
    size_t table_size;
    uint8_t *list;
    size_t list_size;
} jellyspire_buffers;

// A path: the first `length` of sixteen channel numbers; the others are ignored.
typedef struct {
    uint16_t channels[JELLYSPIRE_PATH_CHANNELS];
    size_t length;
} jellyspire_path;

// What opening and bare selection answer: on a yes slots has a bit for each chosen slot, counted at the first channel,
// count says how many they are and words how many words they deliver in a revolution.
typedef struct {
    jellyspire_number number;
    uint64_t slots;
    size_t count;
    size_t words;
} jellyspire_selection;

// What closing answers: how many cells were cleared.
typedef struct {
    jellyspire_number number;
    size_t cells;
} jellyspire_clearing;

// What the report answers: the cells that are free and those that open flows hold, together channels times n.
typedef struct {
    jellyspire_number number;
    size_t free;
    size_t held;
} jellyspire_cells;

// A part of the table: its first byte and its size.
typedef struct {
    size_t offset;
    size_t length;
} jellyspire_part;

// ---- the boundary: not for callers
// Numbers and pointers only, so that it is the same on every 64-bit processor. The result is the number of the answer, and
// the values of a yes are written to `values`. Here no pointer may be null, also where its size is 0.
uint64_t jellyspire_raw_open(uint8_t *table, size_t table_size, uint8_t *list, size_t list_size, size_t n, size_t s, size_t h,
                             size_t p, size_t flow, const uint16_t path[16], size_t len, size_t words, size_t deadline,
                             uint64_t values[3]);
uint64_t jellyspire_raw_close(uint8_t *table, size_t table_size, uint8_t *list, size_t list_size, size_t n, size_t s,
                              size_t h, size_t p, size_t flow, uint64_t values[1]);
uint64_t jellyspire_raw_report(const uint8_t *table, size_t table_size, const uint8_t *list, size_t list_size, size_t n,
                               size_t s, size_t h, size_t p, uint64_t values[2]);
uint64_t jellyspire_raw_agree(const uint8_t *table, size_t table_size, const uint8_t *list, size_t list_size, size_t n,
                              size_t s, size_t h, size_t p);
uint64_t jellyspire_raw_row(const uint8_t *table, size_t table_size, size_t n, size_t s, size_t h, size_t p, size_t channel,
                            uint64_t values[2]);
uint64_t jellyspire_raw_select(size_t n, size_t s, size_t h, size_t p, uint64_t free, size_t words, size_t limit,
                               uint64_t values[3]);

// The library was built for a size_t of 64 bits.
typedef char jellyspire_size_is_64_bits[sizeof(size_t) == 8 ? 1 : -1];

// The buffers with a byte of `none` in place of each null pointer, and size 0.
static inline jellyspire_buffers jellyspire_lent(jellyspire_buffers lent, uint8_t *none)
{
    if (lent.table == NULL) {
        lent.table = none;
        lent.table_size = 0;
    }
    if (lent.list == NULL) {
        lent.list = none;
        lent.list_size = 0;
    }
    return lent;
}

// ---- the calls

// Opens `flow` on a path with a demand of `words` words in a revolution, each there within `deadline` slots: chooses the
// best of the path's free slots (fewest slots, then most words, then the tie rule), writes the flow's number into its
// cells, slot s into cell (s + i) mod n of the path's channel i, and the flow's record. Nothing else is changed. A deadline
// above 65,535 is kept in the record as 65,535, which restricts no more.
// Refusals, the first that holds: 1, 2, 3, 4, 5, 6, 7, 8, 9, 11, 12, 13, 14.
static inline jellyspire_selection jellyspire_open(jellyspire_chip chip, jellyspire_buffers lent, size_t flow,
                                                   jellyspire_path path, size_t words, size_t deadline)
{
    uint8_t none = 0;
    uint64_t values[3] = {0, 0, 0};
    jellyspire_selection answer;
    lent = jellyspire_lent(lent, &none);
    answer.number = (jellyspire_number)jellyspire_raw_open(lent.table, lent.table_size, lent.list, lent.list_size, chip.n,
                                                           chip.s, chip.h, chip.p, flow, path.channels, path.length, words,
                                                           deadline, values);
    answer.slots = values[0];
    answer.count = (size_t)values[1];
    answer.words = (size_t)values[2];
    return answer;
}

// Closes `flow`: sets its cells and its record to 0. Nothing else is changed.
// Refusals, the first that holds: 1, 2, 3, 4, 8, 10.
static inline jellyspire_clearing jellyspire_close(jellyspire_chip chip, jellyspire_buffers lent, size_t flow)
{
    uint8_t none = 0;
    uint64_t values[1] = {0};
    jellyspire_clearing answer;
    lent = jellyspire_lent(lent, &none);
    answer.number = (jellyspire_number)jellyspire_raw_close(lent.table, lent.table_size, lent.list, lent.list_size, chip.n,
                                                            chip.s, chip.h, chip.p, flow, values);
    answer.cells = (size_t)values[0];
    return answer;
}

// Counts free and held cells. Changes nothing. Refusals, the first that holds: 1, 2, 3, 4.
static inline jellyspire_cells jellyspire_report(jellyspire_chip chip, jellyspire_buffers lent)
{
    uint8_t none = 0;
    uint64_t values[2] = {0, 0};
    jellyspire_cells answer;
    lent = jellyspire_lent(lent, &none);
    answer.number = (jellyspire_number)jellyspire_raw_report(lent.table, lent.table_size, lent.list, lent.list_size, chip.n,
                                                             chip.s, chip.h, chip.p, values);
    answer.free = (size_t)values[0];
    answer.held = (size_t)values[1];
    return answer;
}

// Whether table and list agree: 0, or the first that holds of 1, 2, 3, 4. Changes nothing.
static inline jellyspire_number jellyspire_agree(jellyspire_chip chip, jellyspire_buffers lent)
{
    uint8_t none = 0;
    lent = jellyspire_lent(lent, &none);
    return (jellyspire_number)jellyspire_raw_agree(lent.table, lent.table_size, lent.list, lent.list_size, chip.n, chip.s,
                                                   chip.h, chip.p);
}

// Where the n cells of a channel stand in the table; 0 and 0 if the chip's wheel, the table's size or the channel is bad.
// The list is not looked at. Changes nothing.
static inline jellyspire_part jellyspire_row(jellyspire_chip chip, jellyspire_buffers lent, size_t channel)
{
    uint8_t none = 0;
    uint64_t values[2] = {0, 0};
    jellyspire_part part;
    lent = jellyspire_lent(lent, &none);
    (void)jellyspire_raw_row(lent.table, lent.table_size, chip.n, chip.s, chip.h, chip.p, channel, values);
    part.offset = (size_t)values[0];
    part.length = (size_t)values[1];
    return part;
}

// Bare selection, with no table: the best set of the slots named in `free` (bit s is slot s) that delivers at least
// `words` words in a revolution with no gap above `limit` slots.
// Refusals, the first that holds: 1, 15, 11, 12, 13, 14.
static inline jellyspire_selection jellyspire_select(jellyspire_chip chip, uint64_t free, size_t words, size_t limit)
{
    uint64_t values[3] = {0, 0, 0};
    jellyspire_selection answer;
    answer.number = (jellyspire_number)jellyspire_raw_select(chip.n, chip.s, chip.h, chip.p, free, words, limit, values);
    answer.slots = values[0];
    answer.count = (size_t)values[1];
    answer.words = (size_t)values[2];
    return answer;
}

#ifdef __cplusplus
}
#endif

#endif
