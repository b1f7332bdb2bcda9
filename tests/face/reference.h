// The rules of document 01 once more, written apart from the library in plain C, to compare with.
#ifndef REFERENCE_H
#define REFERENCE_H
#include "../../include/jellyspire.h"

// What a selection should answer. `exact` is 1 where `slots` is known too: by trying every set, on wheels of up to ten
// slots. Above that count and words are those of the published algorithm, and the set is to be checked by the rules.
typedef struct {
    uint32_t number;
    int exact;
    uint64_t slots;
    int count;
    int words;
} reference_answer;

int reference_words(jellyspire_chip w, uint64_t set);
int reference_gap(jellyspire_chip w, uint64_t set);
int reference_count(uint64_t set);

reference_answer reference_select(jellyspire_chip w, uint64_t free, size_t words, size_t limit);

// 0, or the first of 1, 2, 3, 4 that holds.
jellyspire_number reference_agree(jellyspire_chip w, const uint8_t *table, size_t table_size, const uint8_t *list, size_t list_size);
jellyspire_cells reference_report(jellyspire_chip w, const uint8_t *table, size_t table_size, const uint8_t *list, size_t list_size);
jellyspire_part reference_row(jellyspire_chip w, size_t table_size, size_t channel);

// Closing changes table and list; opening only answers, and `reference_opened` writes what the chosen slots ask for.
jellyspire_clearing reference_close(jellyspire_chip w, uint8_t *table, size_t table_size, uint8_t *list, size_t list_size, size_t flow);
reference_answer reference_open(jellyspire_chip w, const uint8_t *table, size_t table_size, const uint8_t *list, size_t list_size,
                                size_t flow, jellyspire_path path, size_t words, size_t deadline, uint64_t *free);
void reference_opened(jellyspire_chip w, uint8_t *table, uint8_t *list, size_t flow, jellyspire_path path, size_t words,
                      size_t deadline, uint64_t slots);

#endif
