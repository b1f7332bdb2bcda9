// The published slot selection (source 004, Algorithm 1), written apart from the library, mended where document 01 says
// that the paper slips: a slot that goes on in a run gains S and a header is paid by the first slot of a run and every
// P-th after it; the gap over the wrap obeys the same limit as every other. It does not know rule 6's tie rule: of the
// sets with fewest slots and most words it keeps the first that it meets.
#ifndef PUBLISHED_H
#define PUBLISHED_H
#include <stdint.h>

typedef struct {
    int granted;
    uint64_t slots;
    int count;
    int words;
} published_answer;

// The words that a set of slots delivers, and its largest gap (0 for the empty set).
int published_words(int n, int s, int h, int p, uint64_t set);
int published_gap(int n, uint64_t set);

published_answer published_select(int n, int s, int h, int p, uint64_t free, int words, int limit);

#endif
