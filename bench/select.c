// Bare selection beside the published algorithm: the same inputs in one run, the time of a call of each, and the ratio.
// Then the worst and the mean time over 100,000 random inputs at N 64.
#include "bench.h"
#include "published.h"
#include "../include/jellyspire.h"
#include <stdio.h>
#include <stdlib.h>

#define SETS 50
#define AGAIN 3

typedef struct {
    const char *name;
    int s, h, p, percent, words, limit;
    int at_least; // the ratio that is asked for at N 64
} class_of_inputs;

static const class_of_inputs classes[] = {
    {"all free, W 60, no gap limit", 3, 1, 3, 100, 60, 64, 500},
    {"95 % free, W 100, no gap limit", 3, 1, 3, 95, 100, 64, 500},
    {"P 64, 95 % free, S 64 H 5, W 1500", 64, 5, 64, 95, 1500, 64, 500},
    {"95 % free, W 60, L 8", 3, 1, 3, 95, 60, 8, 100},
    {"60 % free, W 20, L 16", 3, 1, 3, 60, 20, 16, 60},
};

static volatile uint64_t sink;

static jellyspire_chip wheel_of(const class_of_inputs *c, int n)
{
    jellyspire_chip w = {(size_t)n, (size_t)c->s, (size_t)c->h, (size_t)(c->p < n ? c->p : n)};
    return w;
}

// the demand, scaled to a wheel of n slots
static int scaled(int value, int n) { return (value * n + 63) / 64; }

// the time of one call of ours, in seconds, over the given sets
static double time_ours(jellyspire_chip w, const uint64_t *sets, int words, int limit)
{
    long calls = 0;
    double start = seconds(), spent = 0;
    while (spent < 0.15) {
        for (int i = 0; i < SETS; i++)
            sink += jellyspire_select(w, sets[i], (size_t)words, (size_t)limit).slots;
        calls += SETS;
        spent = seconds() - start;
    }
    return spent / (double)calls;
}

// the time of one call of the published algorithm; it is slow, so some sets must do
static double time_published(jellyspire_chip w, const uint64_t *sets, int words, int limit)
{
    long calls = 0;
    double start = seconds(), spent = 0;
    while (spent < 0.3 && calls < 20000) {
        sink += published_select((int)w.n, (int)w.s, (int)w.h, (int)w.p, sets[calls % SETS], words, limit).slots;
        calls++;
        spent = seconds() - start;
    }
    return spent / (double)calls;
}

// both must come to the same number of slots and words; the tie rule is ours alone
static void compare(jellyspire_chip w, uint64_t free, int words, int limit)
{
    jellyspire_selection a = jellyspire_select(w, free, (size_t)words, (size_t)limit);
    published_answer b = published_select((int)w.n, (int)w.s, (int)w.h, (int)w.p, free, words, limit);
    if ((a.number == 0) != b.granted || (b.granted && ((int)a.count != b.count || (int)a.words != b.words))) {
        printf("differ: N %zu free %llu W %d L %d\n", w.n, (unsigned long long)free, words, limit);
        exit(1);
    }
}

static void table(int n)
{
    printf("\nN %d\n%-36s %12s %14s %8s %s\n", n, "inputs", "ours, us", "published, us", "ratio", n == 64 ? "asked" : "");
    for (size_t c = 0; c < sizeof classes / sizeof *classes; c++) {
        uint64_t sets[SETS], state = 88172645463325252u + c;
        jellyspire_chip w = wheel_of(&classes[c], n);
        int words = scaled(classes[c].words, n), limit = classes[c].limit < n ? classes[c].limit : n;
        for (int i = 0; i < SETS; i++)
            sets[i] = random_set(&state, n, classes[c].percent);
        for (int i = 0; i < (n < 64 || classes[c].p < 64 ? 5 : 1); i++)
            compare(w, sets[i], words, limit);
        double ours = time_ours(w, sets, words, limit), theirs = time_published(w, sets, words, limit);
        printf("%-36s %12.2f %14.1f %8.0f", classes[c].name, ours * 1e6, theirs * 1e6, theirs / ours);
        if (n == 64)
            printf(" %d", classes[c].at_least);
        printf("\n");
        fflush(stdout);
    }
}

// 100,000 random inputs at N 64: every legal wheel, every density, demands that can often just be met. A call that
// seems the worst is timed three times more and its shortest time counts, as an interrupt is no part of it.
static void random_inputs(void)
{
    uint64_t state = 2463534242u;
    double total = 0, worst = 0;
    int granted = 0;
    for (int i = 0; i < 100000; i++) {
        int s = 2 + (int)(next_random(&state) % 63), h = (int)(next_random(&state) % (uint64_t)s);
        jellyspire_chip w = {64, (size_t)s, (size_t)h, 1 + (size_t)(next_random(&state) % 64)};
        uint64_t free = random_set(&state, 64, 5 + (int)(next_random(&state) % 96));
        int most = published_words(64, s, h, (int)w.p, free), gap = published_gap(64, free);
        int words = 1 + (int)(next_random(&state) % (uint64_t)(most + 1)), limit = gap + (int)(next_random(&state) % 20);
        size_t most_gap = (size_t)(limit ? limit : 1);
        double start = seconds();
        jellyspire_selection a = jellyspire_select(w, free, (size_t)words, most_gap);
        double spent = seconds() - start;
        for (int again = 0; worst < spent && again < AGAIN; again++) {
            start = seconds();
            sink += jellyspire_select(w, free, (size_t)words, most_gap).slots;
            double once_more = seconds() - start;
            if (once_more < spent)
                spent = once_more;
        }
        sink += a.slots;
        granted += a.number == 0;
        total += spent;
        if (worst < spent)
            worst = spent;
    }
    printf("\n100000 random inputs at N 64 (%d granted): mean %.1f us, worst %.1f us\n", granted, total * 10, worst * 1e6);
}

int main(void)
{
    printf("Bare selection beside the published algorithm (source 004, mended): time of one call\n");
    for (int n = 8; n <= 64; n *= 2)
        table(n);
    random_inputs();
    return 0;
}
