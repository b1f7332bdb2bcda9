// Opening, closing and agreement on a half-full table: the time of a call, and its ratio to a plain loop in C that reads
// every byte of table and list once; with the wheel, with the number of flows, and with the number of channels.
#include "bench.h"
#include "../include/jellyspire.h"
#include <stdio.h>
#include <stdlib.h>
#include <string.h>

static uint8_t table[4096], list[4096];
static volatile uint64_t sink;

typedef struct {
    jellyspire_chip chip;
    jellyspire_buffers lent;
    jellyspire_path last; // the path of the last flow, which is opened and closed
} set_up;

// Each flow but the last has a path of four channels. On 64 channels 64 flows with an eighth of the wheel each take half of
// all cells; fewer flows take more slots each, as far as their paths have them. What they hold is printed.
static set_up half_full(size_t n, size_t channels, size_t flows)
{
    set_up s = {{n, 3, 1, 3}, {table, 64 * channels, list, 64 * flows}, {{0}, 4}};
    size_t wanted = n / 8 * 3 - (n / 8 + 2) / 3, cells = channels * n / 2;
    memset(table, 0, sizeof table);
    memset(list, 0, sizeof list);
    for (size_t f = 1; f <= flows; f++) {
        for (size_t i = 0; i < 4; i++)
            s.last.channels[i] = (uint16_t)((f * channels / flows + i) % channels);
        size_t held = jellyspire_report(s.chip, s.lent).held;
        if (f == flows || held >= cells)
            continue;
        size_t words = wanted;
        if (flows < 64) // fewer flows take more slots each
            words = wanted * 64 / flows < 40 * n / 64 ? wanted * 64 / flows : 40 * n / 64;
        if (jellyspire_open(s.chip, s.lent, f, s.last, words, n + 4).number != 0) {
            printf("the set-up of N %zu, %zu flows was refused at flow %zu\n", n, flows, f);
            exit(1);
        }
    }
    return s;
}

static void open_call(const set_up *s)
{
    sink += jellyspire_open(s->chip, s->lent, s->lent.list_size / 64, s->last, 2, 80).number;
}
static void close_call(const set_up *s) { sink += jellyspire_close(s->chip, s->lent, s->lent.list_size / 64).number; }
static void agree_call(const set_up *s) { sink += jellyspire_agree(s->chip, s->lent); }
static void pair_call(const set_up *s)
{
    open_call(s);
    close_call(s);
}

// every byte of table and list, read once
static void plain_loop(const set_up *s)
{
    uint64_t used = 0;
    for (size_t i = 0; i < s->lent.table_size; i++)
        used += table[i] != 0;
    for (size_t i = 0; i < s->lent.list_size; i++)
        used += list[i] != 0;
    sink += used;
}

// the time of one call in seconds
static double time_of(void (*call)(const set_up *), const set_up *s)
{
    long calls = 0;
    double start = seconds(), spent = 0;
    while (spent < 0.2) {
        for (int i = 0; i < 20; i++)
            call(s);
        calls += 20;
        spent = seconds() - start;
    }
    return spent / (double)calls;
}

static void row(size_t n, size_t channels, size_t flows)
{
    set_up s = half_full(n, channels, flows);
    open_call(&s);
    if (jellyspire_close(s.chip, s.lent, flows).number != 0) {
        printf("N %zu: the flow that is timed was refused\n", n);
        exit(1);
    }
    size_t held = jellyspire_report(s.chip, s.lent).held;
    double plain = time_of(plain_loop, &s), agree = time_of(agree_call, &s), pair = time_of(pair_call, &s);
    printf("%4zu %8zu %6zu %6zu %12.2f %12.2f %6.1f %12.2f %6.1f\n", n, channels, flows, held, plain * 1e6, agree * 1e6, agree / plain, pair * 1e6,
           pair / plain);
    fflush(stdout);
}

int main(void)
{
    printf("Opening and closing one flow, and agreement alone, beside a plain loop over the same bytes: microseconds and ratio\n");
    printf("%4s %8s %6s %6s %12s %12s %6s %12s %6s\n", "N", "channels", "flows", "held", "plain loop", "agree", "ratio", "open, close", "ratio");
    for (size_t n = 8; n <= 64; n *= 2)
        row(n, 64, 64);
    for (size_t flows = 32; flows >= 8; flows /= 2)
        row(64, 64, flows);
    for (size_t channels = 32; channels >= 8; channels /= 2)
        row(64, channels, channels);
    return 0;
}
