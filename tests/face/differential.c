// Random calls, valid and damaged, of the archive against the reference: every value of every answer and every byte of
// table and list are compared; after a refusal with a copy taken before. Numbers are given as wide as the calls take them:
// some would be good if they were cut to 16 bits. Usage: differential [CALLS [SEED]].
#include "reference.h"
#include "../../bench/bench.h"
#include <stdio.h>
#include <stdlib.h>
#include <string.h>

#define ROOM (64 * 66)

enum { OPEN, CLOSE, REPORT, AGREE, ROW, SELECT, CALLS };
static const char *const names[CALLS] = {"open", "close", "report", "agree", "row", "select"};

static uint64_t state;
static long met[CALLS][16], differ;
static uint8_t table[ROOM], list[ROOM], table_before[ROOM], list_before[ROOM], table_right[ROOM], list_right[ROOM];

static unsigned upto(unsigned n) { return (unsigned)(next_random(&state) >> 11) % (n + 1); }
static int chance(unsigned percent) { return upto(99) < percent; }

// A wheel: mostly one on which every set can be tried.
static jellyspire_chip some_wheel(void)
{
    jellyspire_chip w = {8, 3, 1, 3};
    w.n = chance(80) ? 1 + upto(9) : chance(80) ? 11 + upto(9) : 21 + upto(43);
    w.s = chance(80) ? 2 + upto(4) : 2 + upto(62);
    w.h = upto((unsigned)w.s - 1);
    w.p = chance(80) ? 1 + upto(4) : 1 + upto(63);
    return w;
}

static jellyspire_chip bad_wheel(jellyspire_chip w)
{
    switch (upto(9)) {
    case 0: w.n = 0; break;
    case 1: w.n = 65; break;
    case 2: w.n = (size_t)-1; break;
    case 3: w.s = chance(50) ? 1 : 65; break;
    case 4: w.h = w.s; break;
    case 5: w.p = 0; break;
    case 6: w.s += 65536; break;
    case 7: w.h += 65536; break;
    case 8: w.n += (size_t)1 << 32; break;
    default: w.p = 65; break;
    }
    return w;
}

// A number of up to `most`; sometimes with more bits above the lowest sixteen.
static size_t some_number(unsigned most)
{
    size_t number = upto(most);
    return chance(96) ? number : chance(80) ? number + 65536 : number + ((size_t)1 << 32);
}

static void fail(const char *what, int call, uint32_t got, uint32_t want)
{
    if (differ++ < 10)
        printf("%s differs in %s: archive %u, reference %u\n", what, names[call], (unsigned)got, (unsigned)want);
}

static void compare(const char *what, int call, uint64_t got, uint64_t want)
{
    if (got != want)
        fail(what, call, (uint32_t)got, (uint32_t)want);
}

// The chosen set is right: equal where it is known, else by the rules.
static void compare_set(int call, jellyspire_chip w, uint64_t free, size_t words, size_t limit, jellyspire_selection got,
                        reference_answer want)
{
    compare("number", call, got.number, want.number);
    compare("count", call, got.count, (uint64_t)want.count);
    compare("words", call, got.words, (uint64_t)want.words);
    if (got.number != 0 || want.exact) {
        compare("slots", call, got.slots, want.slots);
        return;
    }
    compare("free slots", call, got.slots & ~free, 0);
    compare("size of the set", call, (uint64_t)reference_count(got.slots), got.count);
    compare("words of the set", call, (uint64_t)reference_words(w, got.slots), got.words);
    compare("enough words", call, got.words >= words, 1);
    compare("gaps of the set", call, (size_t)reference_gap(w, got.slots) <= limit, 1);
}

// One call, with or without damage, on wheel w, `channels` channels and `flows` flows.
static void one_call(jellyspire_chip w, size_t channels, size_t flows)
{
    int call = chance(55) ? OPEN : (int)upto(CALLS - 1), damaged = 0;
    size_t table_size = 64 * channels, list_size = 64 * flows, at = 0;
    uint8_t *spoilt = 0, old = 0;
    if (chance(4))
        w = bad_wheel(w);
    if (chance(4))
        table_size = chance(50) ? upto(ROOM) : 64 * upto(65);
    if (chance(4))
        list_size = chance(50) ? upto(ROOM) : 64 * upto(65);
    if (chance(12)) {
        at = chance(50) ? upto(64 * (unsigned)channels - 1) : upto(64 * (unsigned)flows - 1);
        spoilt = (chance(50) ? table : list) + at;
        old = *spoilt;
        *spoilt = (uint8_t)(chance(40) ? 1 + upto(3) : upto(255));
        damaged = 1;
    }
    jellyspire_buffers lent = {table, table_size, list, list_size};
    memcpy(table_before, table, ROOM);
    memcpy(list_before, list, ROOM);
    memcpy(table_right, table, ROOM);
    memcpy(list_right, list, ROOM);
    uint32_t number = 0;
    size_t flow = chance(95) ? 1 + upto((unsigned)flows - 1) : chance(50) ? 0 : flows + 1 + upto(300);
    if (call == OPEN) {
        jellyspire_path path = {{0}, 0};
        path.length = chance(95) ? 1 + upto(channels < 4 ? (unsigned)channels - 1 : 3) : upto(18);
        if (chance(1))
            path.length = (size_t)-1;
        for (unsigned i = 0; i < 16; i++)
            path.channels[i] = (uint16_t)(chance(98) ? upto((unsigned)channels - 1) : upto(70));
        if (chance(80))
            for (unsigned i = 0; i < 16; i++)
                path.channels[i] = (uint16_t)((path.channels[0] + i) % channels);
        size_t words = some_number(chance(90) ? 12 : chance(90) ? 300 : 65535);
        size_t deadline = chance(70) ? path.length + some_number((unsigned)(w.n & 127) + 2) : some_number(chance(80) ? 20 : 65535);
        uint64_t free;
        reference_answer want = reference_open(w, table, table_size, list, list_size, flow, path, words, deadline, &free);
        jellyspire_selection got = jellyspire_open(w, lent, flow, path, words, deadline);
        compare_set(call, w, free, words, deadline - path.length, got, want);
        number = got.number;
        if (want.number == 0)
            reference_opened(w, table_right, list_right, flow, path, words, deadline, got.slots);
    } else if (call == CLOSE) {
        jellyspire_clearing want = reference_close(w, table_right, table_size, list_right, list_size, flow);
        jellyspire_clearing got = jellyspire_close(w, lent, flow);
        compare("number", call, got.number, want.number);
        compare("cells", call, got.cells, want.cells);
        number = got.number;
    } else if (call == REPORT) {
        jellyspire_cells want = reference_report(w, table, table_size, list, list_size);
        jellyspire_cells got = jellyspire_report(w, lent);
        compare("number", call, got.number, want.number);
        compare("free", call, got.free, want.free);
        compare("held", call, got.held, want.held);
        number = got.number;
    } else if (call == AGREE) {
        number = jellyspire_agree(w, lent);
        compare("number", call, number, reference_agree(w, table, table_size, list, list_size));
    } else if (call == ROW) {
        size_t channel = chance(90) ? upto((unsigned)channels + 1) : (size_t)next_random(&state);
        jellyspire_part want = reference_row(w, table_size, channel), got = jellyspire_row(w, lent, channel);
        compare("offset", call, got.offset, want.offset);
        compare("length", call, got.length, want.length);
    } else {
        uint64_t free = random_set(&state, w.n <= 64 ? (int)w.n : 64, (int)(20 + upto(80)));
        if (chance(3))
            free |= (uint64_t)1 << upto(63);
        size_t words = some_number(chance(90) ? 20 : 65535), limit = some_number(chance(90) ? 12 : 65535);
        jellyspire_selection got = jellyspire_select(w, free, words, limit);
        compare_set(call, w, free, words, limit, got, reference_select(w, free, words, limit));
        number = got.number;
    }
    const uint8_t *right_table = number == 0 ? table_right : table_before, *right_list = number == 0 ? list_right : list_before;
    if (memcmp(table, right_table, ROOM) != 0)
        fail("the table afterwards", call, number, number);
    if (memcmp(list, right_list, ROOM) != 0)
        fail("the list afterwards", call, number, number);
    met[call][number & 15]++;
    if (damaged && number != 0)
        *spoilt = old;
    else if (damaged && reference_agree(w, table, 64 * channels, list, 64 * flows) != 0) {
        memset(table, 0, ROOM);
        memset(list, 0, ROOM);
    }
}

int main(int argc, char **argv)
{
    long calls = argc > 1 ? atol(argv[1]) : 100000, done = 0;
    state = argc > 2 ? strtoull(argv[2], 0, 10) : 88172645463325252u;
    while (done < calls) {
        jellyspire_chip w = some_wheel();
        size_t channels = chance(90) ? 1 + upto(7) : 1 + upto(63), flows = chance(90) ? 1 + upto(11) : 1 + upto(63);
        memset(table, 0, ROOM);
        memset(list, 0, ROOM);
        for (int i = 0; i < 60 && done < calls; i++, done++)
            one_call(w, channels, flows);
    }
    printf("%-8s", "number");
    for (int k = 0; k < 16; k++)
        printf("%7d", k);
    printf("\n");
    for (int c = 0; c < CALLS; c++) {
        printf("%-8s", names[c]);
        for (int k = 0; k < 16; k++)
            printf("%7ld", met[c][k]);
        printf("\n");
    }
    printf("%ld calls, %ld differ\n", done, differ);
    return differ != 0;
}
