// See reference.h.
#include "reference.h"
#include "../../bench/published.h"
#include <string.h>

static int has(uint64_t set, size_t slot) { return (int)(set >> slot & 1); }

static int legal(jellyspire_chip w)
{
    return w.n >= 1 && w.n <= 64 && w.s >= 2 && w.s <= 64 && w.h < w.s && w.p >= 1 && w.p <= 64;
}

int reference_count(uint64_t set)
{
    int count = 0;
    for (; set; set &= set - 1)
        count++;
    return count;
}

static int run_words(jellyspire_chip w, int q)
{
    return q * (int)w.s - (q + (int)w.p - 1) / (int)w.p * (int)w.h;
}

// Rule 2: from each start the length of its run.
int reference_words(jellyspire_chip w, uint64_t set)
{
    int total = 0, n = (int)w.n;
    if (reference_count(set) == n)
        return run_words(w, n);
    for (int s = 0; s < n; s++) {
        if (!has(set, s) || has(set, (s + n - 1) % n))
            continue;
        int q = 0;
        while (has(set, (s + q) % n))
            q++;
        total += run_words(w, q);
    }
    return total;
}

// Rule 3: the largest gap, 0 for the empty set.
int reference_gap(jellyspire_chip w, uint64_t set)
{
    int most = 0, n = (int)w.n;
    for (int s = 0; s < n; s++) {
        if (!has(set, s))
            continue;
        int d = 1;
        while (!has(set, (s + d) % n))
            d++;
        if (most < d)
            most = d;
    }
    return most;
}

// Rule 6's tie rule: a goes before b.
static int before(jellyspire_chip w, uint64_t a, uint64_t b)
{
    int n = (int)w.n, first[2] = {-1, -1};
    uint64_t set[2] = {a, b};
    for (int k = 0; k < 2; k++)
        for (int s = 0; s < n && first[k] < 0; s++)
            if (has(set[k], s) && !has(set[k], (s + n - 1) % n))
                first[k] = s;
    if (first[0] != first[1])
        return first[0] < first[1];
    for (int d = 0; d < n; d++) {
        int x = has(a, (first[0] + d) % n), y = has(b, (first[1] + d) % n);
        if (x != y)
            return x;
    }
    return 0;
}

reference_answer reference_select(jellyspire_chip w, uint64_t free, size_t words, size_t limit)
{
    reference_answer a = {0, 0, 0, 0, 0};
    if (!legal(w)) {
        a.number = 1;
    } else if (w.n < 64 && free >> w.n) {
        a.number = 15;
    } else if (words == 0) {
        a.number = 11;
    } else if (limit == 0) {
        a.number = 12;
    } else if (w.n <= 10) {
        int some = 0;
        a.number = 13;
        a.exact = 1;
        for (uint64_t set = free;; set = (set - 1) & free) {
            int delivered = reference_words(w, set), count = reference_count(set);
            if ((size_t)delivered >= words) {
                if (!some)
                    a.number = 14;
                some = 1;
                if ((size_t)reference_gap(w, set) <= limit
                    && (a.number != 0 || count < a.count || (count == a.count && delivered > a.words)
                        || (count == a.count && delivered == a.words && before(w, set, a.slots)))) {
                    a.number = 0;
                    a.slots = set;
                    a.count = count;
                    a.words = delivered;
                }
            }
            if (set == 0)
                break;
        }
    } else if ((size_t)reference_words(w, free) < words) {
        a.number = 13;
    } else {
        published_answer p = published_select((int)w.n, (int)w.s, (int)w.h, (int)w.p, free, (int)words, (int)(limit < w.n ? limit : w.n));
        a.number = p.granted ? 0 : 14;
        a.count = p.granted ? p.count : 0;
        a.words = p.granted ? p.words : 0;
    }
    return a;
}

// ---- records

typedef struct {
    int open;
    unsigned words, deadline, length, path[16];
    uint64_t slots;
} flow_record;

// Reads a record; 0 if the bytes are none.
static int read_record(const uint8_t *b, flow_record *r)
{
    for (int i = 48; i < 64; i++)
        if (b[i] != 0)
            return 0;
    if (b[0] > 1 || b[1] != 0 || b[7] != 0)
        return 0;
    r->open = b[0];
    r->words = b[2] + 256u * b[3];
    r->deadline = b[4] + 256u * b[5];
    r->length = b[6];
    for (int i = 0; i < 16; i++)
        r->path[i] = b[8 + 2 * i] + 256u * b[9 + 2 * i];
    r->slots = 0;
    for (int i = 7; i >= 0; i--)
        r->slots = r->slots << 8 | b[40 + i];
    return r->open || (r->words == 0 && r->deadline == 0);
}

// Whether a record obeys its own rules, on a chip of so many channels.
static int lawful(jellyspire_chip w, size_t channels, const flow_record *r)
{
    for (unsigned i = r->length; i < 16; i++)
        if (r->path[i] != 0)
            return 0;
    if (!r->open)
        return r->length == 0 && r->slots == 0;
    if (r->length < 1 || r->length > 16 || r->words < 1 || r->deadline <= r->length)
        return 0;
    for (unsigned i = 0; i < r->length; i++) {
        if (r->path[i] >= channels)
            return 0;
        for (unsigned k = 0; k < i; k++)
            if (r->path[k] == r->path[i])
                return 0;
    }
    if (w.n < 64 && r->slots >> w.n)
        return 0;
    return reference_words(w, r->slots) >= (int)r->words && reference_gap(w, r->slots) <= (int)(r->deadline - r->length);
}

jellyspire_number reference_agree(jellyspire_chip w, const uint8_t *table, size_t table_size, const uint8_t *list, size_t list_size)
{
    static uint8_t map[4096];
    if (!legal(w))
        return JELLYSPIRE_BAD_WHEEL;
    if (table_size % 64 != 0 || table_size < 64 || table_size > 4096)
        return JELLYSPIRE_BAD_TABLE;
    if (list_size % 64 != 0 || list_size < 64 || list_size > 4096)
        return JELLYSPIRE_BAD_LIST;
    memset(map, 0, sizeof map);
    for (size_t f = 0; f < list_size / 64; f++) {
        flow_record r;
        if (!read_record(list + 64 * f, &r) || !lawful(w, table_size / 64, &r))
            return JELLYSPIRE_DISAGREE;
        for (unsigned i = 0; i < r.length; i++)
            for (size_t s = 0; s < w.n; s++) {
                uint8_t *cell = map + 64 * r.path[i] + (s + i) % w.n;
                if (!has(r.slots, s))
                    continue;
                if (*cell != 0)
                    return JELLYSPIRE_DISAGREE;
                *cell = (uint8_t)(f + 1);
            }
    }
    return memcmp(map, table, table_size) == 0 ? JELLYSPIRE_YES : JELLYSPIRE_DISAGREE;
}

jellyspire_cells reference_report(jellyspire_chip w, const uint8_t *table, size_t table_size, const uint8_t *list, size_t list_size)
{
    jellyspire_cells a = {reference_agree(w, table, table_size, list, list_size), 0, 0};
    if (a.number != 0)
        return a;
    for (size_t c = 0; c < table_size / 64; c++)
        for (size_t j = 0; j < w.n; j++)
            a.free += table[64 * c + j] == 0;
    for (size_t f = 0; f < list_size / 64; f++) {
        flow_record r;
        read_record(list + 64 * f, &r);
        a.held += (size_t)reference_count(r.slots) * r.length;
    }
    return a;
}

jellyspire_part reference_row(jellyspire_chip w, size_t table_size, size_t channel)
{
    jellyspire_part a = {0, 0};
    if (legal(w) && table_size % 64 == 0 && table_size >= 64 && table_size <= 4096 && channel < table_size / 64) {
        a.offset = 64 * channel;
        a.length = w.n;
    }
    return a;
}

jellyspire_clearing reference_close(jellyspire_chip w, uint8_t *table, size_t table_size, uint8_t *list, size_t list_size, size_t flow)
{
    jellyspire_clearing a = {reference_agree(w, table, table_size, list, list_size), 0};
    if (a.number != 0)
        return a;
    if (flow == 0 || flow > list_size / 64) {
        a.number = JELLYSPIRE_NO_FLOW;
        return a;
    }
    if (list[64 * (flow - 1)] == 0) {
        a.number = JELLYSPIRE_NOT_OPEN;
        return a;
    }
    for (size_t i = 0; i < table_size; i++)
        if (table[i] == flow) {
            table[i] = 0;
            a.cells++;
        }
    memset(list + 64 * (flow - 1), 0, 64);
    return a;
}

reference_answer reference_open(jellyspire_chip w, const uint8_t *table, size_t table_size, const uint8_t *list, size_t list_size,
                                size_t flow, jellyspire_path path, size_t words, size_t deadline, uint64_t *free)
{
    reference_answer a = {reference_agree(w, table, table_size, list, list_size), 0, 0, 0, 0};
    *free = 0;
    if (a.number != 0)
        return a;
    if (path.length < 1 || path.length > 16) {
        a.number = 5;
        return a;
    }
    for (size_t i = 0; i < path.length; i++)
        if (path.channels[i] >= table_size / 64)
            a.number = 6;
    for (size_t i = 0; i < path.length && a.number == 0; i++)
        for (size_t k = 0; k < i; k++)
            if (path.channels[i] == path.channels[k])
                a.number = 7;
    if (a.number == 0 && (flow == 0 || flow > list_size / 64))
        a.number = 8;
    if (a.number == 0 && list[64 * (flow - 1)] == 1)
        a.number = 9;
    if (a.number == 0 && words == 0)
        a.number = 11;
    if (a.number == 0 && deadline <= path.length)
        a.number = 12;
    if (a.number != 0)
        return a;
    for (size_t s = 0; s < w.n; s++) {
        int taken = 0;
        for (size_t i = 0; i < path.length; i++)
            taken |= table[64 * path.channels[i] + (s + i) % w.n] != 0;
        if (!taken)
            *free |= (uint64_t)1 << s;
    }
    return reference_select(w, *free, words, deadline - path.length);
}

void reference_opened(jellyspire_chip w, uint8_t *table, uint8_t *list, size_t flow, jellyspire_path path, size_t words,
                      size_t deadline, uint64_t slots)
{
    uint8_t *b = list + 64 * (flow - 1);
    if (deadline > 65535) // a record has 16 bits for it, and it restricts nothing
        deadline = 65535;
    memset(b, 0, 64);
    b[0] = 1;
    b[2] = (uint8_t)words;
    b[3] = (uint8_t)(words >> 8);
    b[4] = (uint8_t)deadline;
    b[5] = (uint8_t)(deadline >> 8);
    b[6] = (uint8_t)path.length;
    for (size_t i = 0; i < path.length; i++) {
        b[8 + 2 * i] = (uint8_t)path.channels[i];
        b[9 + 2 * i] = (uint8_t)(path.channels[i] >> 8);
        for (size_t s = 0; s < w.n; s++)
            if (has(slots, s))
                table[64 * path.channels[i] + (s + i) % w.n] = (uint8_t)flow;
    }
    for (int i = 0; i < 8; i++)
        b[40 + i] = (uint8_t)(slots >> 8 * i);
}
