// Every refusal by itself, every two that can hold at once, every byte damaged, numbers of more than 16 bits, structs of
// zeros: what each call answers, and that a refusal leaves table, list and the boundary's array of values as they were. The
// expected numbers are those of document 01's orders, written down here.
#include "../../include/jellyspire.h"
#include <stdio.h>
#include <string.h>

enum { CHANNELS = 16, FLOWS = 16, TABLE = 64 * CHANNELS, LIST = 64 * FLOWS, VALUES = 3 };
static const uint64_t PAINT = 0x5a5a5a5a5a5a5a5a;

// What a call is made with. Flows 1 and 2 of the list are open, and nothing is wrong.
typedef struct {
    jellyspire_chip chip;
    uint8_t table[TABLE], list[LIST];
    size_t table_size, list_size, flow;
    jellyspire_path path;
    size_t words, deadline, limit;
    uint64_t free;
    uint64_t values[VALUES];
} input;

static unsigned long calls, wrong;

static void expect(const char *what, unsigned long got, unsigned long wanted)
{
    calls++;
    if (got != wanted) {
        wrong++;
        printf("%s: %lu instead of %lu\n", what, got, wanted);
    }
}

static void expect_same(const char *what, const input *now, const input *before)
{
    if (memcmp(now->table, before->table, TABLE) || memcmp(now->list, before->list, LIST) || memcmp(now->values, before->values, sizeof now->values)) {
        wrong++;
        printf("%s: bytes changed\n", what);
    }
}

static jellyspire_buffers lent(input *i)
{
    return (jellyspire_buffers){.table = i->table, .table_size = i->table_size, .list = i->list, .list_size = i->list_size};
}

// The calls on table and list, and bare selection: each answers its number.
static unsigned open_it(input *i) { return jellyspire_open(i->chip, lent(i), i->flow, i->path, i->words, i->deadline).number; }
static unsigned close_it(input *i) { return jellyspire_close(i->chip, lent(i), i->flow).number; }
static unsigned report_it(input *i) { return jellyspire_report(i->chip, lent(i)).number; }
static unsigned agree_it(input *i) { return jellyspire_agree(i->chip, lent(i)); }
static unsigned select_it(input *i) { return jellyspire_select(i->chip, i->free, i->words, i->limit).number; }
static unsigned row_it(input *i) { return jellyspire_row(i->chip, lent(i), i->flow).length == 0; }

// The same at the boundary, with the array of values that it writes on a yes.
static unsigned raw_open(input *i)
{
    return (unsigned)jellyspire_raw_open(i->table, i->table_size, i->list, i->list_size, i->chip.n, i->chip.s, i->chip.h, i->chip.p, i->flow,
                                         i->path.channels, i->path.length, i->words, i->deadline, i->values);
}
static unsigned raw_close(input *i)
{
    return (unsigned)jellyspire_raw_close(i->table, i->table_size, i->list, i->list_size, i->chip.n, i->chip.s, i->chip.h, i->chip.p, i->flow,
                                          i->values);
}
static unsigned raw_report(input *i)
{
    return (unsigned)jellyspire_raw_report(i->table, i->table_size, i->list, i->list_size, i->chip.n, i->chip.s, i->chip.h, i->chip.p, i->values);
}
static unsigned raw_select(input *i)
{
    return (unsigned)jellyspire_raw_select(i->chip.n, i->chip.s, i->chip.h, i->chip.p, i->free, i->words, i->limit, i->values);
}
static unsigned raw_row(input *i)
{
    return (unsigned)jellyspire_raw_row(i->table, i->table_size, i->chip.n, i->chip.s, i->chip.h, i->chip.p, i->flow, i->values);
}

static input good(unsigned (*call)(input *))
{
    input i;
    memset(&i, 0, sizeof i);
    i.chip = (jellyspire_chip){8, 3, 1, 3};
    i.table_size = TABLE;
    i.list_size = LIST;
    i.words = 5, i.deadline = 20, i.limit = 8, i.free = 0xff;
    i.path = (jellyspire_path){{0, 1}, 2};
    i.flow = 1;
    expect("flow 1", open_it(&i), 0); // slots 0 and 1 on channels 0 and 1
    i.path = (jellyspire_path){{2, 1}, 2};
    i.flow = 2, i.words = 6, i.deadline = 5;
    expect("flow 2", open_it(&i), 0); // slots 2, 4 and 7 on channels 2 and 1
    i.flow = call == close_it || call == raw_close ? 1 : 3;
    i.path = (jellyspire_path){{3, 1}, 2};
    i.words = 2, i.deadline = 20;
    for (int k = 0; k < VALUES; k++)
        i.values[k] = PAINT;
    return i;
}

// Makes the condition of a number hold, for the call that is asked.
static void spoil(input *i, unsigned number, unsigned (*call)(input *))
{
    switch (number) {
    case 1: i->chip.p = 65; break;
    case 2: i->table_size = TABLE - 1; break;
    case 3: i->list_size = LIST - 1; break;
    case 4: i->table[64 * 9 + 3] = 1; break;
    case 5: i->path.length = 17; break;
    case 6: i->path.channels[0] = CHANNELS; break;
    case 7: i->path.channels[1] = i->path.channels[0]; break;
    case 8: i->flow = FLOWS + 1; break;
    case 9: i->flow = 1; break;
    case 10: i->flow = 3; break;
    case 11: i->words = 0; break;
    case 12: i->deadline = 2, i->limit = 0; break;
    case 13: i->words = 22; break;
    case 14:
        i->deadline = i->deadline < 3 ? i->deadline : 3;
        i->limit = i->limit < 1 ? i->limit : 1;
        if (call == select_it || call == raw_select)
            i->free &= ~(uint64_t)1;
        break;
    case 15: i->free |= 0x100; break;
    }
}

// The numbers that cannot hold together: 8 is no flow and so neither open nor closed; no words are always delivered, and
// without a gap; 14 says that some set delivers, 13 that none does.
static int exclude(unsigned a, unsigned b)
{
    return (a == 8 && (b == 9 || b == 10)) || (a == 11 && b > 12) || (a == 13 && b == 14);
}

static void order(const char *name, unsigned (*call)(input *), const unsigned *numbers, int count)
{
    char what[64];
    input i = good(call), before;
    expect(name, call(&i), 0);
    for (int a = 0; a < count; a++)
        for (int b = a; b < count; b++) {
            if (exclude(numbers[a], numbers[b]))
                continue;
            i = good(call);
            spoil(&i, numbers[a], call);
            if (b != a)
                spoil(&i, numbers[b], call);
            before = i;
            snprintf(what, sizeof what, "%s with %u and %u", name, numbers[a], numbers[b]);
            expect(what, call(&i), numbers[a]);
            expect_same(what, &i, &before);
        }
}

// A demand that the chosen slots still meet agrees, every other change of a byte does not. Flow 1 has 5 words and a gap of
// 7, flow 2 has 6 words and a gap of 3; both have two channels.
static unsigned damaged(const input *i, size_t at)
{
    const uint8_t *r = i->list + at / 64 * 64;
    unsigned words = r[2] + 256u * r[3], deadline = r[4] + 256u * r[5], first = at < 64;
    if (at >= 128 || at % 64 < 2 || at % 64 > 5)
        return 4;
    return words >= 1 && words <= (first ? 5u : 6u) && deadline >= 2 + (first ? 7u : 3u) ? 0 : 4;
}

static void damage(void)
{
    static const uint8_t change[] = {0x01, 0x02, 0x07, 0x40, 0x80, 0xff};
    unsigned (*call[])(input *) = {report_it, agree_it, open_it, close_it};
    const char *name[] = {"report", "agree", "open", "close"};
    char what[64];
    for (int c = 0; c < 4; c++)
        for (size_t at = 0; at < TABLE + LIST; at++)
            for (size_t k = 0; k < sizeof change; k++) {
                input i = good(call[c]), before;
                uint8_t *byte = at < TABLE ? i.table + at : i.list + (at - TABLE);
                *byte ^= change[k];
                before = i;
                unsigned wanted = at < TABLE ? 4 : damaged(&i, at - TABLE);
                snprintf(what, sizeof what, "%s with byte %u of %s changed", name[c], (unsigned)(at % TABLE), at < TABLE ? "the table" : "the list");
                expect(what, call[c](&i), wanted);
                if (wanted != 0)
                    expect_same(what, &i, &before);
            }
}

static void deadlines(void)
{
    for (unsigned m = 1; m <= 16; m++) {
        input i;
        memset(&i, 0, sizeof i);
        i.chip = (jellyspire_chip){8, 3, 1, 3};
        i.path.length = m;
        for (unsigned c = 0; c < m; c++)
            i.path.channels[c] = (uint16_t)c;
        i.table_size = TABLE;
        i.list_size = LIST;
        jellyspire_selection a = jellyspire_open(i.chip, lent(&i), 1, i.path, 21, m);
        expect("a deadline of the path's length", a.number, 12);
        a = jellyspire_open(i.chip, lent(&i), 1, i.path, 22, m + 1);
        expect("more than the full wheel", a.number, 13);
        a = jellyspire_open(i.chip, lent(&i), 1, i.path, 1, m + 1);
        expect("one more", a.number, 0);
        expect("the full wheel", a.slots, 0xff);
        expect("its words", a.words, 21);
    }
}

// A number that would be good if its low 16 or 32 bits alone were looked at, and large ones that are good. `call` is made
// with a good input in which `*field` is `value`.
static void wide(const char *what, unsigned (*call)(input *), size_t field, size_t value, unsigned wanted)
{
    input i = good(call), before;
    memcpy((char *)&i + field, &value, sizeof value);
    before = i;
    expect(what, call(&i), wanted);
    if (wanted != 0)
        expect_same(what, &i, &before);
}

static void wide_numbers(void)
{
    unsigned (*call[])(input *) = {open_it, close_it, report_it, agree_it, select_it, row_it};
    static const size_t above[] = {(size_t)1 << 8, (size_t)1 << 16, (size_t)1 << 32, (size_t)1 << 63};
    for (size_t k = 0; k < sizeof above / sizeof *above; k++) {
        for (int c = 0; c < 6; c++) {
            wide("n with a bit above", call[c], offsetof(input, chip.n), 8 + above[k], 1);
            wide("s with a bit above", call[c], offsetof(input, chip.s), 3 + above[k], 1);
            wide("h with a bit above", call[c], offsetof(input, chip.h), 1 + above[k], 1);
            wide("p with a bit above", call[c], offsetof(input, chip.p), 3 + above[k], 1);
        }
        for (int c = 0; c < 4; c++) {
            wide("table size with a bit above", call[c], offsetof(input, table_size), TABLE + (above[k] | 4096), 2);
            wide("list size with a bit above", call[c], offsetof(input, list_size), LIST + (above[k] | 4096), 3);
        }
        wide("path length with a bit above", open_it, offsetof(input, path.length), 2 + above[k], 5);
        wide("opening a flow with a bit above", open_it, offsetof(input, flow), 3 + above[k], 8);
        wide("closing a flow with a bit above", close_it, offsetof(input, flow), 1 + above[k], 8);
        wide("channel with a bit above", row_it, offsetof(input, flow), 3 + above[k], 1);
        wide("open: words with a bit above", open_it, offsetof(input, words), 2 + above[k], 13);
        wide("open: no words but a bit above", open_it, offsetof(input, words), above[k], 13);
        wide("select: words with a bit above", select_it, offsetof(input, words), 2 + above[k], 13);
        wide("select: no words but a bit above", select_it, offsetof(input, words), above[k], 13);
        wide("open: deadline with a bit above", open_it, offsetof(input, deadline), 2 + above[k], 0);
        wide("open: no deadline but a bit above", open_it, offsetof(input, deadline), above[k], 0);
        wide("select: no limit but a bit above", select_it, offsetof(input, limit), above[k], 0);
    }
    wide("the largest deadline", open_it, offsetof(input, deadline), (size_t)-1, 0);
    wide("the largest limit", select_it, offsetof(input, limit), (size_t)-1, 0);
    wide("the largest words", open_it, offsetof(input, words), (size_t)-1, 13);
    wide("s 65,539", open_it, offsetof(input, chip.s), 65539, 1);
}

// A deadline of more than 16 bits stands in the record as 65,535, and table and list go on agreeing.
static void wide_deadline(void)
{
    input i = good(open_it);
    i.deadline = 65536 + 3;
    expect("open with a wide deadline", open_it(&i), 0);
    expect("the record's deadline", i.list[64 * 2 + 4] + 256u * i.list[64 * 2 + 5], 65535);
    expect("agree after a wide deadline", agree_it(&i), 0);
}

// What a caller left at 0 is refused with its own number; a null pointer is a buffer of no bytes, whatever size stands there.
static void zeros(void)
{
    input i = good(open_it);
    jellyspire_chip no_chip = {0};
    jellyspire_buffers nothing = {0}, no_table = lent(&i), no_list = lent(&i);
    jellyspire_path no_path = {{0}, 0};
    no_table.table = NULL;
    no_list.list = NULL;
    expect("open: no chip", jellyspire_open(no_chip, lent(&i), 3, i.path, 2, 20).number, 1);
    expect("open: no buffers", jellyspire_open(i.chip, nothing, 3, i.path, 2, 20).number, 2);
    expect("open: null table with a size", jellyspire_open(i.chip, no_table, 3, i.path, 2, 20).number, 2);
    expect("open: null list with a size", jellyspire_open(i.chip, no_list, 3, i.path, 2, 20).number, 3);
    expect("open: no path", jellyspire_open(i.chip, lent(&i), 3, no_path, 2, 20).number, 5);
    expect("close: no chip", jellyspire_close(no_chip, nothing, 1).number, 1);
    expect("close: no buffers", jellyspire_close(i.chip, nothing, 1).number, 2);
    expect("close: null list with a size", jellyspire_close(i.chip, no_list, 1).number, 3);
    expect("report: no chip", jellyspire_report(no_chip, nothing).number, 1);
    expect("report: null table with a size", jellyspire_report(i.chip, no_table).number, 2);
    expect("agree: no chip", jellyspire_agree(no_chip, nothing), 1);
    expect("agree: null list with a size", jellyspire_agree(i.chip, no_list), 3);
    expect("row: no chip", jellyspire_row(no_chip, lent(&i), 0).length, 0);
    expect("row: null table with a size", jellyspire_row(i.chip, no_table, 0).length, 0);
    expect("row: null list", jellyspire_row(i.chip, no_list, 0).length, 8);
    expect("select: no chip", jellyspire_select(no_chip, 0, 1, 1).number, 1);
}

// A yes writes its values and no more of the array.
static void values(void)
{
    input i = good(raw_open);
    expect("open", raw_open(&i), 0);
    expect("slots that were opened", i.values[0], 1 << 3); // cells 0 to 3 and 5 of channel 1 are held, so slot 3 is the first
    expect("how many", i.values[1], 1);
    expect("their words", i.values[2], 2);
    i = good(raw_close);
    expect("close", raw_close(&i), 0);
    expect("cells that were cleared", i.values[0], 4);
    expect("beyond close's value", i.values[1] == PAINT && i.values[2] == PAINT, 1);
    i = good(raw_report);
    expect("report", raw_report(&i), 0);
    expect("free cells", i.values[0], 128 - 10);
    expect("held cells", i.values[1], 10);
    expect("beyond report's values", i.values[2] == PAINT, 1);
    i = good(raw_row);
    expect("row", raw_row(&i), 0);
    expect("where the row begins", i.values[0], 64 * 3);
    expect("how long it is", i.values[1], 8);
    expect("beyond row's values", i.values[2] == PAINT, 1);
}

int main(void)
{
    static const unsigned open[] = {1, 2, 3, 4, 5, 6, 7, 8, 9, 11, 12, 13, 14}, close[] = {1, 2, 3, 4, 8, 10}, report[] = {1, 2, 3, 4},
                          select[] = {1, 15, 11, 12, 13, 14}, row[] = {1};
    order("open", open_it, open, 13);
    order("close", close_it, close, 6);
    order("report", report_it, report, 4);
    order("agree", agree_it, report, 4);
    order("select", select_it, select, 6);
    order("open at the boundary", raw_open, open, 13);
    order("close at the boundary", raw_close, close, 6);
    order("report at the boundary", raw_report, report, 4);
    order("select at the boundary", raw_select, select, 6);
    order("row at the boundary", raw_row, row, 1);
    wide_numbers();
    wide_deadline();
    zeros();
    values();
    deadlines();
    damage();
    printf("conditions and damage: %lu answers, %lu wrong\n", calls, wrong);
    return wrong != 0;
}
