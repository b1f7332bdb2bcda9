// The use of Jellyspire in C: opens two flows, is refused a third, reports, and closes. examples/run builds and runs it.
#include "../include/jellyspire.h"
#include <stdio.h>

enum { CHANNELS = 16, FLOWS = 16 };

static uint8_t table[64 * CHANNELS], list[64 * FLOWS];
static const jellyspire_chip chip = {.n = 8, .s = 3, .h = 1, .p = 3};
static const jellyspire_buffers lent = {.table = table, .table_size = sizeof table, .list = list, .list_size = sizeof list};

// Opens a flow on a path of two channels and prints the answer.
static void open_flow(size_t flow, size_t words, size_t deadline, uint16_t first, uint16_t second)
{
    jellyspire_path path = {.channels = {first, second}, .length = 2};
    jellyspire_selection a = jellyspire_open(chip, lent, flow, path, words, deadline);
    if (a.number != 0) {
        printf("open %u refused %u\n", (unsigned)flow, (unsigned)a.number);
        return;
    }
    printf("open %u slots", (unsigned)flow);
    for (int s = 0; s < 64; s++)
        if (a.slots >> s & 1)
            printf(" %d", s);
    printf(" words %u\n", (unsigned)a.words);
}

int main(void)
{
    open_flow(1, 5, 20, 0, 1);
    open_flow(2, 6, 5, 2, 1);
    open_flow(3, 5, 20, 4, 4);
    jellyspire_part row = jellyspire_row(chip, lent, 1);
    printf("channel 1:");
    for (size_t j = 0; j < row.length; j++)
        printf(" %d", table[row.offset + j]);
    printf("\n");
    jellyspire_clearing c = jellyspire_close(chip, lent, 1);
    printf("close 1 number %u cells %u\n", (unsigned)c.number, (unsigned)c.cells);
    c = jellyspire_close(chip, lent, 1);
    printf("close 1 number %u cells %u\n", (unsigned)c.number, (unsigned)c.cells);
    jellyspire_cells r = jellyspire_report(chip, lent);
    printf("report free %u held %u\n", (unsigned)r.free, (unsigned)r.held);
    table[3] = 7;
    printf("agree %u\n", (unsigned)jellyspire_agree(chip, lent));
    return 0;
}
