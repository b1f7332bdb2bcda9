// The stack of a call: it runs on a painted stack of its own, and the lowest byte that it changed is its use. Two paints
// are used in turn, since no byte that is written can equal both.
#define _GNU_SOURCE
#include "../include/jellyspire.h"
#include <stdio.h>
#include <string.h>
#include <sys/mman.h>
#include <ucontext.h>

#define ROOM (256 * 1024)

static ucontext_t back, on_paint;
static volatile uint64_t sink;

// A table of 64 channels on a wheel of 64 slots with a list of 64 flows, in which the calls find something to do.
static uint8_t table[4096], list[4096];
static const jellyspire_chip wide = {64, 3, 1, 3};
static const jellyspire_buffers lent = {table, sizeof table, list, sizeof list};
static const jellyspire_path long_path = {{0, 1, 2, 3, 4, 5, 6, 7, 8, 9, 10, 11, 12, 13, 14, 15}, 16};

static void nothing(void) {}

static void select_call(void)
{
    sink = jellyspire_select(wide, 0xfffffffffffffdffu, 60, 64).slots;
}

static void open_call(void) { sink = jellyspire_open(wide, lent, 64, long_path, 60, 80).slots; }
static void agree_call(void) { sink = jellyspire_agree(wide, lent); }
static void report_call(void) { sink = jellyspire_report(wide, lent).held; }
static void row_call(void) { sink = jellyspire_row(wide, lent, 63).length; }
static void close_call(void) { sink = jellyspire_close(wide, lent, 64).cells; }

static size_t used(void (*call)(void))
{
    uint8_t *room = mmap(0, ROOM, PROT_READ | PROT_WRITE, MAP_PRIVATE | MAP_ANONYMOUS, -1, 0);
    volatile size_t most = 0; // it outlives the change of stacks
    for (int pass = 0; pass < 2; pass++) {
        uint8_t paint = pass ? 0x5a : 0xa5;
        memset(room, paint, ROOM);
        memset(table, 0, sizeof table);
        memset(list, 0, sizeof list);
        if (call != open_call)
            open_call();
        getcontext(&on_paint);
        on_paint.uc_stack.ss_sp = room;
        on_paint.uc_stack.ss_size = ROOM;
        on_paint.uc_link = &back;
        makecontext(&on_paint, call, 0);
        swapcontext(&back, &on_paint);
        size_t i = 0;
        while (i < ROOM && room[i] == paint)
            i++;
        if (most < ROOM - i)
            most = ROOM - i;
    }
    munmap(room, ROOM);
    return most;
}

int main(void)
{
    struct {
        const char *name;
        void (*call)(void);
    } calls[] = {{"open", open_call},     {"close", close_call}, {"report", report_call},
                 {"agree", agree_call},   {"row", row_call},     {"select", select_call}};
    size_t harness = used(nothing);
    printf("stack of one call, all scratch memory included (the harness's own %zu bytes are taken off)\n", harness);
    for (size_t i = 0; i < sizeof calls / sizeof *calls; i++)
        printf("%-8s %6zu bytes\n", calls[i].name, used(calls[i].call) - harness);
    return 0;
}
