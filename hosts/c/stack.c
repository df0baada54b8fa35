/* How much stack the calls take: each runs in a thread whose stack was painted first, and the paint that is left is
   counted from its far end. Prints a line for each call, in KB, and ends with 1 if one took more than 1,100 KB of
   FOIL_STACK. The walk that writes the corners goes 32 calls deep at most, so a find is made through more and more bars:
   from 32 legs on it takes no more. */
#define _GNU_SOURCE
#include <pthread.h>
#include <stdio.h>
#include <string.h>
#include <sys/mman.h>

#include "foil.h"

static struct foil_sheet sheet;
static struct foil_entry table[FOIL_PLACES], old_table[FOIL_ENTRIES];
static uint16_t strips[FOIL_STRIP_NUMBERS], corners[FOIL_CORNER_NUMBERS], report[FOIL_REPORT];
static uint16_t old_strips[FOIL_STRIP_NUMBERS] = {0, 0, 4096, 4096};
static uint8_t bytes[FOIL_SLIP_BYTES];
static unsigned bars;
/* what the call answered */
static struct foil_said said;

#define LENT &sheet, table, FOIL_PLACES, strips, FOIL_STRIP_NUMBERS
#define CORNERS corners, FOIL_CORNER_NUMBERS

/* upright bars, open at the top and at the foot by turns: the way through them has two bends for each */
static void *make(void *none)
{
    unsigned k;
    foil_new_foil(LENT, 0, 4096, 4096, 0, 0);
    for (k = 0; k < bars; k++)
        foil_draw(LENT, 0, 20 * k + 10, k % 2 ? 0 : 30, 20 * k + 12, k % 2 ? 4066 : 4096);
    return none;
}

static void *lay(void *none)
{
    said = foil_lay(LENT, CORNERS, 0, 7, 0, 4095, 4095, 2000);
    return none;
}

static void *list(void *none)
{
    static const uint16_t wish[] = {8, 0, 4095, 4095, 2001};
    static uint16_t answer[3];
    said = foil_lay_list(LENT, CORNERS, answer, 3, wish, 5, 0);
    said.corners = answer[1];
    return none;
}

static void *find(void *none)
{
    said = foil_find(LENT, CORNERS, 0, 0, 4095, 4095, 2000);
    return none;
}

static void *join(void *none)
{
    struct foil_entry leg = {9, 4095, 2000, 4096, 2001};
    foil_put_leg(LENT, 0, leg);
    said = foil_join(LENT, CORNERS, 0, 9, 0, 4095);
    return none;
}

static void *book(void *none)
{
    static const uint16_t drawn[] = {0, 4095, 0, 0};
    said = foil_book(LENT, drawn, 4, 0, 11);
    return none;
}

static void *lift(void *none)
{
    said = foil_lift(LENT, 0, 9);
    return none;
}

static void *look_up(void *none)
{
    said = foil_look_up(LENT, 0, 0, 4095);
    return none;
}

static void *save(void *none)
{
    said = foil_save(LENT, bytes, sizeof bytes, 0);
    return none;
}

static void *slip(void *none)
{
    said = foil_slip(LENT, bytes, sizeof bytes, 0);
    return none;
}

static void *ohms(void *none)
{
    struct foil_ink ink = {1, 1, 1};
    said.number = foil_ohms(LENT, 0, 9, ink).number;
    return none;
}

static void *run_record(void *none)
{
    static const uint8_t job[] = {0, 4, 10, 0, 0, 0, 255, 15, 255, 15, 208, 7};
    said = foil_run_record(LENT, CORNERS, job, sizeof job, 0, 1).track.said;
    return none;
}

static void *carry(void *none)
{
    struct foil_old_board old = {4096, 4096, 0, 0, 1};
    said = foil_carry(&sheet.boards[0], table, FOIL_PLACES, old_table, FOIL_ENTRIES, strips, FOIL_STRIP_NUMBERS, report,
                      FOIL_REPORT, old_strips, FOIL_STRIP_NUMBERS, old);
    return none;
}

/* runs a call on a painted stack, and shows what it left of the paint */
static int show(const char *name, void *(*call)(void *))
{
    const size_t size = 2 * (size_t)FOIL_STACK;
    unsigned char *stack = mmap(0, size, PROT_READ | PROT_WRITE, MAP_PRIVATE | MAP_ANONYMOUS, -1, 0);
    size_t left = 0, used;
    pthread_attr_t attributes;
    pthread_t thread;
    memset(stack, 0xa5, size);
    pthread_attr_init(&attributes);
    if (pthread_attr_setstack(&attributes, stack, size) || pthread_create(&thread, &attributes, call, 0))
        return 1;
    pthread_join(thread, 0);
    while (left < size && stack[left] == 0xa5)
        left++;
    used = (size - left + 1023) / 1024;
    munmap(stack, size);
    printf("%-12s %6zu KB  (%u, %zu corners)\n", name, used, said.number, said.corners);
    return used > 1100;
}

int main(void)
{
    static const unsigned counts[] = {0, 1, 32, 64, 127, 128};
    int bad = 0;
    size_t k;
    for (k = 0; k < sizeof counts / sizeof *counts; k++) {
        bars = counts[k];
        make(0);
        bad |= show("find", find);
    }
    bars = 40;
    bad |= show("new, draw", make);
    bad |= show("lay", lay);
    make(0);
    bad |= show("list of nets", list);
    make(0);
    bad |= show("record", run_record);
    make(0);
    bad |= show("join", join);
    bad |= show("look up", look_up);
    bad |= show("save", save);
    bad |= show("slip", slip);
    bad |= show("ohms", ohms);
    bad |= show("lift", lift);
    bad |= show("book", book);
    bad |= show("carry", carry);
    return bad;
}
