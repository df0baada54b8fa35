/* One call by its name, `times` times, on foil 0 of a sheet, which is made first: calls NAME TIMES, and then a point
   for a look up, a foil by its name for a draw, a lay, a join and a carry, how 40 nets are laid, or how many entries
   are legs, for a look up of a point that is blocked, which is the check of the state. Where `full` stands before the
   name, the other foils have 378 entries. The difference of the instructions of two runs, with one call and with two,
   is the cost of a call: what is made first, and the first touch of the stack, is in both. */
#include <stdio.h>
#include <stdlib.h>
#include <string.h>

#include "foil.h"

static struct foil_sheet sheet;
static size_t called;
static struct foil_entry table[FOIL_PLACES];
static uint16_t strips[FOIL_STRIP_NUMBERS], corners[FOIL_CORNER_NUMBERS];
static uint8_t bytes[FOIL_SLIP_BYTES];

#define LENT &sheet, table, FOIL_PLACES, strips, FOIL_STRIP_NUMBERS
#define CORNERS corners, FOIL_CORNER_NUMBERS

/* 54 entries on each other foil */
static void full(void)
{
    unsigned k;
    for (called = FOIL_FOILS - 1; called > 0; called--) {
        foil_new_foil(LENT, called, 64, 64, 0, 0);
        for (k = 0; k < 54; k++)
            foil_draw(LENT, called, k, k, k + 1, k + 1);
    }
}

/* document 01's foil of 4,096 strips */
static void finest(void)
{
    unsigned k;
    foil_new_foil(LENT, called, 127, 127, 0, 0);
    for (k = 1; k < 126; k += 2)
        foil_draw(LENT, called, k, 0, k + 1, 127);
    for (k = 1; k < 126; k += 2)
        foil_draw(LENT, called, 0, k, 127, k + 1);
}

/* so many nets of one point each, on a foil of 4,096 by 4,096 */
static void points(unsigned n)
{
    unsigned k;
    foil_new_foil(LENT, called, 4096, 4096, 0, 0);
    for (k = 0; k < n; k++) {
        struct foil_entry leg = {1 + 7 * k, 31 * k, 29 * k, 31 * k + 1, 29 * k + 1};
        foil_put_leg(LENT, called, leg);
    }
}

/* so many staggered bars */
static void bars(unsigned n)
{
    unsigned k;
    foil_new_foil(LENT, called, 4096, 4096, 0, 0);
    for (k = 0; k < n; k++)
        foil_draw(LENT, called, 30 * k % 2600, 32 * k, 30 * k % 2600 + 1400, 32 * k + 9);
}

/* so many patches here and there, as bench/jobs.rs scatters them */
static void scattered(unsigned n)
{
    uint64_t seed = 3;
    unsigned k, i, size[4];
    foil_new_foil(LENT, called, 4096, 4096, 0, 0);
    for (k = 0; k < n; k++) {
        for (i = 0; i < 4; i++) {
            seed = seed * 6364136223846793005u + 1442695040888963407u;
            size[i] = (seed >> 33) % (i < 2 ? 60 : 4096 - size[i - 2]) + (i < 2);
        }
        foil_draw(LENT, called, size[2], size[3], size[2] + size[0], size[3] + size[1]);
    }
}

/* so many upright bars, as bench/jobs.rs staggers them */
static void staggered(unsigned n)
{
    unsigned k, step = 4096 / (n + 1), less = 4096 / (4 * n);
    foil_new_foil(LENT, called, 4096, 4096, 0, 0);
    for (k = 1; k <= n; k++)
        foil_draw(LENT, called, k * step, k * less, k * step + 1, 4096 - k * less);
}

/* so many long legs of net 7, and a patch below each; no two ends are on one line */
static void long_legs(unsigned n)
{
    unsigned k;
    foil_new_foil(LENT, called, 4096, 4096, 0, 0);
    for (k = 0; k < n; k++) {
        struct foil_entry leg = {7, 30 + 7 * k, 60 + 66 * k, 4060 - 9 * k, 61 + 66 * k};
        foil_put_leg(LENT, called, leg);
        foil_draw(LENT, called, 101 + 61 * k, 80 + 66 * k, 121 + 61 * k, 90 + 66 * k);
    }
}

/* so many level legs from the top on, and 128 entries with the level bars below, none of which is over a leg by its y
   alone */
static void above_bars(unsigned legs)
{
    unsigned k;
    foil_new_foil(LENT, called, 4096, 4096, 0, 0);
    for (k = 0; k < FOIL_ENTRIES; k++) {
        struct foil_entry leg = {1 + k, 10, 9 * k, 4000, 9 * k + 1};
        if (k < legs)
            foil_put_leg(LENT, called, leg);
        else
            foil_draw(LENT, called, 10, 9 * k, 4000, 9 * k + 1);
    }
}

/* from where to where a lay goes; a join goes the same way, to a net that has a leg there */
struct pair {
    uint16_t sx, sy, tx, ty;
};

/* makes the foil of this name */
static struct pair made(const char *foil)
{
    static const struct pair on_scattered = {165, 3959, 1253, 3576}, on_staggered = {0, 0, 2600, 4090},
                             on_legs = {5, 5, 4090, 4000}, on_bars = {0, 20, 4000, 4090};
    if (strcmp(foil, "scattered") == 0) {
        scattered(120);
        return on_scattered;
    }
    if (strcmp(foil, "staggered") == 0) {
        staggered(124);
        return on_staggered;
    }
    if (strcmp(foil, "legs") == 0) {
        long_legs(60);
        return on_legs;
    }
    bars(120);
    return on_bars;
}

/* lays net 8, or joins a point to net 7, so many times, each time on the foil as it was made; putting it back takes
   4 thousand instructions, in both */
static struct foil_said led(int joins, const char *foil, int times)
{
    static struct foil_entry made_table[FOIL_PLACES];
    static uint16_t made_strips[FOIL_STRIP_NUMBERS];
    struct foil_said said = {0, 0, 0, 0, 0};
    struct pair p = made(foil);
    struct foil_entry end = {7, p.tx, p.ty, p.tx + 1, p.ty + 1};
    struct foil_sheet made_sheet;
    if (joins)
        foil_put_leg(LENT, called, end);
    made_sheet = sheet;
    memcpy(made_table, table, sizeof table);
    memcpy(made_strips, strips, sizeof strips);
    for (; times > 0; times--) {
        said = joins ? foil_join(LENT, CORNERS, called, 7, p.sx, p.sy)
                     : foil_lay(LENT, CORNERS, called, 8, p.sx, p.sy, p.tx, p.ty);
        sheet = made_sheet;
        memcpy(table, made_table, sizeof table);
        memcpy(strips, made_strips, sizeof strips);
    }
    return said;
}

/* draws small patches, each at a place of its own, on a foil of patches or of bars, or the last point of the foil of
   4,096 strips again and again */
static struct foil_said drawn(const char *foil, int times)
{
    struct foil_said said = {0, 0, 0, 0, 0};
    if (strcmp(foil, "scattered") == 0)
        for (scattered(120); times > 0; times--)
            said = foil_draw(LENT, called, 7, 7 + 9 * times, 12, 11 + 9 * times);
    else if (strcmp(foil, "staggered") == 0)
        for (staggered(124); times > 0; times--)
            said = foil_draw(LENT, called, 0, 4000 + 9 * times, 2, 4001 + 9 * times);
    else
        for (finest(); times > 0; times--)
            said = foil_draw(LENT, called, 126, 126, 127, 127);
    return said;
}

/* 40 nets between free points of the foil of scattered patches */
static void wished(struct foil_wish *wishes)
{
    uint32_t seed = 1;
    uint16_t x, y;
    unsigned k = 0;
    while (k < 2 * FOIL_WISHES) {
        seed = seed * 1664525u + 1013904223u;
        x = seed >> 20;
        seed = seed * 1664525u + 1013904223u;
        y = seed >> 20;
        if (foil_look_up(LENT, called, x, y).number != 0)
            continue;
        wishes[k / 2].net = 101 + k / 2;
        if (k % 2 == 0) {
            wishes[k / 2].sx = x;
            wishes[k / 2].sy = y;
        } else {
            wishes[k / 2].tx = x;
            wishes[k / 2].ty = y;
        }
        k++;
    }
}

/* lays them, by one list or (`lays`) by a call each, each time on the foil as it was made; or (`none`) a list of no
   net, which is what comes before the lays of a list */
static struct foil_said forty(const char *how, int times)
{
    static struct foil_entry made_table[FOIL_PLACES];
    static uint16_t made_strips[FOIL_STRIP_NUMBERS];
    static struct foil_wish wishes[FOIL_WISHES];
    static struct foil_answer answers[FOIL_WISHES];
    struct foil_said said = {0, 0, 0, 0, 0};
    struct foil_sheet made_sheet;
    unsigned k;
    made("scattered");
    wished(wishes);
    made_sheet = sheet;
    memcpy(made_table, table, sizeof table);
    memcpy(made_strips, strips, sizeof strips);
    for (; times > 0; times--) {
        if (strcmp(how, "lays") == 0)
            for (k = 0; k < FOIL_WISHES; k++)
                said = foil_lay(LENT, CORNERS, called, wishes[k].net, wishes[k].sx, wishes[k].sy, wishes[k].tx,
                                wishes[k].ty);
        else
            said = foil_lay_list(LENT, CORNERS, (uint16_t *)(void *)answers, FOIL_ANSWER_NUMBERS,
                                 (const uint16_t *)(const void *)wishes,
                                 strcmp(how, "none") == 0 ? 0 : FOIL_WISH_NUMBERS, called);
        sheet = made_sheet;
        memcpy(table, made_table, sizeof table);
        memcpy(strips, made_strips, sizeof strips);
    }
    return said;
}

/* carries the foil of 4,096 strips over, or (`legs`) one of 64 legs and 64 patches, so many times: with a pen of 0 and
   0 it is also what document 01 makes of its entries. No net is lifted, but each patch is held against each leg */
static struct foil_said carried(const char *foil, int times)
{
    static struct foil_entry new_table[FOIL_ENTRIES];
    static uint16_t new_strips[4 * FOIL_STRIPS], report[FOIL_REPORT];
    struct foil_board *made_board = &sheet.boards[called], board = {0, 0, 0, 0, 0, 0};
    struct foil_old_board old = {0, 0, 0, 0, 0};
    struct foil_said said = {0, 0, 0, 0, 0};
    if (strcmp(foil, "legs") == 0)
        above_bars(64);
    else
        finest();
    old.width = made_board->width;
    old.height = made_board->height;
    old.entries = made_board->entries;
    old.strips = made_board->strips;
    for (; times > 0; times--)
        said = foil_carry(&board, new_table, FOIL_ENTRIES, table, FOIL_PLACES, new_strips, 4 * FOIL_STRIPS, report,
                          FOIL_REPORT, strips, 4 * FOIL_STRIPS, old);
    return said;
}

/* stairs of n corners from (0, 0) */
static size_t stairs(unsigned n)
{
    unsigned k;
    for (k = 0; k < n; k++) {
        corners[2 * k] = (k + 1) / 2 * 3;
        corners[2 * k + 1] = k / 2 * 3;
    }
    return 2 * n;
}

int main(int argc, char **argv)
{
    const char *name = argc > 1 ? argv[1] : "";
    int times = argc > 2 ? atoi(argv[2]) : 0;
    struct foil_entry last = {7, 126, 126, 127, 127};
    struct foil_said said = {0, 0, 0, 0, 0};
    unsigned x = argc > 3 ? atoi(argv[3]) : 0, y = argc > 4 ? atoi(argv[4]) : 0;
    size_t n;
    if (strncmp(name, "full", 4) == 0) {
        full();
        name += 4;
    }
    if (strcmp(name, "look") == 0) {
        for (finest(); times > 0; times--)
            said = foil_look_up(LENT, called, x, y);
    } else if (strcmp(name, "check") == 0) {
        for (above_bars(x); times > 0; times--)
            said = foil_look_up(LENT, called, 10, 0);
    } else if (strcmp(name, "save") == 0) {
        for (bars(128); times > 0; times--)
            said = foil_save(LENT, bytes, sizeof bytes, called);
    } else if (strcmp(name, "savefine") == 0) {
        for (finest(); times > 0; times--)
            said = foil_save(LENT, bytes, sizeof bytes, called);
    } else if (strcmp(name, "slip") == 0) {
        for (points(128); times > 0; times--)
            said = foil_slip(LENT, bytes, sizeof bytes, called);
    } else if (strcmp(name, "ohms") == 0) {
        struct foil_ink ink = {1, 1, 1};
        for (above_bars(64); times > 0; times--)
            said.number = foil_ohms(LENT, called, 1, ink).number;
    } else if (strcmp(name, "lay") == 0 || strcmp(name, "join") == 0) {
        said = led(*name == 'j', argc > 3 ? argv[3] : "", times);
    } else if (strcmp(name, "forty") == 0) {
        said = forty(argc > 3 ? argv[3] : "", times);
    } else if (strcmp(name, "carry") == 0) {
        said = carried(argc > 3 ? argv[3] : "", times);
    } else if (strcmp(name, "find") == 0) {
        for (bars(120); times > 0; times--)
            said = foil_find(LENT, CORNERS, called, 0, 20, 4000, 4090);
    } else if (strcmp(name, "book") == 0) {
        n = stairs(129);
        /* 128 entries far from the stairs: the whole list is tried, and then there is no place for its legs (10) */
        unsigned k;
        foil_new_foil(LENT, called, 4096, 4096, 0, 0);
        for (k = 0; k < 128; k++)
            foil_draw(LENT, called, 1000 + 20 * k, 500 + 25 * k, 1011 + 20 * k, 507 + 25 * k);
        for (; times > 0; times--)
            said = foil_book(LENT, corners, n, called, 7);
    } else if (strcmp(name, "draw") == 0) {
        said = drawn(argc > 3 ? argv[3] : "", times);
    } else if (strcmp(name, "leg") == 0) {
        for (finest(); times > 0; times--)
            said = foil_put_leg(LENT, called, last);
    } else if (strcmp(name, "lift") == 0) {
        /* one call less, since the net is there once */
        finest();
        said = foil_put_leg(LENT, called, last);
        for (; times > 1; times--)
            said = foil_lift(LENT, called, last.net);
    }
    printf("%u %zu %zu %zu %zu\n", said.number, said.corners, said.bends, said.place, said.bytes);
    return 0;
}
