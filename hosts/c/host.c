/* A host program. On foil 0 of a sheet: the foil of document 01's job, by calls and then as the job's bytes, as a
   customer's program would make it; a track found and a drawing booked, with the slip of both; the foil saved, and read
   on other lists; tracks of a wider pen; points joined to nets; patches across tracks; nets laid together; and lists in
   protected pages, which show what a call does not touch: if it did, the program would die. Then eight foils on one
   sheet: what they share, what each is sure of, and what is refused for all of them. Last, foils that were begun under
   document 01's rules, carried over. */
#define _DEFAULT_SOURCE
#include <stdio.h>
#include <stdlib.h>
#include <string.h>
#include <sys/mman.h>
#include <unistd.h>

#include "foil.h"

/* document 01's job */
static const uint8_t job[] = {0x03, 0x06, 0x00, 0x04, 0x00, 0x00, 0x00, 0x02, 0x00, 0x00, 0x00, 0x03, 0x00, 0x03,
                              0x00, 0x04, 0x05, 0x00, 0x00, 0x00, 0x00, 0x00, 0x04, 0x00, 0x00, 0x00, 0x00};

/* the same with a patch over the track, and a leg under the first patch, before its end mark */
static const uint8_t crossing_job[] = {0x03, 0x06, 0x00, 0x04, 0x00, 0x00, 0x00, 0x02, 0x00, 0x00, 0x00, 0x03,
                                       0x00, 0x03, 0x00, 0x04, 0x05, 0x00, 0x00, 0x00, 0x00, 0x00, 0x04, 0x00,
                                       0x00, 0x00, 0x02, 0x01, 0x00, 0x03, 0x00, 0x02, 0x00, 0x04, 0x00, 0x10,
                                       0x07, 0x00, 0x02, 0x00, 0x00, 0x00, 0x03, 0x00, 0x03, 0x00, 0x00};

/* a sheet, the foil that is called, and the lists that are lent for it, with their lengths */
static struct foil_sheet sheet;
static size_t foil;
static struct foil_entry *table;
static uint16_t *strips, *corners;
static size_t places, strip_numbers, corner_numbers;

#define LENT &sheet, table, places, strips, strip_numbers
#define CORNERS corners, corner_numbers
#define BOARD sheet.boards[foil]

static void show_entry(struct foil_entry e)
{
    printf("entry %u %u %u %u %u\n", e.net, e.x0, e.y0, e.x1, e.y1);
}

/* how many entries the foils before foil k have: where its entries begin */
static size_t start_of(size_t k)
{
    size_t i, start = 0;
    for (i = 0; i < k; i++)
        start += sheet.boards[i].entries;
    return start;
}

static void show_foil(void)
{
    size_t k, start = start_of(foil);
    printf("foil %u by %u, half %u, gap %u, entries %zu, strips %zu\n", BOARD.width, BOARD.height, BOARD.half,
           BOARD.gap, BOARD.entries, BOARD.strips);
    for (k = 0; k < BOARD.entries; k++)
        show_entry(table[start + k]);
    for (k = 0; k < BOARD.strips; k++)
        printf("strip %u %u %u %u\n", strips[4 * k], strips[4 * k + 1], strips[4 * k + 2], strips[4 * k + 3]);
}

/* the number of a refusal, or the bends and corners of a way */
static void show_way(struct foil_said said)
{
    size_t k;
    printf(" %u", said.number);
    if (said.number == 0) {
        printf(" %zu", said.bends);
        for (k = 0; k < said.corners; k++)
            printf(" %u,%u", corners[2 * k], corners[2 * k + 1]);
    }
    printf("\n");
}

static void show_lay(unsigned net, struct foil_said said)
{
    printf("track %u", net);
    show_way(said);
}

static void show_join(uint16_t net, uint16_t sx, uint16_t sy, size_t numbers)
{
    printf("join %u", net);
    show_way(foil_join(LENT, corners, numbers, foil, net, sx, sy));
}

static void show_leg(uint16_t net, uint16_t x0, uint16_t y0, uint16_t x1, uint16_t y1)
{
    struct foil_entry leg = {net, x0, y0, x1, y1};
    printf("leg %u %u\n", net, foil_put_leg(LENT, foil, leg).number);
}

static void show_save(uint8_t *bytes, size_t byte_count)
{
    struct foil_said said = foil_save(LENT, bytes, byte_count, foil);
    printf("save %u %zu\n", said.number, said.bytes);
}

/* saves the foil, shows its file, and answers how many bytes this has */
static size_t show_file(uint8_t *bytes, size_t byte_count)
{
    size_t k, count = foil_save(LENT, bytes, byte_count, foil).bytes;
    printf("saved %zu:", count);
    for (k = 0; k < count; k++)
        printf(" %02x", bytes[k]);
    printf("\n");
    return count;
}

static void show_place(uint16_t x, uint16_t y)
{
    struct foil_said said = foil_look_up(LENT, foil, x, y);
    printf("place %u %zu\n", said.number, said.place);
}

static void show_find(uint16_t sx, uint16_t sy, uint16_t tx, uint16_t ty, size_t numbers)
{
    printf("find");
    show_way(foil_find(LENT, corners, numbers, foil, sx, sy, tx, ty));
}

static void show_book(uint16_t net, const uint16_t *drawn, size_t numbers)
{
    struct foil_said said = foil_book(LENT, drawn, numbers, foil, net);
    printf("book %u %u %zu %zu\n", net, said.number, said.corners, said.bends);
}

static void show_slip(uint8_t *bytes, size_t byte_count)
{
    struct foil_said said = foil_slip(LENT, bytes, byte_count, foil);
    printf("slip %u %zu\n", said.number, said.bytes);
    fwrite(bytes, 1, said.bytes, stdout);
}

static void show_ohms(unsigned net, double square, double width, double bend)
{
    struct foil_ink ink = {square, width, bend};
    struct foil_resistance r = foil_ohms(LENT, foil, net, ink);
    printf("ohms %u %u %.17g\n", net, r.number, r.ohms);
}

/* runs a job file of `count` bytes, record by record */
static void run_job(const uint8_t *bytes, size_t count)
{
    size_t at = 0;
    for (;;) {
        struct foil_record r = foil_run_record(LENT, CORNERS, bytes, count, foil, at);
        if (r.number != 0) {
            printf("file %u\n", r.number);
            return;
        }
        if (r.end) {
            show_foil();
            return;
        }
        if (r.board.ran)
            printf("board %u\n", r.board.said.number);
        if (r.patch.ran)
            printf("patch %u\n", r.patch.said.number);
        if (r.track.ran)
            show_lay(bytes[at + 1] + 256u * bytes[at + 2], r.track.said);
        if (r.lift.ran)
            printf("lift %u\n", r.lift.said.number);
        if (r.leg.ran)
            printf("leg %u\n", r.leg.said.number);
        if (!r.more)
            return;
        at = r.next;
    }
}

/* the foil of document 01's job, with calls that are refused between */
static void document_01(void)
{
    static struct foil_entry own_table[FOIL_PLACES];
    static uint16_t own_strips[FOIL_STRIP_NUMBERS], own_corners[FOIL_CORNER_NUMBERS];
    table = own_table;
    places = FOIL_PLACES;
    strips = own_strips;
    strip_numbers = FOIL_STRIP_NUMBERS;
    corners = own_corners;
    corner_numbers = FOIL_CORNER_NUMBERS;
    /* nothing is begun yet: the lists hold zeros, which are no foil */
    printf("patch %u\n", foil_draw(LENT, foil, 2, 0, 3, 3).number);
    printf("board %u\n", foil_new_foil(LENT, foil, 0, 4, 0, 0).number);
    printf("board %u\n", foil_new_foil(LENT, foil, 6, 4, 0, 0).number);
    printf("patch %u\n", foil_draw(LENT, foil, 2, 0, 3, 3).number);
    printf("patch %u\n", foil_draw(LENT, foil, 3, 0, 2, 3).number);
    show_lay(5, foil_lay(LENT, CORNERS, foil, 5, 0, 0, 4, 0));
    show_lay(5, foil_lay(LENT, CORNERS, foil, 5, 0, 0, 4, 0));
    show_lay(6, foil_lay(LENT, CORNERS, foil, 6, 1, 0, 5, 0));
    show_lay(7, foil_lay(LENT, corners, 1, foil, 7, 1, 0, 1, 2));
    show_foil();
    show_place(5, 3);
    show_place(2, 2);
    show_ohms(5, 0.5, 2, 0.5);
    show_ohms(5, 0.1, 3, 0.7);
    show_ohms(5, 1000, 65, 4);
    show_ohms(6, 1000, 65, 4);
    /* a table of 511 places is too short, and stays as it is */
    printf("lift 5 %u\n", foil_lift(&sheet, table, 511, strips, strip_numbers, foil, 5).number);
    printf("lift 5 %u\n", foil_lift(LENT, foil, 5).number);
    printf("lift 5 %u\n", foil_lift(LENT, foil, 5).number);
    show_foil();
    /* a foil that another program has spoiled */
    strips[0] = 1;
    printf("lift 5 %u\n", foil_lift(LENT, foil, 5).number);
    /* a job's first record begins the foil anew */
    run_job(job, sizeof job);
    run_job(job, sizeof job - 1);
}

/* a track looked at before it is booked, a drawing of the customer's own, and the slip for both */
static void drawn(void)
{
    /* the last segment leaves the foil */
    static const uint16_t job_corners[] = {0, 0, 0, 3, 6, 3, 6, 0};
    static const uint16_t round_the_patch[] = {1, 0, 1, 2, 0, 2, 0, 3, 5, 3, 5, 0};
    static uint8_t slip[2 * FOIL_SLIP_LINE];
    printf("board %u\n", foil_new_foil(LENT, foil, 6, 4, 0, 0).number);
    printf("patch %u\n", foil_draw(LENT, foil, 2, 0, 3, 3).number);
    show_slip(slip, 0);
    /* 8 and 9 numbers are places for four corners, 7 for three */
    show_find(0, 0, 4, 0, 7);
    show_find(0, 0, 4, 0, 9);
    show_find(0, 0, 2, 0, 8);
    /* no corner, half a place, off the foil: no way; then the whole drawing, and its net once more */
    show_book(9, round_the_patch, 0);
    show_book(9, round_the_patch, 11);
    show_book(9, job_corners, 8);
    show_book(9, round_the_patch, 12);
    show_book(9, round_the_patch, 12);
    show_lay(3, foil_lay(LENT, CORNERS, foil, 3, 3, 0, 3, 2));
    show_slip(slip, sizeof slip - 1);
    show_slip(slip, sizeof slip);
    show_foil();
    run_job(job, sizeof job);
}

/* the same foil with two legs as booked, saved, and its file read on other lists */
static void saved(void)
{
    static struct foil_entry read_table[FOIL_PLACES];
    static uint16_t read_strips[FOIL_STRIP_NUMBERS];
    static uint8_t bytes[FOIL_BYTES];
    struct foil_entry *was_table = table;
    uint16_t *was_strips = strips;
    size_t count;
    show_leg(5, 0, 0, 1, 2);
    /* 0 and 1,000 are no track's net; then a leg that goes off the foil, and a shape that is no leg */
    show_leg(0, 0, 0, 1, 1);
    show_leg(1000, 9, 9, 9, 9);
    show_leg(7, 3, 0, 7, 1);
    show_leg(7, 0, 0, 2, 2);
    show_leg(7, 5, 0, 6, 4);
    count = show_file(bytes, sizeof bytes);
    show_save(bytes, count - 1);
    table = read_table;
    strips = read_strips;
    memset(&sheet, 0, sizeof sheet);
    /* nothing is begun on these yet */
    show_save(bytes, count);
    run_job(bytes, count);
    printf("read back: %s table, %s strips\n",
           memcmp(table, was_table, sizeof read_table) == 0 ? "the same" : "another",
           memcmp(strips, was_strips, sizeof read_strips) == 0 ? "the same" : "other");
}

/* a pen of half width 1 and gap 1: a patch and the edge block up to 2 away, a leg up to 3 */
static void wider_pen(void)
{
    static uint8_t bytes[FOIL_BYTES];
    /* the widest pen leaves nothing of this foil */
    printf("board %u\n", foil_new_foil(LENT, foil, 20, 16, 7, 15).number);
    show_foil();
    printf("board %u\n", foil_new_foil(LENT, foil, 20, 16, 1, 1).number);
    printf("patch %u\n", foil_draw(LENT, foil, 9, 5, 11, 7).number);
    show_place(7, 3);
    show_place(6, 3);
    show_foil();
    /* a track just past what the patch blocks, and one beside it: 3 away, then 4 */
    show_lay(3, foil_lay(LENT, CORNERS, foil, 3, 2, 2, 17, 2));
    show_lay(4, foil_lay(LENT, CORNERS, foil, 4, 2, 5, 17, 5));
    show_lay(4, foil_lay(LENT, CORNERS, foil, 4, 2, 6, 17, 6));
    show_foil();
    run_job(bytes, show_file(bytes, sizeof bytes));
}

/* points joined to a track, to a point of it and to a join of it, between joins that are refused; then the ohms and the
   slip of the net, which count the joins, and the net lifted whole */
static void joined(void)
{
    static uint8_t slip[FOIL_SLIP_LINE];
    printf("board %u\n", foil_new_foil(LENT, foil, 9, 7, 0, 0).number);
    show_lay(5, foil_lay(LENT, CORNERS, foil, 5, 1, 1, 7, 1));
    show_join(5, 4, 5, corner_numbers);
    show_foil();
    /* on a leg already */
    show_join(5, 4, 3, corner_numbers);
    show_ohms(5, 1, 1, 0);
    show_ohms(5, 1, 1, 1);
    show_slip(slip, sizeof slip);
    show_join(5, 0, 9, corner_numbers);
    show_join(6, 0, 0, corner_numbers);
    show_join(0, 0, 0, corner_numbers);
    show_lay(8, foil_lay(LENT, CORNERS, foil, 8, 0, 6, 8, 6));
    /* a point of the other net, and one of its own */
    show_join(5, 0, 6, corner_numbers);
    show_join(8, 0, 0, corner_numbers);
    /* 3 numbers are a place for one corner, 4 for two; on a leg one is enough */
    show_join(5, 8, 5, 3);
    show_join(5, 8, 5, 4);
    show_join(5, 8, 5, 2);
    show_foil();
    printf("lift 5 %u\n", foil_lift(LENT, foil, 5).number);
    show_foil();
    show_join(5, 4, 5, corner_numbers);
}

/* what a join keeps apart from: patches and the tracks of other nets, by their gaps, and not its own net */
static void joined_apart(void)
{
    printf("board %u\n", foil_new_foil(LENT, foil, 9, 7, 0, 1).number);
    show_lay(5, foil_lay(LENT, CORNERS, foil, 5, 2, 2, 6, 2));
    printf("patch %u\n", foil_draw(LENT, foil, 4, 4, 5, 5).number);
    show_join(5, 4, 6, corner_numbers);
    show_join(5, 1, 5, corner_numbers);
    show_join(5, 6, 5, corner_numbers);
    show_foil();
    printf("board %u\n", foil_new_foil(LENT, foil, 12, 9, 0, 1).number);
    show_lay(5, foil_lay(LENT, CORNERS, foil, 5, 2, 2, 9, 2));
    show_lay(6, foil_lay(LENT, CORNERS, foil, 6, 2, 6, 9, 6));
    show_join(5, 5, 4, corner_numbers);
    show_join(6, 10, 4, corner_numbers);
    show_foil();
    /* fewest bends come before length, and then the nearer leg */
    printf("board %u\n", foil_new_foil(LENT, foil, 9, 9, 0, 0).number);
    show_lay(5, foil_lay(LENT, CORNERS, foil, 5, 4, 0, 4, 3));
    show_leg(5, 0, 8, 9, 9);
    show_join(5, 2, 5, corner_numbers);
    show_join(5, 6, 4, corner_numbers);
    show_join(5, 6, 6, corner_numbers);
    show_foil();
    printf("board %u\n", foil_new_foil(LENT, foil, 8, 3, 0, 0).number);
    show_leg(5, 0, 0, 1, 3);
    show_leg(5, 7, 0, 8, 3);
    show_join(5, 3, 1, corner_numbers);
    show_join(5, 4, 0, corner_numbers);
    show_foil();
    /* two ways of one step: the end with the smaller y comes first */
    show_join(5, 1, 2, corner_numbers);
}

/* patches over legs and legs under patches, by record and by call, as near as the pen lets them be; then a table in
   which a leg over another has become a patch, with the same strips */
static void crossed(void)
{
    run_job(crossing_job, sizeof crossing_job);
    printf("board %u\n", foil_new_foil(LENT, foil, 12, 5, 0, 1).number);
    show_lay(3, foil_lay(LENT, CORNERS, foil, 3, 1, 3, 10, 3));
    printf("patch %u\n", foil_draw(LENT, foil, 4, 1, 6, 2).number);
    printf("patch %u\n", foil_draw(LENT, foil, 4, 2, 6, 3).number);
    show_leg(4, 7, 1, 8, 2);
    show_leg(4, 6, 1, 7, 2);
    printf("lift 3 %u\n", foil_lift(LENT, foil, 3).number);
    printf("patch %u\n", foil_draw(LENT, foil, 4, 2, 6, 3).number);
    printf("board %u\n", foil_new_foil(LENT, foil, 6, 4, 0, 0).number);
    show_leg(5, 0, 0, 1, 4);
    show_leg(6, 0, 0, 1, 4);
    table[1].net = 0;
    show_place(2, 2);
    table[1].net = 6;
    show_place(2, 2);
}

/* the numbers of a list of wishes, and of one of answers */
#define NUMBERS(list) (const uint16_t *)(const void *)(list)

/* lays a list of so many numbers, with so many numbers of corners and of answers lent, and shows what came of each */
static void show_list(const struct foil_wish *wishes, size_t wish_numbers, size_t numbers, size_t answer_numbers)
{
    static struct foil_answer answers[FOIL_WISHES + 2];
    size_t i, k, used = 0;
    struct foil_said said;
    memset(answers, 0xa5, sizeof answers);
    memset(corners, 0xa5, 32 * sizeof *corners);
    said = foil_lay_list(LENT, corners, numbers, (uint16_t *)(void *)answers, answer_numbers, NUMBERS(wishes),
                         wish_numbers, foil);
    printf("list %u\n", said.number);
    for (i = 0; i < FOIL_WISHES + 2 && answers[i].number != 0xa5a5; i++) {
        printf("track %u %u", wishes[i].net, answers[i].number);
        if (answers[i].number == 0) {
            printf(" %u", answers[i].bends);
            for (k = 0; k < answers[i].corners; k++, used++)
                printf(" %u,%u", corners[2 * used], corners[2 * used + 1]);
        }
        printf("\n");
    }
    /* the first number that is not written to, in both lists */
    printf("answers end with %zu, corners with %zu\n", i, corners[2 * used] == 0xa5a5 ? used : 32);
}

static void new_bar(void)
{
    printf("board %u\n", foil_new_foil(LENT, foil, 6, 4, 0, 0).number);
    printf("patch %u\n", foil_draw(LENT, foil, 2, 0, 3, 3).number);
}

/* lists of nets: a net twice, corner places that run out, numbers that are no whole wish, too many nets, too few places
   for answers, no net, and a spoiled foil */
static void listed(void)
{
    static const struct foil_wish four[] = {{5, 0, 0, 4, 0}, {5, 1, 0, 1, 1}, {6, 1, 0, 1, 2}, {7, 5, 0, 5, 3}};
    static const struct foil_wish three[] = {{5, 0, 0, 4, 0}, {6, 1, 0, 1, 2}, {7, 5, 0, 5, 0}};
    static struct foil_wish many[FOIL_WISHES + 1];
    unsigned k;
    new_bar();
    show_list(four, 20, corner_numbers, FOIL_ANSWER_NUMBERS);
    show_foil();
    /* 11 numbers are five places for corners, and 8 are two for answers */
    new_bar();
    show_list(three, 15, 11, 8);
    show_list(three, 15, 11, 9);
    show_foil();
    /* 14 numbers are two wishes */
    new_bar();
    show_list(three, 14, corner_numbers, 6);
    /* no net, and none whole */
    show_list(three, 0, 0, 0);
    show_list(three, 4, 0, 2);
    show_foil();
    /* 40 nets, of which the last alone may be laid, and 41 */
    for (k = 0; k < FOIL_WISHES; k++)
        many[k].net = 1000 + k;
    many[FOIL_WISHES - 1] = four[3];
    show_list(many, FOIL_WISH_NUMBERS, corner_numbers, FOIL_ANSWER_NUMBERS);
    show_list(many, 5 * (FOIL_WISHES + 1), corner_numbers, 3 * (FOIL_WISHES + 1));
    /* a table that is too short, and strips that another program has spoiled: 12 for the list comes first */
    places = 511;
    show_list(three, 0, 0, 0);
    places = FOIL_PLACES;
    strips[0]++;
    show_list(three, 0, 0, 0);
    show_list(three, 15, corner_numbers, 8);
    show_list(three, 15, corner_numbers, 9);
}

/* a number below n, at random */
static uint32_t below(uint32_t n)
{
    static uint32_t seed = 1;
    seed = (uint32_t)((uint64_t)seed * 48271 % 2147483647);
    return seed % n;
}

/* lists at random, each beside the same nets by a call each on a copy of the sheet: answers, corners, records, table and
   strips are to be the same */
static void lists_beside_lays(void)
{
    static struct foil_entry list_table[FOIL_PLACES], *lays_table;
    static uint16_t list_strips[FOIL_STRIP_NUMBERS], list_corners[160], lays_corners[160], *lays_strips;
    static struct foil_wish wishes[FOIL_WISHES];
    static struct foil_answer answers[FOIL_WISHES];
    struct foil_sheet list_sheet;
    unsigned round, k, nets, different = 0, laid = 0, refused = 0;
    lays_table = table;
    lays_strips = strips;
    for (round = 0; round < 300; round++) {
        uint16_t w = 6 + below(30), h = 6 + below(30);
        size_t numbers = below(160), used = 0;
        foil_new_foil(LENT, foil, w, h, below(2), below(3));
        for (k = below(8); k > 0; k--) {
            uint16_t x = below(w), y = below(h);
            foil_draw(LENT, foil, x, y, x + 1 + below(4), y + 1 + below(4));
        }
        nets = below(FOIL_WISHES + 1);
        for (k = 0; k < nets; k++) {
            struct foil_wish wish = {below(30), below(w + 1), below(h + 1), below(w + 1), below(h + 1)};
            wishes[k] = wish;
        }
        memset(list_corners, 0, sizeof list_corners);
        memset(lays_corners, 0, sizeof lays_corners);
        list_sheet = sheet;
        memcpy(list_table, lays_table, sizeof list_table);
        memcpy(list_strips, lays_strips, sizeof list_strips);
        different += foil_lay_list(&list_sheet, list_table, FOIL_PLACES, list_strips, FOIL_STRIP_NUMBERS, list_corners,
                                   numbers, (uint16_t *)(void *)answers, 3 * nets, NUMBERS(wishes), 5 * nets, foil)
                         .number != 0;
        for (k = 0; k < nets; k++) {
            struct foil_said said = foil_lay(LENT, lays_corners + used, numbers - used, foil, wishes[k].net,
                                             wishes[k].sx, wishes[k].sy, wishes[k].tx, wishes[k].ty);
            used += 2 * said.corners;
            laid += said.number == 0;
            refused += said.number != 0;
            different += answers[k].number != said.number || answers[k].corners != said.corners ||
                         answers[k].bends != said.bends;
        }
        different += memcmp(list_corners, lays_corners, sizeof list_corners) != 0;
        different += memcmp(&list_sheet, &sheet, sizeof sheet) != 0;
        different += memcmp(list_table, lays_table, sizeof list_table) != 0;
        different += memcmp(list_strips, lays_strips, sizeof list_strips) != 0;
    }
    printf("lists beside lays: %s laid, %s refused, %u different\n", laid > 500 ? "many" : "few",
           refused > 500 ? "many" : "few", different);
}

/* pages with a border among them: the first part of a list ends there, and its other places lie behind it */
struct pages {
    unsigned char *first, *border;
    size_t before, behind;
};

static struct pages parted(size_t before, size_t behind)
{
    size_t page = (size_t)sysconf(_SC_PAGESIZE);
    struct pages p;
    p.before = (before + page - 1) / page * page;
    p.behind = (behind + page - 1) / page * page;
    p.first = mmap(NULL, p.before + p.behind, PROT_READ | PROT_WRITE, MAP_PRIVATE | MAP_ANONYMOUS, -1, 0);
    if (p.first == MAP_FAILED) {
        perror("mmap");
        exit(1);
    }
    p.border = p.first + p.before;
    memset(p.border, 0xa5, p.behind);
    return p;
}

static void protect(unsigned char *from, size_t bytes, int how)
{
    if (mprotect(from, bytes, how) != 0) {
        perror("mprotect");
        exit(1);
    }
}

/* all pages of a list may be read and not written, or both */
static void read_only(struct pages p)
{
    protect(p.first, p.before + p.behind, PROT_READ);
}

static void writable(struct pages p)
{
    protect(p.first, p.before + p.behind, PROT_READ | PROT_WRITE);
}

static const char *kept(struct pages p)
{
    size_t k;
    for (k = 0; k < p.behind; k++)
        if (p.border[k] != 0xa5)
            return "changed";
    return "kept";
}

/* a table of 600 places and a strip list of 5,000: those past 512 and 4,096 may neither be read nor written, nor may
   those of a byte list past the end of the file */
static void longer_lists(struct pages t, struct pages s, struct pages b)
{
    table = (struct foil_entry *)(void *)t.border - FOIL_PLACES;
    places = 600;
    strips = (uint16_t *)(void *)s.border - FOIL_STRIP_NUMBERS;
    strip_numbers = 4 * 5000;
    protect(t.border, t.behind, PROT_NONE);
    protect(s.border, s.behind, PROT_NONE);
    protect(b.border, b.behind, PROT_NONE);
    printf("board %u\n", foil_new_foil(LENT, foil, 6, 4, 0, 0).number);
    printf("patch %u\n", foil_draw(LENT, foil, 2, 0, 3, 3).number);
    printf("patch %u\n", foil_draw(LENT, foil, 3, 0, 2, 3).number);
    show_lay(5, foil_lay(LENT, CORNERS, foil, 5, 0, 0, 4, 0));
    show_place(5, 3);
    show_join(5, 1, 1, corner_numbers);
    printf("lift 5 %u\n", foil_lift(LENT, foil, 5).number);
    show_leg(5, 0, 0, 1, 4);
    show_save(b.border - 32, 32 + b.behind);
    run_job(job, sizeof job);
    writable(t);
    writable(s);
    writable(b);
    printf("past 512: %s\n", kept(t));
    printf("past 4096: %s\n", kept(s));
    printf("past the file: %s\n", kept(b));
}

/* the lists of a foil, which may only be read while calls are refused: these write to none of them */
static void refused_calls(struct pages t, struct pages s, struct pages c, struct pages b)
{
    /* the record at place 1 lifts net 6, which is not there */
    static const uint8_t lift_6[] = {0x00, 0x08, 0x06, 0x00};
    /* a job whose pen has a half width of 8 */
    static const uint8_t wide_job[] = {0x21, 0x06, 0x00, 0x04, 0x00, 0x00, 0x00, 0x08, 0x00, 0x00, 0x00, 0x00};
    unsigned k;
    corners = (uint16_t *)(void *)c.border - corner_numbers;
    read_only(t);
    read_only(s);
    read_only(c);
    read_only(b);
    printf("board %u\n", foil_new_foil(LENT, foil, 6, 4, 8, 0).number);
    printf("board %u\n", foil_new_foil(LENT, foil, 6, 4, 0, 16).number);
    printf("board %u\n", foil_new_foil(LENT, foil, 0, 4, 8, 16).number);
    run_job(wide_job, sizeof wide_job);
    printf("patch %u\n", foil_draw(LENT, foil, 3, 0, 2, 3).number);
    show_lay(5, foil_lay(LENT, CORNERS, foil, 5, 0, 0, 4, 0));
    show_lay(6, foil_lay(LENT, CORNERS, foil, 6, 1, 0, 5, 0));
    show_lay(7, foil_lay(LENT, corners, 1, foil, 7, 1, 0, 1, 2));
    printf("list %u\n", foil_lay_list(LENT, CORNERS, corners, 0, NUMBERS(table), 5, foil).number);
    show_find(1, 0, 1, 2, 3);
    show_find(1, 0, 5, 0, corner_numbers);
    show_book(5, corners, 4);
    show_book(7, corners, 5);
    printf("lift 6 %u\n", foil_lift(LENT, foil, 6).number);
    show_leg(0, 0, 0, 1, 4);
    show_leg(7, 0, 0, 2, 2);
    show_save(b.border - 53, 53);
    show_slip(b.border - 32, 32);
    printf("lift 5 %u\n", foil_lift(&sheet, table, 511, strips, strip_numbers, foil, 5).number);
    printf("lift 6 %u\n", foil_run_record(LENT, CORNERS, lift_6, sizeof lift_6, foil, 1).lift.said.number);
    printf("file %u\n", foil_run_record(LENT, CORNERS, lift_6, sizeof lift_6, foil, 4).number);
    /* document 01's foil of 4,095 strips, and a track of one point that makes one more */
    writable(t);
    writable(s);
    writable(c);
    printf("board %u\n", foil_new_foil(LENT, foil, 129, 127, 0, 0).number);
    for (k = 1; k < 128; k += 2)
        foil_draw(LENT, foil, k, 0, k + 1, 127);
    for (k = 1; k < 124; k += 2)
        foil_draw(LENT, foil, 0, k, 129, k + 1);
    show_lay(5, foil_lay(LENT, CORNERS, foil, 5, 0, 125, 0, 125));
    printf("entries %zu, strips %zu\n", BOARD.entries, BOARD.strips);
    read_only(t);
    read_only(s);
    read_only(c);
    printf("patch %u\n", foil_draw(LENT, foil, 0, 125, 129, 126).number);
    printf("patch %u\n", foil_draw(LENT, foil, 1, 125, 129, 126).number);
    show_lay(6, foil_lay(LENT, CORNERS, foil, 6, 2, 125, 2, 125));
    show_leg(6, 2, 125, 3, 126);
    /* a line drawn once more is the foil's last entry */
    writable(t);
    writable(s);
    printf("patch %u\n", foil_draw(LENT, foil, 0, 1, 129, 2).number);
    read_only(t);
    read_only(s);
    printf("patch %u\n", foil_draw(LENT, foil, 0, 1, 129, 2).number);
    show_lay(6, foil_lay(LENT, CORNERS, foil, 6, 2, 125, 2, 125));
    show_leg(6, 2, 125, 3, 126);
    /* the file of a full foil, with a byte too few and with as many as it has; the foil's lists are only read */
    show_save(b.border - 1165, 1165);
    writable(b);
    show_save(b.border - 1166, 1166);
}

/* the same of joins: the lists of a foil with a patch across it, then of one of 4,096 strips */
static void refused_joins(struct pages t, struct pages s, struct pages c)
{
    unsigned k;
    writable(t);
    writable(s);
    writable(c);
    printf("board %u\n", foil_new_foil(LENT, foil, 6, 4, 0, 0).number);
    printf("patch %u\n", foil_draw(LENT, foil, 2, 0, 3, 4).number);
    show_lay(5, foil_lay(LENT, CORNERS, foil, 5, 0, 0, 1, 0));
    read_only(t);
    read_only(s);
    read_only(c);
    show_join(0, 6, 0, corner_numbers);
    show_join(6, 6, 0, corner_numbers);
    show_join(5, 6, 0, corner_numbers);
    show_join(5, 2, 0, corner_numbers);
    /* behind the patch: without a way no corner is wanted */
    show_join(5, 3, 0, 0);
    show_join(5, 1, 3, 3);
    printf("join 5 %u\n", foil_join(&sheet, table, 511, strips, strip_numbers, CORNERS, foil, 5, 1, 3).number);
    printf("join 5 %u\n",
           foil_join(&sheet, table, places, strips, FOIL_STRIP_NUMBERS - 1, CORNERS, foil, 5, 1, 3).number);
    /* a record that is not this foil's */
    BOARD.entries = 1;
    show_join(5, 1, 3, corner_numbers);
    /* 63 lines each way, and a leg of the net along the last of its fields, of 3 by 3 points: a join from the middle of
       that field parts it */
    writable(t);
    writable(s);
    printf("board %u\n", foil_new_foil(LENT, foil, 129, 129, 0, 0).number);
    for (k = 1; k < 126; k += 2)
        foil_draw(LENT, foil, k, 0, k + 1, 129);
    for (k = 1; k < 126; k += 2)
        foil_draw(LENT, foil, 0, k, 129, k + 1);
    show_leg(5, 126, 128, 129, 129);
    printf("entries %zu, strips %zu\n", BOARD.entries, BOARD.strips);
    read_only(t);
    read_only(s);
    show_join(5, 127, 127, corner_numbers);
    /* a line drawn once more is the foil's last entry */
    writable(t);
    writable(s);
    printf("patch %u\n", foil_draw(LENT, foil, 0, 1, 129, 2).number);
    read_only(t);
    read_only(s);
    show_join(5, 127, 127, corner_numbers);
}

/* ---- eight foils on one sheet */

static uint16_t sheet_strips[FOIL_FOILS][FOIL_STRIP_NUMBERS];

/* the calls are on foil k from here on, with its own strips; a number above 7 has no strips, and is lent foil 0's */
static void on(size_t k)
{
    foil = k;
    strips = sheet_strips[k < FOIL_FOILS ? k : 0];
}

/* no foil is begun, on these lists */
static void empty_sheet(struct pages t)
{
    writable(t);
    memset(&sheet, 0, sizeof sheet);
    table = (struct foil_entry *)(void *)t.border - FOIL_PLACES;
    memset(table, 0, FOIL_PLACES * sizeof *table);
    places = 600;
    strip_numbers = FOIL_STRIP_NUMBERS;
    protect(t.border, t.behind, PROT_NONE);
}

/* what stands in the places that no foil uses */
static const char *unused(void)
{
    const unsigned char *from = (const unsigned char *)(table + start_of(FOIL_FOILS));
    const unsigned char *end = (const unsigned char *)(table + FOIL_PLACES);
    for (; from < end; from++)
        if (*from != 0)
            return "other";
    return "zero";
}

static void show_table(void)
{
    size_t k, count = start_of(FOIL_FOILS);
    printf("table %zu, unused: %s\n", count, unused());
    for (k = 0; k < count; k++)
        show_entry(table[k]);
}

/* runs one record on the foil that is called */
static void show_record(const uint8_t *bytes, size_t count, size_t at)
{
    struct foil_record r = foil_run_record(LENT, CORNERS, bytes, count, foil, at);
    if (r.number != 0)
        printf("file %u\n", r.number);
    else if (r.end)
        printf("end\n");
    else
        printf("board %u, next %zu\n", r.board.said.number, r.next);
}

/* two foils in one table, one in front of the other, whose entries move as it grows and shrinks */
static void two_foils(struct pages t)
{
    static const uint8_t begins[] = {0x01, 0x06, 0x00, 0x04, 0x00, 0x00, 0x00, 0x00};
    static const uint8_t end[] = {0x00};
    empty_sheet(t);
    on(8);
    printf("board %u\n", foil_new_foil(LENT, foil, 6, 4, 0, 0).number);
    on(1);
    printf("patch %u\n", foil_draw(LENT, foil, 0, 0, 1, 1).number);
    printf("board %u\n", foil_new_foil(LENT, foil, 6, 4, 0, 0).number);
    on(0);
    printf("board %u\n", foil_new_foil(LENT, foil, 3, 3, 0, 0).number);
    on(1);
    printf("patch %u\n", foil_draw(LENT, foil, 2, 0, 3, 3).number);
    on(0);
    show_lay(9, foil_lay(LENT, CORNERS, foil, 9, 0, 0, 2, 2));
    on(1);
    show_lay(5, foil_lay(LENT, CORNERS, foil, 5, 0, 0, 4, 0));
    show_table();
    show_foil();
    on(0);
    printf("lift 9 %u\n", foil_lift(LENT, foil, 9).number);
    show_table();
    on(7);
    show_place(0, 0);
    on(0);
    show_foil();
    printf("board %u\n", foil_new_foil(LENT, foil, 5, 5, 1, 0).number);
    show_table();
    on(3);
    show_record(begins, sizeof begins, 0);
    show_foil();
    show_record(begins, sizeof begins, 7);
    on(4);
    show_record(begins, sizeof begins, 7);
    on(9);
    show_record(end, sizeof end, 0);
}

/* draws patches of one point on foil k, the ones from `first` to `last` by rows of 64 */
static void draw_points(size_t k, unsigned first, unsigned last)
{
    unsigned i, drawn = 0, full = 0;
    on(k);
    for (i = first; i <= last; i++) {
        uint16_t x = i % 64, y = i / 64;
        uint8_t number = foil_draw(LENT, foil, x, y, x + 1, y + 1).number;
        drawn += number == 0;
        full += number == 10;
    }
    printf("foil %zu: %u drawn, %u not, entries %zu\n", k, drawn, full, BOARD.entries);
}

/* as many entries as the sheet has places: what a foil is sure of, and what another may have beside it */
static void full_sheet(struct pages t)
{
    size_t k;
    empty_sheet(t);
    for (k = 0; k < FOIL_FOILS; k++) {
        on(k);
        printf("board %u\n", foil_new_foil(LENT, foil, 64, 64, 0, 0).number);
    }
    draw_points(0, 0, 127);
    draw_points(1, 0, 127);
    draw_points(2, 0, 127);
    draw_points(3, 0, 32);
    draw_points(4, 0, 0);
    draw_points(0, 192, 192);
    on(3);
    printf("strips %zu\n", BOARD.strips);
    /* what foil 2 gives up above its 32, foil 3 can use */
    on(2);
    printf("board %u\n", foil_new_foil(LENT, foil, 64, 64, 0, 0).number);
    draw_points(3, 32, 127);
    draw_points(2, 0, 32);
    draw_points(5, 0, 32);
    draw_points(6, 0, 32);
    draw_points(7, 0, 32);
    draw_points(4, 1, 32);
    printf("entries %zu\n", start_of(FOIL_FOILS));
    /* foil 4 stands behind foils 0 to 3 */
    show_entry(table[start_of(4)]);
    show_entry(table[start_of(4) + 31]);
    show_entry(table[FOIL_PLACES - 1]);
}

/* every call once, and the numbers of their refusals */
static void show_numbers(const char *why, uint8_t *bytes)
{
    static const struct foil_entry leg = {7, 0, 0, 1, 1};
    static const struct foil_ink ink = {1, 1, 0};
    printf("%s:", why);
    printf(" %u", foil_new_foil(LENT, foil, 6, 4, 0, 0).number);
    printf(" %u", foil_draw(LENT, foil, 0, 0, 1, 1).number);
    printf(" %u", foil_lay(LENT, CORNERS, foil, 5, 0, 0, 1, 1).number);
    printf(" %u", foil_lay_list(LENT, CORNERS, corners, 0, NUMBERS(&leg), 0, foil).number);
    printf(" %u", foil_join(LENT, CORNERS, foil, 5, 0, 0).number);
    printf(" %u", foil_find(LENT, CORNERS, foil, 0, 0, 1, 1).number);
    printf(" %u", foil_book(LENT, corners, 4, foil, 7).number);
    printf(" %u", foil_lift(LENT, foil, 5).number);
    printf(" %u", foil_put_leg(LENT, foil, leg).number);
    printf(" %u", foil_look_up(LENT, foil, 0, 0).number);
    printf(" %u", foil_save(LENT, bytes, FOIL_BYTES, foil).number);
    printf(" %u", foil_slip(LENT, bytes, FOIL_BYTES, foil).number);
    printf(" %u", foil_ohms(LENT, foil, 5, ink).number);
    printf(" %u\n", foil_run_record(LENT, CORNERS, job, sizeof job, foil, 0).number);
}

/* what every call is refused for, on lists that may only be read: a foil that is none, lists that are too short, and
   counts that break a limit, those of another foil too */
static void refused_for_all(struct pages t, struct pages s, struct pages c, struct pages b)
{
    uint8_t *bytes = b.border - FOIL_BYTES;
    size_t k;
    empty_sheet(t);
    on(0);
    printf("board %u\n", foil_new_foil(LENT, foil, 6, 4, 0, 0).number);
    writable(s);
    memcpy(s.border - sizeof sheet_strips[0], strips, sizeof sheet_strips[0]);
    strips = (uint16_t *)(void *)s.border - FOIL_STRIP_NUMBERS;
    read_only(t);
    read_only(s);
    read_only(c);
    read_only(b);
    foil = 8;
    show_numbers("foil 8", bytes);
    foil = SIZE_MAX;
    places = 0;
    strip_numbers = 0;
    show_numbers("foil of the largest number, no lists", bytes);
    foil = 0;
    show_numbers("no lists", bytes);
    places = 511;
    strip_numbers = FOIL_STRIP_NUMBERS;
    show_numbers("511 places", bytes);
    places = 512;
    strip_numbers--;
    show_numbers("a number less than the strips", bytes);
    strip_numbers++;
    sheet.boards[7].entries = 129;
    show_numbers("129 entries on foil 7", bytes);
    sheet.boards[7].entries = SIZE_MAX;
    show_numbers("the largest count on foil 7", bytes);
    for (k = 1; k < FOIL_FOILS; k++)
        sheet.boards[k].entries = 69;
    sheet.boards[7].entries = 67;
    show_numbers("513 places kept", bytes);
    sheet.boards[7].entries = 66;
    show_place(0, 0);
    writable(s);
    writable(c);
    writable(b);
}

/* unused places that hold something: no call is refused for them; one that is refused or only reads leaves them, one
   that begins a foil, adds or takes entries clears them */
static void unused_places(struct pages t)
{
    static uint8_t bytes[FOIL_BYTES];
    empty_sheet(t);
    on(2);
    memset(table, 0xa5, FOIL_PLACES * sizeof *table);
    printf("board %u\n", foil_new_foil(LENT, foil, 0, 4, 0, 0).number);
    printf("unused: %s\n", unused());
    printf("board %u\n", foil_new_foil(LENT, foil, 6, 4, 0, 0).number);
    printf("unused: %s\n", unused());
    show_lay(5, foil_lay(LENT, CORNERS, foil, 5, 0, 0, 0, 0));
    table[1].y1 = 7;
    table[511].net = 1;
    show_place(1, 0);
    show_lay(5, foil_lay(LENT, CORNERS, foil, 5, 0, 0, 0, 0));
    show_find(1, 0, 2, 0, corner_numbers);
    show_save(bytes, sizeof bytes);
    printf("unused: %s, %u %u\n", unused(), table[1].y1, table[511].net);
    printf("lift 5 %u\n", foil_lift(LENT, foil, 5).number);
    printf("unused: %s\n", unused());
    protect(t.border, t.behind, PROT_READ);
    printf("past 512: %s\n", kept(t));
}

/* ---- foils of document 01, carried over */

/* an old foil: its record, and its lists, which may only be read while it is carried over */
static struct foil_old_board old;
static struct foil_entry *old_table;
static uint16_t *old_strips, *report;

#define OLD old_table, FOIL_ENTRIES
#define OLD_STRIPS old_strips, FOIL_STRIP_NUMBERS, old

/* the old foil w by h of this reach, with these entries and the strips that it has by document 01 */
static void old_foil(struct pages ot, struct pages os, uint16_t w, uint16_t h, uint16_t reach,
                     const struct foil_entry *entries, size_t count, const uint16_t *listed, size_t strip_count)
{
    writable(ot);
    writable(os);
    old_table = (struct foil_entry *)(void *)ot.border - FOIL_ENTRIES;
    old_strips = (uint16_t *)(void *)os.border - FOIL_STRIP_NUMBERS;
    memset(old_table, 0, FOIL_ENTRIES * sizeof *old_table);
    memset(old_strips, 0, FOIL_STRIP_NUMBERS * sizeof *old_strips);
    memcpy(old_table, entries, count * sizeof *entries);
    memcpy(old_strips, listed, 4 * strip_count * sizeof *listed);
    old.width = w;
    old.height = h;
    old.reach = reach;
    old.entries = count;
    old.strips = strip_count;
    read_only(ot);
    read_only(os);
}

static void show_carried(struct foil_said said)
{
    size_t k;
    printf("carry %u", said.number);
    if (said.number == 0) {
        printf(" %zu:", said.bytes);
        for (k = 0; k < said.bytes; k++)
            printf(" %u", report[k]);
        if (said.bytes < FOIL_REPORT)
            printf(", then %u", report[said.bytes]);
    }
    printf("\n");
}

/* carries the old foil over to foil 0 of a sheet else empty, whose lists hold something else before */
static void carry_to_sheet(struct pages t)
{
    empty_sheet(t);
    on(0);
    memset(strips, 0xa5, FOIL_STRIP_NUMBERS * sizeof *strips);
    memset(report, 0xff, FOIL_REPORT * sizeof *report);
    show_carried(foil_carry(&BOARD, table, places, OLD, strips, strip_numbers, report, FOIL_REPORT, OLD_STRIPS));
    show_foil();
    printf("unused: %s, %u\n", unused(), strips[4 * BOARD.strips]);
}

static void carried(struct pages t, struct pages ot, struct pages os)
{
    static const struct foil_entry patched[] = {{0, 0, 0, 2, 1}, {3, 1, 3, 11, 4}, {0, 4, 3, 6, 4}, {7, 2, 1, 3, 5}};
    static const uint16_t patched_strips[] = {4, 0, 12, 2};
    static const struct foil_entry edged[] = {{0, 4, 3, 6, 4}, {3, 1, 3, 11, 4}, {7, 1, 1, 2, 5}, {3, 8, 1, 9, 2}};
    static const uint16_t edged_strips[] = {3, 0, 7, 2, 10, 0, 12, 2};
    static const struct foil_entry falling[] = {{0, 2, 0, 3, 3}, {9, 2, 0, 3, 3}, {5, 0, 0, 6, 1}, {9, 5, 3, 6, 4}};
    static const uint16_t falling_strips[] = {0, 1, 2, 3, 3, 1, 6, 3, 0, 3, 5, 4};
    static const struct foil_entry of_job[] = {{0, 2, 0, 3, 3}, {5, 0, 0, 1, 4}, {5, 0, 3, 5, 4}, {5, 4, 0, 5, 4}};
    static const uint16_t job_strips[] = {1, 0, 2, 3, 3, 0, 4, 3, 5, 0, 6, 4};
    static const uint16_t square[] = {0, 0, 4, 4};
    static uint8_t bytes[FOIL_BYTES];
    size_t count;
    old_foil(ot, os, 12, 5, 1, patched, 4, patched_strips, 1);
    carry_to_sheet(t);
    old_foil(ot, os, 6, 4, 0, falling, 4, falling_strips, 3);
    carry_to_sheet(t);
    /* the edge leaves nothing */
    old_foil(ot, os, 4, 4, 2, patched, 0, square, 1);
    carry_to_sheet(t);
    /* a net in the edge's zone stays; the foil goes on with today's calls */
    old_foil(ot, os, 12, 5, 1, edged, 4, edged_strips, 2);
    carry_to_sheet(t);
    printf("patch %u\n", foil_draw(LENT, foil, 1, 2, 2, 3).number);
    show_lay(3, foil_lay(LENT, CORNERS, foil, 3, 8, 3, 10, 1));
    printf("lift 7 %u\n", foil_lift(LENT, foil, 7).number);
    show_foil();
    /* the foil of document 01's job as its calls left it; carried over, drawn on, joined, saved, and read as foil 1 */
    old_foil(ot, os, 6, 4, 0, of_job, 4, job_strips, 3);
    carry_to_sheet(t);
    printf("patch %u\n", foil_draw(LENT, foil, 5, 0, 6, 1).number);
    show_join(5, 3, 1, corner_numbers);
    count = show_file(bytes, sizeof bytes);
    on(1);
    run_job(bytes, count);
}

/* one number of a list that may only be read else is changed, the old foil carried over, and the number put back */
static void broken_at(struct pages p, uint16_t *number, uint16_t other)
{
    uint16_t was = *number;
    writable(p);
    *number = other;
    read_only(p);
    show_carried(foil_carry(&BOARD, table, places, OLD, strips, strip_numbers, report, FOIL_REPORT, OLD_STRIPS));
    writable(p);
    *number = was;
    read_only(p);
}

/* the same of a number of the old record */
static void broken_record(uint16_t *number, uint16_t other)
{
    uint16_t was = *number;
    *number = other;
    show_carried(foil_carry(&BOARD, table, places, OLD, strips, strip_numbers, report, FOIL_REPORT, OLD_STRIPS));
    *number = was;
}

static void broken_count(size_t *number, size_t other)
{
    size_t was = *number;
    *number = other;
    show_carried(foil_carry(&BOARD, table, places, OLD, strips, strip_numbers, report, FOIL_REPORT, OLD_STRIPS));
    *number = was;
}

/* carries that are refused, and write to no list */
static void refused_carries(struct pages t, struct pages s, struct pages r, struct pages ot, struct pages os)
{
    static const struct foil_entry of_job[] = {{0, 2, 0, 3, 3}, {5, 0, 0, 1, 4}, {5, 0, 3, 5, 4}, {5, 4, 0, 5, 4}};
    static const uint16_t job_strips[] = {1, 0, 2, 3, 3, 0, 4, 3, 5, 0, 6, 4};
    static const struct foil_entry bare[] = {{0, 0, 0, 2, 1}};
    static const uint16_t bare_strips[] = {3, 0, 12, 2, 0, 2, 12, 5}, edge_strips[] = {3, 1, 11, 2, 1, 2, 11, 4};
    static struct foil_entry lines[FOIL_ENTRIES];
    static uint16_t cells[FOIL_STRIP_NUMBERS];
    struct foil_board was;
    size_t k;
    empty_sheet(t);
    on(0);
    was = BOARD;
    strips = (uint16_t *)(void *)s.border - FOIL_STRIP_NUMBERS;
    report = (uint16_t *)(void *)r.border - FOIL_REPORT;
    read_only(t);
    read_only(s);
    read_only(r);
    old_foil(ot, os, 6, 4, 0, of_job, 4, job_strips, 3);
    /* 12: a place less of the new lists, of the report, of the old lists; also where the old foil is none */
    show_carried(foil_carry(&BOARD, table, 127, OLD, strips, strip_numbers, report, FOIL_REPORT, OLD_STRIPS));
    show_carried(foil_carry(&BOARD, table, places, OLD, strips, strip_numbers - 1, report, FOIL_REPORT, OLD_STRIPS));
    show_carried(foil_carry(&BOARD, table, places, OLD, strips, strip_numbers, report, 127, OLD_STRIPS));
    show_carried(foil_carry(&BOARD, table, places, old_table, 127, strips, strip_numbers, report, FOIL_REPORT,
                            OLD_STRIPS));
    show_carried(foil_carry(&BOARD, table, places, OLD, strips, strip_numbers, report, FOIL_REPORT, old_strips,
                            FOIL_STRIP_NUMBERS - 1, old));
    old.width = 0;
    show_carried(foil_carry(&BOARD, table, places, OLD, strips, strip_numbers, report, 127, OLD_STRIPS));
    old.width = 6;
    /* 13: the record; an entry that is empty, off the foil, of no net, no leg; what is unused; the strips */
    broken_record(&old.width, 0);
    broken_record(&old.height, 4097);
    broken_record(&old.reach, 16);
    broken_record(&old.reach, 1);
    broken_count(&old.entries, 3);
    broken_count(&old.entries, 129);
    broken_count(&old.strips, 2);
    broken_at(ot, &old_table[0].x1, 2);
    broken_at(ot, &old_table[2].x1, 7);
    broken_at(ot, &old_table[1].net, 1000);
    broken_at(ot, &old_table[1].x1, 2);
    broken_at(ot, &old_table[127].y1, 1);
    broken_at(os, &old_strips[2], 3);
    broken_at(os, &old_strips[FOIL_STRIP_NUMBERS - 1], 1);
    /* strips by today's rules are no strips of document 01 */
    old_foil(ot, os, 12, 5, 1, bare, 1, edge_strips, 2);
    show_carried(foil_carry(&BOARD, table, places, OLD, strips, strip_numbers, report, FOIL_REPORT, OLD_STRIPS));
    /* 11: lines across a track, which hides a column of cells as long as it is there */
    for (k = 0; k < 64; k++) {
        struct foil_entry e = {0, (uint16_t)(2 * k + 1), 0, (uint16_t)(2 * k + 2), 127};
        lines[k] = e;
    }
    for (k = 0; k < 63; k++) {
        struct foil_entry e = {0, 0, (uint16_t)(2 * k + 1), 129, (uint16_t)(2 * k + 2)};
        lines[64 + k] = e;
    }
    lines[127].net = 5;
    lines[127].x1 = 1;
    lines[127].y1 = 127;
    for (k = 0; k < FOIL_STRIPS; k++) {
        cells[4 * k] = (uint16_t)(2 * (k % 64) + 2);
        cells[4 * k + 1] = (uint16_t)(2 * (k / 64));
        cells[4 * k + 2] = (uint16_t)(cells[4 * k] + 1);
        cells[4 * k + 3] = (uint16_t)(cells[4 * k + 1] + 1);
    }
    old_foil(ot, os, 129, 127, 0, lines, 128, cells, FOIL_STRIPS);
    show_carried(foil_carry(&BOARD, table, places, OLD, strips, strip_numbers, report, FOIL_REPORT, OLD_STRIPS));
    printf("record: %s\n", memcmp(&was, &BOARD, sizeof was) == 0 ? "as it was" : "changed");
    /* with its strips by document 01 the foil above is carried over */
    old_foil(ot, os, 12, 5, 1, bare, 1, bare_strips, 2);
    writable(t);
    writable(s);
    writable(r);
    show_carried(foil_carry(&BOARD, table, places, OLD, strips, strip_numbers, report, FOIL_REPORT, OLD_STRIPS));
    show_foil();
}

int main(void)
{
    struct pages t = parted(FOIL_PLACES * sizeof(struct foil_entry), 88 * sizeof(struct foil_entry));
    struct pages s = parted(FOIL_STRIP_NUMBERS * sizeof(uint16_t), 4 * 904 * sizeof(uint16_t));
    struct pages c = parted(FOIL_CORNER_NUMBERS * sizeof(uint16_t), 0);
    struct pages b = parted(FOIL_BYTES, 64);
    struct pages r = parted(FOIL_REPORT * sizeof(uint16_t), 0);
    struct pages ot = parted(FOIL_ENTRIES * sizeof(struct foil_entry), 0);
    struct pages os = parted(FOIL_STRIP_NUMBERS * sizeof(uint16_t), 0);
    document_01();
    drawn();
    saved();
    wider_pen();
    joined();
    joined_apart();
    crossed();
    listed();
    lists_beside_lays();
    longer_lists(t, s, b);
    refused_calls(t, s, c, b);
    refused_joins(t, s, c);
    writable(c);
    two_foils(t);
    full_sheet(t);
    refused_for_all(t, s, c, b);
    unused_places(t);
    report = (uint16_t *)(void *)r.border - FOIL_REPORT;
    carried(t, ot, os);
    refused_carries(t, s, r, ot, os);
    return 0;
}
