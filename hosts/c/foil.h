/* The calls on a foil of a sheet, for C and C++: the functions that crates/host_c/src/lib.rt exports, in libfoil.
   docs/HOST.md says how it is built, and more on what follows.

   A sheet is eight foils, numbered 0 to 7: their records, and one table for all of them, foil after foil by number,
   unused places last. A sheet begins with records and table all zero. A call is lent the records, the table, the strips
   of the foil called, and the foil's number.

   A list is lent by its address and its length, and the length is always in elements of the type that the address
   points to: entries for a table, numbers of 16 bits for strips (4 a strip: x0, y0, x1, y1), corners (2 each: x, y),
   wishes (5), answers (3) and reports (1), bytes for a file. FOIL_PLACES, FOIL_REPORT and the names in _NUMBERS and
   _BYTES are lengths that are enough, in that unit.

   A call may be lent any lists: one that is too short is refused by 12, and of a longer one the places past the first
   FOIL_PLACES or FOIL_STRIPS are neither read nor written. Lists must not overlap each other nor the records. A refused
   call writes to no list, and the records keep what they held; a foil number above 7 is refused by 23, before all else.

   Nothing is kept between calls but what is lent: sheets that share no list may be called from several threads at once.
   A call needs up to FOIL_STACK bytes of stack. */
#ifndef FOIL_H
#define FOIL_H

#include <stdbool.h>
#include <stddef.h>
#include <stdint.h>

#ifdef __cplusplus
extern "C" {
#endif

/* the numbers of the refusals: 0 for none */
enum foil_refusal {
    FOIL_ACCEPTED = 0,
    FOIL_BAD_SIZE = 1,          /* the foil's width or height is not from 1 to 4,096 */
    FOIL_BAD_REACH = 2,         /* the foil's reach is above 15 (in a job file) */
    FOIL_BAD_SHAPE = 3,         /* the patch or leg is empty, reversed or past the foil, or the leg is too wide */
    FOIL_BAD_NET = 4,           /* the net is not from 1 to 999 */
    FOIL_NET_ON_FOIL = 5,       /* the net is on the foil already */
    FOIL_NET_NOT_ON_FOIL = 6,   /* the net is not on the foil */
    FOIL_OFF_FOIL = 7,          /* a point is off the foil */
    FOIL_NOT_FREE = 8,          /* a point is not free */
    FOIL_NO_PATH = 9,           /* no path leads from start to end */
    FOIL_TABLE_FULL = 10,       /* the foil or the sheet would have too many entries */
    FOIL_TOO_MANY_STRIPS = 11,  /* the foil would have more than FOIL_STRIPS strips */
    FOIL_LENT_TOO_LITTLE = 12,  /* a list is too short, or a list of nets too long */
    FOIL_BROKEN_STATE = 13,     /* what is lent is no foil's state: records, entries or strips break a rule */
    FOIL_FILE_CUT_SHORT = 14,   /* the file ends inside a record or before its end mark */
    FOIL_UNKNOWN_BIT = 15,      /* a record asks for something unknown */
    FOIL_BOARD_MISPLACED = 16,  /* the first record has no board, or a later one has a board or a pen */
    FOIL_BYTES_AFTER_END = 17,  /* bytes follow the end mark */
    FOIL_FILE_TOO_LONG = 18,    /* the file has more than 60,000 bytes */
    FOIL_NOT_A_WAY = 19,        /* the corners to book are no way over free points */
    FOIL_BAD_PEN = 20,          /* the pen's half width is above 7, or its gap above 15 */
    FOIL_CROSSED = 21,          /* a patch would block a point of a leg, or does */
    FOIL_BAD_INK = 22,          /* a figure of the ink is out of its range */
    FOIL_NO_SUCH_FOIL = 23      /* the foil's number is above 7 */
};

/* the foils of a sheet, and the places of their table; the entries that a foil may have, and those that it is sure of
   whatever the others have; the strips that a foil's list must have room for; the corners that are enough for any lay
   or find, and for a join unless its net cannot be lifted (11); the nets that a list has at most; the nets that a report
   must have room for */
enum {
    FOIL_FOILS = 8,
    FOIL_PLACES = 512,
    FOIL_ENTRIES = 128,
    FOIL_SURE = 32,
    FOIL_STRIPS = 4096,
    FOIL_CORNERS = 8192,
    FOIL_WISHES = 40,
    FOIL_REPORT = 128
};

/* the lengths of lists of numbers that have room for these */
enum {
    FOIL_STRIP_NUMBERS = 4 * FOIL_STRIPS,
    FOIL_CORNER_NUMBERS = 2 * FOIL_CORNERS,
    FOIL_WISH_NUMBERS = 5 * FOIL_WISHES,
    FOIL_ANSWER_NUMBERS = 3 * FOIL_WISHES
};

/* the bytes that are enough to save any foil: 12, 9 for each patch and 11 for each leg; those of a line of a slip, its
   line feed included; and those of the longest slip, as a foil has no more nets than entries */
enum {
    FOIL_BYTES = 12 + 11 * FOIL_ENTRIES,
    FOIL_SLIP_LINE = 33,
    FOIL_SLIP_BYTES = FOIL_SLIP_LINE * FOIL_ENTRIES
};

/* the bytes of stack that are enough for any call (docs/HOST.md: what was measured) */
enum { FOIL_STACK = 2 * 1024 * 1024 };

/* a foil's record, with the pen's half width and gap; all zero where the foil is not begun */
struct foil_board {
    uint16_t width, height, half, gap;
    size_t entries, strips;
};

/* the records of the foils */
struct foil_sheet {
    struct foil_board boards[FOIL_FOILS];
};

/* the record of a foil that was begun under document 01's rules, with its reach */
struct foil_old_board {
    uint16_t width, height, reach;
    size_t entries, strips;
};

/* an entry of the table: its net, and the points with x0 <= x < x1 and y0 <= y < y1 */
struct foil_entry {
    uint16_t net, x0, y0, x1, y1;
};

/* an answer: the number of a refusal, 0 for none; the numbers of corners and bends after a lay, a join, a find or a
   booking; the strip's place after a look up; the number of bytes after a save or a slip, and that of nets after a
   carry */
struct foil_said {
    uint8_t number;
    size_t corners, bends, place, bytes;
};

/* a net to lay from (sx, sy) to (tx, ty) */
struct foil_wish {
    uint16_t net, sx, sy, tx, ty;
};

/* what came of it: the number of a refusal, 0 for none; the numbers of corners and bends, 0 where it is refused */
struct foil_answer {
    uint16_t number, corners, bends;
};

/* a step of a record: whether it was run, and its answer */
struct foil_step {
    bool ran;
    struct foil_said said;
};

/* the reply to a record: the number that refuses it as a whole, 0 for none; whether it was the end mark; its steps;
   whether the job goes on, and the next record's place */
struct foil_record {
    uint8_t number;
    bool end;
    struct foil_step board, patch, track, lift, leg;
    bool more;
    size_t next;
};

/* the ink: ohms a square, the width of a track in points, squares counted for a bend */
struct foil_ink {
    double sheet, width, bend;
};

/* ohms: the number of a refusal, 0 for none; the ohms, 0 where they are refused */
struct foil_resistance {
    uint8_t number;
    double ohms;
};

/* begins the foil, w by h with a pen of half width 0 to 7 and gap 0 to 15: a patch and the foil's edge block the points
   up to half + gap away, a leg those up to 2 * half + gap; so a new foil has one strip, or none where the edge leaves
   nothing. The entries that the foil had are taken out of the table */
struct foil_said foil_new_foil(struct foil_sheet *sheet, struct foil_entry *table, size_t places, uint16_t *strips,
                               size_t strip_numbers, size_t foil, uint16_t w, uint16_t h, uint16_t half, uint16_t gap);

/* draws a patch */
struct foil_said foil_draw(struct foil_sheet *sheet, struct foil_entry *table, size_t places, uint16_t *strips,
                           size_t strip_numbers, size_t foil, uint16_t x0, uint16_t y0, uint16_t x1, uint16_t y1);

/* lays a track of the net from (sx, sy) to (tx, ty), and writes its corners */
struct foil_said foil_lay(struct foil_sheet *sheet, struct foil_entry *table, size_t places, uint16_t *strips,
                          size_t strip_numbers, uint16_t *corners, size_t corner_numbers, size_t foil, uint16_t net,
                          uint16_t sx, uint16_t sy, uint16_t tx, uint16_t ty);

/* lays the nets of a list one after the other, as foil_lay would, each with the corner places that those before it have
   left: `wishes` has five numbers for each, those of a struct foil_wish, and `answers` gets three for each, those of a
   struct foil_answer. A net that is refused uses no corner place, and the next one is tried. The corners stand one after
   the other. What is lent past the last corner and the last answer is not touched. The list as a whole is refused by 12
   if it has more than FOIL_WISHES nets, or more than places for answers; else it is answered 0, and has no corners nor
   bends of its own */
struct foil_said foil_lay_list(struct foil_sheet *sheet, struct foil_entry *table, size_t places, uint16_t *strips,
                               size_t strip_numbers, uint16_t *corners, size_t corner_numbers, uint16_t *answers,
                               size_t answer_numbers, const uint16_t *wishes, size_t wish_numbers, size_t foil);

/* joins the point (sx, sy) to the net: finds a way from it to any point of the net's legs, writes its corners, and adds
   its legs under the same net, one of a single point if the point is on a leg already. Points that only the net's own
   legs block are free for it. Refused by 6 if the net is not on the foil, by 8 if the point is blocked for that net.
   foil_lift takes the net whole: it is not the undoing of a join */
struct foil_said foil_join(struct foil_sheet *sheet, struct foil_entry *table, size_t places, uint16_t *strips,
                           size_t strip_numbers, uint16_t *corners, size_t corner_numbers, size_t foil, uint16_t net,
                           uint16_t sx, uint16_t sy);

/* finds the track from (sx, sy) to (tx, ty), and writes its corners; the foil is not changed */
struct foil_said foil_find(const struct foil_sheet *sheet, const struct foil_entry *table, size_t places,
                           const uint16_t *strips, size_t strip_numbers, uint16_t *corners, size_t corner_numbers,
                           size_t foil, uint16_t sx, uint16_t sy, uint16_t tx, uint16_t ty);

/* books the way that the whole corner list draws as a track of the net; the list is only read */
struct foil_said foil_book(struct foil_sheet *sheet, struct foil_entry *table, size_t places, uint16_t *strips,
                           size_t strip_numbers, const uint16_t *corners, size_t corner_numbers, size_t foil,
                           uint16_t net);

/* lifts a net */
struct foil_said foil_lift(struct foil_sheet *sheet, struct foil_entry *table, size_t places, uint16_t *strips,
                           size_t strip_numbers, size_t foil, uint16_t net);

/* puts a leg as booked: appends its entry, without any search */
struct foil_said foil_put_leg(struct foil_sheet *sheet, struct foil_entry *table, size_t places, uint16_t *strips,
                              size_t strip_numbers, size_t foil, struct foil_entry leg);

/* looks a point up */
struct foil_said foil_look_up(const struct foil_sheet *sheet, const struct foil_entry *table, size_t places,
                              const uint16_t *strips, size_t strip_numbers, size_t foil, uint16_t x, uint16_t y);

/* saves the foil: writes it as a job file to the front of `bytes`; what is lent past its end is not touched */
struct foil_said foil_save(const struct foil_sheet *sheet, const struct foil_entry *table, size_t places,
                           const uint16_t *strips, size_t strip_numbers, uint8_t *bytes, size_t byte_count,
                           size_t foil);

/* writes the slip of the foil's tracks to the front of `bytes`, a line a net; what is lent past it is not touched */
struct foil_said foil_slip(const struct foil_sheet *sheet, const struct foil_entry *table, size_t places,
                           const uint16_t *strips, size_t strip_numbers, uint8_t *bytes, size_t byte_count,
                           size_t foil);

/* the ohms of a net */
struct foil_resistance foil_ohms(const struct foil_sheet *sheet, const struct foil_entry *table, size_t places,
                                 const uint16_t *strips, size_t strip_numbers, size_t foil, uint16_t net,
                                 struct foil_ink ink);

/* runs the record that begins at place `at` of a job file's bytes; a lay's corners are written as by foil_lay */
struct foil_record foil_run_record(struct foil_sheet *sheet, struct foil_entry *table, size_t places, uint16_t *strips,
                                   size_t strip_numbers, uint16_t *corners, size_t corner_numbers,
                                   const uint8_t *bytes, size_t byte_count, size_t foil, size_t at);

/* carries a foil over that was begun under document 01's rules, and is checked by these: its record, table and strips
   are only read. It is written by today's rules, half width 0 and the old reach for a gap, to `board`, to the first
   FOIL_ENTRIES places of `table` and to `strips`, as a foil of its own; the places past these are not written. Every net
   with a point that a patch blocks is lifted whole, and all other entries keep their order. The nets that are lifted are
   written to the front of `report`, rising, and their number is answered. Lists of fewer than FOIL_ENTRIES places,
   FOIL_STRIPS strips or FOIL_REPORT nets are refused by 12. On a sheet whose records and table are else zero, with the
   record of foil 0 and the strips lent for it, this begins foil 0 */
struct foil_said foil_carry(struct foil_board *board, struct foil_entry *table, size_t places,
                            const struct foil_entry *old_table, size_t old_places, uint16_t *strips,
                            size_t strip_numbers, uint16_t *report, size_t report_numbers, const uint16_t *old_strips,
                            size_t old_strip_numbers, struct foil_old_board old);

#ifdef __cplusplus
}
#endif

#endif
