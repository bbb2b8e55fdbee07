/* A WING console's bytes, the mirror of its nodes, set orders and recall: the calls of libwing_c.a.
 *
 * C99, and C++. `tools/build wing_c` writes target/staticlib/libwing_c.a, for Linux on x86-64. docs/BOX.md shows a whole box.
 *
 * Lent: every buffer is the caller's, before and after. A call reads or writes it while it runs and keeps no address. A buffer crosses
 * as a pointer and a number of elements (`x`, `x_len`); the pointer is never NULL, not even where the number is 0 (any address will do
 * then). Two buffers that one call gets must not overlap if it writes one of them.
 *
 * Count: how many records a table holds. The caller keeps it: 0 at first, then what the last feed or set gave back, or a load whose status
 * is 0. (A refused load gives 0, and the table's own count stays.)
 *
 * Status: 0 for a call that was taken (1 where that is said below), or a refusal's number with a minus sign: -9 is refusal 9. Where
 * several refusals apply, the first in the order given at the call is answered. A refused call has changed nothing that was lent, and
 * gives a count that was lent and a window back as they were; the one exception are wing_next's own -1 to -3, said there. Where the
 * status is a refusal, all other fields of the answer are 0, but for the good, the count of a set or a feed, an event's node and taken,
 * a step's walk, a load's line and the window beside an answer.
 *
 * Good: -1 and -5 are about a string that is not UTF-8. Beside them an answer has `good`: how many leading bytes of that string form
 * whole characters, the largest such number (0 to 255): the part that can be shown. The string is not stored. Of a set order or a listing
 * those bytes are the caller's own; wing_next hands none of the string out, and -5 does not say which string of the definition it is. A
 * feed tells no good: it counts such strings. With every other status the good is 0.
 *
 * A mirror is three things that the caller keeps: the bytes of a decoder state (WING_STATE_SIZE), a table buffer of 1 to
 * WING_PLACES_MAX places of WING_PLACE_WIDTH bytes each, whatever they hold at first, and the count. No call keeps anything
 * elsewhere, so calls on different mirrors may run at the same time; calls on one mirror may not, if one of them writes.
 */
#ifndef WING_H
#define WING_H

#include <stdbool.h>
#include <stddef.h>
#include <stdint.h>

#ifdef __cplusplus
extern "C" {
#endif

/* The bytes of a decoder state: the fields, the first of which is the version of their form (2), then the store of a string or body that
 * is not yet whole. */
#define WING_STATE_SIZE 4123
/* The bytes of a place: id (4, signed), kind (1: WING_KIND_INTEGER, _FLOAT or _STRING), origin (1), length (2), payload (256, filled up
 * with 0). Numbers are big-endian. A table that was kept before there were origins has 0 there, and its values read as the console's. */
#define WING_PLACE_WIDTH 264
/* The most places of a table. */
#define WING_PLACES_MAX 1024
/* The most bytes of a definition's body, and the least of wing_next's output. */
#define WING_BODY_LIMIT 4096
/* The most bytes of a definition's name, and of its long name. */
#define WING_NAME_MAX 255
/* The most bytes of one feed or next. */
#define WING_FEED_MAX 65536
/* The most bytes of a string. */
#define WING_STRING_MAX 256
/* The most bytes of a set order for a number, of one for a string, of a definition or data request. */
#define WING_SET_NUMBER_MAX 18
#define WING_SET_STRING_MAX 395
#define WING_REQUEST_MAX 10
/* The most bytes of a recall: its own two, and as many for each record as the longest set order has. */
#define WING_RECALL_MAX(count) (2 + 395 * (size_t)(count))
/* The most bytes of a listing that is loaded; of one that is printed: its header's, and as many for each record as the longest line has. */
#define WING_LISTING_MAX 65536
#define WING_PRINT_MAX(count) (14 + 527 * (size_t)(count))
/* The most meters of a request, and the most bytes of it; the most bytes of a keep-alive for each id. */
#define WING_METERS_MAX 64
#define WING_METER_REQUEST_MAX 212
#define WING_KEEP_ALIVE_MAX(last_id) (13 * (size_t)(last_id))
/* A meter packet's least and most bytes, and the most readings of one. */
#define WING_PACKET_MIN 4
#define WING_PACKET_MAX 8192
#define WING_READINGS_MAX 4094

/* The widest window over readings, and how many figures a row has. */
#define WING_WINDOW_MAX 256
#define WING_ROW_FIGURES 5

/* Kinds of a value; the last two are kinds of an event alone. */
#define WING_KIND_INTEGER 0
#define WING_KIND_FLOAT 1
#define WING_KIND_STRING 2
#define WING_KIND_BODY 3
#define WING_KIND_END 4

/* Origins of a record's value: the console sent it, or a set order gave it. A table with any other is not sound (7). */
#define WING_ORIGIN_CONSOLE 0
#define WING_ORIGIN_SET_ORDER 1

/* Kinds of an item. */
#define WING_ITEM_STRINGS 0
#define WING_ITEM_FLOAT 1

/* Types of a node. */
#define WING_TYPE_NODE 0
#define WING_TYPE_LINEAR_FLOAT 1
#define WING_TYPE_LOGARITHMIC_FLOAT 2
#define WING_TYPE_FADER_LEVEL 3
#define WING_TYPE_INTEGER 4
#define WING_TYPE_STRING_ENUM 5
#define WING_TYPE_FLOAT_ENUM 6
#define WING_TYPE_STRING 7

/* Units of a node. */
#define WING_UNIT_NONE 0
#define WING_UNIT_DB 1
#define WING_UNIT_PERCENT 2
#define WING_UNIT_MILLISECONDS 3
#define WING_UNIT_HERTZ 4
#define WING_UNIT_METERS 5
#define WING_UNIT_SECONDS 6
#define WING_UNIT_OCTAVES 7

/* Kinds of a meter. Monitor and rta have no index. */
#define WING_METER_CHANNEL 0xa0
#define WING_METER_AUX 0xa1
#define WING_METER_BUS 0xa2
#define WING_METER_MAIN 0xa3
#define WING_METER_MATRIX 0xa4
#define WING_METER_DCA 0xa5
#define WING_METER_FX 0xa6
#define WING_METER_SOURCE 0xa7
#define WING_METER_OUTPUT 0xa8
#define WING_METER_MONITOR 0xa9
#define WING_METER_RTA 0xaa
#define WING_METER_CHANNEL2 0xab
#define WING_METER_AUX2 0xac
#define WING_METER_BUS2 0xad
#define WING_METER_MAIN2 0xae
#define WING_METER_MATRIX2 0xaf

/* Refusals: a status is one of these with a minus sign. */
#define WING_REFUSED_STRING 1              /* a string that is not UTF-8; its good stands beside it */
#define WING_REFUSED_BODY_LONG 2           /* a definition's count in force over 4,096; a body to be written that is longer */
#define WING_REFUSED_BODY_EMPTY 3          /* a definition's count 0, and the 32-bit count after it 0 too */
#define WING_REFUSED_DEFINITION_SHORT 4    /* a definition's field past the end */
#define WING_REFUSED_DEFINITION_STRING 5   /* a definition's string that is not UTF-8; its good stands beside it */
#define WING_REFUSED_NO_PLACE 6            /* a new node, and no place left; a listing of more records than places */
#define WING_REFUSED_TABLE 7               /* the table is not sound, or its places are not 1 to 1,024 */
#define WING_REFUSED_STATE 8               /* no sound state, or an old one that cannot be carried over; a window that no list of readings leaves */
#define WING_REFUSED_OUTPUT_SHORT 9        /* the output is too short for the whole */
#define WING_REFUSED_STRING_LONG 10        /* a string over 256 bytes */
#define WING_REFUSED_METERS 11             /* more than 64 meters */
#define WING_REFUSED_METER_ID 12           /* the last meter id is 65,535 */
#define WING_REFUSED_PACKET 13             /* a packet of fewer than 4 or more than 8,192 bytes */
#define WING_REFUSED_NUMBER 14             /* over 65,536 bytes; an item or record number not below its count */
#define WING_REFUSED_NAME_LONG 15          /* a definition's name over 255 bytes */
#define WING_REFUSED_FIELDS 16             /* a type or unit over 7; not exactly the count's items of the type; a count or item bytes where the type has none */
#define WING_REFUSED_LINE 17               /* a listing's header or line out of form */
#define WING_REFUSED_ID_ORDER 18           /* a line's id not above the one before */
#define WING_REFUSED_WIDTH 19              /* a window's width outside 1 to 256 */

/* ---- What comes back ---- */

/* A command, or a definition or a listing that was written. */
typedef struct WingWritten {
    int32_t status; /* 0, or a refusal */
    uint16_t good;  /* with -1 and -5: how many leading bytes of the string form whole characters; else 0 */
    size_t len;     /* how many bytes stand at the front of the output; those after them are as they were */
} WingWritten;

/* A set through the mirror. */
typedef struct WingSet {
    int32_t status; /* 0, or a refusal */
    uint16_t good;  /* with -1: how many leading bytes of the string form whole characters; else 0 */
    size_t len;     /* how many bytes of the output to send */
    size_t count;   /* the records there are now; refused: as it was lent */
} WingSet;

/* A feed. What the console sends is never a reason to refuse it: what cannot be stored is counted. */
typedef struct WingFed {
    int32_t status;               /* 0, or a refusal */
    uint32_t stored;              /* values stored */
    uint32_t unplaced;            /* values of new nodes, with no place left */
    uint32_t strings_refused;     /* strings that are not UTF-8 */
    uint32_t definitions_read;    /* definitions that the parser takes */
    uint32_t definitions_refused; /* definitions with refusal 2 to 5 */
    uint32_t ends;                /* ends of an answer */
    size_t count;                 /* the records there are now; refused: as it was lent */
} WingFed;

/* A lookup. */
typedef struct WingLookup {
    int32_t status; /* 1 found, 0 none, or a refusal */
    size_t number;  /* the record's number, from 0; 0 if none */
} WingLookup;

/* A record. */
typedef struct WingRecord {
    int32_t status;      /* 0, or a refusal */
    int32_t id;          /* its node */
    uint32_t value;      /* the 32 bits of an integer (two's complement) or a float; 0 for a string */
    uint16_t len;        /* a string's bytes; 0 for numbers */
    uint8_t kind;        /* WING_KIND_INTEGER, WING_KIND_FLOAT or WING_KIND_STRING */
    uint8_t origin;      /* WING_ORIGIN_CONSOLE or WING_ORIGIN_SET_ORDER: who gave the last value */
    uint8_t string[256]; /* the string, then bytes of 0 */
} WingRecord;

/* An event of the decoder. */
typedef struct WingEvent {
    int32_t status; /* 1 an event, 0 more bytes are wanted, or a refusal */
    uint16_t good;  /* with -1: how many leading bytes of the string form whole characters; else 0 */
    int32_t node;   /* the current node, to which a value belongs; 0 with refusal 8 */
    uint32_t value; /* the 32 bits of an integer or a float; else 0 */
    uint16_t len;   /* the bytes of a string or a body, at the front of the output; else 0 */
    uint8_t kind;   /* WING_KIND_INTEGER to WING_KIND_END */
    size_t taken;   /* how many of the bytes this call took; go on from there */
} WingEvent;

/* A load. */
typedef struct WingLoaded {
    int32_t status; /* 0, or a refusal */
    uint16_t good;  /* with -1: how many leading bytes of the line's string form whole characters; else 0 */
    size_t count;   /* the records there are now; refused: 0, and the table's own count stays */
    size_t line;    /* refused: the number of the line that decided, 1 is the header; 0 with 7, 14 and 6, and where the status is 0 */
} WingLoaded;

/* A meter request. */
typedef struct WingRequested {
    int32_t status; /* 0, or a refusal */
    uint16_t id;    /* the new meter id: the last id of the next request */
    size_t len;     /* how many bytes of the output to send */
} WingRequested;

/* A meter packet. */
typedef struct WingMeters {
    int32_t status; /* 0, or a refusal */
    uint16_t id;    /* the meter id of the request that it answers */
    size_t count;   /* how many readings stand at the front of the output */
} WingMeters;

/* A definition. What its type has not is 0. */
typedef struct WingDefinition {
    int32_t status;         /* 0, or a refusal */
    uint16_t good;          /* with -5: how many leading bytes of the string form whole characters; else 0 */
    int32_t parent_id;      /* the node above */
    int32_t id;             /* the node */
    uint16_t index;         /* its number below the parent */
    uint8_t node_type;      /* WING_TYPE_NODE to WING_TYPE_STRING */
    uint8_t unit;           /* WING_UNIT_NONE to WING_UNIT_OCTAVES */
    bool read_only;         /* bit 9 of the flags */
    uint16_t count;         /* how many items, of the two enum types */
    uint16_t max_len;       /* the longest string, of type string */
    uint32_t min;           /* the least value: 32 bits of a float (types 1, 2) or of an integer (4) */
    uint32_t max;           /* the greatest value, likewise */
    int32_t steps;          /* the number of steps (types 1, 2) */
    uint32_t name_len;      /* the name's bytes */
    uint32_t long_name_len; /* the long name's bytes */
    size_t name_start;      /* where in the body the name stands; it is UTF-8 */
    size_t long_name_start; /* where the long name stands */
    size_t first_item;      /* where the first item stands, of the two enum types */
} WingDefinition;

/* A walk over items. */
typedef struct WingWalk {
    int32_t status;    /* 0, or a refusal */
    uint16_t good;     /* with -5: how many leading bytes of the string form whole characters; else 0 */
    uint16_t left;     /* the items left */
    uint8_t node_type; /* the type */
    size_t at;         /* the place in the body reached */
} WingWalk;

/* An item. */
typedef struct WingItem {
    int32_t status;    /* 1 an item, 0 none, or a refusal */
    uint16_t good;     /* with -5: how many leading bytes of the string form whole characters; else 0 */
    uint8_t kind;      /* WING_ITEM_STRINGS: two strings; WING_ITEM_FLOAT: float bits and a string */
    uint32_t bits;     /* the float's bits; else 0 */
    uint32_t len;      /* the short string's bytes; 0 for a float */
    uint32_t long_len; /* the long string's bytes */
    size_t start;      /* where in the body the short string stands; 0 for a float */
    size_t long_start; /* where the long string stands */
} WingItem;

/* A step of a walk. */
typedef struct WingStep {
    WingItem item; /* the item there */
    WingWalk walk; /* the walk after it; where the item is a refusal, the walk as it was. Its status and good are always 0 */
} WingStep;

/* A window over readings: the caller keeps it, and it crosses by value. A window that no list of readings leaves is refused with 8. Inside
 * it a reading is a level: the reading raised by 32,768. Its numbers are not the figures: wing_window_figures tells these. */
typedef struct WingWindow {
    uint16_t width;       /* the most readings that it holds, 1 to WING_WINDOW_MAX */
    uint16_t held;        /* how many it holds */
    uint16_t next;        /* the place of the next one */
    uint16_t top;         /* the largest level */
    uint32_t sum;         /* the sum of the levels */
    uint16_t levels[256]; /* a ring of width levels; places not used yet, and those after the ring, are 0 */
} WingWindow;

/* What a window tells of the readings that it holds. Where it tells nothing, the five figures are 0. */
typedef struct WingFigures {
    int32_t status; /* 1 figures, 0 none, or a refusal */
    uint16_t held;  /* how many readings, 1 to the width */
    int32_t sum;    /* their sum */
    int16_t mean;   /* the sum divided by their number, rounded down */
    uint16_t rest;  /* the remainder, sum - mean * held: 0 to held - 1 */
    int16_t top;    /* the largest */
} WingFigures;

/* A window made. */
typedef struct WingMade {
    int32_t status;    /* 0, or a refusal */
    WingWindow window; /* it holds none; refused: of width 0, which every call refuses */
} WingMade;

/* A reading taken. */
typedef struct WingTaken {
    WingFigures figures; /* its status is the call's */
    WingWindow window;   /* the window to go on with; refused: as it was given */
} WingTaken;

/* Readings taken, one after the other. */
typedef struct WingFollowed {
    int32_t status;    /* 0, or a refusal */
    size_t rows;       /* how many rows stand at the front of the output, one for each reading */
    WingWindow window; /* the window to go on with; refused: as it was given */
} WingFollowed;

/* ---- What goes in ---- */

/* A definition to be written: fields of WingDefinition. What its type has not is ignored, but for the count and the item bytes (16). */
typedef struct WingFields {
    int32_t parent_id; /* the node above */
    int32_t id;        /* the node */
    uint16_t index;    /* its number below the parent */
    uint8_t node_type; /* WING_TYPE_NODE to WING_TYPE_STRING */
    uint8_t unit;      /* WING_UNIT_NONE to WING_UNIT_OCTAVES */
    bool read_only;    /* bit 9 of the flags */
    uint16_t count;    /* how many items, of the two enum types; 0 for the others */
    uint16_t max_len;  /* the longest string, of type string */
    uint32_t min;      /* the least value: 32 bits of a float (types 1, 2) or of an integer (4) */
    uint32_t max;      /* the greatest value, likewise */
    int32_t steps;     /* the number of steps (types 1, 2) */
} WingFields;

/* ---- The decoder ---- */

/* Lays a fresh decoder state into the output (WING_STATE_SIZE bytes). Lent to be written: state.
 * Refused: 9. */
WingWritten wing_state_fresh(uint8_t *state, size_t state_len);

/* Whether the bytes are those of a sound state: 0. Every state that a call left is one; others may be. Lent to be read: state.
 * Refused: 8 (also for any other length than WING_STATE_SIZE, and for version 1). */
int32_t wing_state_check(const uint8_t *state, size_t state_len);

/* A state that was kept under version 1, before a definition's count could have 32 bits: lays it into the output (WING_STATE_SIZE bytes) as
 * today's, with its units left, stored bytes and all else the same. Lent to be read: earlier; to be written: state.
 * Refused: 8, if the bytes are no sound state's of version 1 or it has taken any of the four units after a count of 0; 9. */
WingWritten wing_state_carry_over(const uint8_t *earlier, size_t earlier_len, uint8_t *state, size_t state_len);

/* The next event of a stream that comes in any pieces. Lent to be read: bytes (at most WING_FEED_MAX); to be written: state, and out (at
 * least WING_BODY_LIMIT bytes), at whose front a string's or body's bytes stand after an event of that kind, those after them as they
 * were. Call it again with the bytes from `taken` on until the status is 0 (all bytes are taken then); a call with no bytes can give
 * an event too. Status 1 is an event.
 * Refused: 8, 14, 9, which leave all as it was. 1 (with the good), 2 and 3 say what the bytes held: the token is taken, the node stays,
 * go on. */
WingEvent wing_next(uint8_t *state, size_t state_len, const uint8_t *bytes, size_t bytes_len, uint8_t *out, size_t out_len);

/* ---- The mirror ---- */

/* Whether a table and its count are such as every call below takes: 0. Lent to be read: table.
 * Refused: 7. */
int32_t wing_table_check(const uint8_t *table, size_t table_len, size_t count);

/* Takes the console's bytes, at most WING_FEED_MAX at a time, broken off anywhere, and stores the last value of each node, with origin
 * WING_ORIGIN_CONSOLE. Lent to be read: bytes; to be written: state, table. Go on with the count that comes back.
 * Refused: 8, 7, 14. */
WingFed wing_feed(uint8_t *state, size_t state_len, uint8_t *table, size_t table_len, size_t count, const uint8_t *bytes,
                  size_t bytes_len);

/* Sets a node: stores the value, with origin WING_ORIGIN_SET_ORDER, and writes the order to send (at most WING_SET_NUMBER_MAX bytes). Lent
 * to be written: table, out.
 * Refused: 7, 6, 9. */
WingSet wing_set_int(uint8_t *table, size_t table_len, size_t count, uint8_t *out, size_t out_len, int32_t id, int32_t value);

/* The same for a float, by its 32 bits.
 * Refused: 7, 6, 9. */
WingSet wing_set_float(uint8_t *table, size_t table_len, size_t count, uint8_t *out, size_t out_len, int32_t id, uint32_t bits);

/* The same for a string of at most WING_STRING_MAX bytes, in UTF-8 (an order of at most WING_SET_STRING_MAX bytes). Lent to be read:
 * value; to be written: table, out.
 * Refused: 7, 10, 1 (with the good), 6, 9. */
WingSet wing_set_string(uint8_t *table, size_t table_len, size_t count, uint8_t *out, size_t out_len, int32_t id,
                        const uint8_t *value, size_t value_len);

/* Writes what sets a console to every record: df d1, then the set order of each in order (at most WING_RECALL_MAX(count) bytes). Origins
 * are not carried: a fresh mirror that is fed these bytes, in places enough, has the same records with origin WING_ORIGIN_CONSOLE each.
 * Lent to be read: table; to be written: out.
 * Refused: 7, 9. */
WingWritten wing_recall(const uint8_t *table, size_t table_len, size_t count, uint8_t *out, size_t out_len);

/* The number of a node's record (status 1), or none (0). Lent to be read: table.
 * Refused: 7. */
WingLookup wing_lookup(const uint8_t *table, size_t table_len, size_t count, int32_t id);

/* A record by its number, from 0, with its origin; they stand in rising order of their signed ids. Lent to be read: table.
 * Refused: 7, 14. */
WingRecord wing_record(const uint8_t *table, size_t table_len, size_t count, size_t number);

/* 1 if two mirrors are equal, count and records, origins included, else 0; the places and the decoders do not matter.
 * Lent to be read: a, b.
 * Refused: 7 (for either). */
int32_t wing_same(const uint8_t *a, size_t a_len, size_t count_a, const uint8_t *b, size_t b_len, size_t count_b);

/* ---- Listings ---- */

/* Prints the records: a line `id,kind,value`, then one for each in order, its id in decimal, its kind (i, f or s) and its value in decimal,
 * in eight hex digits or in hex pairs (at most WING_PRINT_MAX(count) bytes, all ASCII). Origins are not listed. Lent to be read: table; to
 * be written: out.
 * Refused: 7, 9. */
WingWritten wing_print(const uint8_t *table, size_t table_len, size_t count, uint8_t *out, size_t out_len);

/* Loads such a listing of at most WING_LISTING_MAX bytes into the places of a table, whatever they hold, each record with origin
 * WING_ORIGIN_CONSOLE; the bytes after its records stay as they were. Go on with the count that comes back and with a fresh decoder state
 * (wing_state_fresh). Printed, the table gives the text again. Lent to be read: text; to be written: table.
 * Refused: 7 (by the places alone), 14; then by the first bad line 17, 18, 10, 1 (with the good); then 6. */
WingLoaded wing_load(const uint8_t *text, size_t text_len, uint8_t *table, size_t table_len);

/* ---- Definitions ---- */

/* The fields of a definition's body, and where its names stand in it. Lent to be read: body.
 * Refused: 4, 5 (with the good), by the first field that fails. */
WingDefinition wing_definition(const uint8_t *body, size_t body_len);

/* A walk over the body's items, at the first one; a type without items has none left. Lent to be read: body.
 * Refused: 4, 5 (with the good). */
WingWalk wing_items_begin(const uint8_t *body, size_t body_len);

/* One step of a walk: the item there (its status 1, or 0 for none) and the walk after it. Lent to be read: body; at, left and node_type
 * are those of the walk. Whatever they are, the call stays within the body; a type over 7 counts as type 0.
 * Refused (the item's status): 4, 5 (with the item's good). */
WingStep wing_item_step(const uint8_t *body, size_t body_len, size_t at, uint16_t left, uint8_t node_type);

/* An item by its number, from 0 (status 1). Lent to be read: body.
 * Refused: 4, 5 (with the good), 14. */
WingItem wing_item(const uint8_t *body, size_t body_len, size_t number);

/* Writes a definition's body (at most WING_BODY_LIMIT bytes), the unused bits of its flags 0. Lent to be read: name and long_name (at most
 * WING_NAME_MAX bytes each), and items as they stand in a body: each has two strings, the short one and then the long one (type 5), or the
 * four bytes of a float and a string (6), and a string is its length in one byte and its bytes. All strings are in UTF-8. Lent to be
 * written: out. To send a body: the token byte df, the body's length in two bytes, the high one first, and the body, with a byte de after
 * every df of these, the first included; no call writes that.
 * Refused: 15, 16, 5 (with the good of the first that is not: name, long name, items in order), 2, 9. */
WingWritten wing_write_definition(WingFields fields, const uint8_t *name, size_t name_len, const uint8_t *long_name,
                                  size_t long_name_len, const uint8_t *items, size_t items_len, uint8_t *out, size_t out_len);

/* Reads a body and writes its definition anew (at most WING_BODY_LIMIT bytes). The bytes are the same exactly if type and unit in the flags
 * are below 8 each, the flags' unused bits are 0 and nothing follows the last field. Lent to be read: body; to be written: out.
 * Refused: 4, 5 (with the good), 2, 9. */
WingWritten wing_write_anew(const uint8_t *body, size_t body_len, uint8_t *out, size_t out_len);

/* ---- Commands without a mirror ---- */

/* A set order alone (at most WING_SET_NUMBER_MAX bytes). Lent to be written: out.
 * Refused: 9. */
WingWritten wing_order_int(uint8_t *out, size_t out_len, int32_t id, int32_t value);

/* The same for a float, by its 32 bits.
 * Refused: 9. */
WingWritten wing_order_float(uint8_t *out, size_t out_len, int32_t id, uint32_t bits);

/* The same for a string (at most WING_SET_STRING_MAX bytes). Lent to be read: value; to be written: out.
 * Refused: 10, 1 (with the good), 9. */
WingWritten wing_order_string(uint8_t *out, size_t out_len, int32_t id, const uint8_t *value, size_t value_len);

/* Asks for a node's definition (at most WING_REQUEST_MAX bytes); id 0 is the root. Lent to be written: out.
 * Refused: 9. */
WingWritten wing_request_node_definition(uint8_t *out, size_t out_len, int32_t id);

/* Asks for a node's data, likewise.
 * Refused: 9. */
WingWritten wing_request_node_data(uint8_t *out, size_t out_len, int32_t id);

/* Asks for meters, whose packets go to a UDP port (at most WING_METER_REQUEST_MAX bytes). Lent to be read: meters, pairs of bytes, a
 * kind (WING_METER_CHANNEL to WING_METER_MATRIX2; any other is rta) and an index, which stands with monitor and rta too and is
 * ignored there; an odd last byte is dropped. Lent to be written: out. The new meter id is last_id + 1; last_id is 0 at first.
 * Refused: 11, 12, 9. */
WingRequested wing_request_meter(uint8_t *out, size_t out_len, const uint8_t *meters, size_t meters_len, uint16_t port,
                                 uint16_t last_id);

/* Keeps the requests of the ids last_id to 1 alive, whose packets go to a UDP port (at most WING_KEEP_ALIVE_MAX(last_id) bytes). Lent to
 * be written: out.
 * Refused: 9. */
WingWritten wing_keep_alive_meters(uint8_t *out, size_t out_len, uint16_t port, uint16_t last_id);

/* The readings of a meter packet (at most WING_READINGS_MAX). Lent to be read: packet; to be written: out, whose length counts readings.
 * Refused: 13, 9. */
WingMeters wing_read_meters(const uint8_t *packet, size_t packet_len, int16_t *out, size_t out_len);

/* Whether the bytes are UTF-8 (RFC 3629). Lent to be read: s. Never refused. */
bool wing_is_utf8(const uint8_t *s, size_t s_len);

/* How many leading bytes form whole characters: the largest such number, and all of them exactly if wing_is_utf8 says so. Lent to be read:
 * s, of any length. Never refused. */
size_t wing_utf8_good(const uint8_t *s, size_t s_len);

/* ---- A window over a strip's last readings ---- */

/* A window of a width from 1 to WING_WINDOW_MAX, which holds none.
 * Refused: 19. */
WingMade wing_window_make(uint32_t width);

/* What the window tells of the readings that it holds (status 1), or none (0).
 * Refused: 8. */
WingFigures wing_window_figures(WingWindow w);

/* A reading goes in, and once the window is full the oldest leaves. Beside the window to go on with stands what it tells (status 1).
 * Refused (the figures' status): 8. */
WingTaken wing_window_reading(WingWindow w, int16_t x);

/* Readings one after the other (status 0), and what the window tells after each: a row of WING_ROW_FIGURES numbers, held, sum, mean, rest and top. The
 * window is tested once for all of them. Lent to be read: xs; to be written: out, with room for a row for each reading; what stands after
 * the rows is as it was.
 * Refused: 8, 9. */
WingFollowed wing_window_readings(WingWindow w, const int16_t *xs, size_t xs_len, int32_t *out, size_t out_len);

#ifdef __cplusplus
}
#endif

#endif
