/*
 * Honeygimlet: the 29-bit CAN protocol of Megasquirt controllers, a bridge for long reads and writes, and the log formats
 * MLG (MLVLG 2) and FRD 1. Link libhoneygimlet.a (`make`); of the C library it needs memcpy alone. For C11 and C++11, x86-64 Linux.
 *
 * Every call judges its arguments: any number in any argument is allowed, and a refusal carries one of the numbers below,
 * changes nothing that it was lent and yields no frame; every other number in its answer is 0, save a block's kind and place, and the
 * bridge or the holder's state that a call by value hands back as it was.
 * What a caller must see to, since no call can: a pointer is not null (not even with length 0), points to as many bytes as
 * the length beside it says, fewer than 2^63, and memory that a call may write overlaps no other memory lent to that call.
 * What is handed in by value is initialised: `hg_bridge b = {0};` before the first reset, `hg_frame f = {0};` before its bytes are set.
 *
 * The library has no variables, allocates nothing and keeps nothing between calls: its calls are re-entrant, and threads that lend
 * them different memory do not meet. No call's time grows with a product of two lengths. What it grows with, and the bytes of stack
 * that a call takes at most, beside its arguments, its answer and what memcpy takes (the first row that fits):
 *
 *   hg_bus_serve                              size of a burnt or reloaded table, at most 2,056  352
 *   hg_bus_*                                  nothing                                             8
 *   hg_bridge_*                               nothing                                           829
 *   hg_mlg_read_block                         record length                                      72
 *   hg_mlg_write_data                         record length                                      56
 *   hg_mlg_write_mark, hg_mlg_*_value         nothing                                            88
 *   hg_mlg_write_header                       fields, names and info                            984
 *   hg_mlg_read_header, hg_mlg_*_span         data begin: the header is judged                1,240
 *   hg_mlg_count_blocks                       length of the file                              1,304
 *   hg_mlg_list                               length of the file, at most 65,536              1,512
 *   hg_frd_count_blocks                       number of blocks                                    8
 *   hg_frd_write_data                         record length                                      40
 *   hg_frd_*                                  nothing                                            16
 *
 * "Numbers" in the comments are the refusals in the order in which they are judged; 0, done, is left out.
 */
#ifndef HONEYGIMLET_H
#define HONEYGIMLET_H

#include <stddef.h>
#include <stdint.h>

#ifdef __cplusplus
#define HG_SIZE(type, size) static_assert(sizeof(type) == (size), "size of " #type)
extern "C" {
#else
#define HG_SIZE(type, size) _Static_assert(sizeof(type) == (size), "size of " #type)
#endif

/* ---- Numbers handed back ---- */

enum {
    HG_DONE = 0,
    HG_ID_TOO_LARGE = 1,     /* identifier 2^29 or more */
    HG_SPARE_BITS = 2,       /* spare bits set */
    HG_FRAME_TOO_LONG = 3,   /* frame length over 8 */
    HG_OTHER_DEVICE = 4,     /* to another device */
    HG_TYPE = 5,             /* type not served */
    HG_WRONG_LENGTH = 6,     /* length of a frame wrong for its type */
    HG_NO_RIGHT = 7,         /* table empty, or lacks the right; device or table out of range */
    HG_RANGE = 8,            /* range past the table's end; offset, or offset and count, too large */
    HG_COUNT = 9,            /* count not allowed */
    HG_MEMORY_LENGTH = 10,   /* lent memory of wrong length: working memory, flash or buffer */
    HG_UNSOUND = 11,         /* directory, state or own number unsound */
    HG_NO_SLOT = 12,         /* no free slot */
    HG_NO_TICKET = 13,       /* tickets used up */
    HG_UNKNOWN_TICKET = 14,  /* ticket unknown */
    HG_NOT_FINISHED = 15,    /* not finished */
    HG_GAVE_UP = 16,         /* gave up */
    HG_NO_MATCH = 17,        /* reply matches no waiting read, nor a checked write that reads back */
    HG_DIFFERENT = 18,       /* read back different */
    HG_RESTING = 19,         /* slots are free, but all rest */
    HG_CUT_SHORT = 20,       /* file or block cut short */
    HG_WRONG_NAME = 21,      /* wrong name */
    HG_VERSION = 22,         /* version not served */
    HG_DISAGREE = 23,        /* header numbers or lengths disagree */
    HG_FIELD_TYPE = 24,      /* field type or bit count bad */
    HG_BLOCK_TYPE = 25,      /* block type unknown */
    HG_SUM = 26,             /* sum wrong */
    HG_OUTPUT_TOO_SMALL = 27,/* output too small */
    HG_TEXT = 28,            /* text lacks its zero, holds a forbidden one, or is too long */
    HG_NO_SHOWN_VALUE = 30   /* no shown value */
};

/* ---- Identifiers, frames and requests ---- */

/* Types of frames: the `kind` of an identifier. */
enum { HG_CMD = 0, HG_REQ = 1, HG_RSP = 2, HG_BURN = 4, HG_XTND = 7 };

/* The parts of an identifier. */
typedef struct {
    uint16_t offset; /* 0..2047 */
    uint8_t kind;    /* 0..7 */
    uint8_t from;    /* 0..15 */
    uint8_t to;      /* 0..15 */
    uint8_t table;   /* 0..31 */
} hg_parts;
HG_SIZE(hg_parts, 6);

typedef struct {
    uint32_t id;
    uint8_t number;
} hg_packed;
HG_SIZE(hg_packed, 8);

typedef struct {
    hg_parts parts;
    uint8_t number;
} hg_unpacked;
HG_SIZE(hg_unpacked, 8);

/* A frame. Bytes past its length are ignored in frames handed in, and 0 in frames handed back. */
typedef struct {
    uint32_t id;
    uint8_t len; /* 0..8 */
    uint8_t bytes[8];
} hg_frame;
HG_SIZE(hg_frame, 16);

/* What request bytes ask for: a count of bytes, to a table and an offset of the sender. */
typedef struct {
    uint8_t table;   /* 0..31 */
    uint8_t count;   /* 0..15 */
    uint16_t offset; /* 0..2047 */
} hg_request;
HG_SIZE(hg_request, 4);

typedef struct {
    hg_request request;
    uint8_t clear; /* 1 if the reserved bits were 0, else 0 */
} hg_request_read;
HG_SIZE(hg_request_read, 6);

typedef struct {
    uint8_t number;
    uint8_t bytes[3];
} hg_request_bytes;
HG_SIZE(hg_request_bytes, 4);

/* The identifier of parts. Numbers: 5 (kind over 7), 7 (from, to or table out of range), 8 (offset over 2,047). */
hg_packed hg_bus_pack(hg_parts parts);

/* The parts of an identifier. Numbers: 1, 2. */
hg_unpacked hg_bus_unpack(uint32_t id);

/*
 * The request in three bytes. Their reserved bits, the top three of the first and bit 4 of the third, are ignored; `clear` is 1 if all four
 * were 0, else 0. It refuses nothing.
 */
hg_request_read hg_bus_read_request(uint8_t first, uint8_t second, uint8_t third);

/*
 * The three bytes of a request, with the reserved bits 0: those of a request that was read are the bytes it was read from exactly where
 * `clear` was 1. Numbers: 7 (table over 31), 9 (count over 15), 8 (offset over 2,047).
 */
hg_request_bytes hg_bus_request_bytes(hg_request request);

/* ---- Table holder ---- */

/*
 * 32 tables lie back to back in working memory, and in the same way in flash: table k starts at the sum of the sizes before it. The sum of all
 * is at most 32,768; working memory and flash are each as long as it.
 */
typedef struct {
    uint16_t sizes[32];     /* 0..2056 */
    uint8_t rights[32];     /* 0 none, 1 read, 2 read and write */
    uint16_t table_blocking;
    uint16_t write_blocking;
    uint8_t own;            /* own number, 0..15 */
} hg_directory;
HG_SIZE(hg_directory, 102);

/*
 * A holder's state: its family, and its current table, which is that of the last CMD, REQ or BURN answered 0, on either family; at first none is.
 * It goes by value. Set it from hg_bus_first_state, and hand on what each call hands back, `state = answer.state`, also after a refusal,
 * which hands back the state that it was given. Sound, else 11: family is 2 or 3, and either has_current and current are 0, or has_current is 1 and
 * current is a table whose size is not 0. So a state that was never set, all 0, makes every frame be refused; and so does one whose current table the
 * host gave size 0: it sets has_current and current to 0 then.
 */
typedef struct {
    uint8_t family;      /* 2, the older, or 3 */
    uint8_t has_current; /* 1 where a table is current, else 0 */
    uint8_t current;     /* that table, 0..31; 0 where none is */
} hg_holder_state;
HG_SIZE(hg_holder_state, 3);

typedef struct {
    uint8_t number;
    hg_holder_state state; /* all 0 where the number is not 0 */
} hg_first_state;
HG_SIZE(hg_first_state, 4);

/* An answer: a number, how many frames it has (0 or 1), the mark `clear`, and the frame, all 0 where there is none. */
typedef struct {
    uint8_t number;
    uint8_t frames;
    uint8_t clear; /* 1 if a REQ or a protocol query was answered and its reserved bits were 0, else 0: beside a BURN's acknowledgement too */
    hg_frame frame;
} hg_served;
HG_SIZE(hg_served, 20);

/* What a holder answers (its number is served.number), and its state after that, to be handed to the next call. */
typedef struct {
    hg_served served;
    hg_holder_state state;
} hg_holder_answer;
HG_SIZE(hg_holder_answer, 24);

/* A holder's state at power-up: of that family, and no table is current. Number: 11 (family other than 2 or 3). */
hg_first_state hg_bus_first_state(uint8_t family);

/*
 * What a holder of tables does with a frame. It is lent working memory (`memory`) and flash, ordinary memory in which the host keeps what its
 * flash chip holds: both lengths are the sum of the sizes, and the two must not overlap. A holder that nobody burns is lent a flash all the same;
 * on family 2 it holds the tables from the start, for they are reloaded from it.
 * CMD (length 1..8, right 2) stores its bytes at the offset of the table, in working memory alone, and has no answer; REQ (length 3, count
 * 1..8, right 1 or 2) answers with an RSP of the table's bytes in working memory; BURN (length 0, right 2; the offset is not looked at) makes
 * the table's bytes in flash equal to those in working memory, and answers the sender with its acknowledgement: an XTND with offset 0, the burnt
 * table and the two bytes 0x0E 0x01; XTND with the first byte 0x80, the protocol query (length 4, request bytes after the first, count 1 or
 * 5), answers with the protocol's version, or that and the two blocking factors. Other types, and XTND with another first byte, are 5: so is
 * an acknowledgement that arrives.
 * A CMD, REQ or BURN answered 0 makes its table current. Family 2 (Megasquirt-2) keeps a single table in working memory: where the table was
 * not current, it is first reloaded, its bytes in working memory made equal to those in flash, and what was written there and not burnt is gone;
 * then a CMD writes into the reloaded bytes, a REQ answers from them, and a BURN burns them, so flash stays as it was. That goes for tables that may
 * only be read too, and for bytes that the host itself put into working memory: live values it puts into flash as well. Family 3 never reloads.
 * The protocol query, whatever table stands in its identifier, and refusals neither reload nor change the state.
 * No chip is written here: after a frame of kind HG_BURN answered 0 the host writes that table from flash to its chip, then sends the
 * acknowledgement; where the chip fails, it does not send it, and loads flash from the chip again (for 0x0E 0x00, burn failed, there is no call).
 * At power-up it loads flash from the chip, and working memory from flash, and starts with hg_bus_first_state again.
 * Reserved bits of a request are ignored, as by hg_bus_read_request: a set one changes `clear` and nothing else of the answer. `clear` is
 * 1 where a REQ or a protocol query was answered and its reserved bits were 0; it is 0 where one was set, for every other frame, a BURN too,
 * and in every refusal.
 * Numbers: 11 (directory or state), 10 (working memory or flash), 1, 2, 3, 4, 5, 6, 7, 9, 8, save that XTND of length 0 is 6; a BURN is never 9
 * or 8.
 * Changes the addressed bytes of working memory for a CMD answered 0, the table's bytes in flash for a BURN answered 0, on family 2 the reloaded
 * table's bytes in working memory, and nothing else.
 */
hg_holder_answer hg_bus_serve(hg_directory directory, hg_holder_state state, uint8_t *memory, size_t memory_len, uint8_t *flash, size_t flash_len, hg_frame frame);

/* ---- Bridge ---- */

/* Phases of a slot, and kinds of transfers: a checked write is of kind HG_CHECK while it sends, then of kind HG_READ_BACK. */
enum {
    HG_PHASE_FREE = 0,
    HG_PHASE_READY = 1,
    HG_PHASE_WAITING = 2,
    HG_PHASE_DONE = 3,
    HG_PHASE_GAVE_UP = 4,
    HG_PHASE_DIFFERENT = 5
};
enum { HG_READ = 0, HG_WRITE = 1, HG_READ_BACK = 2, HG_CHECK = 3 };

/* A slot: free (all 0), or held by a transfer. Only the calls write it; a state that is not sound is refused with 11. */
typedef struct {
    uint32_t ticket;
    uint16_t offset;
    uint8_t phase;
    uint8_t kind;
    uint8_t device;
    uint8_t table;
    uint8_t count;    /* bytes of the transfer, 1..128 */
    uint8_t progress; /* bytes of it that are done; of a checked write, sent or then read back */
    uint8_t sends;    /* sends of the current request */
    uint8_t left;     /* turns until a waiting slot is ready again or has given up */
} hg_slot;
HG_SIZE(hg_slot, 16);

/*
 * A bridge. Declare it `= {0}` and reset it; any content gets a lawful answer, but C leaves a struct that was never set undefined.
 * It has two buffers of HG_BUFFER bytes each, 128 for each slot, which do not overlap; every opening, turn and frame takes both. The first
 * has what reads and checked writes bring back and what writes send; the second what checked writes send, to compare it with what comes
 * back: only hg_bridge_open_check writes it. Nobody else writes either: lend the same two to every call, as the call before left them. Their bytes
 * before the first reset do not matter. A bridge without checked writes takes a second buffer all the same.
 *
 * A write is done once it is sent: a box that is unplugged does not change that. A checked write sends the same CMDs, then reads
 * the same bytes back with REQs as a read does, eight at a time, and compares. It ends as done (HG_DONE) when every byte came back
 * equal; as given up (HG_GAVE_UP) when one of its requests had no reply three times; as different (HG_DIFFERENT) at the first reply
 * that brings another byte. Till then it is HG_NOT_FINISHED. Given up or different, the box may have taken all, some or none of it.
 * A transfer ends within 72 turns answered 0 for each started eight bytes, a checked write within 76.
 *
 * A slot rests for 60 turns answered 0 after each REQ that it sent, whether its transfer goes on, has ended or is closed; a CMD makes no
 * slot rest. A slot that rests is not given to a new transfer, so a reply to a closed transfer that comes late, but before the 60th turn
 * after its REQ, finds no transfer that awaits it: it is refused with HG_NO_MATCH. An opening takes the lowest slot that is free and does
 * not rest. Where slots are free but all rest it answers HG_RESTING: take turns and open again; at most 60 turns answered 0 later a slot can
 * be taken. HG_NO_SLOT, on the other hand, lasts until a transfer is closed or the bridge is reset.
 * A reset clears the rests too. So a host resets only while all four of `rests` are 0, each time; then no REQ went out in the last 60 turns
 * before any reset. A host that starts anew does not know which REQs went out before, and first lets late replies pass. Else, or where a
 * reply does not come before the 60th turn after its REQ, it may be taken for that of a later transfer in the same slot, of the same device,
 * place and length.
 */
typedef struct {
    hg_slot slots[4];
    uint32_t issued;  /* the last ticket given */
    uint8_t own;
    uint8_t last;     /* the slot last served */
    uint8_t rests[4]; /* each slot's turns left to rest, free or held: 0..60, else 11. A REQ sets its slot's to 60, each turn answered 0
                         lowers those above 0 by one; a host never sets them */
} hg_bridge;
HG_SIZE(hg_bridge, 76);

/* Bytes of a buffer, and the most bytes of a transfer. */
enum { HG_BUFFER = 512, HG_MOST = 128 };

typedef struct {
    hg_bridge bridge;
    uint32_t ticket;
    uint8_t number;
} hg_opened;
HG_SIZE(hg_opened, 84);

/* What a turn or an incoming frame answers: a number, how many frames it yields (0 or 1), and the frame, all 0 where there is none. */
typedef struct {
    uint8_t number;
    uint8_t frames;
    hg_frame frame;
} hg_yielded;
HG_SIZE(hg_yielded, 20);

typedef struct {
    hg_bridge bridge;
    hg_yielded answer;
} hg_stepped;
HG_SIZE(hg_stepped, 96);

typedef struct {
    hg_bridge bridge;
    uint8_t number;
} hg_changed;
HG_SIZE(hg_changed, 80);

/* A part of a buffer or of a file: where it starts and how many bytes it has, both 0 where the number is not 0. */
typedef struct {
    uint8_t number;
    size_t start;
    size_t len;
} hg_span;
HG_SIZE(hg_span, 24);

/* Calls by value hand back the bridge as they leave it; a refusal hands back the bridge that it was given. */

/* The fresh bridge of an own number, whatever b is: every slot is free and none rests. Number: 11 (own over 15). */
hg_changed hg_bridge_reset(hg_bridge b, uint8_t own);

/*
 * Opens a read of `count` bytes at an offset of a device's table. Takes the lowest slot that is free and does not rest, and the next
 * ticket.
 * Numbers: 11, 10 (either buffer), 7 (device over 15, table over 31), 9 (count not 1..128), 8 (offset + count over 2,048), 12 (no slot is
 * free), 19 (slots are free, but all rest), 13. Neither buffer is changed.
 */
hg_opened hg_bridge_open_read(hg_bridge b, const uint8_t *first, size_t first_len, const uint8_t *second, size_t second_len, uint8_t device, uint8_t table, uint16_t offset, size_t count);

/*
 * Opens a write of the given bytes, which are copied into the slot's part of the first buffer; nothing else of the two changes.
 * Numbers: as hg_bridge_open_read.
 */
hg_opened hg_bridge_open_write(hg_bridge b, uint8_t *first, size_t first_len, const uint8_t *second, size_t second_len, uint8_t device, uint8_t table, uint16_t offset, const uint8_t *bytes, size_t count);

/*
 * Opens a checked write of the given bytes, which are copied into the slot's part of the second buffer; nothing else of the two changes.
 * Numbers: as hg_bridge_open_read.
 */
hg_opened hg_bridge_open_check(hg_bridge b, const uint8_t *first, size_t first_len, uint8_t *second, size_t second_len, uint8_t device, uint8_t table, uint16_t offset, const uint8_t *bytes, size_t count);

/*
 * A turn: every waiting slot gets one turn older (20 turns after a send it is ready again, or after its third send has
 * given up), and every slot that rests has one turn less to rest; then the first ready slot after the one last served sends its next
 * frame, and rests for 60 turns if that is a REQ. `frames` is 0 where none is ready.
 * Numbers: 11, 10 (either buffer). Neither buffer is changed.
 */
hg_stepped hg_bridge_turn(hg_bridge b, const uint8_t *first, size_t first_len, const uint8_t *second, size_t second_len);

/*
 * An incoming frame, for the waiting slot that awaits it; `frames` is always 0. Its bytes are stored in the first buffer, unless they
 * are read back and differ from the second buffer's at that place: then nothing is stored, and the number is 0 all the same.
 * Numbers: 11, 10 (either buffer), 1, 2, 3, 4, 5 (not RSP), 17. Changes the bytes that it stores, and nothing else of the two.
 */
hg_stepped hg_bridge_frame(hg_bridge b, uint8_t *first, size_t first_len, const uint8_t *second, size_t second_len, hg_frame frame);

/*
 * How a transfer stands: 0 done, 15 not finished, 16 gave up, 18 read back different. Numbers: 11, then 14.
 * A done write was sent, no more; a done checked write was read back equal.
 */
uint8_t hg_bridge_status(hg_bridge b, uint32_t ticket);

/*
 * Where a done read's bytes lie in the first buffer; a done write, checked or not, has length 0. Start and length are 0 where the number
 * is not 0. Numbers: 11, 10, then hg_bridge_status's. Nothing is changed.
 */
hg_span hg_bridge_span(hg_bridge b, const uint8_t *first, size_t first_len, uint32_t ticket);

/* Frees the slot of a ticket, in any phase; a slot that rests goes on resting. Numbers: 11, 14. */
hg_changed hg_bridge_close(hg_bridge b, uint32_t ticket);

/* The same turn, incoming frame and closing, which change the bridge where it stands; a refusal leaves it as it was. */

/* hg_bridge_turn in place. Numbers: 11, 10 (either buffer). Neither buffer is changed. */
hg_yielded hg_bridge_turn_in_place(hg_bridge *b, const uint8_t *first, size_t first_len, const uint8_t *second, size_t second_len);

/*
 * hg_bridge_frame in place. Numbers: 11, 10 (either buffer), 1, 2, 3, 4, 5 (not RSP), 17. Changes the bytes that it stores, and nothing
 * else of the two buffers.
 */
hg_yielded hg_bridge_frame_in_place(hg_bridge *b, uint8_t *first, size_t first_len, const uint8_t *second, size_t second_len, hg_frame frame);

/* hg_bridge_close in place. Numbers: 11, 14. */
uint8_t hg_bridge_close_in_place(hg_bridge *b, uint32_t ticket);

/* ---- MLG ---- */

/*
 * A file has a header of HG_MLG_HEADER bytes, fields of HG_MLG_FIELD bytes each, a names area, an info text, and blocks. Its numbers, a
 * record's raw values too, stand high byte first. A record has the raw values of the fields, in their order, back to back.
 */
enum { HG_MLG_HEADER = 24, HG_MLG_FIELD = 89 };

/* Types of fields; behind each, the bytes of its raw value. */
enum {
    HG_MLG_U08 = 0,        /* 1 */
    HG_MLG_S08 = 1,        /* 1 */
    HG_MLG_U16 = 2,        /* 2 */
    HG_MLG_S16 = 3,        /* 2 */
    HG_MLG_U32 = 4,        /* 4 */
    HG_MLG_S32 = 5,        /* 4 */
    HG_MLG_S64 = 6,        /* 8 */
    HG_MLG_F32 = 7,        /* 4 */
    HG_MLG_BITS_U08 = 10,  /* 1: a bit field, of at most 8 named bits */
    HG_MLG_BITS_U16 = 11,  /* 2: at most 16 */
    HG_MLG_BITS_U32 = 12   /* 4: at most 32 */
};

/* Where the parts of a field stand in its bytes, and the lengths of its texts, which count the zero that each must hold. */
enum {
    HG_MLG_TYPE_AT = 0,
    HG_MLG_NAME_AT = 1,
    HG_MLG_NAME_LEN = 34,
    HG_MLG_UNITS_AT = 35,
    HG_MLG_UNITS_LEN = 10,
    HG_MLG_STYLE_AT = 45,       /* how it is displayed: 0 number, 1 hex, 2 bits, 3 date, 4 on/off, 5 yes/no, 6 high/low,
                                   7 active/inactive, 8 true/false */
    HG_MLG_SCALE_AT = 46,       /* f32: a shown value is (raw + transform) * scale */
    HG_MLG_TRANSFORM_AT = 50,   /* f32 */
    HG_MLG_DIGITS_AT = 54,      /* decimal places displayed, signed */
    HG_MLG_CATEGORY_AT = 55,
    HG_MLG_CATEGORY_LEN = 34,
    /* a bit field has these between its style and its category: */
    HG_MLG_BIT_STYLE_AT = 46,   /* how each bit is displayed, without 3 */
    HG_MLG_BIT_NAMES_AT = 47,   /* 32 bits: the place in the file of the first of its names, one for each bit, each ended by a zero */
    HG_MLG_BIT_COUNT_AT = 51    /* how many bits have names, from the lowest on; 0: none, and the place is not looked at */
};
/* The names area starts at HG_MLG_HEADER + HG_MLG_FIELD * fields. */

/* Bytes of a data block beside its record, bytes of a mark, and the longest text that a mark takes. */
enum { HG_MLG_DATA = 5, HG_MLG_MARK = 54, HG_MLG_MARK_TEXT = 49 };

/*
 * A block's counter, in an MLG and in an FRD, is the number of earlier blocks, of both kinds, modulo 256: the block after 255 others counts
 * 255, the next one 0. Writers write it; a wrong one is reported with the block, not refused.
 */

/* A header's time is in seconds since 1970 (0: not known), a block's in units of 10 microseconds, modulo 65,536. */
typedef struct {
    uint32_t time;
    uint32_t info;  /* where the info text starts, 0 for none */
    uint32_t begin; /* where the blocks begin */
    uint16_t size;  /* record length */
    uint16_t count; /* number of fields */
    uint16_t version;
    uint8_t number;
} hg_mlg_header;
HG_SIZE(hg_mlg_header, 20);

/* Kinds of blocks. */
enum { HG_BLOCK_DATA = 0, HG_BLOCK_MARK = 1, HG_BLOCK_TIME = 1, HG_BLOCK_END = 2, HG_BLOCK_REFUSED = 3 };

typedef struct {
    size_t place; /* a refusal's: where the block stands */
    size_t start; /* where the record or the text starts */
    size_t len;   /* length of the record, or of the text before its zero */
    uint16_t time;
    uint8_t number;
    uint8_t kind;
    uint8_t counter;     /* as the file has it */
    uint8_t as_expected; /* 1 if that is the number of earlier blocks, modulo 256 */
} hg_mlg_block;
HG_SIZE(hg_mlg_block, 32);

/* What a writer hands back: how many bytes it wrote. The rest of its output stays as found. */
typedef struct {
    size_t len;
    uint8_t number;
} hg_written;
HG_SIZE(hg_written, 16);

/* A file's header. Numbers: 20, 21, 22, 20 (fields cut), 23; for each field 24, 28, 23, 28; then 23, 28. */
hg_mlg_header hg_mlg_read_header(const uint8_t *file, size_t len);

/*
 * What stands at a place of a file whose records have length `size`, after `earlier` blocks. A data block takes size + HG_MLG_DATA
 * bytes, a mark HG_MLG_MARK; the next block stands after it. A place equal to the length is the end.
 * Numbers: 23 (place past the file), 25, 20, 28 (mark) or 26 (data).
 */
hg_mlg_block hg_mlg_read_block(const uint8_t *file, size_t len, uint16_t size, uint64_t earlier, size_t place);

/*
 * How many blocks a log has, and how they ended: `ending` is 0 at the file's end, and `place` the file's length; else `ending` is
 * the number that refuses what stands at `place`. A refused header gives no blocks, its number, and place 0.
 */
typedef struct {
    uint64_t blocks;
    uint8_t ending;
    size_t place;
} hg_tally;
HG_SIZE(hg_tally, 24);

/* Counts the blocks of a file. */
hg_tally hg_mlg_count_blocks(const uint8_t *file, size_t len);

/*
 * Parts of a file: all its fields, of which the 89 bytes of field i, counted from 0, stand at start + 89 * i; the 89 bytes of
 * field `index`; the names area, from the fields' end to the info or to data begin; the info text without its zero (start 0 and
 * no bytes where there is none). Each call judges the whole header: a loop over the fields asks hg_mlg_fields_span once, not
 * hg_mlg_field_span for each.
 * Numbers: as hg_mlg_read_header, then 23 for a field that is not there.
 */
hg_span hg_mlg_fields_span(const uint8_t *file, size_t len);
hg_span hg_mlg_field_span(const uint8_t *file, size_t len, uint16_t index);
hg_span hg_mlg_names_span(const uint8_t *file, size_t len);
hg_span hg_mlg_info_span(const uint8_t *file, size_t len);

/*
 * Writes the listing of a file, as the program loglist prints it: a refused file too has a listing, and one of over 65,536
 * bytes the line `too long`. No listing is longer than HG_LISTING bytes. Number: 27.
 */
enum { HG_LISTING = 327680 };
hg_written hg_mlg_list(uint8_t *out, size_t len, const uint8_t *file, size_t file_len);

/*
 * Writes a header: fields of 89 bytes each, the names area, and the info text without its zero (empty: none). It
 * writes HG_MLG_HEADER bytes, the fields, the names, and the info with a zero; the first block follows.
 * Numbers: 23 (fields not a multiple of 89 bytes or over 65,535, sizes summing over 65,535, over 2^32-1 bytes), 28 (zero in
 * info), then the reader's for the fields, then 27.
 */
hg_written hg_mlg_write_header(uint8_t *out, size_t len, uint32_t time, const uint8_t *fields, size_t fields_len, const uint8_t *names, size_t names_len, const uint8_t *info, size_t info_len);

/* Writes a data block after `earlier` blocks, of both kinds. Numbers: 23 (record not of length `size`), 27. */
hg_written hg_mlg_write_data(uint8_t *out, size_t len, uint16_t size, uint64_t earlier, uint16_t time, const uint8_t *record, size_t record_len);

/* Writes a mark after `earlier` blocks. Numbers: 28 (text over 49 bytes, or holding a zero), 27. */
hg_written hg_mlg_write_mark(uint8_t *out, size_t len, uint64_t earlier, uint16_t time, const uint8_t *text, size_t text_len);

typedef struct {
    int64_t value;
    uint8_t number;
} hg_raw;
HG_SIZE(hg_raw, 16);

typedef struct {
    float value;
    uint8_t number;
} hg_shown;
HG_SIZE(hg_shown, 8);

/* A raw value by its field's 89 bytes and its raw bytes; an F32's is its bits. Numbers: 23 (not 89), 24, 23 (raw length). */
hg_raw hg_mlg_raw_value(const uint8_t *field, size_t field_len, const uint8_t *raw, size_t raw_len);

/* A shown value: raw plus transform, times scale, each rounded to f32. Numbers: 23, 24, 23, 30. */
hg_shown hg_mlg_shown_value(const uint8_t *field, size_t field_len, const uint8_t *raw, size_t raw_len);

/* ---- FRD ---- */

/* Bytes of the header, of the signature in it, of a data block beside its record, and of a time block. Times are in seconds since 1970. */
enum { HG_FRD_HEADER = 81, HG_FRD_SIGNATURE = 63, HG_FRD_DATA = 2, HG_FRD_TIME = 6 };

typedef struct {
    uint32_t time;
    uint16_t size; /* output length */
    uint8_t number;
} hg_frd_header;
HG_SIZE(hg_frd_header, 8);

typedef struct {
    size_t place; /* a refusal's: where the block stands */
    size_t start; /* where the bytes of a data block start */
    size_t len;
    uint32_t time;
    uint8_t number;
    uint8_t kind;
    uint8_t counter;     /* as the file has it */
    uint8_t as_expected; /* 1 if that is the number of earlier blocks, modulo 256 */
} hg_frd_block;
HG_SIZE(hg_frd_block, 32);

/* A file's header; the blocks begin at HG_FRD_HEADER. Numbers: 20, 21, 22, 23. */
hg_frd_header hg_frd_read_header(const uint8_t *file, size_t len);

/*
 * What stands at a place; a data block takes size + HG_FRD_DATA bytes, a time block HG_FRD_TIME. A place equal to the length is the end.
 * Numbers: 23 (place past the file), 25, 20.
 */
hg_frd_block hg_frd_read_block(const uint8_t *file, size_t len, uint16_t size, uint64_t earlier, size_t place);

/* Counts the blocks of a file. */
hg_tally hg_frd_count_blocks(const uint8_t *file, size_t len);

/* The 63 bytes of the signature. Numbers: as hg_frd_read_header. */
hg_span hg_frd_read_signature(const uint8_t *file, size_t len);

/* Writes a header. Numbers: 23 (signature not of 63 bytes), 27. */
hg_written hg_frd_write_header(uint8_t *out, size_t len, uint32_t time, const uint8_t *signature, size_t signature_len, uint16_t size);

/* Writes a data block after `earlier` blocks, of both kinds. Numbers: 23 (record not of length `size`), 27. */
hg_written hg_frd_write_data(uint8_t *out, size_t len, uint16_t size, uint64_t earlier, const uint8_t *record, size_t record_len);

/* Writes a time block after `earlier` blocks. Number: 27. */
hg_written hg_frd_write_time(uint8_t *out, size_t len, uint64_t earlier, uint32_t time);

#undef HG_SIZE

#ifdef __cplusplus
}
#endif

#endif
