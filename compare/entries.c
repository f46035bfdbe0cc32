/*
 * Calls every entry of the header file, with arguments by the names of its parameters and with numbers that tell them apart, and
 * prints every answer by the names of its fields. The Rust program `entries` makes the same calls on the model and prints the same
 * lines; .ci/tests/entries compares them. entries.inc is made of the header file by entries.awk.
 */
#include "honeygimlet.h"

#include <stdio.h>
#include <string.h>

static void put_uint8_t(uint8_t x) { printf("%u", (unsigned)x); }
static void put_uint16_t(uint16_t x) { printf("%u", (unsigned)x); }
static void put_uint32_t(uint32_t x) { printf("%lu", (unsigned long)x); }
static void put_uint64_t(uint64_t x) { printf("%llu", (unsigned long long)x); }
static void put_int64_t(int64_t x) { printf("%lld", (long long)x); }
static void put_size_t(size_t x) { printf("%zu", x); }

static void put_float(float x) {
    uint32_t bits;
    memcpy(&bits, &x, sizeof bits);
    printf("bits %08lx", (unsigned long)bits);
}

static void put_bytes(const uint8_t *bytes, size_t len) {
    for (size_t i = 0; i < len; i++) printf("%02x", bytes[i]);
}

#include "entries.inc"

/* The answer of an entry, printed: CALL(hg_bus_unpack, .id = 4). */
#define CALL(entry, ...) call_##entry((struct arguments_##entry){__VA_ARGS__})

/* A pattern: byte i is first + 7 i. */
static void fill(uint8_t *bytes, size_t len, uint8_t first) {
    for (size_t i = 0; i < len; i++) bytes[i] = (uint8_t)(first + 7 * i);
}

static void identifiers(void) {
    hg_parts parts = {.offset = 1234, .kind = HG_RSP, .from = 3, .to = 5, .table = 22};
    hg_packed packed = CALL(hg_bus_pack, .parts = parts);
    CALL(hg_bus_pack, .parts = {.offset = 1234, .kind = 8, .from = 3, .to = 5, .table = 22});
    CALL(hg_bus_pack, .parts = {.offset = 1234, .kind = 2, .from = 3, .to = 5, .table = 32});
    CALL(hg_bus_pack, .parts = {.offset = 2048, .kind = 2, .from = 3, .to = 5, .table = 22});
    CALL(hg_bus_unpack, .id = packed.id);
    CALL(hg_bus_unpack, .id = packed.id + 1);
    CALL(hg_bus_unpack, .id = (uint32_t)1 << 29);
}

static void requests(void) {
    CALL(hg_bus_read_request, .first = 0x16, .second = 0x9A, .third = 0x4B);
    CALL(hg_bus_read_request, .first = 0x16, .second = 0x9A, .third = 0x5B); /* bit 4 set */
    CALL(hg_bus_read_request, .first = 0xB6, .second = 0x9A, .third = 0x4B); /* two of the top bits */
    CALL(hg_bus_request_bytes, .request = {.table = 22, .count = 11, .offset = 1234});
    CALL(hg_bus_request_bytes, .request = {.table = 22, .count = 16, .offset = 1234});
}

/* A frame of parts and bytes. */
static hg_frame framed(hg_parts parts, const char *bytes, uint8_t len) {
    hg_frame frame = {.id = hg_bus_pack(parts).id, .len = len, .bytes = {0}};
    memcpy(frame.bytes, bytes, len);
    return frame;
}

/* A holder: its directory, its state and both memories, and how the memories are lent with these lengths. */
typedef struct {
    hg_directory directory;
    hg_holder_state state;
    uint8_t memory[50], flash[50];
} tables;
#define HELD(n, m) .memory = held.memory, .memory_len = n, .flash = held.flash, .flash_len = m
#define WHOLE HELD(50, 50)
/* The next call gets the state that this one hands back. */
#define SERVE(f) (held.state = CALL(hg_bus_serve, .directory = held.directory, .state = held.state, WHOLE, .frame = f).state)

/* Table 3 of twenty bytes may be read, table 22 of thirty may be written; all others are empty. */
static tables fresh_tables(void) {
    tables held = {.directory = {.table_blocking = 0x1234, .write_blocking = 0x5678, .own = 9}, .state = {0}};
    held.directory.sizes[3] = 20, held.directory.rights[3] = 1;
    held.directory.sizes[22] = 30, held.directory.rights[22] = 2;
    fill(held.memory, 50, 1);
    fill(held.flash, 50, 60);
    return held;
}

/* A frame of device 3 for a table of device 9. */
static hg_frame to_table(uint8_t table, uint8_t kind, const char *bytes, uint8_t len) {
    hg_parts parts = {.offset = 13, .kind = kind, .from = 3, .to = 9, .table = table};
    return framed(parts, bytes, len);
}

static void holder(void) {
    tables held = fresh_tables();
    hg_frame command = to_table(22, HG_CMD, "store", 5), too_long = command;
    too_long.len = 9;
    held.state = CALL(hg_bus_first_state, .family = 2).state;
    SERVE(command);
    /* six bytes, to table 4 and offset 300; the same with bit 4 set, and with two of the top bits; nine bytes */
    SERVE(to_table(22, HG_REQ, "\x04\x25\x86", 3));
    SERVE(to_table(22, HG_REQ, "\x04\x25\x96", 3));
    SERVE(to_table(22, HG_REQ, "\xA4\x25\x86", 3));
    SERVE(to_table(22, HG_REQ, "\x04\x25\x89", 3));
    SERVE(to_table(22, HG_XTND, "\x80\x04\x25\x85", 4));
    SERVE(to_table(22, HG_XTND, "\x80\x04\x25\x95", 4));
    SERVE(to_table(22, HG_XTND, "\x80\xA4\x25\x85", 4));
    SERVE(too_long);
    /* a burn, a write and a request after it; a burn with a byte, and one of a table that may be read; an acknowledgement */
    SERVE(to_table(22, HG_BURN, "", 0));
    SERVE(to_table(22, HG_CMD, "again", 5));
    SERVE(to_table(22, HG_REQ, "\x04\x25\x86", 3));
    SERVE(to_table(22, HG_BURN, "b", 1));
    SERVE(to_table(3, HG_BURN, "", 0));
    SERVE(to_table(22, HG_XTND, "\x0E\x01", 2));
}

/* A table is written and left for another, and used again; none is current at first, and a query changes nothing. */
static void holder_families(void) {
    const uint8_t families[] = {2, 3}, kinds[] = {HG_REQ, HG_CMD, HG_BURN};
    const char *bytes[] = {"\x04\x25\x86", "new", ""};
    CALL(hg_bus_first_state, .family = 1);
    CALL(hg_bus_first_state, .family = 4);
    for (int i = 0; i < 6; i++) {
        tables held = fresh_tables();
        held.state = CALL(hg_bus_first_state, .family = families[i / 3]).state;
        SERVE(to_table(22, HG_XTND, "\x80\x04\x25\x81", 4));
        SERVE(to_table(22, HG_CMD, "store", 5));
        SERVE(to_table(3, HG_XTND, "\x80\x04\x25\x81", 4));
        SERVE(to_table(3, HG_REQ, "\x04\x25\x86", 3));
        SERVE(to_table(22, kinds[i % 3], bytes[i % 3], kinds[i % 3] == HG_BURN ? 0 : 3));
    }
}

/* A CMD and a BURN with an unsound directory, with unsound states, and with either memory short. */
static void holder_refusals(void) {
    const hg_holder_state unsound[] = {
        {.family = 4, .has_current = 1, .current = 22}, {.family = 2, .has_current = 2, .current = 22},
        {.family = 2, .has_current = 0, .current = 22}, {.family = 3, .has_current = 1, .current = 21},
        {.family = 3, .has_current = 1, .current = 54},
    };
    tables held = fresh_tables();
    hg_directory other = held.directory;
    hg_frame frames[2];
    other.own = 16;
    held.state = (hg_holder_state){.family = 2, .has_current = 1, .current = 3};
    frames[0] = to_table(22, HG_CMD, "store", 5), frames[1] = to_table(22, HG_BURN, "", 0);
    for (int i = 0; i < 2; i++) {
        CALL(hg_bus_serve, .directory = other, .state = held.state, WHOLE, .frame = frames[i]);
        for (int k = 0; k < 5; k++) CALL(hg_bus_serve, .directory = held.directory, .state = unsound[k], WHOLE, .frame = frames[i]);
        CALL(hg_bus_serve, .directory = held.directory, .state = held.state, HELD(49, 50), .frame = frames[i]);
        CALL(hg_bus_serve, .directory = held.directory, .state = held.state, HELD(50, 49), .frame = frames[i]);
    }
}

/* A reply of device 5 to device 9, for a place of its buffer. */
static hg_frame reply(uint16_t place, const char *bytes, uint8_t len) {
    hg_parts parts = {.offset = place, .kind = HG_RSP, .from = 5, .to = 9, .table = 6};
    return framed(parts, bytes, len);
}

/* Both buffers of a bridge, and how they are lent with these lengths. */
typedef struct {
    uint8_t first[HG_BUFFER], second[HG_BUFFER];
} buffers;
#define LENT(n, m) .first = lent->first, .first_len = n, .second = lent->second, .second_len = m
#define BOTH LENT(HG_BUFFER, HG_BUFFER)
#define FIRST_SHORT LENT(HG_BUFFER - 1, HG_BUFFER)
#define SECOND_SHORT LENT(HG_BUFFER, HG_BUFFER - 1)

static void fill_both(buffers *lent) {
    fill(lent->first, HG_BUFFER, 1);
    fill(lent->second, HG_BUFFER, 60);
}

/* A write of ten bytes in slot 0, ticket 1; a read of twelve in slot 1, ticket 2; a checked write of ten in slot 2, ticket 3. */
static hg_bridge openings(buffers *lent) {
    uint8_t bytes[10];
    hg_changed fresh = CALL(hg_bridge_reset, .b = {.issued = 7, .own = 8, .last = 2, .rests = {60, 0, 61, 7}}, .own = 9);
    hg_bridge one, two, three;
    CALL(hg_bridge_reset, .b = fresh.bridge, .own = 16);
    fill(bytes, 10, 200);
    one = CALL(hg_bridge_open_write, .b = fresh.bridge, BOTH, .device = 4, .table = 21, .offset = 300, .bytes = bytes, .count = 10).bridge;
    CALL(hg_bridge_open_write, .b = one, BOTH, .device = 4, .table = 21, .offset = 2047, .bytes = bytes, .count = 10);
    CALL(hg_bridge_open_write, .b = one, SECOND_SHORT, .device = 4, .table = 21, .offset = 300, .bytes = bytes, .count = 10);
    two = CALL(hg_bridge_open_read, .b = one, BOTH, .device = 5, .table = 22, .offset = 100, .count = 12).bridge;
    CALL(hg_bridge_open_read, .b = one, BOTH, .device = 16, .table = 22, .offset = 100, .count = 12);
    CALL(hg_bridge_open_read, .b = one, BOTH, .device = 5, .table = 22, .offset = 100, .count = 129);
    CALL(hg_bridge_open_read, .b = one, FIRST_SHORT, .device = 5, .table = 22, .offset = 100, .count = 12);
    CALL(hg_bridge_open_read, .b = one, SECOND_SHORT, .device = 5, .table = 22, .offset = 100, .count = 12);
    fill(bytes, 10, 100);
    three = CALL(hg_bridge_open_check, .b = two, BOTH, .device = 5, .table = 23, .offset = 200, .bytes = bytes, .count = 10).bridge;
    CALL(hg_bridge_open_check, .b = two, BOTH, .device = 5, .table = 23, .offset = 2047, .bytes = bytes, .count = 10);
    CALL(hg_bridge_open_check, .b = two, FIRST_SHORT, .device = 5, .table = 23, .offset = 200, .bytes = bytes, .count = 10);
    return three;
}

/* A reply with what the checked write sent, from byte `at` on. */
static hg_frame equal(uint8_t at, uint8_t len) {
    uint8_t bytes[10];
    fill(bytes, 10, 100);
    return reply(256 + at, (const char *)bytes + at, len);
}

/* The read's second reply is the last, the checked write's second differs. */
static void bridge_by_value(void) {
    buffers both, *lent = &both;
    hg_bridge b;
    fill_both(lent);
    b = openings(lent);
    for (int turn = 1; turn <= 6; turn++) b = CALL(hg_bridge_turn, .b = b, BOTH).bridge;
    CALL(hg_bridge_turn, .b = b, FIRST_SHORT);
    CALL(hg_bridge_turn, .b = b, SECOND_SHORT);
    b = CALL(hg_bridge_frame, .b = b, BOTH, .frame = reply(128, "a reply.", 8)).bridge;
    CALL(hg_bridge_frame, .b = b, BOTH, .frame = reply(128, "a reply.", 8));
    CALL(hg_bridge_frame, .b = b, SECOND_SHORT, .frame = equal(0, 8));
    b = CALL(hg_bridge_frame, .b = b, BOTH, .frame = equal(0, 8)).bridge;
    b = CALL(hg_bridge_turn, .b = b, BOTH).bridge;
    CALL(hg_bridge_status, .b = b, .ticket = 2);
    CALL(hg_bridge_span, .b = b, .first = lent->first, .first_len = HG_BUFFER, .ticket = 2);
    b = CALL(hg_bridge_frame, .b = b, BOTH, .frame = reply(136, "more", 4)).bridge;
    CALL(hg_bridge_status, .b = b, .ticket = 2);
    CALL(hg_bridge_status, .b = b, .ticket = 4);
    CALL(hg_bridge_span, .b = b, .first = lent->first, .first_len = HG_BUFFER, .ticket = 2);
    CALL(hg_bridge_span, .b = b, .first = lent->first, .first_len = HG_BUFFER, .ticket = 1);
    b = CALL(hg_bridge_turn, .b = b, BOTH).bridge;
    CALL(hg_bridge_status, .b = b, .ticket = 3);
    b = CALL(hg_bridge_frame, .b = b, BOTH, .frame = reply(264, "no", 2)).bridge;
    CALL(hg_bridge_status, .b = b, .ticket = 3);
    CALL(hg_bridge_span, .b = b, .first = lent->first, .first_len = HG_BUFFER, .ticket = 3);
    b = CALL(hg_bridge_close, .b = b, .ticket = 1).bridge;
    CALL(hg_bridge_close, .b = b, .ticket = 1);
}

/* The checked write's replies are equal. */
static void bridge_in_place(void) {
    buffers both, *lent = &both;
    hg_bridge b;
    fill_both(lent);
    b = openings(lent);
    for (int turn = 1; turn <= 6; turn++) CALL(hg_bridge_turn_in_place, .b = &b, BOTH);
    CALL(hg_bridge_turn_in_place, .b = &b, FIRST_SHORT);
    CALL(hg_bridge_turn_in_place, .b = &b, SECOND_SHORT);
    CALL(hg_bridge_frame_in_place, .b = &b, BOTH, .frame = reply(128, "a reply.", 8));
    CALL(hg_bridge_frame_in_place, .b = &b, BOTH, .frame = reply(128, "a reply.", 8));
    CALL(hg_bridge_frame_in_place, .b = &b, SECOND_SHORT, .frame = equal(0, 8));
    CALL(hg_bridge_frame_in_place, .b = &b, BOTH, .frame = equal(0, 8));
    CALL(hg_bridge_turn_in_place, .b = &b, BOTH);
    CALL(hg_bridge_turn_in_place, .b = &b, BOTH);
    CALL(hg_bridge_frame_in_place, .b = &b, BOTH, .frame = equal(8, 2));
    CALL(hg_bridge_status, .b = b, .ticket = 3);
    CALL(hg_bridge_span, .b = b, .first = lent->first, .first_len = HG_BUFFER, .ticket = 3);
    CALL(hg_bridge_close_in_place, .b = &b, .ticket = 1);
    CALL(hg_bridge_close_in_place, .b = &b, .ticket = 1);
}

/* Slots that rest: an opening takes the lowest that does not, or is refused with 19; 61 turns left are unsound. */
static void bridge_rests(void) {
    buffers both, *lent = &both;
    hg_bridge b = {.issued = 7, .own = 9, .last = 3, .rests = {60, 0, 1, 0}}, resting = b, unsound = b;
    uint8_t bytes[10];
    resting.rests[1] = 2, resting.rests[3] = 59;
    unsound.rests[2] = 61;
    fill_both(lent);
    fill(bytes, 10, 200);
    CALL(hg_bridge_open_write, .b = b, BOTH, .device = 4, .table = 21, .offset = 300, .bytes = bytes, .count = 10);
    CALL(hg_bridge_open_write, .b = resting, BOTH, .device = 4, .table = 21, .offset = 300, .bytes = bytes, .count = 10);
    CALL(hg_bridge_open_check, .b = b, BOTH, .device = 5, .table = 23, .offset = 200, .bytes = bytes, .count = 10);
    CALL(hg_bridge_open_check, .b = resting, BOTH, .device = 5, .table = 23, .offset = 200, .bytes = bytes, .count = 10);
    CALL(hg_bridge_open_read, .b = resting, BOTH, .device = 5, .table = 22, .offset = 100, .count = 12);
    CALL(hg_bridge_open_read, .b = unsound, BOTH, .device = 5, .table = 22, .offset = 100, .count = 12);
    b = CALL(hg_bridge_open_read, .b = b, BOTH, .device = 5, .table = 22, .offset = 100, .count = 12).bridge;
    b = CALL(hg_bridge_turn, .b = b, BOTH).bridge;
    b = CALL(hg_bridge_close, .b = b, .ticket = 8).bridge;
    CALL(hg_bridge_frame, .b = b, BOTH, .frame = reply(128, "too late", 8));
    b = CALL(hg_bridge_open_read, .b = b, BOTH, .device = 5, .table = 22, .offset = 100, .count = 12).bridge;
    CALL(hg_bridge_turn_in_place, .b = &b, BOTH);
}

/* A field with its type and name. */
static uint8_t *field(uint8_t *at, uint8_t type, const char *name) {
    memset(at, 0, HG_MLG_FIELD);
    at[HG_MLG_TYPE_AT] = type;
    memcpy(at + HG_MLG_NAME_AT, name, strlen(name));
    return at;
}

/* An MLG of three fields, two names, an info text, and three blocks: data at 311, a mark at 320, data at 374. */
static void mlg_writers(uint8_t *file, const uint8_t *fields) {
    uint8_t text[50];
    const uint8_t *names = (const uint8_t *)"on\0off", *info = (const uint8_t *)"an info text";
    const uint8_t *record = (const uint8_t *)"\xFF\x38\x07\x03";
    CALL(hg_mlg_write_header, .out = file, .len = 320, .time = 0x11223344, .fields = fields, .fields_len = 267, .names = names,
         .names_len = 7, .info = info, .info_len = 12);
    CALL(hg_mlg_write_header, .out = file, .len = 310, .time = 0x11223344, .fields = fields, .fields_len = 267, .names = names,
         .names_len = 7, .info = info, .info_len = 12);
    CALL(hg_mlg_write_header, .out = file, .len = 400, .time = 0x11223344, .fields = fields, .fields_len = 266, .names = names,
         .names_len = 7, .info = info, .info_len = 12);
    CALL(hg_mlg_write_data, .out = file + 311, .len = 10, .size = 4, .earlier = 1000, .time = 0x0102, .record = record, .record_len = 4);
    CALL(hg_mlg_write_data, .out = file + 311, .len = 10, .size = 4, .earlier = 1000, .time = 0x0102, .record = record, .record_len = 3);
    CALL(hg_mlg_write_mark, .out = file + 320, .len = 54, .earlier = 1001, .time = 0x0304, .text = (const uint8_t *)"knock", .text_len = 5);
    fill(text, sizeof text, 1);
    CALL(hg_mlg_write_mark, .out = file + 320, .len = 54, .earlier = 1001, .time = 0x0304, .text = text, .text_len = 50);
    CALL(hg_mlg_write_data, .out = file + 374, .len = 9, .size = 4, .earlier = 7, .time = 0x0506, .record = record, .record_len = 4);
}

static void mlg_readers(const uint8_t *file) {
    uint8_t listing[300];
    CALL(hg_mlg_read_header, .file = file, .len = 383);
    CALL(hg_mlg_read_header, .file = file, .len = 23);
    CALL(hg_mlg_read_block, .file = file, .len = 383, .size = 4, .earlier = 1000, .place = 311);
    CALL(hg_mlg_read_block, .file = file, .len = 383, .size = 4, .earlier = 7, .place = 320);
    CALL(hg_mlg_read_block, .file = file, .len = 383, .size = 4, .earlier = 7, .place = 383);
    CALL(hg_mlg_read_block, .file = file, .len = 383, .size = 5, .earlier = 1000, .place = 311);
    CALL(hg_mlg_read_block, .file = file, .len = 383, .size = 4, .earlier = 7, .place = 384);
    CALL(hg_mlg_count_blocks, .file = file, .len = 383);
    CALL(hg_mlg_count_blocks, .file = file, .len = 380);
    CALL(hg_mlg_fields_span, .file = file, .len = 383);
    CALL(hg_mlg_fields_span, .file = file, .len = 23);
    CALL(hg_mlg_field_span, .file = file, .len = 383, .index = 2);
    CALL(hg_mlg_field_span, .file = file, .len = 383, .index = 3);
    CALL(hg_mlg_names_span, .file = file, .len = 383);
    CALL(hg_mlg_names_span, .file = file, .len = 23);
    CALL(hg_mlg_info_span, .file = file, .len = 383);
    CALL(hg_mlg_info_span, .file = file, .len = 23);
    fill(listing, sizeof listing, 1);
    CALL(hg_mlg_list, .out = listing, .len = sizeof listing, .file = file, .file_len = 383);
    CALL(hg_mlg_list, .out = listing, .len = 20, .file = file, .file_len = 383);
}

static void mlg(void) {
    uint8_t file[400], fields[3 * HG_MLG_FIELD], *scaled, *bits;
    const uint8_t *raw = (const uint8_t *)"\xFF\x38";
    scaled = field(fields, HG_MLG_S16, "map");
    memcpy(scaled + HG_MLG_SCALE_AT, "\x3F\x00\x00\x00", 4);     /* 0.5 */
    memcpy(scaled + HG_MLG_TRANSFORM_AT, "\x40\x80\x00\x00", 4); /* 4 */
    field(fields + HG_MLG_FIELD, HG_MLG_U08, "tps");
    bits = field(fields + 2 * HG_MLG_FIELD, HG_MLG_BITS_U08, "pump");
    memcpy(bits + HG_MLG_BIT_NAMES_AT, "\x00\x00\x01\x23", 4); /* 291 */
    bits[HG_MLG_BIT_COUNT_AT] = 2;
    fill(file, sizeof file, 1);
    mlg_writers(file, fields);
    mlg_readers(file);
    CALL(hg_mlg_raw_value, .field = scaled, .field_len = HG_MLG_FIELD, .raw = raw, .raw_len = 2);
    CALL(hg_mlg_raw_value, .field = scaled, .field_len = HG_MLG_FIELD, .raw = raw, .raw_len = 1);
    CALL(hg_mlg_shown_value, .field = scaled, .field_len = HG_MLG_FIELD, .raw = raw, .raw_len = 2);
    CALL(hg_mlg_shown_value, .field = bits, .field_len = HG_MLG_FIELD, .raw = raw, .raw_len = 1);
}

/* An FRD of two blocks: data at 81, a time at 88. */
static void frd_writers(uint8_t *file) {
    uint8_t signature[63];
    const uint8_t *record = (const uint8_t *)"bytes";
    fill(signature, sizeof signature, 33);
    CALL(hg_frd_write_header, .out = file, .len = 90, .time = 0x55667788, .signature = signature, .signature_len = 63, .size = 5);
    CALL(hg_frd_write_header, .out = file, .len = 90, .time = 0x55667788, .signature = signature, .signature_len = 62, .size = 5);
    CALL(hg_frd_write_data, .out = file + 81, .len = 8, .size = 5, .earlier = 1000, .record = record, .record_len = 5);
    CALL(hg_frd_write_data, .out = file + 81, .len = 8, .size = 5, .earlier = 1000, .record = record, .record_len = 4);
    CALL(hg_frd_write_time, .out = file + 88, .len = 7, .earlier = 1001, .time = 0x99AABBCC);
    CALL(hg_frd_write_time, .out = file + 88, .len = 5, .earlier = 1001, .time = 0x99AABBCC);
}

static void frd(void) {
    uint8_t file[100];
    fill(file, sizeof file, 1);
    frd_writers(file);
    CALL(hg_frd_read_header, .file = file, .len = 94);
    CALL(hg_frd_read_header, .file = file, .len = 80);
    CALL(hg_frd_read_block, .file = file, .len = 94, .size = 5, .earlier = 1000, .place = 81);
    CALL(hg_frd_read_block, .file = file, .len = 94, .size = 5, .earlier = 7, .place = 88);
    CALL(hg_frd_read_block, .file = file, .len = 94, .size = 5, .earlier = 7, .place = 94);
    CALL(hg_frd_read_block, .file = file, .len = 94, .size = 20, .earlier = 7, .place = 81);
    CALL(hg_frd_count_blocks, .file = file, .len = 94);
    CALL(hg_frd_count_blocks, .file = file, .len = 93);
    CALL(hg_frd_read_signature, .file = file, .len = 94);
    CALL(hg_frd_read_signature, .file = file, .len = 80);
}

int main(void) {
    layout();
    identifiers();
    requests();
    holder();
    holder_families();
    holder_refusals();
    bridge_by_value();
    bridge_in_place();
    bridge_rests();
    mlg();
    frd();
    return 0;
}
