/*
 * Times the library's calls and the plain C version's on the same inputs, after checking that their answers and all that
 * they were lent are the same. The variants of a test take turns, a batch each; the least time of a batch counts.
 *
 *     bench                      a table of times and ratios
 *     bench count TEST VARIANT   runs one batch in `measured`, for callgrind, and prints its number of operations
 */
#define _GNU_SOURCE
#include "plain.h"

#include <sched.h>
#include <stdbool.h>
#include <stdio.h>
#include <stdlib.h>
#include <string.h>
#include <time.h>

#define VARIANTS(X) X(library) X(gcc_O3) X(clang_O3) X(gcc_O2)
enum { LIBRARY, PLAIN_FIRST, VARIANT_COUNT = 4 };
static const char *const variant_names[VARIANT_COUNT] = {"library", "gcc -O3", "clang -O3", "gcc -O2"};

PLAIN_DECLARE(gcc_O3_)
PLAIN_DECLARE(clang_O3_)
PLAIN_DECLARE(gcc_O2_)

/* The library's calls in the plain version's form. */
#define LIBRARY_CALL static inline __attribute__((always_inline))
LIBRARY_CALL void library_unpack(uint32_t id, hg_unpacked *out) { *out = hg_bus_unpack(id); }
LIBRARY_CALL void library_serve(const hg_directory *d, hg_holder_state *s, uint8_t *memory, size_t memory_len, uint8_t *flash, size_t flash_len, const hg_frame *f, hg_holder_answer *out)
{
    *out = hg_bus_serve(*d, *s, memory, memory_len, flash, flash_len, *f);
    *s = out->state;
}
LIBRARY_CALL void library_turn(hg_bridge *b, const uint8_t *first, size_t first_len, const uint8_t *second, size_t second_len, hg_yielded *out) { *out = hg_bridge_turn_in_place(b, first, first_len, second, second_len); }
LIBRARY_CALL void library_frame(hg_bridge *b, uint8_t *first, size_t first_len, const uint8_t *second, size_t second_len, const hg_frame *f, hg_yielded *out) { *out = hg_bridge_frame_in_place(b, first, first_len, second, second_len, *f); }
LIBRARY_CALL void library_read_header(const uint8_t *file, size_t len, hg_mlg_header *out) { *out = hg_mlg_read_header(file, len); }
LIBRARY_CALL void library_read_block(const uint8_t *file, size_t len, uint16_t size, uint64_t earlier, size_t place, hg_mlg_block *out) { *out = hg_mlg_read_block(file, len, size, earlier, place); }
LIBRARY_CALL hg_written library_list(uint8_t *out, size_t len, const uint8_t *file, size_t file_len) { return hg_mlg_list(out, len, file, file_len); }

/* ---- Numbers that stand for an answer ---- */

static uint64_t mixed(uint64_t h, uint64_t x) { return (h ^ x) * 1099511628211u; }

static uint64_t mixed_bytes(uint64_t h, const uint8_t *bytes, size_t n)
{
    for (size_t i = 0; i < n; i++)
        h = mixed(h, bytes[i]);
    return h;
}

static uint64_t answer_digest(uint64_t h, uint8_t number, uint8_t frames, const hg_frame *f)
{
    h = mixed(mixed(mixed(mixed(h, number), frames), f->id), f->len);
    return mixed_bytes(h, f->bytes, 8);
}

static uint64_t state_digest(uint64_t h, const hg_holder_state *s) { return mixed(mixed(mixed(h, s->family), s->has_current), s->current); }

static uint64_t slot_digest(uint64_t h, const hg_slot *s)
{
    h = mixed(mixed(mixed(mixed(h, s->ticket), s->offset), s->phase), s->kind);
    return mixed(mixed(mixed(mixed(mixed(mixed(h, s->device), s->table), s->count), s->progress), s->sends), s->left);
}

static uint64_t bridge_digest(uint64_t h, const hg_bridge *b)
{
    for (int i = 0; i < 4; i++)
        h = slot_digest(h, &b->slots[i]);
    return mixed_bytes(mixed(mixed(mixed(h, b->issued), b->own), b->last), b->rests, sizeof b->rests);
}

static uint64_t block_digest(uint64_t h, const hg_mlg_block *b)
{
    h = mixed(mixed(mixed(mixed(h, b->place), b->start), b->len), b->time);
    return mixed(mixed(mixed(mixed(h, b->number), b->kind), b->counter), b->as_expected);
}

static uint64_t header_digest(uint64_t h, const hg_mlg_header *m)
{
    h = mixed(mixed(mixed(mixed(h, m->time), m->info), m->begin), m->size);
    return mixed(mixed(mixed(h, m->count), m->version), m->number);
}

/* ---- Inputs ---- */

static uint32_t random_number(void)
{
    static uint64_t x = 88172645463325252u;
    x ^= x << 13;
    x ^= x >> 7;
    x ^= x << 17;
    return (uint32_t)(x >> 16);
}

enum { IDS = 4096, FRAMES = 256, BRIDGES = 256, HEADERS = 16, ROOM = 1 << 20, LARGE = 15, SMALL = 16 };

static uint32_t ids[IDS];
static hg_directory directory, copy_directory; /* the second has LARGE tables of 2,056 bytes, then SMALL of 64, then one of the rest */
static uint8_t memory[32768], memory_start[32768], flash[32768], flash_start[32768];
static hg_holder_state states[FRAMES];

/* Frames to a holder, and its state before each. */
typedef struct {
    hg_frame frames[FRAMES];
    hg_holder_state before[FRAMES];
} holder_inputs;
static holder_inputs commands, requests, older_commands, older_requests, small_burns, large_burns, small_reloads, large_reloads;
static hg_bridge bridges[BRIDGES];
static uint8_t first[HG_BUFFER], first_start[HG_BUFFER], second[HG_BUFFER], second_start[HG_BUFFER];

/* A busy bridge's states, before a turn and before a frame that it awaits: of reads and writes, and of checked writes. */
typedef struct {
    hg_bridge before_turn[BRIDGES], before_frame[BRIDGES];
    hg_frame replies[BRIDGES];
} busy;
static busy plain_transfers, checked_writes;
static uint8_t *logs[2];
static size_t log_lens[2];
static const uint16_t log_sizes[2] = {32, 512};
static uint8_t header_file[65536], list_file[65536], listed[ROOM];
static size_t header_len, list_len;

/* Before each frame the current table is its own, or, with `back` 1, that of the frame before it; before the first comes the last. */
static void make_states(holder_inputs *in, uint8_t family, int back)
{
    for (int i = 0; i < FRAMES; i++) {
        uint32_t id = in->frames[(i + FRAMES - back) % FRAMES].id;
        in->before[i] = (hg_holder_state){family, 1, hg_bus_unpack(id).parts.table};
    }
}

/* A request of 1 to 8 bytes, to any place of the sender. */
static void make_request(hg_frame *r, hg_parts parts)
{
    parts.kind = HG_REQ;
    r->id = hg_bus_pack(parts).id;
    r->len = 3;
    r->bytes[0] = (uint8_t)(random_number() % 32);
    r->bytes[1] = (uint8_t)random_number();
    r->bytes[2] = (uint8_t)(random_number() % 8 * 32 + 1 + random_number() % 8);
}

static void make_bus_inputs(void)
{
    for (int i = 0; i < IDS; i++)
        ids[i] = random_number() % (1u << 29) / 4 * 4;
    directory.own = 5;
    directory.table_blocking = 256;
    directory.write_blocking = 64;
    for (int i = 0; i < 32; i++) {
        directory.sizes[i] = 1024;
        directory.rights[i] = 2;
    }
    for (size_t i = 0; i < sizeof memory_start; i++)
        memory_start[i] = (uint8_t)random_number();
    for (int i = 0; i < FRAMES; i++) {
        hg_parts parts = {(uint16_t)(random_number() % 1016), HG_CMD, 3, 5, (uint8_t)(random_number() % 32)};
        hg_frame *c = &commands.frames[i];
        c->id = hg_bus_pack(parts).id;
        c->len = (uint8_t)(1 + random_number() % 8);
        for (int k = 0; k < 8; k++)
            c->bytes[k] = (uint8_t)random_number();
        make_request(&requests.frames[i], parts);
    }
    older_commands = commands;
    older_requests = requests;
    make_states(&commands, 3, 0);
    make_states(&requests, 3, 0);
    make_states(&older_commands, 2, 0);
    make_states(&older_requests, 2, 0);
}

static void make_burn_inputs(void)
{
    copy_directory = directory;
    for (int i = 0; i < 32; i++)
        copy_directory.sizes[i] = i < LARGE ? 2056 : i < LARGE + SMALL ? 64 : 32768 - LARGE * 2056 - SMALL * 64;
    for (size_t i = 0; i < sizeof flash_start; i++)
        flash_start[i] = (uint8_t)random_number();
    for (int i = 0; i < FRAMES; i++) {
        hg_parts parts = {(uint16_t)(random_number() % 2048), HG_BURN, 3, 5, (uint8_t)(random_number() % LARGE)};
        large_burns.frames[i].id = hg_bus_pack(parts).id;
        parts.table = (uint8_t)(LARGE + random_number() % SMALL);
        small_burns.frames[i].id = hg_bus_pack(parts).id;
    }
    make_states(&small_burns, 3, 0);
    make_states(&large_burns, 3, 0);
}

/* Requests to the two halves of `count` tables by turns, on family 2: the table is never that of the frame before, so each is reloaded. */
static void make_reloads(holder_inputs *in, unsigned first_table, unsigned count, unsigned offsets)
{
    for (unsigned i = 0; i < FRAMES; i++) {
        unsigned table = first_table + i % 2 * (count / 2) + random_number() % (count / 2);
        make_request(&in->frames[i], (hg_parts){(uint16_t)(random_number() % offsets), HG_REQ, 3, 5, (uint8_t)table});
    }
    make_states(in, 2, 1);
}

/* Opens transfers in free slots: reads and writes by turns, or checked writes, which all send the same bytes, so that the second buffer fits each. */
static void open_some(hg_bridge *b, bool checked)
{
    uint8_t bytes[HG_MOST];
    for (int i = 0; i < HG_MOST; i++)
        bytes[i] = checked ? (uint8_t)(7 * i + 3) : (uint8_t)random_number();
    for (int i = 0; i < 4; i++) {
        size_t count = 1 + random_number() % HG_MOST;
        uint16_t offset = (uint16_t)(random_number() % 1900);
        hg_opened o;
        if (checked)
            o = hg_bridge_open_check(*b, first_start, HG_BUFFER, second_start, HG_BUFFER, 5, 7, offset, bytes, count);
        else if (random_number() % 2)
            o = hg_bridge_open_read(*b, first_start, HG_BUFFER, second_start, HG_BUFFER, 5, 7, offset, count);
        else
            o = hg_bridge_open_write(*b, first_start, HG_BUFFER, second_start, HG_BUFFER, 5, 7, offset, bytes, count);
        *b = o.bridge;
    }
}

/* The reply that the slot last served awaits; to a checked write it mostly brings back what that sent. */
static hg_frame awaited(const hg_bridge *b)
{
    const hg_slot *s = &b->slots[b->last];
    unsigned left = s->count - s->progress, place = 128u * b->last + s->progress;
    hg_parts parts = {(uint16_t)place, HG_RSP, s->device, 0, 6};
    hg_frame f = {hg_bus_pack(parts).id, (uint8_t)(left < 8 ? left : 8), {1, 2, 3, 4, 5, 6, 7, 8}};
    if (s->kind == HG_READ_BACK && random_number() % 16 != 0)
        memcpy(f.bytes, second_start + place, f.len);
    return f;
}

/* Closes what has ended, and sets the slots' rests to 0, which no host does: so four transfers are held before every turn. */
static void close_ended(hg_bridge *b)
{
    for (int i = 0; i < 4; i++)
        if (b->slots[i].phase >= HG_PHASE_DONE) {
            *b = hg_bridge_close(*b, b->slots[i].ticket).bridge;
            b->rests[i] = 0;
        }
}

static void make_busy(busy *out, bool checked)
{
    hg_bridge b = hg_bridge_reset((hg_bridge){0}, 0).bridge;
    int turns = 0, frames = 0;
    while (turns < BRIDGES || frames < BRIDGES) {
        close_ended(&b);
        open_some(&b, checked);
        if (turns < BRIDGES)
            out->before_turn[turns++] = b;
        hg_stepped t = hg_bridge_turn(b, first_start, HG_BUFFER, second_start, HG_BUFFER);
        b = t.bridge;
        if (!t.answer.frames || b.slots[b.last].phase != HG_PHASE_WAITING || random_number() % 4 == 0)
            continue;
        hg_frame f = awaited(&b);
        if (frames < BRIDGES) {
            out->replies[frames] = f;
            out->before_frame[frames++] = b;
        }
        b = hg_bridge_frame(b, first_start, HG_BUFFER, second_start, HG_BUFFER, f).bridge;
    }
}

static void make_bridge_inputs(void)
{
    make_busy(&plain_transfers, false);
    make_busy(&checked_writes, true);
}

/* A log of data blocks and, one in a hundred, marks; without a header. */
static size_t make_blocks(uint8_t *out, size_t room, uint16_t size)
{
    uint8_t record[512];
    size_t at = 0;
    for (uint64_t n = 0;; n++) {
        hg_written w;
        for (int i = 0; i < size; i++)
            record[i] = (uint8_t)random_number();
        if (n % 100 == 99)
            w = hg_mlg_write_mark(out + at, room - at, n, (uint16_t)n, (const uint8_t *)"lap finished", 12);
        else
            w = hg_mlg_write_data(out + at, room - at, size, n, (uint16_t)n, record, size);
        if (w.number != 0)
            return at;
        at += w.len;
    }
}

/* Fields of all types with usual texts; every tenth is a bit field of eight names. */
static size_t make_header(uint8_t *out, size_t room, unsigned count, uint16_t *size)
{
    static uint8_t fields[200 * 89];
    static uint8_t names[200 * 48];
    static const uint8_t kinds[8] = {0, 1, 2, 3, 4, 5, 6, 7}, lens[8] = {1, 1, 2, 2, 4, 4, 8, 4};
    size_t names_len = 0;
    *size = 0;
    memset(fields, 0, sizeof fields);
    for (unsigned i = 0; i < count; i++) {
        uint8_t *d = fields + 89 * i;
        bool bit_field = i % 10 == 9;
        d[0] = bit_field ? 10 : kinds[i % 8];
        *size = (uint16_t)(*size + (bit_field ? 1 : lens[i % 8]));
        sprintf((char *)d + 1, "Channel %u", i);
        strcpy((char *)d + 35, "kPa");
        strcpy((char *)d + 55, "Sensors");
        if (bit_field) {
            size_t index = 24 + 89 * count + names_len;
            d[47] = (uint8_t)(index >> 24);
            d[48] = (uint8_t)(index >> 16);
            d[49] = (uint8_t)(index >> 8);
            d[50] = (uint8_t)index;
            d[51] = 8;
            for (int k = 0; k < 8; k++)
                names_len += (size_t)sprintf((char *)names + names_len, "bit%d", k) + 1;
        }
    }
    hg_written w = hg_mlg_write_header(out, room, 1700000000, fields, 89 * count, names, names_len, (const uint8_t *)"speed test", 10);
    if (w.number != 0) {
        printf("the test's header is refused with number %u\n", w.number);
        exit(1);
    }
    return w.len;
}

static void make_log_inputs(size_t bytes)
{
    uint16_t size;
    for (int i = 0; i < 2; i++) {
        logs[i] = malloc(bytes);
        if (logs[i] == NULL)
            exit(1);
        log_lens[i] = make_blocks(logs[i], bytes, log_sizes[i]);
    }
    header_len = make_header(header_file, sizeof header_file, 200, &size);
    list_len = make_header(list_file, sizeof list_file, 20, &size);
    list_len += make_blocks(list_file + list_len, sizeof list_file - list_len, size);
    memset(list_file + list_len, 7, sizeof list_file - list_len); /* an unknown block ends it: 65,536 bytes */
    list_len = sizeof list_file;
}

/* ---- Tests: a batch of calls by each variant. `check` is constant in each copy. ---- */

static volatile uint64_t sink;

static void restore_holder(const holder_inputs *in)
{
    memcpy(memory, memory_start, sizeof memory);
    memcpy(flash, flash_start, sizeof flash);
    memcpy(states, in->before, sizeof states);
}
static void restore_command(void) { restore_holder(&commands); }
static void restore_request(void) { restore_holder(&requests); }
static void restore_older_command(void) { restore_holder(&older_commands); }
static void restore_older_request(void) { restore_holder(&older_requests); }
static void restore_small_burn(void) { restore_holder(&small_burns); }
static void restore_large_burn(void) { restore_holder(&large_burns); }
static void restore_small_reload(void) { restore_holder(&small_reloads); }
static void restore_large_reload(void) { restore_holder(&large_reloads); }
static void restore_bridges(const hg_bridge *start)
{
    memcpy(bridges, start, sizeof bridges);
    memcpy(first, first_start, sizeof first);
    memcpy(second, second_start, sizeof second);
}
static void restore_turn(void) { restore_bridges(plain_transfers.before_turn); }
static void restore_frame(void) { restore_bridges(plain_transfers.before_frame); }
static void restore_check_turn(void) { restore_bridges(checked_writes.before_turn); }
static void restore_check_frame(void) { restore_bridges(checked_writes.before_frame); }
static void restore_list(void) { memset(listed, 0, sizeof listed); }
static void restore_nothing(void) {}

static uint64_t buffers_digest(uint64_t h) { return mixed_bytes(mixed_bytes(h, first, sizeof first), second, sizeof second); }

#define BODY static inline __attribute__((always_inline)) uint64_t
#define DEFINE_BODIES(V) \
    BODY unpack_body_##V(bool check) \
    { \
        uint64_t a = 0; \
        for (int i = 0; i < IDS; i++) { \
            hg_unpacked u; \
            V##_unpack(ids[i], &u); \
            a += u.number + u.parts.offset; \
            if (check) \
                a = mixed(mixed(mixed(mixed(a, u.parts.kind), u.parts.from), u.parts.to), u.parts.table); \
        } \
        return a; \
    } \
    BODY serve_frames_##V(const hg_directory *d, const hg_frame *frames, bool check) \
    { \
        uint64_t a = 0; \
        for (int i = 0; i < FRAMES; i++) { \
            hg_holder_answer out; \
            V##_serve(d, &states[i], memory, sizeof memory, flash, sizeof flash, &frames[i], &out); \
            hg_served *s = &out.served; \
            a += s->number + s->frame.id; \
            if (check) \
                a = state_digest(mixed(answer_digest(a, s->number, s->frames, &s->frame), s->clear), &states[i]); \
        } \
        return check ? mixed_bytes(mixed_bytes(a, memory, sizeof memory), flash, sizeof flash) : a; \
    } \
    BODY command_body_##V(bool check) { return serve_frames_##V(&directory, commands.frames, check); } \
    BODY request_body_##V(bool check) { return serve_frames_##V(&directory, requests.frames, check); } \
    BODY older_command_body_##V(bool check) { return serve_frames_##V(&directory, older_commands.frames, check); } \
    BODY older_request_body_##V(bool check) { return serve_frames_##V(&directory, older_requests.frames, check); } \
    BODY small_burn_body_##V(bool check) { return serve_frames_##V(&copy_directory, small_burns.frames, check); } \
    BODY large_burn_body_##V(bool check) { return serve_frames_##V(&copy_directory, large_burns.frames, check); } \
    BODY small_reload_body_##V(bool check) { return serve_frames_##V(&copy_directory, small_reloads.frames, check); } \
    BODY large_reload_body_##V(bool check) { return serve_frames_##V(&copy_directory, large_reloads.frames, check); } \
    BODY turn_body_##V(bool check) \
    { \
        uint64_t a = 0; \
        for (int i = 0; i < BRIDGES; i++) { \
            hg_yielded s; \
            V##_turn(&bridges[i], first, HG_BUFFER, second, HG_BUFFER, &s); \
            a += s.number + s.frame.id; \
            if (check) \
                a = bridge_digest(answer_digest(a, s.number, s.frames, &s.frame), &bridges[i]); \
        } \
        return check ? buffers_digest(a) : a; \
    } \
    BODY check_turn_body_##V(bool check) { return turn_body_##V(check); } \
    BODY frames_##V(const hg_frame *replies, bool check) \
    { \
        uint64_t a = 0; \
        for (int i = 0; i < BRIDGES; i++) { \
            hg_yielded s; \
            V##_frame(&bridges[i], first, HG_BUFFER, second, HG_BUFFER, &replies[i], &s); \
            a += s.number; \
            if (check) \
                a = bridge_digest(answer_digest(a, s.number, s.frames, &s.frame), &bridges[i]); \
        } \
        return check ? buffers_digest(a) : a; \
    } \
    BODY frame_body_##V(bool check) { return frames_##V(plain_transfers.replies, check); } \
    BODY check_frame_body_##V(bool check) { return frames_##V(checked_writes.replies, check); } \
    BODY log_body_##V(int log, bool check) \
    { \
        uint64_t a = 0; \
        size_t at = 0; \
        for (uint64_t n = 0;; n++) { \
            hg_mlg_block b; \
            V##_read_block(logs[log], log_lens[log], log_sizes[log], n, at, &b); \
            a += b.time; \
            if (check) \
                a = block_digest(a, &b); \
            if (b.kind >= HG_BLOCK_END) \
                return mixed(a, n); \
            at += b.kind == HG_BLOCK_DATA ? (size_t)log_sizes[log] + 5 : 54; \
        } \
    } \
    BODY log32_body_##V(bool check) { return log_body_##V(0, check); } \
    BODY log512_body_##V(bool check) { return log_body_##V(1, check); } \
    BODY header_body_##V(bool check) \
    { \
        uint64_t a = 0; \
        for (int i = 0; i < HEADERS; i++) { \
            hg_mlg_header h; \
            V##_read_header(header_file, header_len, &h); \
            a += h.number + h.count; \
            if (check) \
                a = header_digest(a, &h); \
        } \
        return a; \
    } \
    BODY list_body_##V(bool check) \
    { \
        hg_written w = V##_list(listed, sizeof listed, list_file, list_len); \
        return check ? mixed_bytes(mixed(w.len, w.number), listed, sizeof listed) : w.len + w.number; \
    }
VARIANTS(DEFINE_BODIES)

typedef uint64_t batch(void);

#define DEFINE_BATCHES(TEST, V) \
    static uint64_t TEST##_run_##V(void) { return TEST##_body_##V(false); } \
    static uint64_t TEST##_check_##V(void) { return TEST##_body_##V(true); }
#define DEFINE_TEST_BATCHES(TEST) \
    DEFINE_BATCHES(TEST, library) DEFINE_BATCHES(TEST, gcc_O3) DEFINE_BATCHES(TEST, clang_O3) DEFINE_BATCHES(TEST, gcc_O2)
DEFINE_TEST_BATCHES(unpack)
DEFINE_TEST_BATCHES(command)
DEFINE_TEST_BATCHES(request)
DEFINE_TEST_BATCHES(older_command)
DEFINE_TEST_BATCHES(older_request)
DEFINE_TEST_BATCHES(small_burn)
DEFINE_TEST_BATCHES(large_burn)
DEFINE_TEST_BATCHES(small_reload)
DEFINE_TEST_BATCHES(large_reload)
DEFINE_TEST_BATCHES(turn)
DEFINE_TEST_BATCHES(frame)
DEFINE_TEST_BATCHES(check_turn)
DEFINE_TEST_BATCHES(check_frame)
DEFINE_TEST_BATCHES(log32)
DEFINE_TEST_BATCHES(log512)
DEFINE_TEST_BATCHES(header)
DEFINE_TEST_BATCHES(list)

typedef struct {
    const char *key, *name;
    void (*restore)(void);
    size_t operations; /* of a batch; 0: the blocks of a log, counted below */
    int batches;
    batch *run[VARIANT_COUNT], *check[VARIANT_COUNT];
} test;

#define RUNS(TEST) {TEST##_run_library, TEST##_run_gcc_O3, TEST##_run_clang_O3, TEST##_run_gcc_O2}
#define CHECKS(TEST) {TEST##_check_library, TEST##_check_gcc_O3, TEST##_check_clang_O3, TEST##_check_gcc_O2}
static test tests[] = {
    {"unpack", "unpack", restore_nothing, IDS, 4000, RUNS(unpack), CHECKS(unpack)},
    {"command", "serve a CMD", restore_command, FRAMES, 8000, RUNS(command), CHECKS(command)},
    {"request", "serve a REQ", restore_request, FRAMES, 8000, RUNS(request), CHECKS(request)},
    {"older_command", "serve a CMD, family 2", restore_older_command, FRAMES, 8000, RUNS(older_command), CHECKS(older_command)},
    {"older_request", "serve a REQ, family 2", restore_older_request, FRAMES, 8000, RUNS(older_request), CHECKS(older_request)},
    {"small_burn", "serve a BURN, 64 bytes", restore_small_burn, FRAMES, 8000, RUNS(small_burn), CHECKS(small_burn)},
    {"large_burn", "serve a BURN, 2,056 bytes", restore_large_burn, FRAMES, 2000, RUNS(large_burn), CHECKS(large_burn)},
    {"small_reload", "serve a REQ, 64 bytes reloaded", restore_small_reload, FRAMES, 8000, RUNS(small_reload), CHECKS(small_reload)},
    {"large_reload", "serve a REQ, 2,056 bytes reloaded", restore_large_reload, FRAMES, 2000, RUNS(large_reload), CHECKS(large_reload)},
    {"turn", "turn in place", restore_turn, BRIDGES, 8000, RUNS(turn), CHECKS(turn)},
    {"frame", "frame in place", restore_frame, BRIDGES, 8000, RUNS(frame), CHECKS(frame)},
    {"check_turn", "turn, checked writes", restore_check_turn, BRIDGES, 8000, RUNS(check_turn), CHECKS(check_turn)},
    {"check_frame", "frame, checked writes", restore_check_frame, BRIDGES, 8000, RUNS(check_frame), CHECKS(check_frame)},
    {"log32", "block of 32 bytes", restore_nothing, 0, 100, RUNS(log32), CHECKS(log32)},
    {"log512", "block of 512 bytes", restore_nothing, 0, 100, RUNS(log512), CHECKS(log512)},
    {"header", "header, 200 fields", restore_nothing, HEADERS, 3000, RUNS(header), CHECKS(header)},
    {"list", "listing, 65,536 bytes", restore_list, 1, 300, RUNS(list), CHECKS(list)},
};
enum { TESTS = sizeof tests / sizeof tests[0] };

static size_t blocks_in(int log)
{
    size_t n = 0;
    for (size_t at = 0; at < log_lens[log]; n++)
        at += logs[log][at] == 0 ? (size_t)log_sizes[log] + 5 : 54;
    return n;
}

static double seconds(void)
{
    struct timespec t;
    clock_gettime(CLOCK_MONOTONIC, &t);
    return (double)t.tv_sec + 1e-9 * (double)t.tv_nsec;
}

/* Exits where a variant's answers are not the library's. */
static void check(const test *t)
{
    uint64_t expected = 0;
    for (int v = 0; v < VARIANT_COUNT; v++) {
        t->restore();
        uint64_t digest = t->check[v]();
        if (v == LIBRARY)
            expected = digest;
        if (digest != expected) {
            printf("%s: %s does not answer as the library\n", t->name, variant_names[v]);
            exit(1);
        }
    }
}

static void time_test(const test *t)
{
    double least[VARIANT_COUNT] = {1e9, 1e9, 1e9, 1e9};
    for (int i = 0; i < t->batches; i++) {
        for (int v = 0; v < VARIANT_COUNT; v++) {
            t->restore();
            double start = seconds();
            sink += t->run[v]();
            double took = seconds() - start;
            if (took < least[v])
                least[v] = took;
        }
    }
    printf("| %s |", t->name);
    for (int v = 0; v < VARIANT_COUNT; v++)
        printf(" %.1f |", 1e9 * least[v] / (double)t->operations);
    for (int v = PLAIN_FIRST; v < VARIANT_COUNT; v++)
        printf(" %.2f |", least[LIBRARY] / least[v]);
    printf("\n");
    fflush(stdout);
}

__attribute__((noinline)) void measured(batch *run);
void measured(batch *run) { sink += run(); }

static int count_one(const char *key, int variant)
{
    for (int i = 0; i < TESTS; i++) {
        if (strcmp(tests[i].key, key) == 0 && variant >= 0 && variant < VARIANT_COUNT) {
            tests[i].restore();
            measured(tests[i].run[variant]);
            printf("%zu\n", tests[i].operations);
            return 0;
        }
    }
    return 1;
}

int main(int argc, char **argv)
{
    bool counts = argc == 4 && strcmp(argv[1], "count") == 0;
    cpu_set_t one;
    CPU_ZERO(&one);
    CPU_SET(sched_getcpu(), &one);
    sched_setaffinity(0, sizeof one, &one);
    make_bus_inputs();
    make_bridge_inputs();
    make_log_inputs(counts ? (size_t)1 << 20 : (size_t)64 << 20);
    make_burn_inputs();
    make_reloads(&small_reloads, LARGE, SMALL, 64 - 7);
    make_reloads(&large_reloads, 0, LARGE, 2048);
    for (int i = 0; i < TESTS; i++)
        if (tests[i].operations == 0)
            tests[i].operations = blocks_in(strcmp(tests[i].key, "log512") == 0);
    if (counts)
        return count_one(argv[2], atoi(argv[3]));
    printf("| ns an operation | library | gcc -O3 | clang -O3 | gcc -O2 | / gcc -O3 | / clang -O3 | / gcc -O2 |\n");
    printf("|---|---|---|---|---|---|---|---|\n");
    for (int i = 0; i < TESTS; i++) {
        if (argc == 2 && strcmp(argv[1], tests[i].key) != 0)
            continue;
        check(&tests[i]);
        time_test(&tests[i]);
    }
    return 0;
}
