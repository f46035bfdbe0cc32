/* The same calls in plain C, with the same checks in the same order and the same answers, to measure the library against. */
#include "plain.h"

#include <stdbool.h>
#include <string.h>

#define JOIN_(a, b) a##b
#define JOIN(a, b) JOIN_(a, b)
#define PLAIN(name) JOIN(PLAIN_PREFIX, name)
PLAIN_DECLARE(PLAIN_PREFIX)

/* ---- Identifiers ---- */

static uint8_t table_of(uint32_t id) { return (uint8_t)((id >> 2 & 1) << 4 | (id >> 3 & 15)); }
static uint8_t to_of(uint32_t id) { return id >> 7 & 15; }
static uint8_t from_of(uint32_t id) { return id >> 11 & 15; }
static uint8_t kind_of(uint32_t id) { return id >> 15 & 7; }
static uint16_t offset_of(uint32_t id) { return id >> 18 & 2047; }

static uint32_t id_of(unsigned offset, unsigned kind, unsigned from, unsigned to, unsigned table)
{
    return (table >> 4) << 2 | (table & 15) << 3 | to << 7 | from << 11 | kind << 15 | offset << 18;
}

void PLAIN(unpack)(uint32_t id, hg_unpacked *out)
{
    if (id >> 29)
        *out = (hg_unpacked){{0, 0, 0, 0, 0}, 1};
    else if (id & 3)
        *out = (hg_unpacked){{0, 0, 0, 0, 0}, 2};
    else
        *out = (hg_unpacked){{offset_of(id), kind_of(id), from_of(id), to_of(id), table_of(id)}, 0};
}

/* 1, 2, 3, 4 of a frame, or 0. */
static uint8_t head_number(uint8_t own, const hg_frame *f)
{
    if (f->id >> 29)
        return 1;
    if (f->id & 3)
        return 2;
    if (f->len > 8)
        return 3;
    if (to_of(f->id) != own)
        return 4;
    return 0;
}

static void no_frame(hg_served *out, uint8_t number)
{
    *out = (hg_served){number, 0, 0, {0, 0, {0}}};
}

/* ---- Table holder ---- */

static bool sound_state(const hg_directory *d, const hg_holder_state *s)
{
    if (s->family != 2 && s->family != 3)
        return false;
    if (s->has_current == 0)
        return s->current == 0;
    return s->has_current == 1 && s->current < 32 && d->sizes[s->current] != 0;
}

/* 11 and 10, or 0. */
static uint8_t memory_number(const hg_directory *d, const hg_holder_state *s, size_t memory_len, size_t flash_len)
{
    unsigned bad = d->own > 15, total = 0;
    for (int i = 0; i < 32; i++) {
        bad |= d->sizes[i] > 2056;
        bad |= d->rights[i] > 2;
        total += d->sizes[i];
    }
    if (bad || total > 32768 || !sound_state(d, s))
        return 11;
    return memory_len == total && flash_len == total ? 0 : 10;
}

static size_t start_of(const hg_directory *d, size_t table)
{
    size_t at = 0;
    for (size_t i = 0; i < table; i++)
        at += d->sizes[i];
    return at;
}

/* Makes a table current, which family 2 first reloads unless it was; hands back its start. */
static size_t make_current(const hg_directory *d, hg_holder_state *s, uint8_t *memory, const uint8_t *flash, unsigned table)
{
    size_t start = start_of(d, table);
    if (s->family == 2 && !(s->has_current && s->current == table))
        memcpy(memory + start, flash + start, d->sizes[table]);
    s->has_current = 1;
    s->current = (uint8_t)table;
    return start;
}

/* The request's reserved bits are ignored; `clear` says whether they are 0. */
static void reply(const hg_directory *d, const hg_frame *f, const uint8_t *request, const uint8_t *bytes, hg_served *out)
{
    uint8_t count = request[2] & 15;
    out->number = 0;
    out->frames = 1;
    out->clear = ((request[0] & 0xE0) | (request[2] & 0x10)) == 0;
    out->frame.id = id_of(request[1] * 8u + (request[2] >> 5), HG_RSP, d->own, from_of(f->id), request[0] & 31);
    out->frame.len = count;
    for (unsigned i = 0; i < 8; i++)
        out->frame.bytes[i] = i < count ? bytes[i] : 0;
}

static uint8_t serve_command(const hg_directory *d, hg_holder_state *s, uint8_t *memory, const uint8_t *flash, const hg_frame *f)
{
    unsigned table = table_of(f->id), offset = offset_of(f->id), len = f->len;
    if (len == 0)
        return 6;
    if (d->sizes[table] == 0 || d->rights[table] != 2)
        return 7;
    if (offset + len > d->sizes[table])
        return 8;
    size_t start = make_current(d, s, memory, flash, table);
    memcpy(memory + start + offset, f->bytes, len);
    return 0;
}

static uint8_t serve_request(const hg_directory *d, hg_holder_state *s, uint8_t *memory, const uint8_t *flash, const hg_frame *f, hg_served *out)
{
    unsigned table = table_of(f->id), offset = offset_of(f->id), count = f->bytes[2] & 15;
    if (f->len != 3)
        return 6;
    if (d->sizes[table] == 0 || d->rights[table] == 0)
        return 7;
    if (count < 1 || count > 8)
        return 9;
    if (offset + count > d->sizes[table])
        return 8;
    size_t start = make_current(d, s, memory, flash, table);
    reply(d, f, f->bytes, memory + start + offset, out);
    return 0;
}

static uint8_t serve_burn(const hg_directory *d, hg_holder_state *s, uint8_t *memory, uint8_t *flash, const hg_frame *f, hg_served *out)
{
    unsigned table = table_of(f->id);
    if (f->len != 0)
        return 6;
    if (d->sizes[table] == 0 || d->rights[table] != 2)
        return 7;
    size_t start = make_current(d, s, memory, flash, table);
    memcpy(flash + start, memory + start, d->sizes[table]);
    *out = (hg_served){0, 1, 0, {id_of(0, HG_XTND, d->own, from_of(f->id), table), 2, {0x0E, 0x01}}};
    return 0;
}

static uint8_t serve_query(const hg_directory *d, const hg_frame *f, hg_served *out)
{
    unsigned count = f->bytes[3] & 15;
    if (f->len == 0)
        return 6;
    if (f->bytes[0] != 0x80)
        return 5;
    if (f->len != 4)
        return 6;
    if (count != 1 && count != 5)
        return 9;
    const uint8_t bytes[8] = {2, (uint8_t)(d->table_blocking >> 8), (uint8_t)d->table_blocking,
                              (uint8_t)(d->write_blocking >> 8), (uint8_t)d->write_blocking, 0, 0, 0};
    reply(d, f, f->bytes + 1, bytes, out);
    return 0;
}

/* The state is changed in place; of the answer `served` alone is set. */
void PLAIN(serve)(const hg_directory *d, hg_holder_state *s, uint8_t *memory, size_t memory_len, uint8_t *flash, size_t flash_len,
                  const hg_frame *f, hg_holder_answer *out)
{
    uint8_t number = memory_number(d, s, memory_len, flash_len);
    if (number == 0)
        number = head_number(d->own, f);
    if (number == 0) {
        switch (kind_of(f->id)) {
        case HG_CMD:
            number = serve_command(d, s, memory, flash, f);
            break;
        case HG_REQ:
            number = serve_request(d, s, memory, flash, f, &out->served);
            if (number == 0)
                return;
            break;
        case HG_BURN:
            number = serve_burn(d, s, memory, flash, f, &out->served);
            if (number == 0)
                return;
            break;
        case HG_XTND:
            number = serve_query(d, f, &out->served);
            if (number == 0)
                return;
            break;
        default:
            number = 5;
        }
    }
    no_frame(&out->served, number);
}

/* ---- Bridge ---- */

/* The turns that a slot rests after a REQ. */
enum { REST = 60 };

/* A read, or a checked write that reads back. */
static bool asks(const hg_slot *s) { return s->kind % 2 == 0; }

static bool sound_slot(const hg_slot *s, uint32_t issued)
{
    static const hg_slot none;
    if (s->phase == HG_PHASE_FREE)
        return memcmp(s, &none, offsetof(hg_slot, left) + 1) == 0;
    if (s->kind > 3 || s->ticket < 1 || s->ticket > issued || s->device > 15 || s->table > 31)
        return false;
    if (s->count < 1 || s->count > 128 || s->offset + s->count > 2048)
        return false;
    if (s->phase == HG_PHASE_DONE)
        return s->kind != HG_CHECK && s->progress == s->count && s->sends == 0 && s->left == 0;
    if (s->progress % 8 != 0 || s->progress >= s->count)
        return false;
    switch (s->phase) {
    case HG_PHASE_READY:
        return s->sends <= (asks(s) ? 2 : 0) && s->left == 0;
    case HG_PHASE_WAITING:
        return asks(s) && s->sends >= 1 && s->sends <= 3 && s->left >= 1 && s->left <= 20;
    case HG_PHASE_GAVE_UP:
        return asks(s) && s->sends == 3 && s->left == 0;
    case HG_PHASE_DIFFERENT:
        return s->kind == HG_READ_BACK && s->sends == 0 && s->left == 0;
    }
    return false;
}

/* 11 and 10, or 0. */
static uint8_t bridge_number(const hg_bridge *b, size_t first_len, size_t second_len)
{
    if (b->own > 15 || b->last > 3)
        return 11;
    for (int i = 0; i < 4; i++)
        if (!sound_slot(&b->slots[i], b->issued) || b->rests[i] > REST)
            return 11;
    for (int i = 0; i < 3; i++)
        for (int j = i + 1; j < 4; j++)
            if (b->slots[i].ticket != 0 && b->slots[i].ticket == b->slots[j].ticket)
                return 11;
    return first_len == HG_BUFFER && second_len == HG_BUFFER ? 0 : 10;
}

static unsigned next_len(const hg_slot *s)
{
    unsigned left = s->count - s->progress;
    return left < 8 ? left : 8;
}

static void advance(hg_slot *s)
{
    s->sends = 0;
    s->left = 0;
    if (s->progress + 8 < s->count) {
        s->progress += 8;
        s->phase = HG_PHASE_READY;
    } else {
        s->progress = s->count;
        s->phase = HG_PHASE_DONE;
    }
}

static void age(hg_slot *s)
{
    if (s->phase != HG_PHASE_WAITING)
        return;
    s->left--;
    if (s->left == 0)
        s->phase = s->sends < 3 ? HG_PHASE_READY : HG_PHASE_GAVE_UP;
}

static void no_yield(hg_yielded *out, uint8_t number)
{
    *out = (hg_yielded){number, 0, {0, 0, {0}}};
}

/* A checked write past its last CMD reads back from its start. */
static void advance_check(hg_slot *s)
{
    advance(s);
    if (s->phase == HG_PHASE_DONE) {
        s->kind = HG_READ_BACK;
        s->phase = HG_PHASE_READY;
        s->progress = 0;
    }
}

static void send(hg_bridge *b, unsigned k, const uint8_t *first, const uint8_t *second, hg_yielded *out)
{
    hg_slot *s = &b->slots[k];
    unsigned count = next_len(s), kind = asks(s) ? HG_REQ : HG_CMD;
    out->number = 0;
    out->frames = 1;
    out->frame.id = id_of(s->offset + s->progress, kind, b->own, s->device, s->table);
    b->last = (uint8_t)k;
    if (!asks(s)) {
        const uint8_t *bytes = (s->kind == HG_WRITE ? first : second) + 128 * k + s->progress;
        out->frame.len = (uint8_t)count;
        for (unsigned i = 0; i < 8; i++)
            out->frame.bytes[i] = i < count ? bytes[i] : 0;
        if (s->kind == HG_WRITE)
            advance(s);
        else
            advance_check(s);
    } else {
        const uint8_t bytes[8] = {6, (uint8_t)(16 * k + s->progress / 8), (uint8_t)count, 0, 0, 0, 0, 0};
        out->frame.len = 3;
        memcpy(out->frame.bytes, bytes, 8);
        s->phase = HG_PHASE_WAITING;
        s->sends++;
        s->left = 20;
        b->rests[k] = REST;
    }
}

void PLAIN(turn)(hg_bridge *b, const uint8_t *first, size_t first_len, const uint8_t *second, size_t second_len, hg_yielded *out)
{
    uint8_t number = bridge_number(b, first_len, second_len);
    if (number != 0) {
        no_yield(out, number);
        return;
    }
    for (int i = 0; i < 4; i++) {
        age(&b->slots[i]);
        if (b->rests[i] > 0)
            b->rests[i]--;
    }
    for (unsigned i = 1; i <= 4; i++) {
        unsigned k = (b->last + i) % 4;
        if (b->slots[k].phase == HG_PHASE_READY) {
            send(b, k, first, second, out);
            return;
        }
    }
    no_yield(out, 0);
}

/* A reply's offset says whose it is: slot k's part of a buffer begins at 128 k. */
static uint8_t take(hg_bridge *b, uint8_t *first, const uint8_t *second, const hg_frame *f)
{
    unsigned offset = offset_of(f->id), k = offset / 128;
    if (kind_of(f->id) != HG_RSP)
        return 5;
    if (table_of(f->id) != 6 || k > 3)
        return 17;
    hg_slot *s = &b->slots[k];
    if (s->phase != HG_PHASE_WAITING || s->device != from_of(f->id) || s->progress != offset % 128 || next_len(s) != f->len)
        return 17;
    if (s->kind == HG_READ_BACK && memcmp(second + offset, f->bytes, f->len) != 0) {
        s->phase = HG_PHASE_DIFFERENT;
        s->sends = 0;
        s->left = 0;
        return 0;
    }
    memcpy(first + offset, f->bytes, f->len);
    advance(s);
    return 0;
}

void PLAIN(frame)(hg_bridge *b, uint8_t *first, size_t first_len, const uint8_t *second, size_t second_len, const hg_frame *f, hg_yielded *out)
{
    uint8_t number = bridge_number(b, first_len, second_len);
    if (number == 0)
        number = head_number(b->own, f);
    if (number == 0)
        number = take(b, first, second, f);
    no_yield(out, number);
}

/* ---- MLG ---- */

static uint16_t be16(const uint8_t *p) { return (uint16_t)(p[0] << 8 | p[1]); }
static uint32_t be32(const uint8_t *p) { return (uint32_t)p[0] << 24 | (uint32_t)p[1] << 16 | (uint32_t)p[2] << 8 | p[3]; }

static const uint8_t sizes[13] = {1, 1, 2, 2, 4, 4, 8, 4, 0, 0, 1, 2, 4};

static unsigned size_of(uint8_t kind) { return kind < 13 ? sizes[kind] : 0; }

static bool has_zero(const uint8_t *text, size_t len) { return memchr(text, 0, len) != NULL; }

/* The places of the last 32 zeros, from the end back, each counted from 1; 0 where there are fewer. */
static void last_zeros(const uint8_t *area, size_t len, size_t last[32])
{
    for (int k = 0; k < 32; k++) {
        while (len > 0 && area[len - 1] != 0)
            len--;
        last[k] = len;
        if (len > 0)
            len--;
    }
}

static uint8_t field_number(const uint8_t *d, size_t fields_end, size_t begin, const size_t last[32])
{
    unsigned size = size_of(d[0]);
    bool bit_field = d[0] >= 10;
    if (size == 0 || (bit_field && d[51] > 8 * size))
        return 24;
    if (!has_zero(d + 1, 34) || !has_zero(d + 35, 10) || !has_zero(d + 55, 34))
        return 28;
    if (!bit_field || d[51] == 0)
        return 0;
    size_t index = be32(d + 47);
    if (index < fields_end || index >= begin)
        return 23;
    return last[d[51] - 1] <= index - fields_end ? 28 : 0;
}

static uint8_t header_number(const uint8_t *file, size_t len, hg_mlg_header *h)
{
    if (len < 24)
        return 20;
    if (memcmp(file, "MLVLG", 6) != 0)
        return 21;
    *h = (hg_mlg_header){be32(file + 8), be32(file + 12), be32(file + 16), be16(file + 20), be16(file + 22), be16(file + 6), 0};
    if (h->version != 2)
        return 22;
    size_t end = 24 + 89 * (size_t)h->count, total = 0;
    if (len < end)
        return 20;
    if (h->begin < end || h->begin > len)
        return 23;
    if (h->info != 0 && (h->info < end || h->info >= h->begin))
        return 23;
    size_t last[32];
    last_zeros(file + end, h->begin - end, last);
    for (const uint8_t *d = file + 24; d < file + end; d += 89) {
        uint8_t number = field_number(d, end, h->begin, last);
        if (number != 0)
            return number;
        total += size_of(d[0]);
    }
    if (total != h->size)
        return 23;
    if (h->info != 0 && last[0] <= h->info - end)
        return 28;
    return 0;
}

void PLAIN(read_header)(const uint8_t *file, size_t len, hg_mlg_header *out)
{
    uint8_t number = header_number(file, len, out);
    if (number != 0)
        *out = (hg_mlg_header){0, 0, 0, 0, 0, 0, number};
}

static inline uint8_t sum_of(const uint8_t *s, size_t n)
{
    uint8_t sum = 0;
    for (size_t i = 0; i < n; i++)
        sum = (uint8_t)(sum + s[i]);
    return sum;
}

static void no_block(hg_mlg_block *out, uint8_t kind, uint8_t number, size_t place)
{
    *out = (hg_mlg_block){place, 0, 0, 0, number, kind, 0, 0};
}

static inline void read_block(const uint8_t *file, size_t len, uint16_t size, uint64_t earlier, size_t place, hg_mlg_block *out)
{
    if (place > len) {
        no_block(out, HG_BLOCK_REFUSED, 23, place);
        return;
    }
    if (place == len) {
        no_block(out, HG_BLOCK_END, 0, 0);
        return;
    }
    const uint8_t *t = file + place;
    size_t left = len - place, count;
    if (t[0] == 0) {
        if (left < (size_t)size + 5) {
            no_block(out, HG_BLOCK_REFUSED, 20, place);
            return;
        }
        if (sum_of(t + 4, size) != t[4 + size]) {
            no_block(out, HG_BLOCK_REFUSED, 26, place);
            return;
        }
        count = size;
    } else if (t[0] == 1) {
        if (left < 54) {
            no_block(out, HG_BLOCK_REFUSED, 20, place);
            return;
        }
        const uint8_t *zero = memchr(t + 4, 0, 50);
        if (zero == NULL) {
            no_block(out, HG_BLOCK_REFUSED, 28, place);
            return;
        }
        count = (size_t)(zero - (t + 4));
    } else {
        no_block(out, HG_BLOCK_REFUSED, 25, place);
        return;
    }
    *out = (hg_mlg_block){0, place + 4, count, be16(t + 2), 0, t[0], t[1], t[1] == earlier % 256};
}

void PLAIN(read_block)(const uint8_t *file, size_t len, uint16_t size, uint64_t earlier, size_t place, hg_mlg_block *out)
{
    read_block(file, len, size, earlier, place, out);
}

/* ---- Listing: once to count the bytes, since a text that does not fit changes nothing, then once to write them ---- */

typedef struct {
    uint8_t *out; /* null: only count */
    size_t len;
} text;

static inline void put_bytes(text *t, const char *bytes, size_t n)
{
    if (t->out)
        memcpy(t->out + t->len, bytes, n);
    t->len += n;
}

#define PUT(t, literal) put_bytes(t, literal, sizeof literal - 1)

static inline void put_decimal(text *t, uint64_t x)
{
    char digits[20];
    size_t i = sizeof digits;
    do {
        digits[--i] = (char)('0' + x % 10);
        x /= 10;
    } while (x != 0);
    put_bytes(t, digits + i, sizeof digits - i);
}

static inline void put_integer(text *t, int64_t z)
{
    if (z < 0) {
        PUT(t, "-");
        put_decimal(t, 0 - (uint64_t)z);
    } else {
        put_decimal(t, (uint64_t)z);
    }
}

static inline void put_shown(text *t, const uint8_t *bytes, size_t n)
{
    if (t->out)
        for (size_t i = 0; i < n; i++)
            t->out[t->len + i] = bytes[i] < 32 || bytes[i] > 126 ? '.' : bytes[i];
    t->len += n;
}

static int64_t raw_of(uint8_t kind, const uint8_t *p)
{
    switch (kind) {
    case 0:
    case 10:
        return p[0];
    case 1:
        return (int8_t)p[0];
    case 2:
    case 11:
        return be16(p);
    case 3:
        return (int16_t)be16(p);
    case 5:
        return (int32_t)be32(p);
    case 6:
        return (int64_t)((uint64_t)be32(p) << 32 | be32(p + 4));
    default:
        return be32(p);
    }
}

static inline void put_values(text *t, const uint8_t *fields, unsigned count, const uint8_t *record)
{
    for (unsigned i = 0; i < count; i++) {
        uint8_t kind = fields[89 * i];
        PUT(t, " ");
        put_integer(t, raw_of(kind, record));
        record += size_of(kind);
    }
}

static inline void put_block(text *t, const uint8_t *file, const hg_mlg_header *h, uint64_t n, const hg_mlg_block *b)
{
    put_decimal(t, n);
    if (b->kind == HG_BLOCK_DATA)
        PUT(t, " data ");
    else
        PUT(t, " mark ");
    put_decimal(t, b->counter);
    PUT(t, " ");
    put_decimal(t, b->time);
    if (b->kind == HG_BLOCK_DATA) {
        put_values(t, file + 24, h->count, file + b->start);
    } else {
        PUT(t, " ");
        put_shown(t, file + b->start, b->len);
    }
    if (!b->as_expected)
        PUT(t, " !");
    PUT(t, "\n");
}

static inline void put_refused(text *t, uint8_t number, size_t place)
{
    PUT(t, "refused ");
    put_decimal(t, number);
    PUT(t, " at ");
    put_decimal(t, place);
    PUT(t, "\n");
}

static inline void put_header(text *t, const uint8_t *file, const hg_mlg_header *h)
{
    PUT(t, "fields ");
    put_decimal(t, h->count);
    PUT(t, " record ");
    put_decimal(t, h->size);
    PUT(t, "\n");
    for (unsigned i = 0; i < h->count; i++) {
        const uint8_t *d = file + 24 + 89 * i;
        PUT(t, "field ");
        put_decimal(t, i);
        PUT(t, " ");
        put_decimal(t, d[0]);
        PUT(t, " ");
        put_shown(t, d + 1, strlen((const char *)d + 1));
        PUT(t, "\n");
    }
}

static inline size_t put_listing(uint8_t *out, const uint8_t *file, size_t len)
{
    text t = {out, 0};
    hg_mlg_header h;
    if (len > 65536) {
        PUT(&t, "too long\n");
        return t.len;
    }
    uint8_t number = header_number(file, len, &h);
    if (number != 0) {
        put_refused(&t, number, 0);
        return t.len;
    }
    put_header(&t, file, &h);
    hg_mlg_block b;
    uint64_t n = 0;
    for (size_t place = h.begin;; n++) {
        read_block(file, len, h.size, n, place, &b);
        if (b.kind >= HG_BLOCK_END)
            break;
        put_block(&t, file, &h, n, &b);
        place += b.kind == HG_BLOCK_DATA ? (size_t)h.size + 5 : 54;
    }
    if (b.kind == HG_BLOCK_END) {
        PUT(&t, "end ");
        put_decimal(&t, n);
        PUT(&t, "\n");
    } else {
        put_refused(&t, b.number, b.place);
    }
    return t.len;
}

hg_written PLAIN(list)(uint8_t *out, size_t len, const uint8_t *file, size_t file_len)
{
    if (len >= HG_LISTING) /* no listing is longer */
        return (hg_written){put_listing(out, file, file_len), 0};
    size_t needed = put_listing(NULL, file, file_len);
    if (needed > len)
        return (hg_written){0, 27};
    put_listing(out, file, file_len);
    return (hg_written){needed, 0};
}
