/*
 * A logger: writes an MLG of three fields, ten records and a mark into memory, by the header file alone, reads it back and lists it.
 * Then it goes on to 600 blocks, where the counter starts again after the 256th, and lists them; once more with counters modulo 255.
 * The program exits 1 where what is read is not what was written, or another number of counters is wrong than should be.
 *
 *     gcc -std=c11 -Iinclude examples/logger.c crates/honeygimlet/out/libhoneygimlet.a -o target/logger
 */
#include "honeygimlet.h"

#include <stdbool.h>
#include <stdio.h>
#include <stdlib.h>
#include <string.h>

enum { FIELDS = 3, RECORD = 5, RECORDS = 10, BLOCKS = 600 };

static uint8_t file[8192];
static size_t file_len;
static uint64_t blocks;
static uint8_t listing[HG_LISTING + 1]; /* and a zero */

static void put16(uint8_t *at, uint16_t n)
{
    at[0] = (uint8_t)(n >> 8);
    at[1] = (uint8_t)n;
}

static void put32(uint8_t *at, uint32_t n)
{
    put16(at, (uint16_t)(n >> 16));
    put16(at + 2, (uint16_t)n);
}

static void put_f32(uint8_t *at, float x)
{
    uint32_t bits;
    memcpy(&bits, &x, sizeof bits);
    put32(at, bits);
}

/* A field, all 0 but its type, name and units. */
static void put_field(uint8_t *field, uint8_t type, const char *name, const char *units)
{
    memset(field, 0, HG_MLG_FIELD);
    field[HG_MLG_TYPE_AT] = type;
    strncpy((char *)field + HG_MLG_NAME_AT, name, HG_MLG_NAME_LEN - 1);
    strncpy((char *)field + HG_MLG_UNITS_AT, units, HG_MLG_UNITS_LEN - 1);
}

static void wrote(const char *what, hg_written w)
{
    if (w.number != 0) {
        printf("%s refused with number %u\n", what, w.number);
        exit(1);
    }
    file_len += w.len;
}

static void write_header(void)
{
    static const char names[] = "pump\0fan"; /* with its last zero: two names */
    static const char info[] = "a bench, no engine";
    uint8_t fields[FIELDS * HG_MLG_FIELD];

    put_field(fields, HG_MLG_U16, "rpm", "1/min");
    put_f32(fields + HG_MLG_SCALE_AT, 1.0f);
    uint8_t *coolant = fields + HG_MLG_FIELD;
    put_field(coolant, HG_MLG_S16, "coolant", "C");
    put_f32(coolant + HG_MLG_SCALE_AT, 0.1f);
    coolant[HG_MLG_DIGITS_AT] = 1;
    uint8_t *relays = fields + 2 * HG_MLG_FIELD;
    put_field(relays, HG_MLG_BITS_U08, "relays", "");
    put32(relays + HG_MLG_BIT_NAMES_AT, HG_MLG_HEADER + sizeof fields);
    relays[HG_MLG_BIT_COUNT_AT] = 2;

    wrote("the header", hg_mlg_write_header(file, sizeof file, 1700000000, fields, sizeof fields, (const uint8_t *)names, sizeof names,
                                            (const uint8_t *)info, sizeof info - 1));
}

/* A record every 50 ms: 5,000 units of 10 microseconds. */
static void write_record(unsigned i)
{
    uint8_t record[RECORD];
    put16(record, (uint16_t)(900 + 10 * i));
    put16(record + 2, (uint16_t)(-25 + (int)i));
    record[4] = i & 3;
    wrote("a record", hg_mlg_write_data(file + file_len, sizeof file - file_len, RECORD, blocks++, (uint16_t)(5000 * i), record, sizeof record));
}

static void write_mark(const char *text)
{
    wrote("a mark", hg_mlg_write_mark(file + file_len, sizeof file - file_len, blocks++, 0, (const uint8_t *)text, strlen(text)));
}

/* The coolant of the last record, as it is shown. */
static float last_coolant(hg_mlg_header header)
{
    hg_span fields = hg_mlg_fields_span(file, file_len);
    hg_mlg_block last = hg_mlg_read_block(file, file_len, header.size, blocks - 1, file_len - header.size - HG_MLG_DATA);
    if (fields.number != 0 || last.number != 0 || !last.as_expected)
        return 0;
    return hg_mlg_shown_value(file + fields.start + HG_MLG_FIELD, HG_MLG_FIELD, file + last.start + 2, 2).value;
}

/* The number in front of a block's line; -1 for another line. */
static int block_of(const char *line)
{
    int number;
    return sscanf(line, "%d", &number) == 1 ? number : -1;
}

/* Lists the log: prints the lines of blocks 254 to 257, and how many of all blocks have a wrong counter. */
static unsigned wrong_counters(void)
{
    unsigned wrong = 0;
    hg_written list = hg_mlg_list(listing, HG_LISTING, file, file_len);
    if (list.number != 0)
        exit(1);
    listing[list.len] = 0;
    for (const char *line = strtok((char *)listing, "\n"); line != NULL; line = strtok(NULL, "\n")) {
        if (block_of(line) >= 254 && block_of(line) <= 257)
            puts(line);
        size_t len = strlen(line);
        if (len > 2 && strcmp(line + len - 2, " !") == 0)
            wrong++;
    }
    printf("%u wrong counters\n", wrong);
    return wrong;
}

/* What a logger would write that counts modulo 255. */
static void count_modulo_255(hg_mlg_header header)
{
    size_t place = header.begin;
    for (uint64_t i = 0; i < blocks; i++) {
        hg_mlg_block block = hg_mlg_read_block(file, file_len, header.size, i, place);
        file[place + 1] = (uint8_t)(i % 255);
        place += block.kind == HG_BLOCK_MARK ? HG_MLG_MARK : header.size + HG_MLG_DATA;
    }
}

int main(void)
{
    write_header();
    for (unsigned i = 0; i < RECORDS; i++) {
        if (i == 5)
            write_mark("half of it");
        write_record(i);
    }

    hg_mlg_header header = hg_mlg_read_header(file, file_len);
    hg_tally tally = hg_mlg_count_blocks(file, file_len);
    hg_written list = hg_mlg_list(listing, HG_LISTING, file, file_len);
    bool same = header.number == 0 && header.count == FIELDS && header.size == RECORD && tally.blocks == blocks && tally.ending == 0;
    printf("%zu bytes, %u fields, %u blocks\n", file_len, header.count, (unsigned)tally.blocks);
    fwrite(listing, 1, list.len, stdout);
    printf("the last coolant is %.1f\n", last_coolant(header));

    for (unsigned i = RECORDS; blocks < BLOCKS; i++)
        write_record(i);
    printf("%d blocks:\n", BLOCKS);
    unsigned wrong = wrong_counters();
    printf("the same, counted modulo 255:\n");
    count_modulo_255(header);
    unsigned wrong_modulo_255 = wrong_counters();
    return same && list.number == 0 && wrong == 0 && wrong_modulo_255 == BLOCKS - 255 ? 0 : 1;
}
