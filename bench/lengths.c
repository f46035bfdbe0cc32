/*
 * Times the reading and the writing of headers against the file's length. Every field is a bit field whose names begin at the fields' end. The
 * names area has a zero at its start and 30 at its end, and info ends in one, so that the 32nd zero from data begin is the first byte of the area, and
 * who looks for the names of a field from its index on passes over the whole area for each field.
 *
 *     lengths [MB..]             a table, for files of 1, 4, 16 and 64 MB where none are named
 */
#define _GNU_SOURCE
#include "honeygimlet.h"

#include <stdio.h>
#include <stdlib.h>
#include <string.h>
#include <time.h>

enum { HEADER = 24, FIELD = 89, INFO = 10, RUNS = 15 };

typedef struct {
    size_t len, count, fields_len, names_len;
    uint8_t *file, *fields, *names;
} made;

static double seconds(void)
{
    struct timespec t;
    clock_gettime(CLOCK_MONOTONIC, &t);
    return (double)t.tv_sec + 1e-9 * (double)t.tv_nsec;
}

static uint8_t *memory(size_t len)
{
    uint8_t *p = calloc(len, 1);
    if (p == NULL)
        exit(1);
    return p;
}

/* A field for each KB, as many as a file may have; of 32 bits as long as the record's 65,535 bytes allow it, then of 8. */
static made make(size_t len)
{
    made m = {.len = len, .count = len / 1024 < 65535 ? len / 1024 : 65535};
    size_t width = 4 * m.count <= 65535 ? 4 : 1;
    m.fields_len = FIELD * m.count;
    m.names_len = len - HEADER - m.fields_len - INFO - 1;
    m.file = memory(len);
    m.fields = memory(m.fields_len);
    m.names = memory(m.names_len);
    size_t index = HEADER + m.fields_len;
    for (size_t i = 0; i < m.count; i++) {
        uint8_t *d = m.fields + FIELD * i;
        d[0] = width == 4 ? 12 : 10;
        d[47] = (uint8_t)(index >> 24);
        d[48] = (uint8_t)(index >> 16);
        d[49] = (uint8_t)(index >> 8);
        d[50] = (uint8_t)index;
        d[51] = (uint8_t)(8 * width);
    }
    memset(m.names + 1, 'x', m.names_len - 31);
    return m;
}

static uint8_t write_once(const made *m)
{
    return hg_mlg_write_header(m->file, m->len, 0, m->fields, m->fields_len, m->names, m->names_len, (const uint8_t *)"speed test", INFO).number;
}

static uint8_t read_once(const made *m)
{
    return hg_mlg_read_header(m->file, m->len).number;
}

/* The least time of some runs; fewer of a slow one. */
static double least(uint8_t (*once)(const made *), const made *m)
{
    double best = 1e9, all = 0;
    for (int i = 0; i < RUNS && all < 5; i++) {
        double start = seconds();
        uint8_t number = once(m);
        double took = seconds() - start;
        if (number != 0) {
            printf("a header of %zu bytes is refused with number %u\n", m->len, number);
            exit(1);
        }
        best = took < best ? took : best;
        all += took;
    }
    return best;
}

static void line(size_t mb)
{
    made m = make(mb << 20);
    double writes = least(write_once, &m);
    double reads = least(read_once, &m);
    double bytes = (double)m.len;
    printf("| %zu MB | %zu | %.3f | %.3f | %.3f | %.3f |\n", mb, m.count, 1e3 * reads, 1e3 * writes, 1e9 * reads / bytes, 1e9 * writes / bytes);
    fflush(stdout);
    free(m.file);
    free(m.fields);
    free(m.names);
}

int main(int argc, char **argv)
{
    static const size_t usual[] = {1, 4, 16, 64};
    printf("| file | bit fields | read, ms | write, ms | read, ns a byte | write, ns a byte |\n|---|---|---|---|---|---|\n");
    for (int i = 1; i < argc; i++)
        line(strtoul(argv[i], NULL, 10));
    for (size_t i = 0; argc == 1 && i < sizeof usual / sizeof usual[0]; i++)
        line(usual[i]);
    return 0;
}
