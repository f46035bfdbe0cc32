/* The plain C version, built once for each compiler under its own prefix. It works in place on what its pointers lend. */
#ifndef PLAIN_H
#define PLAIN_H

#include "honeygimlet.h"

#define PLAIN_DECLARE(P) \
    void P##unpack(uint32_t id, hg_unpacked *out); \
    void P##serve(const hg_directory *d, hg_holder_state *s, uint8_t *memory, size_t memory_len, uint8_t *flash, size_t flash_len, const hg_frame *f, hg_holder_answer *out); \
    void P##turn(hg_bridge *b, const uint8_t *first, size_t first_len, const uint8_t *second, size_t second_len, hg_yielded *out); \
    void P##frame(hg_bridge *b, uint8_t *first, size_t first_len, const uint8_t *second, size_t second_len, const hg_frame *f, hg_yielded *out); \
    void P##read_header(const uint8_t *file, size_t len, hg_mlg_header *out); \
    void P##read_block(const uint8_t *file, size_t len, uint16_t size, uint64_t earlier, size_t place, hg_mlg_block *out); \
    hg_written P##list(uint8_t *out, size_t len, const uint8_t *file, size_t file_len);

#endif
