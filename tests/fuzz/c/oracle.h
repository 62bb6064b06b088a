/* The independent program behind the signatures of d64.h, and images made by it: tests/fuzz/oracle, a Rust library. */
#ifndef ORACLE_H
#define ORACLE_H

#include <stddef.h>
#include <stdint.h>

uint32_t oracle_check(uint32_t layout, const uint8_t *image, size_t image_len, uint8_t *answer, size_t answer_len);
uint32_t oracle_format(uint32_t layout, uint8_t *image, size_t image_len, const uint8_t *name, size_t name_len,
                       uint8_t id1, uint8_t id2, uint8_t *answer, size_t answer_len);
uint32_t oracle_read(uint32_t layout, const uint8_t *image, size_t image_len, const uint8_t *name, size_t name_len,
                     uint8_t *out, size_t out_len, uint8_t *answer, size_t answer_len);
uint32_t oracle_store(uint32_t layout, uint8_t *image, size_t image_len, const uint8_t *name, size_t name_len, uint32_t kind,
                      const uint8_t *data, size_t data_len, uint8_t *answer, size_t answer_len);
uint32_t oracle_scratch(uint32_t layout, uint8_t *image, size_t image_len, const uint8_t *name, size_t name_len,
                        uint8_t *answer, size_t answer_len);
uint32_t oracle_tell(uint32_t layout, const uint8_t *image, size_t image_len, size_t position,
                     uint8_t *entry, size_t entry_len, uint8_t *answer, size_t answer_len);
uint32_t oracle_listing(uint32_t layout, const uint8_t *track18, size_t track18_len,
                        uint8_t *text, size_t text_len, uint8_t *answer, size_t answer_len);

/* The images of a layout that an input may start from: how many, and the one with a number, which is less. Gives its length. */
size_t oracle_starts(void);
size_t oracle_start(uint32_t layout, size_t number, uint8_t *out, size_t out_len);

/* Makes right again, as far as directory and chains can be followed: the counts of sectors (1), the map (2). */
void oracle_repair(uint32_t layout, uint8_t *image, size_t image_len, uint32_t what);

#endif
