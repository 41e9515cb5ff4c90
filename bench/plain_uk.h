/* The plain spellers, with the parameters of the library's calls. */
#ifndef PLAIN_UK_H
#define PLAIN_UK_H

#include "plain.h"

plain_answer plain_uk_to_cardinal(uint32_t gender, uint32_t number, uint32_t c, const uint8_t *text,
                                  size_t text_length, uint8_t *out, size_t out_length);
plain_answer plain_uk_to_ordinal(uint32_t gender, uint32_t number, uint32_t c, const uint8_t *text,
                                 size_t text_length, uint8_t *out, size_t out_length);
plain_answer plain_uk_to_ordinal_num(uint32_t gender, uint32_t number, uint32_t c,
                                     const uint8_t *text, size_t text_length, uint8_t *out,
                                     size_t out_length);
plain_answer plain_uk_to_year(uint32_t gender, uint32_t number, uint32_t c, int64_t year,
                              uint8_t *out, size_t out_length);
plain_answer plain_uk_to_currency(uint32_t gender, uint32_t number, uint32_t c, const uint8_t *code,
                                  size_t code_length, const uint8_t *text, size_t text_length,
                                  uint8_t *out, size_t out_length);

#endif
