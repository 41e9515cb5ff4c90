/* The plain French spellers, with the parameters of the library's calls. */
#ifndef PLAIN_FR_H
#define PLAIN_FR_H

#include "plain.h"

plain_answer plain_fr_to_cardinal(uint32_t feminine, uint32_t reformed, uint32_t region,
                                  const uint8_t *text, size_t text_length, uint8_t *out,
                                  size_t out_length);
plain_answer plain_fr_to_ordinal(uint32_t feminine, uint32_t reformed, uint32_t region,
                                 const uint8_t *text, size_t text_length, uint8_t *out,
                                 size_t out_length);

#endif
