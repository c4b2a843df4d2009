/* Trails of other counters moved over and back, by the second program (document 02, W12). */

#ifndef SECOND_MOVES_H
#define SECOND_MOVES_H

#include <stddef.h>
#include <stdint.h>

/* Arguments and answers as include/viper.h gives them. */
uint32_t second_to_new(const uint8_t *trail, size_t used, uint8_t *out, size_t out_length,
                       size_t *out_used);
uint32_t second_to_old(const uint8_t *trail, size_t used, uint8_t *out, size_t out_length,
                       size_t *out_used);

#endif
