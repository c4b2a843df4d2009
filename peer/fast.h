/* The benchmark's peer: step, run, take back and the search for a word in plain fast C, with the
 * arguments and the answers of include/viper.h. */

#ifndef FAST_H
#define FAST_H

#include <stddef.h>
#include <stdint.h>

uint32_t fast_step(uint32_t regs[6],
                   uint32_t *main, size_t main_length,
                   uint32_t *ports, size_t ports_length,
                   uint8_t *trail, size_t trail_length, size_t *used);

uint64_t fast_run(uint32_t regs[6],
                  uint32_t *main, size_t main_length,
                  uint32_t *ports, size_t ports_length,
                  uint8_t *trail, size_t trail_length, size_t *used,
                  uint32_t budget);

uint32_t fast_back(uint32_t regs[6],
                   uint32_t *main, size_t main_length,
                   uint32_t *ports, size_t ports_length,
                   const uint8_t *trail, size_t trail_length, size_t *used);

uint32_t fast_find(const uint32_t *main, size_t main_length,
                   const uint32_t *ports, size_t ports_length,
                   const uint8_t *trail, size_t trail_length, size_t used,
                   uint32_t store, uint32_t address,
                   size_t *back, uint32_t record[8]);

#endif
