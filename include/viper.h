/* The bench's calls for C, as the static library viper_c gives them (x86-64 only).
 * They follow document 01: "Numbers the counter sees", "The other operations", "The trail",
 * and document 02: W1 (the listing), W12 (kinds, trails moved), W4 (Intel HEX), W7 (which
 * operation hit this word). */

#ifndef VIPER_H
#define VIPER_H

#include <stddef.h>
#include <stdint.h>

#ifdef __cplusplus
extern "C" {
#endif

/* What is lent to a call
 *
 *   regs    the machine: A, X, Y, P, B, STOP, one word each. B and STOP count as set
 *           if they are not 0; an accepted call leaves 0 or 1 there.
 *   main    the main store: main_length words. Address n is fitted if n is below that.
 *   ports   the port store: ports_length words, the same way.
 *   trail   trail_length bytes. The first *used of them are in use: the records, oldest first.
 *
 * A length of 0 is lawful. No pointer is null, not even beside a length of 0, and no
 * two of these overlap.
 *
 * What a call answers: 0 if it is accepted, else the lowest number here that applies.
 * A refused call writes nothing.
 *
 *    1  P is 1,048,576 or more                              step, run, reset, force, set, back
 *    2  a store has more than 1,048,576 words               step, run, set, back, list,
 *                                                           hex_import, hex_export
 *    3  bytes in use exceed the trail's length              step, run, reset, force, set, back,
 *                                                           find
 *    4  STOP is set                                         step
 *    5  the address to fetch, read or write is not fitted   step, set
 *    6  the new record is longer than the trail's free      step, reset, force, set
 *       bytes
 *    7  no byte in use                                      back
 *    8  the newest record is broken (find: a record before  back, find, trail_to_new,
 *       any that holds the place; trails moved: any)        trail_to_old
 *    9  the output is too short                             list, hex_export, trail_to_new,
 *                                                           trail_to_old
 *   12  a line of the text is bad                           hex_import
 */

/* The places in regs. */
enum { VIPER_A, VIPER_X, VIPER_Y, VIPER_P, VIPER_B, VIPER_STOP };

/* A run's endings. */
enum { VIPER_STOPPED, VIPER_BUDGET, VIPER_UNFITTED, VIPER_FULL };

/* A record's kind, its first number: who made it. Each step of a run is a step's. */
enum { VIPER_FROM_OLD_TRAIL, VIPER_BY_STEP, VIPER_BY_RESET, VIPER_BY_FORCE, VIPER_BY_SET };

/* Does the one instruction at P as the report's NEXT does, and adds its record.
 * Refusals 1 to 6. */
uint32_t viper_step(uint32_t regs[6],
                    uint32_t *main, size_t main_length,
                    uint32_t *ports, size_t ports_length,
                    uint8_t *trail, size_t trail_length, size_t *used);

/* Over and over: if STOP is set it ends "stopped"; else if the steps done equal the
 * budget it ends "budget"; else it steps, ending "unfitted" or "full" where that step
 * is refused (5 or 6), with the earlier steps kept.
 *
 * Answers the steps done in the low 32 bits and the ending in the high 32:
 * 0 stopped, 1 budget, 2 unfitted, 3 full; or 16 + n, with no step done, where the
 * run itself is refused with n (1, 2 or 3). */
uint64_t viper_run(uint32_t regs[6],
                   uint32_t *main, size_t main_length,
                   uint32_t *ports, size_t ports_length,
                   uint8_t *trail, size_t trail_length, size_t *used,
                   uint32_t budget);

/* Clears A, X, Y, P, B and STOP, and adds its record. Refusals 1, 3 and 6. */
uint32_t viper_reset(uint32_t regs[6],
                     uint8_t *trail, size_t trail_length, size_t *used);

/* Sets STOP, also when it is set already, and adds its record. Refusals 1, 3 and 6. */
uint32_t viper_force(uint32_t regs[6],
                     uint8_t *trail, size_t trail_length, size_t *used);

/* Puts value at a fitted main address (store 0) or port number (any other store), on a
 * halted machine too, and adds its record. Refusals 1, 2, 3, 5 and 6. */
uint32_t viper_set(uint32_t regs[6],
                   uint32_t *main, size_t main_length,
                   uint32_t *ports, size_t ports_length,
                   uint8_t *trail, size_t trail_length, size_t *used,
                   uint32_t store, uint32_t address, uint32_t value);

/* Takes back the newest record: its values are restored and the count in use falls by
 * its length; no trail byte is written. Refusals 1, 2, 3, 7 and 8. */
uint32_t viper_back(uint32_t regs[6],
                    uint32_t *main, size_t main_length,
                    uint32_t *ports, size_t ports_length,
                    const uint8_t *trail, size_t trail_length, size_t *used);

/* Tells whether the n words from address are wholly fitted in main (store 0) or in the
 * ports (any other store): 1 yes, 0 no. For n = 0: yes exactly when the address is at
 * most the store's length. A caller who hears yes may view that stretch of the store. */
uint8_t viper_fitted(const uint32_t *main, size_t main_length,
                     const uint32_t *ports, size_t ports_length,
                     uint32_t store, uint32_t address, size_t n);

/* Seeks the newest record that holds a word of main (store 0) or of the ports (any other
 * store). A record holds a word if it marks one and its place is the one asked for. A write
 * of the value that already stood there leaves no mark: never means that no record holds
 * the word, and not that nothing wrote to it.
 *
 * *back is how many operations back the record is, the newest being 1, or 0 for never.
 * record gets its kind, marks, P, A, X, Y, place (address, plus 1,048,576 for ports) and
 * value, 0 for what is not marked: P tells which instruction it was, the value what stood
 * there before. Both are always written; 0 throughout if none is found.
 * Refusals 3 and 8; 8 only for a broken record before any that holds the word. */
uint32_t viper_find(const uint32_t *main, size_t main_length,
                    const uint32_t *ports, size_t ports_length,
                    const uint8_t *trail, size_t trail_length, size_t used,
                    uint32_t store, uint32_t address,
                    size_t *back, uint32_t record[8]);

/* Trails of other counters. Records of the old form begin with their marks, those of the
 * new form with their kind; a trail does not tell which form it has (01 00 00 03 is sound
 * in both), so move an old trail before it is lent to a call. The whole input is in use; a
 * word's place need only be below 2,097,152. To the new form each record gets the kind 0,
 * to the old form the kinds are dropped.
 *
 * The whole input is judged first: 8 if any record is broken, else 9 if the output is too
 * short for the moved trail: one byte more, or fewer, for each record. *out_used, the moved
 * trail's count in use, is written only if the move is accepted; bytes of out past it stay. */
uint32_t viper_trail_to_new(const uint8_t *trail, size_t used,
                            uint8_t *out, size_t out_length, size_t *out_used);
uint32_t viper_trail_to_old(const uint8_t *trail, size_t used,
                            uint8_t *out, size_t out_length, size_t *out_used);

/* Lists main from address 0, a line a word, with names instead of digits. A line has at
 * most 24 bytes with its line feed. Answers the bytes written in the low 32 bits, or the
 * refusal, 2 or 9, in the high 32; bytes of out past the listing stay. */
uint64_t viper_list(const uint32_t *main, size_t main_length,
                    uint8_t *out, size_t out_length);

/* Reads an Intel HEX text into main, each word high byte first at byte address four times
 * its own; words that no line names stay. The whole text is judged first.
 * Answers 0, and *used becomes 0: the history starts again with an empty trail; or 2; or
 * 12 + line x 2^32 for the first bad line, from 1 (a line past 2^32 - 1 counts as that). */
uint64_t viper_hex_import(uint32_t *main, size_t main_length, size_t *used,
                          const uint8_t *text, size_t text_length);

/* Writes main as an Intel HEX text. Answers bytes x 2^32, or 2, or 9; bytes of out past the
 * text stay. The text of n words has 12 + 16 max(1, ceil(n / 16384)) + 12 ceil(n / 4) + 8 n
 * bytes. */
uint64_t viper_hex_export(const uint32_t *main, size_t main_length,
                          uint8_t *out, size_t out_length);

#ifdef __cplusplus
}
#endif

#endif
