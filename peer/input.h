/* A standard input under work: bytes are added to it one after another, and it is saved. */

#ifndef INPUT_H
#define INPUT_H

#include <stddef.h>
#include <stdint.h>

/* A line of a routine has LINE bytes, its line feed too. */
enum { LINE = 9, INPUT_ROOM = 200000 };

struct input {
    char text[INPUT_ROOM];
    size_t length;
};

/* Nothing is added beyond INPUT_ROOM bytes: a program that wants more ends. */
void add_bytes(struct input *input, const char *bytes, size_t count);
void add_text(struct input *input, const char *text);

/* The word's line. */
void add_word(struct input *input, uint32_t word);
void add_words(struct input *input, const uint32_t *words, size_t count);

/* Writes FOLDER/NAME-NUMBER.in, or ends the program. */
void save_input(const struct input *input, const char *folder, const char *name, unsigned number);

#endif
