/* A standard input under work: bytes are added to it one after another, and it is saved. */

#include "input.h"

#include <inttypes.h>
#include <stdio.h>
#include <stdlib.h>
#include <string.h>

void add_bytes(struct input *input, const char *bytes, size_t count)
{
    if (count > INPUT_ROOM - input->length) {
        fprintf(stderr, "no room for an input\n");
        exit(2);
    }
    memcpy(input->text + input->length, bytes, count);
    input->length += count;
}

void add_text(struct input *input, const char *text)
{
    add_bytes(input, text, strlen(text));
}

void add_word(struct input *input, uint32_t word)
{
    char line[LINE + 1];
    snprintf(line, sizeof line, "%08" PRIX32 "\n", word);
    add_bytes(input, line, LINE);
}

void add_words(struct input *input, const uint32_t *words, size_t count)
{
    for (size_t i = 0; i < count; i++)
        add_word(input, words[i]);
}

void save_input(const struct input *input, const char *folder, const char *name, unsigned number)
{
    char path[4096];
    snprintf(path, sizeof path, "%s/%s-%03u.in", folder, name, number);
    FILE *file = fopen(path, "wb");
    if (file == NULL || fwrite(input->text, 1, input->length, file) != input->length ||
        fclose(file) != 0) {
        fprintf(stderr, "cannot write %s\n", path);
        exit(2);
    }
}
