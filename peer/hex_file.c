/* Our Intel HEX calls as a program over files, to be set beside other tools (document 02, W4). An
 * image is a main store as bytes, each word high byte first.
 *
 *   hex_file image WORDS SEED          writes a random image of that many words
 *   hex_file export < IMAGE            writes it as Intel HEX
 *   hex_file import WORDS < TEXT       reads it into a cleared main of that many words and writes
 *                                      the image; a refusal is said on standard error, status 1 */

#include "draw.h"

#include "../include/viper.h"

#include <inttypes.h>
#include <stdio.h>
#include <stdlib.h>
#include <string.h>

struct bytes {
    uint8_t *at;
    size_t length;
};

static void stop(const char *why)
{
    fprintf(stderr, "hex_file: %s\n", why);
    exit(2);
}

static struct bytes with_room(size_t length)
{
    struct bytes bytes = {.at = malloc(length + 1), .length = length};
    if (bytes.at == NULL)
        stop("memory is short");
    return bytes;
}

static struct bytes read_input(void)
{
    struct bytes input = with_room(1 << 16);
    size_t length = 0, more;
    while ((more = fread(input.at + length, 1, input.length - length, stdin)) > 0) {
        length += more;
        if (length < input.length)
            continue;
        input.length *= 2;
        input.at = realloc(input.at, input.length);
        if (input.at == NULL)
            stop("memory is short");
    }
    input.length = length;
    return input;
}

static int write_output(const uint8_t *bytes, size_t length)
{
    if (fwrite(bytes, 1, length, stdout) != length || fflush(stdout) != 0)
        stop("the output cannot be written");
    return 0;
}

static int write_image(const uint32_t *main_store, size_t words)
{
    struct bytes image = with_room(words * 4);
    for (size_t i = 0; i < image.length; i++)
        image.at[i] = (uint8_t)(main_store[i / 4] >> (24 - i % 4 * 8));
    return write_output(image.at, image.length);
}

static int make_image(size_t words, uint64_t seed)
{
    uint32_t *main_store = calloc(words + 1, sizeof *main_store);
    if (main_store == NULL)
        stop("memory is short");
    draw_from(seed, words);
    for (size_t i = 0; i < words; i++)
        main_store[i] = draw();
    return write_image(main_store, words);
}

static int export_image(void)
{
    struct bytes image = read_input();
    size_t words = image.length / 4;
    uint32_t *main_store = calloc(words + 1, sizeof *main_store);
    struct bytes text = with_room(28 + 16 * (words / 16384 + 1) + 12 * (words / 4 + 1) + 8 * words);
    if (main_store == NULL || image.length % 4 != 0)
        stop("the image is not of whole words");
    for (size_t i = 0; i < image.length; i++)
        main_store[i / 4] = main_store[i / 4] << 8 | image.at[i];
    uint64_t answer = viper_hex_export(main_store, words, text.at, text.length);
    if ((uint32_t)answer != 0)
        stop("the export is refused");
    return write_output(text.at, answer >> 32);
}

static int import_text(size_t words)
{
    struct bytes text = read_input();
    uint32_t *main_store = calloc(words + 1, sizeof *main_store);
    size_t used = 1;
    if (main_store == NULL)
        stop("memory is short");
    uint64_t answer = viper_hex_import(main_store, words, &used, text.at, text.length);
    if (answer != 0) {
        fprintf(stderr, "refused %" PRIu32 " line %" PRIu64 "\n", (uint32_t)answer, answer >> 32);
        return 1;
    }
    return write_image(main_store, words);
}

int main(int argc, char **argv)
{
    if (argc == 4 && strcmp(argv[1], "image") == 0)
        return make_image(strtoull(argv[2], NULL, 10), strtoull(argv[3], NULL, 10));
    if (argc == 2 && strcmp(argv[1], "export") == 0)
        return export_image();
    if (argc == 3 && strcmp(argv[1], "import") == 0)
        return import_text(strtoull(argv[2], NULL, 10));
    stop("usage: image WORDS SEED | export | import WORDS");
}
