/* The benchmark of Intel HEX (document 02, W4): our import and export (include/viper.h) beside
 * srec_cat on the same image of 1,048,576 words, in one run; and the time that import takes for
 * texts of 2, 4 and 8 MB, which must be linear.
 *
 * benchmark_hex FOLDER      the files for srec_cat stand in FOLDER */

#define _XOPEN_SOURCE 700

#include "draw.h"

#include "../include/viper.h"

#include <stdbool.h>
#include <stdio.h>
#include <stdlib.h>
#include <string.h>
#include <sys/resource.h>
#include <sys/wait.h>
#include <time.h>
#include <unistd.h>

enum { WORDS = 1048576, IMAGE = 4 * WORDS, TEXT = 11535372, ROUNDS = 15, MEGABYTE = 1000000 };

static uint32_t image_words[WORDS], main_store[WORDS];
static uint8_t image[IMAGE], text[TEXT], other_text[TEXT + 1];
static char image_file[4096], text_file[4096], back_file[4096];

static void wrong(const char *what)
{
    printf("benchmark_hex: WRONG: %s\n", what);
    exit(1);
}

/* ---- Times, in seconds of the processor ---- */

static double now(void)
{
    struct timespec t;
    clock_gettime(CLOCK_PROCESS_CPUTIME_ID, &t);
    return (double)t.tv_sec + (double)t.tv_nsec / 1e9;
}

static double spent_by_children(void)
{
    struct rusage usage;
    getrusage(RUSAGE_CHILDREN, &usage);
    return (double)(usage.ru_utime.tv_sec + usage.ru_stime.tv_sec) +
           (double)(usage.ru_utime.tv_usec + usage.ru_stime.tv_usec) / 1e6;
}

static void keep_least(double *least, double time)
{
    if (*least == 0 || time < *least)
        *least = time;
}

/* ---- The image and the files ---- */

static void make_image(void)
{
    draw_from(90009, WORDS);
    for (size_t i = 0; i < WORDS; i++)
        image_words[i] = draw();
    for (size_t i = 0; i < IMAGE; i++)
        image[i] = (uint8_t)(image_words[i / 4] >> (24 - i % 4 * 8));
}

static void write_file(const char *name, const uint8_t *bytes, size_t length)
{
    FILE *file = fopen(name, "wb");
    if (file == NULL || fwrite(bytes, 1, length, file) != length || fclose(file) != 0)
        wrong("a file cannot be written");
}

static bool file_holds(const char *name, const uint8_t *bytes, size_t length)
{
    FILE *file = fopen(name, "rb");
    if (file == NULL)
        return false;
    size_t read = fread(other_text, 1, sizeof other_text, file);
    fclose(file);
    return read == length && memcmp(other_text, bytes, length) == 0;
}

/* ---- The two sides ---- */

/* What the least of the rounds took. */
struct times {
    double exported, imported;
};

static void measure_ours(struct times *least)
{
    size_t used = 1;
    memset(main_store, 0, sizeof main_store);
    double start = now();
    uint64_t answer = viper_hex_export(image_words, WORDS, text, TEXT);
    double exported = now();
    uint64_t read = viper_hex_import(main_store, WORDS, &used, text, TEXT);
    double imported = now();
    if (answer != (uint64_t)TEXT << 32 || read != 0 || used != 0)
        wrong("ours refuses");
    if (memcmp(main_store, image_words, sizeof main_store) != 0)
        wrong("ours gives other words");
    keep_least(&least->exported, exported - start);
    keep_least(&least->imported, imported - exported);
}

/* Runs the command and answers the processor's seconds that it took. */
static double run(char *const command[])
{
    double before = spent_by_children();
    int status = 0;
    pid_t child = fork();
    if (child == 0) {
        execvp(command[0], command);
        _exit(127);
    }
    if (child < 0 || waitpid(child, &status, 0) != child)
        wrong("srec_cat cannot be started");
    if (!WIFEXITED(status) || WEXITSTATUS(status) != 0)
        wrong("srec_cat is missing or fails");
    return spent_by_children() - before;
}

static void measure_srec_cat(struct times *least)
{
    char *to_text[] = {"srec_cat", image_file, "-Binary", "-o", text_file, "-Intel", "-obs=16",
                       NULL};
    char *to_image[] = {"srec_cat", text_file, "-Intel", "-o", back_file, "-Binary", NULL};
    keep_least(&least->exported, run(to_text));
    keep_least(&least->imported, run(to_image));
    if (!file_holds(text_file, text, TEXT))
        wrong("srec_cat writes another text");
    if (!file_holds(back_file, image, IMAGE))
        wrong("srec_cat reads another image");
}

static void print_rates(const char *name, double ours, double tool)
{
    printf("%-8s %9.1f %9.1f %9.1f\n", name, IMAGE / ours / MEGABYTE, IMAGE / tool / MEGABYTE,
           tool / ours);
}

static void rate_table(void)
{
    struct times ours = {0, 0}, tool = {0, 0};
    write_file(image_file, image, IMAGE);
    for (int round = 0; round < ROUNDS; round++) {
        measure_ours(&ours);
        measure_srec_cat(&tool);
    }
    printf("%d words, MB/s of the image, the least time of %d rounds; ours from memory to memory, "
           "srec_cat from file to file\n",
           WORDS, ROUNDS);
    printf("%-8s %9s %9s %9s\n", "", "ours", "srec_cat", "ratio");
    print_rates("export", ours.exported, tool.exported);
    print_rates("import", ours.imported, tool.imported);
}

/* ---- That import is linear ---- */

/* Each makes a text of that length, a multiple of 12, and answers what import must answer. */

static uint64_t empty_records(uint8_t *at, size_t length)
{
    static const char empty[] = ":0000000000\n", end[] = ":00000001FF\n";
    size_t line = sizeof empty - 1;
    for (size_t i = 0; i < length; i++)
        at[i] = (uint8_t)empty[i % line];
    memcpy(at + length - line, end, line);
    return 0;
}

static uint64_t one_line(uint8_t *at, size_t length)
{
    memset(at, '0', length);
    at[0] = ':';
    at[length - 1] = '\n';
    return 12 | (uint64_t)1 << 32;
}

static uint64_t one_line_without_feed(uint8_t *at, size_t length)
{
    memset(at, 'F', length);
    at[0] = ':';
    return 12 | (uint64_t)1 << 32;
}

static uint64_t one_line_of_returns(uint8_t *at, size_t length)
{
    memset(at, '\r', length);
    at[length - 1] = '\n';
    return 12 | (uint64_t)1 << 32;
}

static double time_of(uint64_t (*make)(uint8_t *, size_t), size_t length)
{
    double least = 0;
    uint64_t wanted = make(text, length);
    for (int round = 0; round < ROUNDS; round++) {
        size_t used = 0;
        double start = now();
        uint64_t answer = viper_hex_import(main_store, WORDS, &used, text, length);
        keep_least(&least, now() - start);
        if (answer != wanted)
            wrong("import of a long text gives another answer");
    }
    return least;
}

/* Four times the text takes four times the time; sixteen times would be quadratic. Times below a
 * millisecond say nothing. */
static void growth_row(const char *name, uint64_t (*make)(uint8_t *, size_t))
{
    double times[3];
    for (int i = 0; i < 3; i++)
        times[i] = time_of(make, ((size_t)2 << i) * MEGABYTE / 12 * 12);
    printf("%-27s %9.3f %9.3f %9.3f\n", name, times[0] * 1e3, times[1] * 1e3, times[2] * 1e3);
    if (times[2] > 1e-3 && times[2] > 8 * times[0])
        wrong("the time of import is not linear");
}

static void growth_table(void)
{
    printf("import of a long text, ms; it must be linear\n");
    printf("%-27s %9s %9s %9s\n", "", "2 MB", "4 MB", "8 MB");
    growth_row("empty records", empty_records);
    growth_row("one line", one_line);
    growth_row("one line without line feed", one_line_without_feed);
    growth_row("one line of returns", one_line_of_returns);
}

int main(int argc, char **argv)
{
    if (argc < 2 || strlen(argv[1]) > sizeof image_file - 32)
        wrong("usage: benchmark_hex FOLDER");
    snprintf(image_file, sizeof image_file, "%s/benchmark.bin", argv[1]);
    snprintf(text_file, sizeof text_file, "%s/benchmark.hex", argv[1]);
    snprintf(back_file, sizeof back_file, "%s/benchmark.back", argv[1]);
    make_image();
    rate_table();
    growth_table();
    return 0;
}
