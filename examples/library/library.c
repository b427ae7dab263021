/* The library from C: three commands of the program, with their files as plain words.
 *
 *     library synth BENCH TECH PL
 *     library schedule BENCH TECH
 *     library check BENCH TECH PL REPORT
 *
 * Texts and statuses are those of the program. What stands against a report is printed as numbers. */
#include <stdio.h>
#include <stdlib.h>
#include <string.h>

#include "cts.h"

struct text {
    char *bytes;
    size_t size;
};

static void stop(const char *why, const char *name) {
    fprintf(stderr, "library: %s %s\n", why, name);
    exit(4);
}

static struct text buffer(size_t size) {
    /* No pointer may be null, so a text of no bytes has one too. */
    struct text made = {malloc(size != 0 ? size : 1), size};
    if (made.bytes == NULL) stop("no memory for", "a text");
    return made;
}

static struct text read_file(const char *name) {
    FILE *file = fopen(name, "rb");
    if (file == NULL || fseek(file, 0, SEEK_END) != 0) stop("can't read", name);
    struct text held = buffer((size_t)ftell(file));
    rewind(file);
    if (fread(held.bytes, 1, held.size, file) != held.size) stop("can't read", name);
    fclose(file);
    return held;
}

/* A tree or a schedule: the first call tells how large the text is, and the second gives it. */
static uint32_t answer(const struct text *files, int is_tree) {
    struct text out = buffer(0);
    size_t size = 0;
    uint32_t status;
    for (;;) {
        status = is_tree ? cts_synth(files[0].bytes, files[0].size, files[1].bytes, files[1].size,
                                     files[2].bytes, files[2].size, out.bytes, out.size, &size)
                         : cts_schedule(files[0].bytes, files[0].size, files[1].bytes, files[1].size,
                                        out.bytes, out.size, &size);
        if (status != CTS_TOO_SMALL) break;
        free(out.bytes);
        out = buffer(size);
    }
    fwrite(out.bytes, 1, size, stdout);
    free(out.bytes);
    return status;
}

static uint32_t check(const struct text *files) {
    struct cts_finding finding;
    uint32_t status = cts_check(files[0].bytes, files[0].size, files[1].bytes, files[1].size,
                                files[2].bytes, files[2].size, files[3].bytes, files[3].size, &finding);
    if (status == CTS_DONE) puts("shown");
    if (status == CTS_NOT_SHOWN)
        printf("not shown %u %u %u\n", finding.kind, finding.number, finding.place);
    return status;
}

int main(int count, char **words) {
    struct text files[4];
    int is_check = count == 6 && strcmp(words[1], "check") == 0;
    int is_tree = count == 5 && strcmp(words[1], "synth") == 0;
    if (!is_check && !is_tree && !(count == 4 && strcmp(words[1], "schedule") == 0)) {
        fputs("usage: library synth BENCH TECH PL | schedule BENCH TECH | check BENCH TECH PL REPORT\n",
              stderr);
        return 2;
    }
    for (int place = 2; place < count; place++) files[place - 2] = read_file(words[place]);
    uint32_t status = is_check ? check(files) : answer(files, is_tree);
    for (int place = 2; place < count; place++) free(files[place - 2].bytes);
    return (int)status;
}
