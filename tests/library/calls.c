/* Tries the calls of include/cts.h on what no example has: each size of buffer, texts that are empty, wrong
 * or too long, memory refused at each request in turn, two threads side by side, and a thousand calls.
 * usage: calls BENCH TECH PL TREE SCHEDULE, where the last two hold what the program prints. */
#include <pthread.h>
#include <stdio.h>
#include <stdlib.h>
#include <string.h>
#include <unistd.h>

#include "cts.h"

/* The heap of the library, whose request number `refused` is refused where it isn't 0. It counts the blocks
 * that aren't freed. A thread counts its own. */
static _Thread_local long requests, refused, blocks;
static int is_refused(void) { return refused != 0 && ++requests == refused; }
static void *counted_malloc(size_t size) {
    void *block = is_refused() ? NULL : malloc(size);
    blocks += block != NULL;
    return block;
}
static void *counted_realloc(void *block, size_t size) { return is_refused() ? NULL : realloc(block, size); }
static void counted_free(void *block) {
    blocks--;
    free(block);
}
#define malloc counted_malloc
#define realloc counted_realloc
#define free counted_free
#include "../../c/cts_heap.c"
#undef malloc
#undef realloc
#undef free

enum { LIMIT = 16777216, MARGIN = 64, PIECES = 64 };

struct text {
    char *bytes;
    size_t size;
};

static struct text bench, tech, pl, tree, schedule;
static int passed, failed;

static void expect(const char *name, int holds) {
    if (holds) {
        passed++;
    } else {
        failed++;
        printf("library: %s\n", name);
    }
}

static struct text buffer(size_t size) {
    struct text made = {malloc(size + MARGIN), size};
    if (made.bytes == NULL) abort();
    memset(made.bytes, '*', size + MARGIN);
    return made;
}

static struct text read_file(const char *name) {
    FILE *file = fopen(name, "rb");
    if (file == NULL || fseek(file, 0, SEEK_END) != 0) abort();
    struct text held = buffer((size_t)ftell(file));
    rewind(file);
    if (fread(held.bytes, 1, held.size, file) != held.size) abort();
    fclose(file);
    return held;
}

/* A text with so many blanks after it that it has this size. */
static struct text padded(struct text text, size_t size) {
    struct text made = buffer(size);
    memset(made.bytes, ' ', size);
    memcpy(made.bytes, text.bytes, text.size);
    return made;
}

static int is_untouched(const char *bytes, size_t size) {
    for (size_t place = 0; place < size; place++)
        if (bytes[place] != '*') return 0;
    return 1;
}

static uint32_t synth(struct text b, struct text t, struct text p, struct text out, size_t *size) {
    return cts_synth(b.bytes, b.size, t.bytes, t.size, p.bytes, p.size, out.bytes, out.size, size);
}

static uint32_t plan(struct text b, struct text t, struct text out, size_t *size) {
    return cts_schedule(b.bytes, b.size, t.bytes, t.size, out.bytes, out.size, size);
}

static uint32_t check(struct text b, struct text t, struct text p, struct text report,
                      struct cts_finding *finding) {
    return cts_check(b.bytes, b.size, t.bytes, t.size, p.bytes, p.size, report.bytes, report.size,
                     finding);
}

/* Whether a call left this text whole in a buffer of that size, and nothing after it; or, in a smaller one,
 * nothing but the size. */
static int is_left(struct text text, struct text out, uint32_t status, size_t size) {
    if (size != text.size) return 0;
    if (out.size < text.size) return status == CTS_TOO_SMALL && is_untouched(out.bytes, out.size + MARGIN);
    return status == CTS_DONE && memcmp(out.bytes, text.bytes, size) == 0 &&
           is_untouched(out.bytes + size, out.size - size + MARGIN);
}

/* Whether it left this text, or nothing for want of memory. */
static int is_none_or(struct text text, struct text out, uint32_t status, size_t size) {
    if (status != CTS_NO_MEMORY) return is_left(text, out, status, size);
    return size == 0 && is_untouched(out.bytes, out.size + MARGIN);
}

/* Each size of a buffer up to some bytes more than the text has. */
static void try_sizes(void) {
    for (size_t room = 0; room <= tree.size + 3; room++) {
        struct text out = buffer(room);
        size_t size = 1;
        uint32_t status = synth(bench, tech, pl, out, &size);
        expect("a buffer for a tree", is_left(tree, out, status, size));
        free(out.bytes);
    }
    for (size_t room = 0; room <= schedule.size + 3; room++) {
        struct text out = buffer(room);
        size_t size = 1;
        uint32_t status = plan(bench, tech, out, &size);
        expect("a buffer for a schedule", is_left(schedule, out, status, size));
        free(out.bytes);
    }
}

/* No answer: this status, nothing in the buffers, and no size. */
static void expect_none(const char *name, uint32_t wanted, struct text b, struct text t, struct text p) {
    struct text out = buffer(tree.size);
    size_t size = 1;
    struct cts_finding finding = {9, 9, 9};
    uint32_t status = synth(b, t, p, out, &size);
    expect(name, status == wanted && size == 0 && is_untouched(out.bytes, out.size + MARGIN));
    status = check(b, t, p, tree, &finding);
    expect(name, status == wanted && finding.kind == 0 && finding.number == 0 && finding.place == 0);
    free(out.bytes);
}

static void expect_no_plan(const char *name, struct text b, struct text t) {
    struct text out = buffer(schedule.size);
    size_t size = 1;
    uint32_t status = plan(b, t, out, &size);
    expect(name, status == CTS_REFUSED && size == 0 && is_untouched(out.bytes, out.size + MARGIN));
    free(out.bytes);
}

static void try_wrong_texts(void) {
    struct text none = {bench.bytes, 0};
    expect_none("no netlist", CTS_REFUSED, none, tech, pl);
    expect_none("no table", CTS_REFUSED, bench, none, pl);
    expect_none("no placement", CTS_REFUSED, bench, tech, none);
    expect_none("no texts", CTS_REFUSED, none, none, none);
    expect_none("a table as a netlist", CTS_REFUSED, tech, tech, pl);
    expect_none("a netlist as a table", CTS_REFUSED, bench, bench, pl);
    expect_none("a table as a placement", CTS_REFUSED, bench, tech, tech);
    expect_none("another order of the texts", CTS_REFUSED, bench, pl, tech);
    expect_no_plan("no netlist for a schedule", none, tech);
    expect_no_plan("no table for a schedule", bench, none);
    expect_no_plan("another order of two texts", tech, bench);
}

/* Texts of the most bytes are taken, and those of one more are refused. */
static void expect_tree(const char *name, struct text b, struct text t, struct text p) {
    struct text out = buffer(tree.size);
    size_t size = 1;
    uint32_t status = synth(b, t, p, out, &size);
    expect(name, is_left(tree, out, status, size));
    free(out.bytes);
}

static void try_long_texts(void) {
    struct text longest = padded(bench, LIMIT), longer = padded(bench, LIMIT + 1);
    expect_tree("the longest netlist", longest, tech, pl);
    expect_none("a longer netlist", CTS_REFUSED, longer, tech, pl);
    expect_no_plan("a longer netlist for a schedule", longer, tech);
    free(longest.bytes), free(longer.bytes);
    longest = padded(tech, LIMIT), longer = padded(tech, LIMIT + 1);
    expect_tree("the longest table", bench, longest, pl);
    expect_none("a longer table", CTS_REFUSED, bench, longer, pl);
    expect_no_plan("a longer table for a schedule", bench, longer);
    free(longest.bytes), free(longer.bytes);
    longest = padded(pl, LIMIT), longer = padded(pl, LIMIT + 1);
    expect_tree("the longest placement", bench, tech, longest);
    expect_none("a longer placement", CTS_REFUSED, bench, tech, longer);
    free(longest.bytes), free(longer.bytes);
}

static void expect_finding(const char *name, struct text report, uint32_t kind, uint32_t number,
                           uint32_t place) {
    struct cts_finding finding = {9, 9, 9};
    uint32_t status = check(bench, tech, pl, report, &finding);
    expect(name, status == (kind == CTS_NOTHING ? CTS_DONE : CTS_NOT_SHOWN) && finding.kind == kind &&
                     finding.number == number && finding.place == place);
}

static void try_reports(void) {
    struct text none = {tree.bytes, 0}, cut = {tree.bytes, tree.size - 1};
    struct text longest = padded(tree, LIMIT), longer = padded(tree, LIMIT + 1);
    uint32_t lines = 0;
    for (size_t place = 0; place < tree.size; place++) lines += tree.bytes[place] == '\n';
    expect_finding("the report", tree, CTS_NOTHING, 0, 0);
    expect_finding("no report", none, CTS_NO_REPORT, 3, 1);
    expect_finding("a report without its last byte", cut, CTS_NO_REPORT, 1, lines);
    expect_finding("a report with blanks after it", longest, CTS_NO_REPORT, 4, lines + 1);
    expect_finding("a longer report", longer, CTS_TOO_LONG, 0, 0);
    free(longest.bytes), free(longer.bytes);
}

/* Each request for memory refused in turn, up to the first call that makes no such request: it is want of
 * memory with nothing left, or the call's own answer. */
static void try_refusals(void) {
    struct cts_finding finding;
    size_t size;
    long trees = 0, plans = 0, checks = 0, wants = 0;
    for (int all = 0; !all; trees++) {
        struct text out = buffer(tree.size);
        requests = 0, refused = trees + 1, size = 1;
        uint32_t status = synth(bench, tech, pl, out, &size);
        all = requests < refused;
        wants += status == CTS_NO_MEMORY;
        expect("memory refused to a tree", is_none_or(tree, out, status, size));
        free(out.bytes);
    }
    for (int all = 0; !all; plans++) {
        struct text out = buffer(schedule.size);
        requests = 0, refused = plans + 1, size = 1;
        uint32_t status = plan(bench, tech, out, &size);
        all = requests < refused;
        wants += status == CTS_NO_MEMORY;
        expect("memory refused to a schedule", is_none_or(schedule, out, status, size));
        free(out.bytes);
    }
    for (int all = 0; !all; checks++) {
        requests = 0, refused = checks + 1, finding.kind = 9;
        uint32_t status = check(bench, tech, pl, tree, &finding);
        all = requests < refused;
        wants += status == CTS_NO_MEMORY;
        expect("memory refused to a check",
               (status == CTS_NO_MEMORY || status == CTS_DONE) && finding.kind == CTS_NOTHING);
    }
    refused = 0;
    expect("many requests of each call", trees > 20 && plans > 20 && checks > 20);
    expect("mostly want of memory", wants > (trees + plans + checks) / 2);
}

/* So many trees and checks; tells whether each left what it had to. */
static int repeat(int times) {
    struct text out = buffer(tree.size);
    struct cts_finding finding;
    size_t size;
    int all = 1;
    for (int turn = 0; turn < times; turn++) {
        uint32_t status = synth(bench, tech, pl, out, &size);
        all &= is_left(tree, out, status, size);
        all &= check(bench, tech, pl, out, &finding) == CTS_DONE;
        memset(out.bytes, '*', out.size);
        status = plan(bench, tech, out, &size);
        all &= is_left(schedule, out, status, size);
        memset(out.bytes, '*', out.size);
    }
    free(out.bytes);
    return all && blocks == 0;
}

static void *in_thread(void *all) {
    *(int *)all = repeat(300);
    return NULL;
}

static void try_threads(void) {
    pthread_t first, second;
    int one = 0, other = 0;
    if (pthread_create(&first, NULL, in_thread, &one) != 0) abort();
    if (pthread_create(&second, NULL, in_thread, &other) != 0) abort();
    pthread_join(first, NULL);
    pthread_join(second, NULL);
    expect("two threads", one && other);
}

/* The pages of memory that the process has. */
static long resident(void) {
    long all, held = 0;
    FILE *file = fopen("/proc/self/statm", "r");
    if (file == NULL) return 0;
    if (fscanf(file, "%ld %ld", &all, &held) != 2) held = 0;
    fclose(file);
    return held;
}

/* A thousand calls leave the process as large as ten, but for what malloc keeps in pieces. */
static void try_thousand(void) {
    expect("ten calls", repeat(10));
    long after_ten = resident();
    expect("a thousand calls", repeat(990));
    expect("the memory after a thousand calls", resident() <= after_ten + PIECES);
}

int main(int count, char **words) {
    if (count != 6) return 2;
    bench = read_file(words[1]), tech = read_file(words[2]), pl = read_file(words[3]);
    tree = read_file(words[4]), schedule = read_file(words[5]);
    expect("the version", cts_version() == 1);
    try_thousand();
    try_sizes();
    try_wrong_texts();
    try_reports();
    try_refusals();
    try_threads();
    try_long_texts();
    expect("no block that isn't freed", blocks == 0);
    printf("%d passed, %d failed\n", passed, failed);
    return failed != 0;
}
