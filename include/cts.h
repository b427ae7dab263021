/* The clock tree synthesizer and the checker of its reports, to call from C.
 *
 * To build a program with it, link the archive crates/cts_c/out/libcts_c.a, which `rt lib` makes in
 * crates/cts_c, and compile c/cts_heap.c along, as it stands or with an allocator of your own. From
 * the folder of the repository, with no other library:
 *
 *     cc -I include program.c c/cts_heap.c crates/cts_c/out/libcts_c.a -o program
 *
 * A caller owes this:
 *
 * - A text or a buffer is a pointer to its bytes and their number. A text needs no zero byte at
 *   the end, and may be any bytes. A pointer is never null, also where the number is 0.
 * - During a call nobody writes what the call reads, and nobody reads or writes what it writes: the
 *   buffer and what `size` or `finding` points to. These overlap nothing that the call was given.
 * - No call is made from a signal handler, or in the forked child of a process with threads.
 * - c/cts_heap.c says what an allocator has to do.
 *
 * To such a caller it is proved of each call which status it has for which texts, that the text of
 * its answer, or its finding, is one for what the texts tell, where the text stands, and that all
 * else of the buffer stays. crates/cts_c/README.md says it clause by clause.
 *
 * Tested, and said by no clause: the bytes are those that the program prints, and the same texts
 * give the same bytes. A call keeps no pointer, and frees all that it has allocated before it
 * returns. Calls share nothing, so threads may make them side by side. A call reads and writes no
 * file and ends no process.
 *
 * The caller owns all memory that it hands in, before and after. The heap and the stack are the
 * only other memory that a call takes.
 *
 * The formats of the texts stand in docs/FORMATS.md, those of the answers in docs/COMMANDS.md, and
 * that of reports in docs/REPORT.md. Times are in the ticks of the delay table, lengths in the
 * length units of the placement.
 */
#ifndef CTS_H
#define CTS_H

#include <stddef.h>
#include <stdint.h>

#ifdef __cplusplus
extern "C" {
#endif

/* What a call returns: the exit status of the program for the same texts. 2 and 4, which it has for
 * wrong words and for files that can't be read, come from no call. */
enum cts_status {
    CTS_DONE = 0,      /* it found what it was asked for */
    CTS_NEVER = 1,     /* no period will do, and the text shows why: it begins with `never` */
    CTS_REFUSED = 3,   /* a netlist, a delay table or a placement has more than 16,777,216 bytes or
                          a fault, or paths join more than 1,048,576 pairs of registers. A call
                          doesn't tell which: the program does, on its error output, for the same
                          files */
    CTS_TOO_SMALL = 5, /* the buffer is too small for the text */
    CTS_NO_MEMORY = 6, /* the allocator refused a request */
    CTS_NOT_SHOWN = 7  /* the report doesn't show what it says */
};

/* The number of this set of calls, which is 1. It rises where one of them changes. */
uint32_t cts_version(void);

/* The clock tree of a netlist, a delay table and a placement: the text that
 * `cts synth --bench .. --tech .. --pl ..` prints.
 *
 * With CTS_DONE the text is a report, and with CTS_NEVER it says what forbids every period. Its
 * *size bytes stand at the beginning of `out`, and the bytes after them stay.
 * With CTS_TOO_SMALL *size is how many bytes the text has, more than `out_size`, and `out` stays.
 * Call again with a buffer of that size: the same texts give the same bytes. `out_size` may be 0.
 * Such a call costs as much as one with room.
 * With CTS_REFUSED and CTS_NO_MEMORY *size is 0, and `out` stays. No other status comes, and what
 * *size was before is of no account. */
uint32_t cts_synth(const char *bench, size_t bench_size, const char *tech, size_t tech_size,
                   const char *pl, size_t pl_size, char *out, size_t out_size, size_t *size);

/* The least period of a netlist with a delay table, the least arrivals at it and the slacks: the
 * text that `cts schedule --bench .. --tech ..` prints. Buffer, *size and status are as for
 * cts_synth. */
uint32_t cts_schedule(const char *bench, size_t bench_size, const char *tech, size_t tech_size,
                      char *out, size_t out_size, size_t *size);

/* What stands against a report. */
enum cts_kind {
    CTS_NOTHING = 0,   /* nothing */
    CTS_TOO_LONG = 1,  /* the report has more than 16,777,216 bytes */
    CTS_NO_REPORT = 2, /* the bytes are no report: its first fault, and the line, from 1 */
    CTS_REASON = 3     /* the report doesn't show what it says: the first reason, and its place */
};

struct cts_finding {
    uint32_t kind;
    /* The N of `not shown report N line ..` or of `not shown N ..`, from 1, and else 0.
     * docs/REPORT.md says what each means. */
    uint32_t number;
    /* For a fault its line. For a reason a register with 5, 9, 12 and 14, by its number from 0 in
     * the order of the netlist's lines; a place of the cycle, from 0, with 2, 3 and 13; a node of
     * the tree with 6, 7, 8 and 10; and 0 with 1, 4 and 11, which are about none of them. */
    uint32_t place;
};

/* Judges a report, whoever made it, of the problem that the three texts tell, as
 * `cts check --bench .. --tech .. --pl .. --report ..` does.
 *
 * With CTS_DONE the report shows what it says: no smaller period from the table's floor on will do,
 * the arrivals meet it over every path, the tree has exactly these skews, and no tree of the same
 * merges with these skews has less wire.
 * With CTS_NOT_SHOWN *finding tells what stands against it, also where the report is too long. With
 * CTS_DONE, CTS_REFUSED and CTS_NO_MEMORY it is all 0. No other status comes. */
uint32_t cts_check(const char *bench, size_t bench_size, const char *tech, size_t tech_size,
                   const char *pl, size_t pl_size, const char *report, size_t report_size,
                   struct cts_finding *finding);

#ifdef __cplusplus
}
#endif

#endif
