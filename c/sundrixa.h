/*
 * Sundrixa: the listing of a day file, for C programs.
 *
 * A day file describes a site (nodes, survey, routing tree) and a day on it (queries, releases, closings, slots); its
 * format is in docs/DAYFILE.md, and the numbers of all refusals are in docs/RULES.md. The listing says what happens, in
 * lines of ASCII:
 *
 *     PLAN 2 2            the plan's length and its minimum step distance
 *     QUERY 1 1           a query was booked: its number and its longest wait in slots
 *     START 0 1           a round starts: the slot and the query's number
 *     NO 26 35            the engine refused a record: the refusal's number and the record's offset in the file
 *     NO 23 8 1           as NO; refusal 23 adds the number of the query that would be late
 *     STOP 32 13          the listing ends before the file does (a line written by a call of its own)
 *
 * Build: tools/build liblisting.a && cc -Ic program.c target/staticlib/liblisting.a
 *
 * Both calls keep no state, allocate nothing, call nothing of yours and always return. They may run in several threads
 * at once as long as nobody else uses the lists lent to them. Stack: about 32 KiB (seen on x86-64, not proved).
 *
 * What a caller owes: a pointer is never null, not even with the length 0 (then a pointer to any byte will do); so many
 * bytes from it on, at most PTRDIFF_MAX, can be read, those of `out` written too; `file` and `out` do not overlap. What
 * `out` holds before the call does not matter.
 *
 * Example:
 *
 *     static uint8_t out[SUNDRIXA_ENOUGH_ROOM];
 *     struct sundrixa_listing listing = sundrixa_list(file, file_length, out, sizeof out);
 *     fwrite(out, 1, listing.length, stdout);
 *     if (listing.refusal != 0) {
 *         uint8_t line[SUNDRIXA_STOP_ROOM];
 *         struct sundrixa_line stop = sundrixa_stop_line(listing.refusal, listing.offset, listing.inner, line, sizeof line);
 *         fwrite(line, 1, stop.length, stdout);
 *     }
 *
 * c/controller.c is a whole program.
 */
#ifndef SUNDRIXA_H
#define SUNDRIXA_H

#include <stddef.h>
#include <stdint.h>

#ifdef __cplusplus
extern "C" {
#endif

/* the most bytes that a day file may have; a longer one is refused by 36 */
#define SUNDRIXA_FILE_MOST 16384

/* An output list of this length is enough for every day file: no record brings about more than five bytes of listing for
   each byte of its own. Five times the file's length is enough for a given file. (Arithmetic, not proved; a list that is
   too short gives 34.) */
#define SUNDRIXA_ENOUGH_ROOM (5 * SUNDRIXA_FILE_MOST)

/* enough for every STOP line, whatever its numbers are */
#define SUNDRIXA_STOP_ROOM 68

/* how a listing ended */
struct sundrixa_listing {
    /* bytes written to the front of `out`; those after them are untouched. Lines are written whole or not at all. */
    uint64_t length;
    /* 0: the listing is complete. Else why it stopped; the lines before the stop are there:
         31 a record of unknown kind
         32 a record is cut short
         33 records in the wrong order, or no nodes record
         34 the next line does not fit into what is left of `out`
         35 the plan is refused: see `inner`
         36 the file is longer than SUNDRIXA_FILE_MOST bytes; nothing of it was looked at */
    uint64_t refusal;
    /* for a stop: the offset of the record being read, or the file's length at its end; 0 for 36. Else 0. */
    uint64_t offset;
    /* for 35 the refusal of the graph or of the tree, else 0:
         11 the number of nodes is not from 1 to 64
         12 an edge names a node that the site does not have
          1 there is not exactly one tree record for each node but the base station
          2 a tree record names a node that the site does not have, gives slots not from 1 to 4, or has the base station
            or its own parent as child
          3 a tree record repeats a child
          4 a tree record's child has no way to the base station */
    uint64_t inner;
    /* for 12 the position of the first such edge among the edge records, for 2, 3 and 4 that of the first such tree record
       among the tree records, each counted from 0; else 0 */
    uint64_t position;
};

/* Lists the day file in `file` into `out`. */
struct sundrixa_listing sundrixa_list(const uint8_t *file, size_t file_length, uint8_t *out, size_t out_length);

/* what became of a STOP line */
struct sundrixa_line {
    /* bytes written to the front of `out`; 0 where it is refused */
    uint64_t length;
    /* 0: the line is written. 34: `out` is too short, and nothing is written. */
    uint64_t refusal;
};

/* Writes `STOP refusal offset`, and for 35 `STOP 35 offset inner`, with a line end. `inner` counts for 35 alone. */
struct sundrixa_line sundrixa_stop_line(uint64_t refusal, uint64_t offset, uint64_t inner, uint8_t *out, size_t out_length);

#ifdef __cplusplus
}
#endif

#endif
