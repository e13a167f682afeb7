/* Short stamps for vector clocks: the proved C calls of liboboefinch.a.
 *
 * Every call is total: any lengths, any bytes, any numbers. A slice is a pointer and then a length in elements. Slices lent to one
 * call do not overlap; an empty one may be NULL. No call keeps anything between calls.
 *
 * The answer is one number, number + 256 * x + 65536 * y + 4294967296 * z:
 *
 *   call              number              x                y                z
 *   any, refused      the refusal number  0                the position     0
 *   read, accepted    0                   process count    events           carried values
 *   class             0                   0                accepted events  carried values
 *   write             0                   0                events           bytes written
 *   compare, order    0                   verdict          0                0
 *   chain             0                   0                0                length of the chain
 *   mark              0                   0                the total        lines
 *   savings           0                   0 or 1           0                0
 *
 * read_lamport answers as read does, class_lamport as class. savings has x 0 where the sheet has no messages, 1 where it gives a
 * percentage. A verdict is 1 where the first is before the second, 2 where it is after, 3 where it is neither, 4 where both clocks are
 * equal: of two events of a list, where both are one event. The position is that of the event where an event or its stamp is refused,
 * otherwise 0.
 *
 * Work buffers, for n processes and a list of m events (8 bytes each): clocks has at least n * m slots, masks m, values n * m, and
 * answers of class and lamports m; else the call is refused with 9. These are the named slots. A sheet is at most 40960 bytes. A chain
 * is written only where its output has at least n - 1 slots, so 31 are always enough and one process needs none, a sheet only where its
 * output has room for it, marks only where there is a slot for each line, and savings wants one slot for the percentage even where there
 * is none to write; else the call is refused with 21.
 *
 * Buffers after a call: a refusal up to and including 9 writes nothing, nor does 30. Any other sets the named slots to 0 and leaves the
 * outputs (sheet of write, chain, marks, percent) untouched. On success clocks holds the clocks of the accepted events one after
 * another, n slots each, masks their masks, one each (0 where the event is no send), values the carried values, lamports their Lamport
 * numbers, one each; named slots not used are 0. All other slots, and output beyond what is written, are untouched.
 */
#ifndef OBOEFINCH_H
#define OBOEFINCH_H

#include <stddef.h>
#include <stdint.h>

#ifdef __cplusplus
extern "C" {
#endif

/* Reads a sheet: whether it is good, and the clocks and short stamps of its events. */
uint64_t oboefinch_read(const uint8_t *sheet, size_t sheet_length,
                        uint16_t *clocks, size_t clocks_length,
                        uint32_t *masks, size_t masks_length,
                        uint16_t *values, size_t values_length);

/* Reads a sheet like read, with the Lamport numbers of its events. */
uint64_t oboefinch_read_lamport(const uint8_t *sheet, size_t sheet_length,
                                uint16_t *clocks, size_t clocks_length,
                                uint32_t *masks, size_t masks_length,
                                uint16_t *values, size_t values_length,
                                uint16_t *lamports, size_t lamports_length);

/* Class mode: tries each offer of the list and goes on. The first m slots of answers hold 0 or the refusal number of each offer. */
uint64_t oboefinch_class(size_t n, const uint8_t *list, size_t list_length,
                         uint16_t *clocks, size_t clocks_length,
                         uint32_t *masks, size_t masks_length,
                         uint16_t *values, size_t values_length,
                         uint8_t *answers, size_t answers_length);

/* Class mode like class, with the Lamport numbers of the accepted events. */
uint64_t oboefinch_class_lamport(size_t n, const uint8_t *list, size_t list_length,
                                 uint16_t *clocks, size_t clocks_length,
                                 uint32_t *masks, size_t masks_length,
                                 uint16_t *values, size_t values_length,
                                 uint8_t *answers, size_t answers_length,
                                 uint16_t *lamports, size_t lamports_length);

/* Writes the sheet of an event list. */
uint64_t oboefinch_write(size_t n, const uint8_t *list, size_t list_length,
                         uint16_t *clocks, size_t clocks_length,
                         uint32_t *masks, size_t masks_length,
                         uint16_t *values, size_t values_length,
                         uint8_t *sheet, size_t sheet_length);

/* The verdict on two events of a list, named by their positions. */
uint64_t oboefinch_compare(size_t n, const uint8_t *list, size_t list_length,
                           uint16_t *clocks, size_t clocks_length,
                           uint32_t *masks, size_t masks_length,
                           uint16_t *values, size_t values_length,
                           size_t first, size_t second);

/* The positions of the sends by which the first event leads to the second, in causal order. */
uint64_t oboefinch_chain(size_t n, const uint8_t *list, size_t list_length,
                         uint16_t *clocks, size_t clocks_length,
                         uint32_t *masks, size_t masks_length,
                         uint16_t *values, size_t values_length,
                         size_t first, size_t second,
                         uint16_t *chain, size_t chain_length);

/* Marks a pupil's list on a sheet. A line is 6 bytes: two positions and a verdict, 16 bits each, little-endian. The slot of a line in marks
 * holds 1 where both events are there and the verdict is the one on them, else 0; the total counts the ones. A list that is not whole
 * lines, or has more than 200, is refused with 30 before the sheet is looked at. */
uint64_t oboefinch_mark(const uint8_t *sheet, size_t sheet_length,
                        const uint8_t *lines, size_t lines_length,
                        uint16_t *clocks, size_t clocks_length,
                        uint32_t *masks, size_t masks_length,
                        uint16_t *values, size_t values_length,
                        uint8_t *marks, size_t marks_length);

/* What the short stamps of a sheet saved: the first slot of percent holds 100 times (n times sends minus carried values), divided by n times
 * sends, rounded once to the nearest double. Every send counts, whether or not its message is received. Where there are no sends the
 * slot stays as it was. */
uint64_t oboefinch_savings(const uint8_t *sheet, size_t sheet_length,
                           uint16_t *clocks, size_t clocks_length,
                           uint32_t *masks, size_t masks_length,
                           uint16_t *values, size_t values_length,
                           double *percent, size_t percent_length);

/* The verdict on two lent clocks, which have the same number of components, 1 to 32; else 4. */
uint64_t oboefinch_order(const uint16_t *first, size_t first_length,
                         const uint16_t *second, size_t second_length);

#ifdef __cplusplus
}
#endif

#endif
