/*
 * Judgement, its counted loops, offsets from wishes, the log run, the sentences of refusals and the conversion between the editions of
 * Dahomike as C functions.
 * `tools/libraries` writes the library that has them, target/staticlib/libdahomike.a. The proved source is
 * crates/dahomike_c/src/lib.rt; .ci/documents holds the declarations here to it.
 *
 * Numbers in tables, logs and answers are unsigned, low byte first. Loops and entries are counted from 0.
 *
 * What a caller owes: no pointer is null, also where its length is 0; each points to at least as many bytes as its length says; and `out`
 * overlaps none of `table`, `sheet` and `log`. These are only read, and may overlap each other. Any bytes may stand in them, and `out` may
 * have any length: what is wrong with them is refused. The functions keep no pointer and allocate nothing.
 *
 * What a refused call answers: 4,294,967,296 x number + index. So answer >> 32 is the refusal number, 0 for a call that is not refused,
 * and the low 32 bits are the index: the lowest failing core for 4, loop for 6, 7, 8, 12, 13, 26, 28, 29 and 30, log entry for 15, and 0
 * for every other number. A refused call writes nothing.
 *
 *      1  The edition byte is absent or neither 1 nor 2; or the wanted edition is neither, or the one that the table is in.
 *      2  The length isn't exactly what the edition and the counts give, or a count is absent.
 *      3  Cores are not 2 to 8.
 *      4  A core label is above 63 or not above the one before.
 *      5  Loops are none or more than 16; on a wish sheet, fewer than cores + 1 or more than 16.
 *      6  A separation is not 1 to 100,000.
 *      7  A budget is not 1 to its separation.
 *      8  An offset is above its separation.
 *      9  H, the least common multiple of all separations, is above 1,000,000.
 *     10  The shares add up to more than m x H.
 *     11  The slack count is neither 0 nor n, or not 0 on a wish sheet or where loops are no more than cores.
 *     12  Offered slack isn't compliant; where loops are no more than cores none can be offered.
 *     13  A bound is above 16 x T.
 *     14  A log's length isn't 2 + 9 x count, or its count is absent.
 *     15  A log tick is above 1,000,000,000.
 *     16  The lent answer is shorter than 8 x count.
 *     24  The buffer lent for the judgement, for its names, for offsets from wishes or for the conversion is too short.
 *     25  The buffer lent for a sentence is too short.
 *     26  On a wish sheet, W is not C to 16 x T.
 *     27  On a wish sheet, no solution exists.
 *     28  In edition 2, a deadline is not 1 to 1,600,000.
 *     29  On the way to edition 2, an offset is 0.
 *     30  On the way to edition 1, a deadline differs from its offset.
 *     31  For a conversion, loops are no more than cores.
 *
 * Each number is tested over all entries before the next, and the first that is met is answered: 1 to 8, 28 and 9 to 13 of the table,
 * then 24 for dahomike_judge and dahomike_counted, 14 to 16 for dahomike_run_log, 31, 29 or 30 and then 24 for dahomike_convert; 1 to 7 of
 * the sheet, then 26, 28, 9, 10, 11, 27 and 24 for dahomike_wish. dahomike_sentence tests 25 alone.
 */
#ifndef DAHOMIKE_H
#define DAHOMIKE_H

#include <stddef.h>
#include <stdint.h>

#ifdef __cplusplus
extern "C" {
#endif

/*
 * Judges a show table.
 *
 *     table   the bytes of a show table: the edition, 1 or 2; a count m and m core labels, one byte each; a count n and n loops, in
 *             edition 1 of 12 bytes, separation T, budget C and priority offset Y, in edition 2 of 16 bytes, the deadline D last, which
 *             is 1 to 1,600,000; a count, n or 0, and as many entries of slack, 4 bytes each
 *     out     where the table is accepted, for each loop its slack x and its bound, Y + x + C or, with n at most m, C, 4 bytes each:
 *             slack 0, bound 0, slack 1, bound 1 and so on, 8 x n bytes; bytes beyond these stay. 128 bytes are enough for every table
 *
 * Answers n, which is 1 to 16, or the refusal: one of 1 to 13, 24 and 28. With a slack count of 0 the slack is found: the least that is
 * compliant or, with n at most m, 0. Otherwise it is the slack offered, tested by 12. Deadlines are tested by 28 and not used otherwise:
 * the slack and the bounds, and what the functions below write, all but dahomike_convert, are the same in both editions.
 */
uint64_t dahomike_judge(const uint8_t *table, size_t table_len, uint8_t *out, size_t out_len);

/*
 * Names the loops that a judgement counted: those with the m - 1 largest weights at its slack, offered or found; none with n at most m.
 *
 *     table   as above
 *     out     where the table is accepted, these loops, one byte each, largest weight first, equal weights by lower loop; bytes beyond
 *             these stay. 7 bytes are enough for every table
 *
 * Answers how many, m - 1 or, with n at most m, 0, or the refusal: one of 1 to 13, 24 and 28.
 */
uint64_t dahomike_counted(const uint8_t *table, size_t table_len, uint8_t *out, size_t out_len);

/*
 * Finds offsets from wished responses: whole offsets 0 to T and compliant whole slack with Y + x + C at most W for every loop.
 *
 *     sheet   the bytes of a wish sheet: a show table of either edition as above, with n above m, the wished bound W in the offset's
 *             place and slack count 0
 *     out     where the call is not refused, for each loop its offset Y, its slack x and its bound Y + x + C, 4 bytes each: offset 0,
 *             slack 0, bound 0, offset 1 and so on, 12 x n bytes; bytes beyond these stay. 192 bytes are enough for every sheet
 *
 * Answers n, which is 3 to 16, or the refusal: one of 1 to 7, 9 to 11, 24 and 26 to 28; 11 meets any slack count but 0. The slack is
 * the least and each offset the largest of all solutions. dahomike_judge finds the same slack and bounds for the table with these
 * offsets.
 */
uint64_t dahomike_wish(const uint8_t *sheet, size_t sheet_len, uint8_t *out, size_t out_len);

/*
 * Runs a release log on a show table: the engine is opened on the table's plan, stepped up to each entry's tick and handed its release,
 * and after the last entry stepped until nothing is pending.
 *
 *     table   as above
 *     log     the bytes of a release log: a 2-byte count, then 9 bytes an entry, its tick (4), loop (1) and demand (4)
 *     out     where the call is not refused, 8 bytes for each entry: kind 1 and its finish tick, or kind 2 and its refusal number, 4
 *             bytes each; bytes beyond these stay. 524,280 bytes are enough for every log
 *
 * Answers taken + 65,536 x refused, how many entries were of kind 1 and of kind 2, or the refusal: one of 1 to 16 and 28. An entry of
 * kind 2 refuses itself only, by the first that it meets of
 *     17  Its tick is below the largest tick before it.
 *     20  The loop isn't in the table.
 *     21  The demand is not 1 to C.
 *     22  The loop's last taken release is less than T ticks ago.
 * An entry of kind 1 finishes within its loop's bound: at most Y + x + C ticks after its tick or, with n at most m, at most C.
 */
uint64_t dahomike_run_log(const uint8_t *table, size_t table_len, const uint8_t *log, size_t log_len, uint8_t *out, size_t out_len);

/* No sentence is longer: a caller who lends so many bytes is never refused 25. */
#define DAHOMIKE_LONGEST_SENTENCE 256

/*
 * Tells a refusal in one English sentence, which names the loop, core, log entry or release and says what would be right.
 *
 *     number  the refusal number, 1 to 31; those that no C function answers are told too. Any other number gets a sentence with the word
 *             `unknown`, and no other sentence has it
 *     index   the index that came with it
 *     value   what was found there, as the separation for 6 or the tick for 15; docs/REFUSALS.md says which. 0 where none is meant
 *     out     the sentence: ASCII, no line break, no 0 at its end; it ends with its one full stop. Bytes beyond it stay
 *
 * Answers the sentence's length in bytes, or the refusal 25. No two calls that differ in number, index or value give the same sentence.
 */
uint64_t dahomike_sentence(uint32_t number, uint32_t index, uint64_t value, uint8_t *out, size_t out_len);

/*
 * Converts a show table with n above m to the other edition: to edition 2 with each loop's offset as its deadline, and to edition 1 where
 * every deadline equals its offset.
 *
 *     table    as above
 *     edition  the edition wanted, 1 or 2: the one that the table is not in
 *     out      where the call is not refused, the table in the wanted edition: the same labels, T, C, Y and slack, offered or to be found;
 *              bytes beyond it stay. 332 bytes are enough for every table
 *
 * Answers the converted table's length in bytes, at most 332, or the refusal: one of 1 to 13, 24 and 28 to 31. Both tables have
 * the same slack, bounds and late, as `plan` prints them, and the second converted back is the first.
 */
uint64_t dahomike_convert(const uint8_t *table, size_t table_len, uint32_t edition, uint8_t *out, size_t out_len);

#ifdef __cplusplus
}
#endif

#endif
