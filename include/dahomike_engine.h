/*
 * The engine of Dahomike as C functions, for a controller: opened on a show table, it takes releases and steps tick by tick.
 * `tools/libraries` writes the library that has them, target/staticlib/libdahomike_engine.a. The proved source is
 * crates/dahomike_engine/src/lib.rt; .ci/documents holds the declarations here to it. examples/controller.c is a controller.
 *
 * The caller lends the engine's state, an array of DAHOMIKE_STATE_WORDS words. The functions keep no pointer, allocate nothing and need at
 * most 64 KiB of stack. So a state can be kept, copied and handed back later, and a program can have as many states as it wants.
 *
 * What a caller owes: no pointer is null, also where its length is 0; each points to as many bytes, words or numbers as its length or its
 * array says; and no two of the arrays that are lent to one call overlap. Any bytes may stand in a table and any words in a state: what is
 * wrong with them is refused.
 *
 * What a call answers: 0, or where it is refused 4,294,967,296 x number + index. So answer >> 32 is the refusal number, and the low 32 bits
 * are the index: the lowest failing core for 4, loop for 6, 7, 8, 12, 13 and 28, and 0 for every other number. A refused call changes
 * nothing that is lent to it: no word of the state, no byte of `runs`, no number of `responses`.
 *
 *      1 to 13, 28   The table is refused. dahomike_judge in dahomike.h answers the same number and index for it.
 *     18  The state isn't sound.
 *     19  The clock stands at 4,000,000,000.
 *     20  The loop isn't in the table.
 *     21  The demand is not 1 to C.
 *     22  The loop's last taken release is less than T ticks ago.
 *     23  The loop already holds 16 unfinished jobs.
 *
 * Each call tests its numbers in this order, but that 28 comes after 8. dahomike_sentence in dahomike.h tells a refusal in words.
 */
#ifndef DAHOMIKE_ENGINE_H
#define DAHOMIKE_ENGINE_H

#include <stddef.h>
#include <stdint.h>

#ifdef __cplusplus
extern "C" {
#endif

/*
 * The words of a state. Loops and cores are counted from 0. There are places for 16 loops and 8 cores; what stands in a place that the
 * table doesn't use is 0.
 *
 *       0         the table's edition, 1 or 2
 *       1         1 if the table offered slack, 0 if slack was found
 *       2         the number of cores, m
 *       3         the number of loops, n
 *       4 to 11   the label of each core
 *      12 to 75   separation T, budget C, priority offset Y and deadline D of each loop, four words a loop; D is 0 in edition 1
 *      76 to 91   the slack of each loop
 *      92         the clock: the number of steps since the opening
 *      93 to 108  how many unfinished jobs each loop holds, at most 16
 *     109 to 124  for each loop 1 if a release of it was taken, 0 if none was
 *     125 to 140  the tick of each loop's last taken release, 0 if none was taken
 *     141 to 396  the remaining work in each of the 256 job places; loop i has places 16 i to 16 i + 15, the oldest job first
 *     397 to 652  the release tick in each of these places
 *
 * A state is sound if its words fit, its table part is one that dahomike_judge would accept with this slack, every unused place is 0, and
 * clock, jobs and releases agree as document 01 says. Words fit if words 0 and 4 to 11 are at most 255, and words 1 and 109 to 124 at most
 * 1. Every state that one of these functions leaves is sound. A caller who writes words makes a state that is tested by 18 like any other.
 */
#define DAHOMIKE_STATE_WORDS 653

/* Where the parts that a controller reads begin. */
#define DAHOMIKE_STATE_CORES 2
#define DAHOMIKE_STATE_LOOPS 3
#define DAHOMIKE_STATE_LABELS 4
#define DAHOMIKE_STATE_CLOCK 92
#define DAHOMIKE_STATE_JOBS 93
#define DAHOMIKE_STATE_LAST 125

/* Stands in `runs` for a core that was idle. */
#define DAHOMIKE_IDLE 255

/*
 * Opens the engine on a show table, at tick 0 with nothing pending.
 *
 *     table   the bytes of a show table, as dahomike.h says
 *     state   where the call is not refused, every word of the opened state; what stood there before doesn't matter
 *
 * Answers 0 or the refusal: one of 1 to 13 and 28.
 */
uint64_t dahomike_engine_open(const uint8_t *table, size_t table_len, uint32_t state[DAHOMIKE_STATE_WORDS]);

/*
 * Releases one job of a loop at the clock.
 *
 *     state   where the call is not refused, the state with one job more
 *     task    the loop
 *     demand  for how many ticks the job has to run
 *
 * Answers 0 or the refusal: one of 18 to 23. From an opening on, 23 is never met, and each taken release finishes within its loop's bound,
 * which dahomike_judge writes.
 */
uint64_t dahomike_engine_release(uint32_t state[DAHOMIKE_STATE_WORDS], uint32_t task, uint32_t demand);

/*
 * Steps the engine by one tick. Of each loop that holds jobs the oldest may run. The m of these with the earliest priority points (release
 * tick + Y) run for one tick, all of them if fewer; of equal points the earlier release goes first, and then the lower loop.
 *
 *     state      where the call is not refused, the state one tick later
 *     runs       where the call is not refused, the loop that ran on each core, the earliest point first, or DAHOMIKE_IDLE; cores are in
 *                the order of their labels, and places beyond m have DAHOMIKE_IDLE
 *     responses  where the call is not refused, for each loop that finished a job the ticks since the job's release, and 0 for the others
 *
 * Answers 0 or the refusal: 18 or 19.
 *
 * How long a step takes: it has no loop but over loops, cores and job places, and the test of the table part, which is a judgement's. Where
 * slack was found (word 1 is 0) that test searches for it anew, in as many rounds as a judgement of the table takes; where slack was offered
 * there is no search.
 */
uint64_t dahomike_engine_step(uint32_t state[DAHOMIKE_STATE_WORDS], uint8_t runs[8], uint32_t responses[16]);

#ifdef __cplusplus
}
#endif

#endif
