/*
 * A controller in C: it judges a show table, opens the engine on it, releases loops by a script and steps until nothing is pending. It
 * prints which loop runs on each core, and for each job that finishes its response beside its loop's bound. .ci/run compiles it, runs it
 * and compares what it prints with controller.stdout.
 *
 * The table is P3 of document 01, and the script has its P10 and P11: all loops at tick 0 with full budgets, then loop 0 at ticks 1 and 2.
 */
#include "../include/dahomike.h"
#include "../include/dahomike_engine.h"

#include <inttypes.h>
#include <stdio.h>

#define LOOPS 16
#define CORES 8

/* Cores 0 and 1, and the loops (T, C, Y) = (2, 1, 2), (2, 1, 2) and (3, 3, 0); slack is to be found. */
static const uint8_t table[] = {
    1, 2, 0, 1, 3,
    2, 0, 0, 0, 1, 0, 0, 0, 2, 0, 0, 0,
    2, 0, 0, 0, 1, 0, 0, 0, 2, 0, 0, 0,
    3, 0, 0, 0, 3, 0, 0, 0, 0, 0, 0, 0,
    0,
};

struct release {
    uint32_t tick, loop, demand;
};

/* In the order of their ticks. */
static const struct release script[] = {{0, 0, 1}, {0, 1, 1}, {0, 2, 3}, {1, 0, 1}, {2, 0, 1}};

#define RELEASES (sizeof script / sizeof script[0])

static uint32_t state[DAHOMIKE_STATE_WORDS];

static uint32_t number_at(const uint8_t *bytes) {
    return bytes[0] | (uint32_t)bytes[1] << 8 | (uint32_t)bytes[2] << 16 | (uint32_t)bytes[3] << 24;
}

static uint32_t number_of(uint64_t answer) {
    return (uint32_t)(answer >> 32);
}

/* Whether a call was refused; then its refusal is told, with the value that was found. */
static int refused(uint64_t answer, uint64_t value) {
    uint8_t sentence[DAHOMIKE_LONGEST_SENTENCE];
    uint64_t length;
    if (number_of(answer) == 0) {
        return 0;
    }
    length = dahomike_sentence(number_of(answer), (uint32_t)answer, value, sentence, sizeof sentence);
    printf("  %.*s\n", (int)length, (const char *)sentence);
    return 1;
}

/* The bound of each loop from a judgement of the table; whether the table is refused. */
static int judge(uint32_t bounds[LOOPS]) {
    uint8_t out[8 * LOOPS];
    uint64_t loops = dahomike_judge(table, sizeof table, out, sizeof out);
    if (refused(loops, 0)) {
        return 1;
    }
    for (size_t loop = 0; loop < loops; loop++) {
        bounds[loop] = number_at(out + 8 * loop + 4);
        printf("loop %zu: slack %" PRIu32 ", bound %" PRIu32 "\n", loop, number_at(out + 8 * loop), bounds[loop]);
    }
    return 0;
}

/* What a refused release shows, as docs/REFUSALS.md says of each number. */
static uint64_t value_found(uint32_t number, const struct release *due) {
    switch (number) {
    case 20:
        return due->loop;
    case 21:
        return due->demand;
    case 22:
        return due->tick - state[DAHOMIKE_STATE_LAST + due->loop];
    case 23:
        return state[DAHOMIKE_STATE_JOBS + due->loop];
    default:
        return due->tick;
    }
}

/* Hands the engine the releases of this tick, from the script's entry `next` on; the first entry of a later tick. */
static size_t release_due(size_t next) {
    while (next < RELEASES && script[next].tick == state[DAHOMIKE_STATE_CLOCK]) {
        const struct release *due = &script[next];
        uint64_t answer = dahomike_engine_release(state, due->loop, due->demand);
        printf("tick %" PRIu32 ": release of loop %" PRIu32 ", demand %" PRIu32 "\n", due->tick, due->loop, due->demand);
        refused(answer, value_found(number_of(answer), due));
        next++;
    }
    return next;
}

static int any_pending(void) {
    uint32_t jobs = 0;
    for (size_t loop = 0; loop < LOOPS; loop++) {
        jobs += state[DAHOMIKE_STATE_JOBS + loop];
    }
    return jobs != 0;
}

/* One line with the loop on each core, by the core's label. */
static void print_cores(uint32_t tick, const uint8_t runs[CORES]) {
    printf("tick %" PRIu32 ":", tick);
    for (size_t core = 0; core < state[DAHOMIKE_STATE_CORES]; core++) {
        printf("%s core %" PRIu32, core == 0 ? "" : ",", state[DAHOMIKE_STATE_LABELS + core]);
        if (runs[core] == DAHOMIKE_IDLE) {
            printf(" is idle");
        } else {
            printf(" runs loop %d", runs[core]);
        }
    }
    printf("\n");
}

static void print_finished(const uint32_t responses[LOOPS], const uint32_t bounds[LOOPS]) {
    for (size_t loop = 0; loop < LOOPS; loop++) {
        if (responses[loop] != 0) {
            printf("tick %" PRIu32 ": loop %zu finishes, response %" PRIu32 ", bound %" PRIu32 "\n",
                   state[DAHOMIKE_STATE_CLOCK], loop, responses[loop], bounds[loop]);
        }
    }
}

/* Steps until the script is at its end and nothing is pending; whether a step is refused. */
static int run(const uint32_t bounds[LOOPS]) {
    uint8_t runs[CORES];
    uint32_t responses[LOOPS];
    size_t next = release_due(0);
    while (next < RELEASES || any_pending()) {
        uint32_t tick = state[DAHOMIKE_STATE_CLOCK];
        if (refused(dahomike_engine_step(state, runs, responses), tick)) {
            return 1;
        }
        print_cores(tick, runs);
        print_finished(responses, bounds);
        next = release_due(next);
    }
    return 0;
}

int main(void) {
    uint32_t bounds[LOOPS] = {0};
    if (judge(bounds) || refused(dahomike_engine_open(table, sizeof table, state), 0)) {
        return 1;
    }
    return run(bounds);
}
