/*
 * The header and the static library from C: P1 and P4 judged, P1's and P3's counted loops named, offsets found for P1's loops and their
 * wishes, P11 run, two refusals told, P1 converted to edition 2 and back, and a table with one loop judged, which is not converted.
 * .ci/run compiles and runs it where there is a C compiler.
 */
#include "../dahomike.h"

#include <stdio.h>
#include <string.h>

#define REFUSED(number, index) ((uint64_t)(number) << 32 | (index))

/* P1 offering slack: its last 13 bytes are the slack section. */
static const uint8_t p4[] = {
    1, 2, 0, 1, 3,
    10, 0, 0, 0, 9, 0, 0, 0, 10, 0, 0, 0,
    10, 0, 0, 0, 9, 0, 0, 0, 10, 0, 0, 0,
    100, 0, 0, 0, 20, 0, 0, 0, 90, 0, 0, 0,
    3, 5, 0, 0, 0, 6, 0, 0, 0, 0, 0, 0, 0,
};

static const uint8_t p3[] = {
    1, 2, 0, 1, 3,
    2, 0, 0, 0, 1, 0, 0, 0, 2, 0, 0, 0,
    2, 0, 0, 0, 1, 0, 0, 0, 2, 0, 0, 0,
    3, 0, 0, 0, 3, 0, 0, 0, 0, 0, 0, 0,
    0,
};

/* P1's first loop alone. */
static const uint8_t one_loop[] = {
    1, 2, 0, 1, 1,
    10, 0, 0, 0, 9, 0, 0, 0, 10, 0, 0, 0,
    0,
};

/* A wish sheet of P1's loops: 29, 99 and 90 in the offsets' places. */
static const uint8_t wishes[] = {
    1, 2, 0, 1, 3,
    10, 0, 0, 0, 9, 0, 0, 0, 29, 0, 0, 0,
    10, 0, 0, 0, 9, 0, 0, 0, 99, 0, 0, 0,
    100, 0, 0, 0, 20, 0, 0, 0, 90, 0, 0, 0,
    0,
};

/* P11: loop 0 at ticks 0, 1 and 2, demand 1. */
static const uint8_t p11[] = {
    3, 0,
    0, 0, 0, 0, 0, 1, 0, 0, 0,
    1, 0, 0, 0, 0, 1, 0, 0, 0,
    2, 0, 0, 0, 0, 1, 0, 0, 0,
};

static int failures = 0;

static void expect_answer(const char *name, uint64_t answer, uint64_t expected) {
    if (answer != expected) {
        printf("%s: answered %llu, not %llu\n", name, (unsigned long long)answer, (unsigned long long)expected);
        failures++;
    }
}

/* The buffer has these bytes, and bytes of 0xee from there on. */
static void expect_bytes(const char *name, const uint8_t *out, size_t out_len, const uint8_t *expected, size_t expected_len) {
    int same = memcmp(out, expected, expected_len) == 0;
    for (size_t i = expected_len; i < out_len; i++) {
        same = same && out[i] == 0xee;
    }
    if (!same) {
        printf("%s: the buffer is another\n", name);
        failures++;
    }
}

static void judge_p1(void) {
    static const uint8_t slack_and_bound[] = {6, 0, 0, 0, 25, 0, 0, 0, 6, 0, 0, 0, 25, 0, 0, 0, 0, 0, 0, 0, 110, 0, 0, 0};
    uint8_t p1[sizeof p4 - 12], out[128];
    memcpy(p1, p4, sizeof p1);
    p1[sizeof p1 - 1] = 0;
    memset(out, 0xee, sizeof out);
    expect_answer("P1", dahomike_judge(p1, sizeof p1, out, sizeof out), 3);
    expect_bytes("P1", out, sizeof out, slack_and_bound, sizeof slack_and_bound);
    memset(out, 0xee, sizeof out);
    expect_answer("P1, a short buffer", dahomike_judge(p1, sizeof p1, out, 23), REFUSED(24, 0));
    expect_answer("P4", dahomike_judge(p4, sizeof p4, out, sizeof out), REFUSED(12, 0));
    expect_answer("no table", dahomike_judge(p1, 0, out, sizeof out), REFUSED(1, 0));
    expect_bytes("refused", out, sizeof out, out, 0);
}

static void name_counted(void) {
    static const uint8_t name_of_p1[] = {2}, name_of_p3[] = {0};
    uint8_t p1[sizeof p4 - 12], out[7];
    memcpy(p1, p4, sizeof p1);
    p1[sizeof p1 - 1] = 0;
    memset(out, 0xee, sizeof out);
    expect_answer("P1 counted, no buffer", dahomike_counted(p1, sizeof p1, out, 0), REFUSED(24, 0));
    expect_answer("P4 counted", dahomike_counted(p4, sizeof p4, out, sizeof out), REFUSED(12, 0));
    expect_bytes("refused, counted", out, sizeof out, out, 0);
    expect_answer("P1 counted", dahomike_counted(p1, sizeof p1, out, sizeof out), 1);
    expect_bytes("P1 counted", out, sizeof out, name_of_p1, sizeof name_of_p1);
    memset(out, 0xee, sizeof out);
    expect_answer("P3 counted", dahomike_counted(p3, sizeof p3, out, 1), 1);
    expect_bytes("P3 counted", out, sizeof out, name_of_p3, sizeof name_of_p3);
}

static void find_offsets(void) {
    static const uint8_t offset_slack_and_bound[] = {
        10, 0, 0, 0, 6, 0, 0, 0, 25, 0, 0, 0,
        10, 0, 0, 0, 6, 0, 0, 0, 25, 0, 0, 0,
        69, 0, 0, 0, 1, 0, 0, 0, 90, 0, 0, 0,
    };
    uint8_t below_budget[sizeof wishes], out[sizeof offset_slack_and_bound + 1];
    memcpy(below_budget, wishes, sizeof wishes);
    below_budget[13] = 8;
    memset(out, 0xee, sizeof out);
    expect_answer("P1 wishing 8", dahomike_wish(below_budget, sizeof below_budget, out, sizeof out), REFUSED(26, 0));
    expect_answer("P1 wishing, a short buffer", dahomike_wish(wishes, sizeof wishes, out, sizeof out - 2), REFUSED(24, 0));
    expect_bytes("refused, wishing", out, sizeof out, out, 0);
    expect_answer("P1 wishing", dahomike_wish(wishes, sizeof wishes, out, sizeof out), 3);
    expect_bytes("P1 wishing", out, sizeof out, offset_slack_and_bound, sizeof offset_slack_and_bound);
}

static void run_p11(void) {
    static const uint8_t entries[] = {1, 0, 0, 0, 1, 0, 0, 0, 2, 0, 0, 0, 22, 0, 0, 0, 1, 0, 0, 0, 3, 0, 0, 0};
    uint8_t out[40];
    memset(out, 0xee, sizeof out);
    expect_answer("P11, a short answer", dahomike_run_log(p3, sizeof p3, p11, sizeof p11, out, 23), REFUSED(16, 0));
    expect_bytes("P11, a short answer", out, sizeof out, out, 0);
    expect_answer("P11", dahomike_run_log(p3, sizeof p3, p11, sizeof p11, out, sizeof out), 2 + 65536 * 1);
    expect_bytes("P11", out, sizeof out, entries, sizeof entries);
}

static void tell_refusals(void) {
    static const char budget[] = "Refusal 7 for loop 1: its budget must be at least 1 tick and at most its separation, not 11.";
    static const char unknown[] = "Refusal 99 for place 0: the meaning of this number is unknown here, and the value found is 0.";
    uint8_t out[DAHOMIKE_LONGEST_SENTENCE];
    memset(out, 0xee, sizeof out);
    expect_answer("7 told, a short buffer", dahomike_sentence(7, 1, 11, out, sizeof budget - 2), REFUSED(25, 0));
    expect_bytes("7 told, a short buffer", out, sizeof out, out, 0);
    expect_answer("7 told", dahomike_sentence(7, 1, 11, out, sizeof out), sizeof budget - 1);
    expect_bytes("7 told", out, sizeof out, (const uint8_t *)budget, sizeof budget - 1);
    memset(out, 0xee, sizeof out);
    expect_answer("99 told", dahomike_sentence(99, 0, 0, out, sizeof unknown - 1), sizeof unknown - 1);
    expect_bytes("99 told", out, sizeof out, (const uint8_t *)unknown, sizeof unknown - 1);
}

static void convert_p1(void) {
    static const uint8_t dated[] = {
        2, 2, 0, 1, 3,
        10, 0, 0, 0, 9, 0, 0, 0, 10, 0, 0, 0, 10, 0, 0, 0,
        10, 0, 0, 0, 9, 0, 0, 0, 10, 0, 0, 0, 10, 0, 0, 0,
        100, 0, 0, 0, 20, 0, 0, 0, 90, 0, 0, 0, 90, 0, 0, 0,
        0,
    };
    uint8_t p1[sizeof p4 - 12], later[sizeof dated], out[sizeof dated + 1];
    memcpy(p1, p4, sizeof p1);
    p1[sizeof p1 - 1] = 0;
    memcpy(later, dated, sizeof dated);
    later[33] = 11;
    memset(out, 0xee, sizeof out);
    expect_answer("P1 to edition 257", dahomike_convert(p1, sizeof p1, 257, out, sizeof out), REFUSED(1, 0));
    expect_answer("P1 to edition 1", dahomike_convert(p1, sizeof p1, 1, out, sizeof out), REFUSED(1, 0));
    expect_answer("P1 to edition 2, a short buffer", dahomike_convert(p1, sizeof p1, 2, out, sizeof dated - 1), REFUSED(24, 0));
    expect_answer("P3 to edition 2", dahomike_convert(p3, sizeof p3, 2, out, 0), REFUSED(29, 2));
    expect_answer("a later deadline", dahomike_convert(later, sizeof later, 1, out, sizeof out), REFUSED(30, 1));
    expect_bytes("refused, converted", out, sizeof out, out, 0);
    expect_answer("P1 to edition 2", dahomike_convert(p1, sizeof p1, 2, out, sizeof out), sizeof dated);
    expect_bytes("P1 to edition 2", out, sizeof out, dated, sizeof dated);
    memset(out, 0xee, sizeof out);
    expect_answer("P1 back", dahomike_convert(dated, sizeof dated, 1, out, sizeof out), sizeof p1);
    expect_bytes("P1 back", out, sizeof out, p1, sizeof p1);
}

static void judge_one_loop(void) {
    static const uint8_t slack_and_bound[] = {0, 0, 0, 0, 9, 0, 0, 0};
    uint8_t out[16];
    memset(out, 0xee, sizeof out);
    expect_answer("one loop counted", dahomike_counted(one_loop, sizeof one_loop, out, 0), 0);
    expect_answer("one loop to edition 2", dahomike_convert(one_loop, sizeof one_loop, 2, out, sizeof out), REFUSED(31, 0));
    expect_answer("one loop wishing", dahomike_wish(one_loop, sizeof one_loop, out, sizeof out), REFUSED(5, 0));
    expect_bytes("one loop, refused", out, sizeof out, out, 0);
    expect_answer("one loop", dahomike_judge(one_loop, sizeof one_loop, out, sizeof out), 1);
    expect_bytes("one loop", out, sizeof out, slack_and_bound, sizeof slack_and_bound);
}

int main(void) {
    judge_p1();
    name_counted();
    find_offsets();
    run_p11();
    tell_refusals();
    convert_p1();
    judge_one_loop();
    if (failures == 0) {
        puts("the C functions from C: ok");
    }
    return failures != 0;
}
