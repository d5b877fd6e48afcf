/* The header against the library: document 01's case 4 by every call, closings of other cases, the order of the list in
 * transit, standing values in a total, a byte in `decided`, diet portions in starts, entries and aggregates, weeks of a
 * calendar, and what the header says of memory, answers and names. Prints `ok`, or the line that failed. C11 and
 * C++11; the header itself checks the layout. */
#include "gerzulan.h"

#include <stdio.h>
#include <string.h>

#define CHECK(fact) \
    if (!(fact)) { \
        printf("line %d: %s\n", __LINE__, #fact); \
        return 1; \
    }

static struct gerzulan_bench bench, other;

/* One record. Before the call `closing` holds what no closing is, so that one left unwritten shows. */
static uint8_t closing;
static uint32_t step(struct gerzulan_bench *on, const uint8_t *record, size_t length, struct gerzulan_counters *tally) {
    closing = 0xA5;
    return gerzulan_bench_step(on, record, length, tally, &closing);
}

/* A run, with its progress alike. */
static struct gerzulan_progress progress;
static uint32_t run(struct gerzulan_bench *on, const uint8_t *schedule, size_t length, uint32_t budget) {
    progress.accepted = 0xA5A5A5A5u;
    progress.closing = 0xA5;
    progress.taken = 0xA5A5A5A5u;
    return gerzulan_bench_run(on, schedule, length, budget, &progress);
}

/* Case 4 after its opening: n 2, t 1. Record 10, the second close of 1, waits for 2. */
static const uint8_t records[12][8] = {
    {1, 1, 0, 0, 40}, {1, 2, 0, 0, 25}, {2, 1, 2}, {2, 2, 1}, {3, 1, 2, 1}, {3, 2, 1, 1},
    {4, 1}, {5, 2}, {2, 1, 2}, {4, 1}, {6, 1, 2}, {4, 1},
};

static int one_by_one(void) {
    struct gerzulan_counters tally = {0, 0, UINT32_MAX};
    CHECK(gerzulan_bench_open(&bench, 2, 1) == 0);
    for (int i = 0; i < 12; i++) {
        CHECK(step(&bench, records[i], 8, &tally) == (i == 9 ? 8u : 0u));
        CHECK(closing == (i == 6 ? GERZULAN_NEXT_ROUND : i == 11 ? GERZULAN_LAST_ROUND : GERZULAN_NO_CLOSE));
    }
    CHECK(step(&bench, records[0], 7, &tally) == 3 && closing == GERZULAN_NO_CLOSE);
    CHECK(tally.accepted == 11 && tally.refused == 2 && tally.crashes == UINT32_MAX);
    return 0;
}

static int by_runs(void) {
    struct gerzulan_counters tally = {0, 0, 0};
    const uint8_t *bytes = records[0];
    CHECK(gerzulan_bench_open(&other, 2, 2) == 1 && gerzulan_bench_open(&other, 2, 1) == 0);
    CHECK(run(&other, bytes, 96, 3) == GERZULAN_SPENT && progress.taken == 24 && progress.closing == GERZULAN_NO_CLOSE);
    CHECK(run(&other, bytes + 24, 72, 100) == GERZULAN_REFUSED + 8 && progress.closing == GERZULAN_NEXT_ROUND);
    CHECK(progress.accepted == 6 && progress.taken == 48);
    CHECK(run(&other, bytes + 80, 16, 2) == GERZULAN_EMPTY && progress.closing == GERZULAN_LAST_ROUND);
    CHECK(progress.accepted == 2 && progress.taken == 16);
    CHECK(other.processes[0].decided == 1 && other.processes[0].round == bench.processes[0].round);
    other.n = 0;
    CHECK(run(&other, bytes, 96, 3) == GERZULAN_REFUSED + 2 && progress.closing == GERZULAN_NO_CLOSE);
    CHECK(progress.accepted == 0 && progress.taken == 0);
    CHECK(step(&other, bytes, 8, &tally) == 2 && closing == GERZULAN_NO_CLOSE && tally.refused == 1);
    return 0;
}

/* On `other`, a record of this kind for each sender and each other receiver, the highest first. Gives whether all were
 * accepted. */
static int each_pair(uint8_t kind, uint8_t senders, uint8_t receivers, uint8_t round) {
    struct gerzulan_counters tally = {0, 0, 0};
    for (uint8_t a = senders; a >= 1; a--) {
        for (uint8_t b = receivers; b >= 1; b--) {
            const uint8_t record[8] = {kind, a, b, round, 0, 0, 0, 0};
            if (a != b && (step(&other, record, 8, &tally) != 0 || closing != GERZULAN_NO_CLOSE)) {
                return 0;
            }
        }
    }
    return 1;
}

/* The processes up to `last` close their round. Gives whether each close ended as expected. */
static int each_closes(uint8_t last, uint8_t expected) {
    struct gerzulan_counters tally = {0, 0, 0};
    for (uint8_t a = 1; a <= last; a++) {
        const uint8_t record[8] = {4, a, 0, 0, 0, 0, 0, 0};
        if (step(&other, record, 8, &tally) != 0 || closing != expected) {
            return 0;
        }
    }
    return 1;
}

/* Each of 3 processes sends to the others and receives from them, then closes the round. Gives whether each close ended as expected. */
static int round_of_three(uint8_t round, uint8_t expected) {
    return each_pair(2, 3, 3, 0) && each_pair(3, 3, 3, round) && each_closes(3, expected);
}

/* Case 2: n 3, t 2, no crash; all decide in round 2. */
static int agreed(void) {
    struct gerzulan_counters tally = {0, 0, 0};
    CHECK(gerzulan_bench_open(&other, 3, 2) == 0);
    for (uint8_t a = 1; a <= 3; a++) {
        const uint8_t start[8] = {1, a, 0, 0, 40, 0, 0, 0};
        CHECK(step(&other, start, 8, &tally) == 0 && closing == GERZULAN_NO_CLOSE);
    }
    CHECK(round_of_three(1, GERZULAN_NEXT_ROUND));
    CHECK(round_of_three(2, GERZULAN_AGREED));
    return 0;
}

/* Case 1: n 1, t 0. Both grounds hold, and it is the last round. Then case 4 without record 10, whose run has the second close's. */
static int last_round(void) {
    static const uint8_t case_1[2][8] = {{1, 1, 0, 0, 7}, {4, 1}};
    uint8_t twice[11][8];
    CHECK(gerzulan_bench_open(&other, 1, 0) == 0);
    CHECK(run(&other, case_1[0], 16, 2) == GERZULAN_EMPTY && progress.closing == GERZULAN_LAST_ROUND);
    for (int i = 0; i < 11; i++) {
        memcpy(twice[i], records[i < 9 ? i : i + 1], 8);
    }
    CHECK(gerzulan_bench_open(&other, 2, 1) == 0);
    CHECK(run(&other, twice[0], 88, 99) == GERZULAN_EMPTY && progress.closing == GERZULAN_LAST_ROUND);
    return 0;
}

/* n 4, t 1. 4 crashes in round 1; 1 and 2 decide in round 2, and 3 is still in it. Nothing arrives at 4, and at 3 only
 * what is of round 1. The list runs by round, decisions first, then by sender, then by receiver; each round's are sent
 * the other way round. */
static int list_in_order(void) {
    static const uint8_t expected[12][3] = {
        {1, 2, 0}, {1, 3, 0}, {2, 1, 0}, {2, 3, 0}, {1, 4, 1}, {2, 4, 1},
        {3, 4, 1}, {1, 3, 2}, {1, 4, 2}, {2, 3, 2}, {2, 4, 2}, {3, 4, 2},
    };
    static const uint8_t stop_4_noticed[3][8] = {{5, 4}, {6, 2, 4}, {6, 1, 4}};
    struct gerzulan_counters tally = {0, 0, 0};
    uint8_t list[13][3], before[13][3];
    CHECK(gerzulan_bench_open(&other, 4, 1) == 0);
    for (uint8_t a = 4; a >= 1; a--) {
        const uint8_t start[8] = {1, a, 0, 0, 40, 0, 0, 0};
        CHECK(step(&other, start, 8, &tally) == 0);
    }
    CHECK(each_pair(2, 4, 4, 0) && each_pair(3, 4, 3, 1) && each_closes(3, GERZULAN_NEXT_ROUND));
    CHECK(each_pair(2, 3, 4, 0) && each_pair(3, 3, 2, 2));
    CHECK(run(&other, stop_4_noticed[0], 24, 3) == GERZULAN_EMPTY);
    CHECK(each_closes(2, GERZULAN_LAST_ROUND) && each_pair(2, 2, 3, 0));
    memset(list, 0xA5, sizeof list);
    memset(before, 0xA5, sizeof before);
    CHECK(GERZULAN_REFUSAL(gerzulan_bench_in_transit(&other, list[0], 35)) == 10);
    CHECK(memcmp(list, before, sizeof list) == 0);
    CHECK(gerzulan_bench_in_transit(&other, list[0], 39) == 12 && memcmp(list, expected, 36) == 0);
    CHECK(memcmp(list[12], before[12], 3) == 0);
    return 0;
}

static int reads(void) {
    static const uint32_t standing[2] = {100, 200};
    uint32_t out[3] = {7, 7, 7}, value = 0;
    uint8_t list[3], go = 9, process = 0;
    uint64_t sum = 0;
    int64_t difference = 0;
    CHECK(GERZULAN_REFUSAL(gerzulan_bench_global_data(&bench, 2, out, 3)) == 11 && out[0] == 7);
    CHECK(gerzulan_bench_global_data(&bench, 1, out, 3) == 3);
    CHECK(out[0] == 40 && out[1] == 25 && out[2] == 7);
    CHECK(GERZULAN_REFUSAL(gerzulan_bench_in_transit(&bench, list, 2)) == 10);
    CHECK(gerzulan_bench_in_transit(&bench, list, 3) == 1 && list[0] == 1 && list[1] == 2 && list[2] == 2);
    CHECK(gerzulan_total(2, out, 2, 3, standing, 2, &sum) == 0 && sum == 65);
    CHECK(gerzulan_go(2, out, 2, 3, &go) == 0 && go == 1);
    CHECK(gerzulan_lead(2, out, 2, 3, &process, &value) == 0 && process == 1 && value == 40);
    CHECK(gerzulan_change(2, out, 2, 3, 2, 30, &difference) == 0 && difference == -5);
    CHECK(gerzulan_change(2, out, 2, 1, 2, 30, &difference) == 12 && difference == -5);
    return 0;
}

/* An absent entry counts as its standing value. A list of standing values not of n is refused, read or not, and the sum is left. */
static int totals(void) {
    static const uint32_t entries[4] = {40, 25, 7, 1}, standing[4] = {100, 200, 300, 400};
    uint32_t most[16], least[16];
    uint64_t sum = 0;
    CHECK(gerzulan_total(3, entries, 3, 7, standing, 3, &sum) == 0 && sum == 72);
    CHECK(gerzulan_total(3, entries, 3, 5, standing, 3, &sum) == 0 && sum == 247);
    CHECK(gerzulan_total(3, entries, 3, 0, standing, 3, &sum) == 0 && sum == 600);
    sum = 9;
    for (size_t length = 0; length <= 4; length++) {
        CHECK(length == 3 || (gerzulan_total(3, entries, 3, 5, standing, length, &sum) == 10 && sum == 9));
        CHECK(length == 3 || (gerzulan_total(3, entries, 3, 7, standing, length, &sum) == 10 && sum == 9));
        CHECK(length == 3 || (gerzulan_total(3, entries, length, 5, standing, 3, &sum) == 10 && sum == 9));
        CHECK(gerzulan_total(3, entries, 3, 8, standing, length, &sum) == 5 && sum == 9);
        CHECK(gerzulan_total(0, entries, 3, 8, standing, length, &sum) == 1 && sum == 9);
    }
    for (int i = 0; i < 16; i++) {
        most[i] = UINT32_MAX;
        least[i] = 0;
    }
    /* All portions are diet portions here. */
    CHECK(gerzulan_total(16, most, 16, UINT16_MAX, least, 16, &sum) == 0 && sum == 16 * (uint64_t)UINT16_MAX);
    CHECK(gerzulan_total(16, least, 16, 0, most, 16, &sum) == 0 && sum == 16 * (uint64_t)UINT32_MAX);
    CHECK(gerzulan_total(16, least, 16, UINT16_MAX, most, 16, &sum) == 0 && sum == 0);
    return 0;
}

/* 53 in `decided` is a decision as 1 is, and no step changes it. */
static int decided_byte(void) {
    static const uint8_t start_1[8] = {1, 1, 0, 0, 40}, start_2[8] = {1, 2, 0, 0, 25}, send[8] = {2, 1, 2}, arrive[8] = {3, 1, 2, 0},
                         close_1[8] = {4, 1};
    struct gerzulan_counters tally = {0, 0, 0};
    uint32_t out[2] = {7, 7};
    uint8_t list[3];
    CHECK(gerzulan_bench_open(&other, 2, 1) == 0 && other.processes[0].decided == 0);
    CHECK(step(&other, start_1, 8, &tally) == 0);
    CHECK(GERZULAN_REFUSAL(gerzulan_bench_global_data(&other, 1, out, 2)) == 11 && out[0] == 7);
    other.processes[0].decided = 53;
    CHECK(gerzulan_bench_global_data(&other, 1, out, 2) == 1 && out[0] == 40 && out[1] == 0);
    CHECK(step(&other, send, 8, &tally) == 0);
    CHECK(gerzulan_bench_in_transit(&other, list, 3) == 1 && list[0] == 1 && list[1] == 2 && list[2] == 0);
    CHECK(step(&other, close_1, 8, &tally) == 7 && closing == GERZULAN_NO_CLOSE);
    CHECK(step(&other, start_2, 8, &tally) == 0);
    CHECK(step(&other, arrive, 8, &tally) == 0 && closing == GERZULAN_NO_CLOSE);
    CHECK(gerzulan_bench_global_data(&other, 2, out, 2) == 1 && out[0] == 40 && out[1] == 0);
    CHECK(other.processes[0].decided == 53 && other.processes[1].decided == 1);
    return 0;
}

/* A start has portions, then the diet portions among them, low bytes first, and an entry both. More diet portions than
 * portions are refused with 15: after 5, before 6 and 7, and in a run as 31. */
static int diet_of_starts(void) {
    static const uint8_t start_1[8] = {1, 1, 0, 0, 0x34, 0x12, 0x33, 0x12}, again_1[8] = {1, 1, 0, 0, 40, 0, 3, 0};
    static const uint8_t start_2[8] = {1, 2, 0, 0, 0xFF, 0xFF, 0xFF, 0xFF}, stop_2[8] = {5, 2}, close_1[8] = {4, 1};
    static const uint8_t send_and_arrive[4][8] = {{2, 1, 2}, {2, 2, 1}, {3, 1, 2, 1}, {3, 2, 1, 1}};
    uint8_t exceeds[8] = {1, 1, 0, 0, 0xFF, 0, 0, 1};
    struct gerzulan_counters tally = {0, 0, 0};
    uint32_t out[2] = {7, 7};
    CHECK(gerzulan_bench_open(&bench, 2, 1) == 0 && gerzulan_bench_open(&other, 2, 1) == 0);
    CHECK(step(&other, exceeds, 8, &tally) == 15 && closing == GERZULAN_NO_CLOSE);
    CHECK(run(&other, exceeds, 8, 1) == GERZULAN_REFUSED + 15 && progress.accepted == 0 && progress.taken == 0);
    CHECK(memcmp(&other, &bench, sizeof other) == 0 && tally.accepted == 0 && tally.refused == 1);
    CHECK(step(&other, exceeds, 7, &tally) == 3);
    exceeds[3] = 1;
    CHECK(step(&other, exceeds, 8, &tally) == 5);
    exceeds[3] = 0;
    CHECK(step(&other, start_1, 8, &tally) == 0 && step(&other, start_2, 8, &tally) == 0);
    CHECK(step(&other, again_1, 8, &tally) == 7 && step(&other, exceeds, 8, &tally) == 15);
    CHECK(run(&other, send_and_arrive[0], 32, 4) == GERZULAN_EMPTY && step(&other, stop_2, 8, &tally) == 0);
    exceeds[1] = 2;
    CHECK(step(&other, start_2, 8, &tally) == 6 && step(&other, exceeds, 8, &tally) == 15);
    CHECK(step(&other, close_1, 8, &tally) == 0 && closing == GERZULAN_NEXT_ROUND);
    CHECK(other.processes[0].estimate.values[0] == 0x12331234u && other.processes[0].estimate.values[1] == UINT32_MAX);
    CHECK(other.sent[0].values[0] == 0x12331234u && other.sent[0].present == 1);
    other.processes[0].decided = 1;
    CHECK(gerzulan_bench_global_data(&other, 1, out, 2) == 3);
    CHECK(out[0] == GERZULAN_VALUE(0x1234, 0x1233) && out[1] == UINT32_MAX);
    CHECK(GERZULAN_PORTIONS(out[0]) == 0x1234 && GERZULAN_DIET(out[0]) == 0x1233);
    CHECK(GERZULAN_PORTIONS(out[1]) == UINT16_MAX && GERZULAN_DIET(out[1]) == UINT16_MAX);
    return 0;
}

/* Estimates that differ in diet portions alone are not equal: process 1 of 2 decides in round 1 exactly where 2 has
 * sent what 1 holds. An entry with more diet portions than portions is no damage. */
static int diet_decides(void) {
    static const uint8_t records[4][8] = {{1, 1, 0, 0, 40, 0, 3}, {1, 2, 0, 0, 25}, {2, 1, 2}, {2, 2, 1}};
    static const uint8_t arrive[8] = {3, 2, 1, 1}, close_1[8] = {4, 1};
    static const uint32_t others[5] = {GERZULAN_VALUE(25, 0), GERZULAN_VALUE(25, 1), GERZULAN_VALUE(24, 0),
                                       GERZULAN_VALUE(0, 25), GERZULAN_VALUE(25, 26)};
    struct gerzulan_counters tally = {0, 0, 0};
    for (int i = 0; i < 5; i++) {
        CHECK(gerzulan_bench_open(&other, 2, 1) == 0);
        CHECK(run(&other, records[0], 32, 4) == GERZULAN_EMPTY && step(&other, arrive, 8, &tally) == 0);
        other.processes[0].estimate.present = 3;
        other.processes[0].estimate.values[1] = GERZULAN_VALUE(25, 0);
        other.sent[16] = other.processes[0].estimate;
        other.sent[16].values[1] = others[i];
        CHECK(step(&other, close_1, 8, &tally) == 0 && closing == (i == 0 ? GERZULAN_AGREED : GERZULAN_NEXT_ROUND));
        CHECK(other.processes[0].estimate.values[1] == GERZULAN_VALUE(25, 0));
    }
    return 0;
}

/* Carries `other` over, and gives the answer, or 99 where a byte of it has changed. */
static uint32_t carried(void) {
    bench = other;
    uint32_t answer = gerzulan_bench_carry(&other);
    return memcmp(&other, &bench, sizeof other) == 0 ? answer : 99;
}

/* Case 4 with a value of 65,535, carried over after its fifth record. Then 65,536 under an absent entry, under a present one of a row that
 * no round has opened, in the estimate of a crashed process; and a damaged bench, which is refused by 2 first. */
static int carry_over(void) {
    static const uint8_t most[8] = {1, 2, 0, 0, 0xFF, 0xFF};
    struct gerzulan_counters tally = {0, 0, 0};
    uint32_t out[2] = {7, 7};
    CHECK(gerzulan_bench_open(&other, 2, 1) == 0 && carried() == 0);
    CHECK(step(&other, records[0], 8, &tally) == 0 && step(&other, most, 8, &tally) == 0);
    CHECK(run(&other, records[2], 3 * 8, 9) == GERZULAN_EMPTY && carried() == 0);
    CHECK(run(&other, records[5], 4 * 8, 9) == GERZULAN_EMPTY && run(&other, records[10], 2 * 8, 9) == GERZULAN_EMPTY);
    CHECK(gerzulan_bench_global_data(&other, 1, out, 2) == 3 && out[0] == 40 && out[1] == 65535 && carried() == 0);
    other.sent[255].values[3] = 65536;
    CHECK(carried() == 0);
    other.sent[255].present = 2;
    CHECK(carried() == 0);
    other.sent[255].values[1] = 65535;
    CHECK(carried() == 0);
    other.sent[255].values[1] = 65536;
    CHECK(carried() == 16);
    other.sent[255].present = 0;
    other.processes[1].estimate.values[1] = 65536;
    CHECK(other.crashed == 2 && carried() == 16);
    other.processes[1].round = 3;
    CHECK(carried() == 2);
    other.processes[1].estimate.values[1] = 65535;
    CHECK(carried() == 2);
    return 0;
}

/* What is given to the four aggregates, and what they have written. */
static uint64_t sum;
static uint8_t going, leader;
static uint32_t most_of;
static int64_t difference;

/* Gives whether each call has its answer, and has written what was lent exactly where that is 0. */
static int four_are(uint8_t n, const uint32_t *entries, size_t length, uint16_t marks, const uint32_t *standing,
                    uint8_t process, const uint32_t *answers) {
    sum = 9, going = 9, leader = 9, most_of = 9, difference = 9;
    if (gerzulan_total(n, entries, length, marks, standing, 2, &sum) != answers[0] ||
        gerzulan_go(n, entries, length, marks, &going) != answers[1] ||
        gerzulan_lead(n, entries, length, marks, &leader, &most_of) != answers[2] ||
        gerzulan_change(n, entries, length, marks, process, UINT32_MAX, &difference) != answers[3]) {
        return 0;
    }
    return (answers[0] == 0) == (sum != 9) && (answers[1] == 0) == (going != 9) &&
           (answers[2] == 0) == (leader != 9) && (answers[2] == 0) == (most_of != 9) &&
           (answers[3] == 0) == (difference != 9);
}

/* Aggregates read portions. 15 for a present entry comes after 1, 5 and 10 and before 12, and no word under an absent
 * one is looked at. */
static int diet_of_aggregates(void) {
    static const uint32_t good[2] = {GERZULAN_VALUE(40, 40), GERZULAN_VALUE(41, 3)};
    static const uint32_t bad[2] = {GERZULAN_VALUE(40, 41), GERZULAN_VALUE(41, 3)};
    static const uint32_t ties[2] = {GERZULAN_VALUE(7, 0), GERZULAN_VALUE(7, 7)};
    static const uint32_t no_go[2] = {GERZULAN_VALUE(1, 1), GERZULAN_VALUE(0, 0)};
    static const uint32_t standing[2] = {0x10000, 0x20000};
    static const uint32_t all_0[4] = {0, 0, 0, 0}, all_1[4] = {1, 1, 1, 1}, all_5[4] = {5, 5, 5, 5};
    static const uint32_t all_10[4] = {10, 10, 10, 10}, all_15[4] = {15, 15, 15, 15}, no_such[4] = {15, 15, 15, 5};
    static const uint32_t absent[4] = {0, 0, 0, 12}, none[4] = {0, 0, 12, 12};
    CHECK(four_are(2, good, 2, 3, standing, 2, all_0) && sum == 81 && going == 1 && leader == 2 && most_of == 41);
    CHECK(difference == 41 - (int64_t)UINT32_MAX);
    CHECK(four_are(2, ties, 2, 3, standing, 1, all_0) && sum == 14 && leader == 2 && most_of == 7);
    CHECK(four_are(2, no_go, 2, 3, standing, 2, all_0) && sum == 1 && going == 0);
    CHECK(difference == -(int64_t)UINT32_MAX);
    CHECK(four_are(2, bad, 2, 3, standing, 2, all_15) && four_are(2, bad, 2, 1, standing, 2, all_15));
    CHECK(four_are(0, bad, 2, 3, standing, 1, all_1) && four_are(2, bad, 2, 7, standing, 1, all_5));
    CHECK(four_are(2, bad, 2, 3, standing, 3, no_such) && four_are(2, bad, 1, 3, standing, 1, all_10));
    CHECK(gerzulan_total(2, bad, 2, 3, standing, 1, &sum) == 10 && sum == 9);
    CHECK(four_are(2, bad, 2, 2, standing, 1, absent) && sum == 0x10000 + 41 && going == 0 && leader == 2);
    CHECK(four_are(2, bad, 2, 0, standing, 1, none) && sum == 0x30000 && going == 0);
    CHECK(gerzulan_change(2, good, 2, 3, 2, 0, &difference) == 0 && difference == 41);
    return 0;
}

/* Gives whether `process` leads the three entries with so many portions. */
static int leads(uint32_t first, uint32_t second, uint32_t third, uint16_t marks, uint8_t process, uint32_t portions) {
    uint32_t entries[3] = {first, second, third};
    leader = 9, most_of = 9;
    return gerzulan_lead(3, entries, 3, marks, &leader, &most_of) == 0 && leader == process && most_of == portions;
}

/* Most portions, then most diet portions, then the highest number, in any order; an absent entry does not lead. */
static int ties_of_the_lead(void) {
    const uint32_t plain = GERZULAN_VALUE(7, 0), some = GERZULAN_VALUE(7, 3), all = GERZULAN_VALUE(7, 7);
    const uint32_t more = GERZULAN_VALUE(8, 0), fewer = GERZULAN_VALUE(6, 6), top = GERZULAN_VALUE(65535, 65535);
    uint32_t sixteen[16];
    size_t i;
    CHECK(leads(all, more, fewer, 7, 2, 8) && leads(more, all, fewer, 7, 1, 8) && leads(fewer, all, more, 7, 3, 8));
    CHECK(leads(plain, all, some, 7, 2, 7) && leads(all, some, plain, 7, 1, 7) && leads(plain, some, all, 7, 3, 7));
    CHECK(leads(some, some, some, 7, 3, 7) && leads(some, some, plain, 7, 2, 7) && leads(all, some, all, 7, 3, 7));
    CHECK(leads(0, 0, 0, 7, 3, 0) && leads(top, top, GERZULAN_VALUE(65535, 65534), 7, 2, 65535));
    CHECK(leads(some, more, some, 5, 3, 7) && leads(some, all, plain, 5, 1, 7) && leads(some, some, some, 3, 2, 7));
    CHECK(leads(plain, top, top, 1, 1, 7) && leads(top, 0, top, 2, 2, 0));
    for (i = 0; i < 16; i++) {
        sixteen[i] = some;
    }
    CHECK(gerzulan_lead(16, sixteen, 16, 0xffff, &leader, &most_of) == 0 && leader == 16 && most_of == 7);
    CHECK(gerzulan_lead(16, sixteen, 16, 0x7ffe, &leader, &most_of) == 0 && leader == 15 && most_of == 7);
    return 0;
}

/* One week of a calendar. Gives whether the answer is as expected, and also every byte of the week: `expected`, or
 * untouched where the answer is not 0. */
static int week_is(const uint8_t *calendar, size_t length, uint16_t number, uint32_t answer, const uint8_t *expected) {
    struct gerzulan_week week;
    uint8_t bytes[33];
    memset(bytes, 0xA5, sizeof bytes);
    memcpy(&week, bytes, sizeof week);
    if (gerzulan_calendar_week(calendar, length, number, &week) != answer) {
        return 0;
    }
    return memcmp(&week, answer == 0 ? expected : bytes, sizeof week) == 0;
}

/* Site 7 is closed in week 42, days 294 to 300, and has term up to its Friday; site 9 has the weekend before it, and
 * site 3 the Friday before that; site 16 has all days, of which the last is Tuesday of week 9362. */
static int calendar(void) {
    static const uint8_t records[5][8] = {
        {7, 2, 0x26, 1, 0x2C, 1}, {7, 1, 0, 0, 0x2A, 1}, {9, 1, 0x24, 1, 0x25, 1}, {3, 1, 0x23, 1, 0x23, 1},
        {16, 1, 0, 0, 0xFF, 0xFF},
    };
    static const uint8_t faulty[7][8] = {
        {0, 1}, {17, 1}, {3, 0}, {3, 3}, {3, 1, 0x23, 1, 0x22, 1}, {3, 1, 0, 0, 0, 0, 1, 0}, {3, 1, 0, 0, 0, 0, 0, 1},
    };
    static const uint8_t three[33] = {3, 0, 0, 1, 0, 0, 0, 2, 0, 0, 0, 0, 0, 0, 0, 0, 3, 3, 7, 16};
    static const uint8_t only_7[33] = {1, 0, 0, 0, 0, 0, 0, 1, 0, 0, 0, 0, 0, 0, 0, 0, 0, 7};
    static const uint8_t only_16[33] = {1, 0, 0, 0, 0, 0, 0, 0, 0, 0, 0, 0, 0, 0, 0, 0, 1, 16};
    const uint8_t *bytes = records[0];
    CHECK(week_is(bytes, 40, 41, 0, three) && week_is(bytes, 32, 40, 0, only_7));
    CHECK(week_is(bytes, 40, 42, 0, only_16) && week_is(bytes, 40, 9362, 0, only_16));
    CHECK(week_is(bytes, 32, 42, 14, NULL) && week_is(bytes, 0, 41, 14, NULL));
    CHECK(week_is(bytes, 40, 9363, 14, NULL) && week_is(bytes, 40, UINT16_MAX, 14, NULL));
    for (size_t length = 1; length < 40; length++) {
        CHECK(length % 8 == 0 || (week_is(bytes, length, 41, 13, NULL) && week_is(bytes, length, 9363, 13, NULL)));
    }
    for (int i = 0; i < 35; i++) {
        uint8_t one_faulty[5][8];
        memcpy(one_faulty, records, sizeof records);
        memcpy(one_faulty[i / 7], faulty[i % 7], 8);
        CHECK(week_is(one_faulty[0], 40, 41, 13, NULL) && week_is(one_faulty[0], 40, 9363, 13, NULL));
    }
    return 0;
}

/* Slices of length 0 at NULL, in each call that takes one. */
static int null_of_length_0(void) {
    struct gerzulan_counters tally = {0, 0, 0};
    struct gerzulan_week week;
    CHECK(gerzulan_bench_open(&bench, 2, 1) == 0 && gerzulan_bench_open(&other, 2, 1) == 0);
    CHECK(step(&other, NULL, 0, &tally) == GERZULAN_REFUSAL_LENGTH && tally.refused == 1);
    CHECK(run(&other, NULL, 0, 0) == GERZULAN_EMPTY && progress.taken == 0);
    CHECK(memcmp(&other, &bench, sizeof other) == 0);
    CHECK(gerzulan_bench_in_transit(&other, NULL, 0) == 0);
    CHECK(gerzulan_bench_global_data(&other, 1, NULL, 0) == (uint64_t)GERZULAN_REFUSAL_SLICE << 32);
    CHECK(gerzulan_total(2, NULL, 0, 3, NULL, 0, &sum) == GERZULAN_REFUSAL_SLICE);
    CHECK(gerzulan_go(2, NULL, 0, 3, &going) == GERZULAN_REFUSAL_SLICE);
    CHECK(gerzulan_lead(2, NULL, 0, 3, &leader, &most_of) == GERZULAN_REFUSAL_SLICE);
    CHECK(gerzulan_change(2, NULL, 0, 3, 1, 7, &difference) == GERZULAN_REFUSAL_SLICE);
    CHECK(gerzulan_calendar_week(NULL, 0, 7, &week) == GERZULAN_REFUSAL_NO_SITE);
    return 0;
}

/* A full list is as long as the header says, and a byte less is refused. The low half of a refusal is 0. A longer list
 * of entries is refused; entries and standing values may be one array. In a run the steps before the refused record
 * stand. `received` is by round less one, without the process itself. */
static int as_the_header_says(void) {
    static uint8_t list[GERZULAN_LIST_BYTES];
    static const uint32_t three[3] = {1, 2, 3};
    static const uint8_t two_starts[2][8] = {{GERZULAN_START, 1}, {GERZULAN_START, 1}};
    CHECK(gerzulan_bench_open(&other, GERZULAN_MAX_PROCESSES, 15) == 0);
    memset(other.in_transit, 0xFF, sizeof other.in_transit);
    CHECK(gerzulan_bench_in_transit(&other, list, GERZULAN_LIST_BYTES) == GERZULAN_LIST_BYTES / 3);
    CHECK(gerzulan_bench_in_transit(&other, list, GERZULAN_LIST_BYTES - 1) == (uint64_t)GERZULAN_REFUSAL_SLICE << 32);
    CHECK(gerzulan_go(2, three, 3, 3, &going) == GERZULAN_REFUSAL_SLICE);
    CHECK(gerzulan_total(3, three, 3, 5, three, 3, &sum) == 0 && sum == 6);
    CHECK(gerzulan_bench_open(&other, 2, 1) == 0);
    CHECK(run(&other, two_starts[0], 16, 9) == GERZULAN_REFUSED + GERZULAN_REFUSAL_NOT_DUE && progress.taken == 8);
    CHECK(other.processes[0].round == 1 && progress.accepted == 1);
    CHECK(GERZULAN_RUN_REFUSAL(run(&other, two_starts[0], 16, 9)) == GERZULAN_REFUSAL_NOT_DUE);
    CHECK(GERZULAN_RUN_REFUSAL(GERZULAN_EMPTY) == 0 && GERZULAN_RUN_REFUSAL(GERZULAN_SPENT) == 0);
    CHECK(run(&other, two_starts[0], 7, 0) == GERZULAN_SPENT && run(&other, two_starts[0], 7, 1) == GERZULAN_REFUSED + 3);
    CHECK(run(&other, records[1], 5 * GERZULAN_RECORD_BYTES, 9) == GERZULAN_EMPTY);
    CHECK(other.processes[0].received[0] == 2 && other.processes[1].received[0] == 1);
    CHECK(strcmp(gerzulan_refusal_text(0), "accepted") == 0);
    CHECK(strcmp(gerzulan_refusal_text(17), gerzulan_refusal_text(99)) == 0);
    return 0;
}

int main(void) {
    if (one_by_one() || by_runs() || agreed() || last_round() || list_in_order() || reads() || totals() ||
        decided_byte() || diet_of_starts() || diet_decides() || carry_over() || diet_of_aggregates() ||
        ties_of_the_lead() || calendar() || null_of_length_0() || as_the_header_says()) {
        return 1;
    }
    puts("ok");
    return 0;
}
