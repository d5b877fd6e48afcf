/* How much stack each call needs below its caller: each is made on a stack of its own that was painted before, on a
 * bench in many states, with records that are accepted and refused, and the paint that is gone is counted, less that
 * of a call that does nothing. memcpy and memset are looked up before. Prints a line for each call, and fails where
 * one needs more than the header says. Linux, C11. */
#define _GNU_SOURCE
#include "gerzulan.h"

#include <stdio.h>
#include <string.h>
#include <ucontext.h>

#define STACK (1u << 20)
#define PAINT 0xA5

static uint8_t stack[STACK] __attribute__((aligned(64)));
static ucontext_t here, there;

static struct gerzulan_bench bench;
static struct gerzulan_counters tally;
static struct gerzulan_progress progress;
static struct gerzulan_week week;
static uint8_t record[GERZULAN_RECORD_BYTES], closing, byte, size_n, size_t_, list[GERZULAN_LIST_BYTES];
static uint32_t words[GERZULAN_MAX_PROCESSES], word;
static uint64_t sum;
static int64_t difference;
static size_t length = GERZULAN_RECORD_BYTES, list_length = GERZULAN_LIST_BYTES, n_words = GERZULAN_MAX_PROCESSES;
static uint16_t marks, week_number;
static uint8_t process;

static void nothing(void) {}
static void open(void) { gerzulan_bench_open(&bench, size_n, size_t_); }
static void carry(void) { gerzulan_bench_carry(&bench); }
static void step(void) { gerzulan_bench_step(&bench, record, length, &tally, &closing); }
static void run(void) { gerzulan_bench_run(&bench, record, length, 1, &progress); }
static void global_data(void) { gerzulan_bench_global_data(&bench, process, words, n_words); }
static void in_transit(void) { gerzulan_bench_in_transit(&bench, list, list_length); }
static void total(void) { gerzulan_total(bench.n, words, bench.n, marks, words, bench.n, &sum); }
static void go(void) { gerzulan_go(bench.n, words, bench.n, marks, &byte); }
static void lead(void) { gerzulan_lead(bench.n, words, bench.n, marks, &byte, &word); }
static void change(void) { gerzulan_change(bench.n, words, bench.n, marks, process, 7, &difference); }
static void calendar(void) { gerzulan_calendar_week(list, list_length, week_number, &week); }

/* Each with the KiB that the header grants it. */
static struct {
    const char *name;
    void (*call)(void);
    double granted;
    size_t bytes;
} calls[] = {
    {"nothing", nothing, 0, 0},
    {"gerzulan_bench_open", open, 80, 0},
    {"gerzulan_bench_carry", carry, 22, 0},
    {"gerzulan_bench_step", step, 44, 0},
    {"gerzulan_bench_run", run, 44, 0},
    {"gerzulan_bench_global_data", global_data, 42, 0},
    {"gerzulan_bench_in_transit", in_transit, 23, 0},
    {"gerzulan_total", total, 0.5, 0},
    {"gerzulan_go", go, 0.5, 0},
    {"gerzulan_lead", lead, 0.5, 0},
    {"gerzulan_change", change, 0.5, 0},
    {"gerzulan_calendar_week", calendar, 0.5, 0},
};
enum { NOTHING, OPEN, CARRY, STEP, RUN, GLOBAL_DATA, IN_TRANSIT, TOTAL, GO, LEAD, CHANGE, CALENDAR, CALLS };

/* Makes one call on the painted stack, and keeps the most that it has used. */
static void measure(int i) {
    size_t left = 0;
    memset(stack, PAINT, sizeof stack);
    getcontext(&there);
    there.uc_stack.ss_sp = stack;
    there.uc_stack.ss_size = sizeof stack;
    there.uc_link = &here;
    makecontext(&there, calls[i].call, 0);
    swapcontext(&here, &there);
    while (left < STACK && stack[left] == PAINT) {
        left++;
    }
    if (STACK - left > calls[i].bytes) {
        calls[i].bytes = STACK - left;
    }
}

/* A random number, the same in each run. */
static uint32_t draw(uint32_t below) {
    static uint64_t state = 1;
    state ^= state << 13, state ^= state >> 7, state ^= state << 17;
    return (uint32_t)(state >> 32) % below;
}

/* A record of any kind, mostly of processes of the bench; now and then a field too large, or not 8 bytes. */
static void any_record(void) {
    uint8_t kind = (uint8_t)(draw(40) == 0 ? draw(256) : 1 + draw(6)), n = (uint8_t)(bench.n + (draw(30) == 0));
    memset(record, 0, sizeof record);
    record[0] = kind;
    record[1] = (uint8_t)(1 + draw(n ? n : 1));
    if (kind == GERZULAN_SEND || kind == GERZULAN_ARRIVE || kind == GERZULAN_SUSPECT) {
        record[2] = (uint8_t)(1 + draw(n ? n : 1));
    }
    record[3] = (uint8_t)(kind == GERZULAN_ARRIVE ? draw(4) : 0);
    record[4] = (uint8_t)(kind == GERZULAN_START ? 1 + draw(200) : 0);
    record[6] = (uint8_t)(kind == GERZULAN_START && draw(20) == 0 ? draw(256) : 0);
    length = draw(100) == 0 ? draw(8) : 8;
}

/* The reading calls and aggregates on the bench as it stands. */
static void read_all(void) {
    process = (uint8_t)draw(bench.n + 2u);
    marks = (uint16_t)draw(1u << bench.n);
    n_words = draw(5) ? GERZULAN_MAX_PROCESSES : draw(17);
    list_length = draw(5) ? GERZULAN_LIST_BYTES : draw(50);
    measure(GLOBAL_DATA), measure(IN_TRANSIT), measure(CARRY);
    measure(TOTAL), measure(GO), measure(LEAD), measure(CHANGE);
}

static void a_calendar(void) {
    size_t i;
    for (i = 0; i + 8 <= 80; i += 8) {
        memset(list + i, 0, 8);
        list[i] = (uint8_t)(1 + draw(draw(20) ? 16 : 17)), list[i + 1] = (uint8_t)(1 + draw(draw(20) ? 2 : 3));
        list[i + 2] = (uint8_t)draw(30), list[i + 4] = (uint8_t)(25 + draw(60));
    }
    list_length = draw(10) ? 80 : draw(80);
    week_number = (uint16_t)draw(20);
    measure(CALENDAR);
}

int main(void) {
    int i, j, failed = 0;
    size_n = 1, open(), step();
    for (i = 0; i < 60; i++) {
        size_n = (uint8_t)(i % 20 == 19 ? 17 : 1 + draw(16)), size_t_ = (uint8_t)draw(size_n);
        measure(NOTHING), measure(OPEN);
        for (j = 0; j < 40; j++) {
            any_record();
            measure(j % 2 ? STEP : RUN);
        }
        read_all();
        bench.processes[draw(16)].decided = 1;
        read_all();
        a_calendar();
        if (i % 10 == 9) {
            bench.crashed = 0xFFFF, bench.n = 3;
            measure(STEP), measure(RUN), measure(CARRY), measure(GLOBAL_DATA), measure(IN_TRANSIT);
        }
    }
    for (i = 1; i < CALLS; i++) {
        size_t bytes = calls[i].bytes - calls[NOTHING].bytes;
        int more = (double)bytes > 1024 * calls[i].granted || bytes > GERZULAN_STACK_BYTES;
        printf("%-28s %6zu bytes of stack%s\n", calls[i].name, bytes, more ? ", more than the header says" : "");
        failed |= more;
    }
    return failed;
}
