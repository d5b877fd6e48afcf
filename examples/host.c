/* A host in C: twelve processes, their network and their failure detector in one program. 5 crashes between two sends,
 * 9 before its first; the others agree on one list of values all the same. After `make library`, from the root:
 *     cc -Iinclude examples/host.c target/staticlib/libgerzulan.a -o target/host && target/host */
#include "gerzulan.h"
#include <stdio.h>
#include <stdlib.h>
#include <string.h>

enum { N = 12, T = 3 };
static struct gerzulan_bench bench; /* the library keeps nothing: the host holds the bench and lends it */
static struct gerzulan_counters tally;

/* Ends the program where the library refuses what it should accept. */
static void must(const char *what, uint32_t refusal) {
    if (refusal != 0) {
        fprintf(stderr, "host: %s is refused by %u: %s\n", what, (unsigned)refusal, gerzulan_refusal_text(refusal));
        exit(EXIT_FAILURE);
    }
}

/* One event of one process: a record of 8 bytes. Gives 0, or the number of its refusal. */
static uint32_t event(uint8_t kind, uint8_t a, uint8_t b, uint8_t round, uint32_t value) {
    const uint8_t record[GERZULAN_RECORD_BYTES] = {kind, a, b, round, (uint8_t)value, (uint8_t)(value >> 8),
                                                   (uint8_t)(value >> 16), (uint8_t)(value >> 24)};
    uint8_t closing; /* how the round ended that this record closed; not needed here */
    return gerzulan_bench_step(&bench, record, sizeof record, &tally, &closing);
}

/* Process p is bit p - 1 of a set, and element p - 1 of an array. */
static int has(uint16_t set, int p) { return set >> (p - 1) & 1; }
static int runs(int p) { return !has(bench.crashed, p); }

/* Each process that runs sends what it owes, what is on its way to one arrives, each is told of the crashes, and each
 * closes its round if it can. Gives how many have yet to decide. */
static int turn(void) {
    static uint8_t list[GERZULAN_LIST_BYTES]; /* sender, receiver and round of each message */
    int undecided = 0;
    for (uint8_t p = 1; p <= N; p++)
        for (uint8_t to = 1; to <= N; to++)
            if (runs(p) && has(bench.processes[p - 1].outbox, to)) must("a send", event(GERZULAN_SEND, p, to, 0, 0));
    const uint64_t messages = gerzulan_bench_in_transit(&bench, list, sizeof list);
    must("the list", GERZULAN_REFUSAL(messages));
    for (const uint8_t *m = list; m < list + 3 * messages; m += 3)
        if (runs(m[1])) must("an arrival", event(GERZULAN_ARRIVE, m[0], m[1], m[2], 0));
    for (uint8_t p = 1; p <= N; p++) {
        if (!runs(p) || bench.processes[p - 1].decided) continue;
        for (uint8_t other = 1; other <= N; other++)
            if (!runs(other) && !has(bench.processes[p - 1].suspected, other))
                must("a suspicion", event(GERZULAN_SUSPECT, p, other, 0, 0));
        const uint32_t refusal = event(GERZULAN_CLOSE, p, 0, 0, 0);
        if (refusal != GERZULAN_REFUSAL_WAITING) must("a close", refusal); /* one that waits is tried again */
        undecided += !bench.processes[p - 1].decided;
    }
    return undecided;
}

int main(void) {
    uint32_t entries[N], first[N], standing[N];
    uint64_t marks = 0, total;
    must("opening", gerzulan_bench_open(&bench, N, T));
    for (uint8_t p = 1; p <= N; p++) must("a start", event(GERZULAN_START, p, 0, 0, GERZULAN_VALUE(10 * p, p)));
    for (uint8_t to = 1; to <= 4; to++) must("a send", event(GERZULAN_SEND, 5, to, 0, 0));
    must("a crash", event(GERZULAN_CRASH, 5, 0, 0, 0));
    must("a crash", event(GERZULAN_CRASH, 9, 0, 0, 0));
    while (turn() > 0) {} /* ends: it is proved that a system at rest has decided */
    for (int p = 1; p <= N; p++) {
        standing[p - 1] = 8u * (uint32_t)p; /* what counts in the total where the entry of p is absent */
        if (!runs(p)) continue;
        marks = gerzulan_bench_global_data(&bench, (uint8_t)p, entries, N);
        must("global data", GERZULAN_REFUSAL(marks));
        if (p == 1) memcpy(first, entries, sizeof first);
        if (memcmp(first, entries, sizeof first) != 0) return puts("the decisions differ"), EXIT_FAILURE;
        printf("process %d decided in round %d:", p, bench.processes[p - 1].round);
        for (int q = 1; q <= N; q++) {
            if (!has((uint16_t)marks, q)) printf(" -");
            else printf(" %d/%d", GERZULAN_PORTIONS(entries[q - 1]), GERZULAN_DIET(entries[q - 1]));
        }
        putchar('\n');
    }
    must("the total", gerzulan_total(N, entries, N, (uint16_t)marks, standing, N, &total));
    printf("%u records, %u crashes, total %lu\n", tally.accepted, tally.crashes, total);
    return fflush(stdout) == 0 ? EXIT_SUCCESS : EXIT_FAILURE;
}
