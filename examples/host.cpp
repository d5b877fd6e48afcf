// A host in C++: twelve processes, their network and their failure detector in one program. 5 crashes between two
// sends, 9 before its first; the others agree on one list of values all the same. After `make library`, from the root:
//     c++ -std=c++11 -Iinclude examples/host.cpp target/staticlib/libgerzulan.a -o target/host && target/host
#include "gerzulan.h"
#include <iostream>
#include <stdexcept>
#include <string>
#include <vector>

// Throws where the library refuses what it should accept.
void must(const std::string &what, uint32_t refusal) {
    if (refusal != 0) throw std::runtime_error(what + " is refused: " + gerzulan_refusal_text(refusal));
}

// Process p is bit p - 1 of a set, and element p - 1 of an array.
bool has(uint16_t set, int p) { return set >> (p - 1) & 1; }

class Host {
public:
    static const uint8_t n = 12, t = 3;
    gerzulan_counters tally = {0, 0, 0};

    Host() : bench(1) { must("opening", gerzulan_bench_open(bench.data(), n, t)); }
    const gerzulan_process &process(int p) const { return bench[0].processes[p - 1]; }
    bool runs(int p) const { return !has(bench[0].crashed, p); }

    // One event of one process: a record of 8 bytes. Gives 0, or the number of its refusal.
    uint32_t event(int kind, int a, int b = 0, int round = 0, uint32_t value = 0) {
        const uint8_t record[] = {uint8_t(kind), uint8_t(a), uint8_t(b), uint8_t(round),
                                  uint8_t(value), uint8_t(value >> 8), uint8_t(value >> 16), uint8_t(value >> 24)};
        uint8_t closing; // how the round ended that this record closed; not needed here
        return gerzulan_bench_step(bench.data(), record, sizeof record, &tally, &closing);
    }

    // Each process that runs sends what it owes, what is on its way to one arrives, each is told of the crashes, and
    // each closes its round if it can. Gives whether all have decided.
    bool turn() {
        for (int p = 1; p <= n; p++)
            for (int to = 1; to <= n; to++)
                if (runs(p) && has(process(p).outbox, to)) must("a send", event(GERZULAN_SEND, p, to));
        std::vector<uint8_t> list(GERZULAN_LIST_BYTES); // sender, receiver and round of each message
        const uint64_t messages = gerzulan_bench_in_transit(bench.data(), list.data(), list.size());
        must("the list", GERZULAN_REFUSAL(messages));
        for (size_t m = 0; m < 3 * messages; m += 3)
            if (runs(list[m + 1])) must("an arrival", event(GERZULAN_ARRIVE, list[m], list[m + 1], list[m + 2]));
        bool all_decided = true;
        for (int p = 1; p <= n; p++) {
            if (!runs(p) || process(p).decided) continue;
            for (int other = 1; other <= n; other++)
                if (!runs(other) && !has(process(p).suspected, other))
                    must("a suspicion", event(GERZULAN_SUSPECT, p, other));
            const uint32_t refusal = event(GERZULAN_CLOSE, p);
            if (refusal != GERZULAN_REFUSAL_WAITING) must("a close", refusal); // one that waits is tried again
            all_decided = all_decided && process(p).decided;
        }
        return all_decided;
    }

    // What process p has decided on, a word each, and which entries are present.
    uint16_t decision(int p, std::vector<uint32_t> &entries) const {
        const uint64_t marks = gerzulan_bench_global_data(bench.data(), uint8_t(p), entries.data(), entries.size());
        must("global data", GERZULAN_REFUSAL(marks));
        return uint16_t(marks);
    }

private:
    std::vector<gerzulan_bench> bench; // one, on the heap; the library keeps nothing
};

int main() try {
    Host host;
    for (int p = 1; p <= host.n; p++) must("a start", host.event(GERZULAN_START, p, 0, 0, GERZULAN_VALUE(10 * p, p)));
    for (int to = 1; to <= 4; to++) must("a send", host.event(GERZULAN_SEND, 5, to));
    for (int p : {5, 9}) must("a crash", host.event(GERZULAN_CRASH, p));
    while (!host.turn()) {} // ends: it is proved that a system at rest has decided
    std::vector<uint32_t> entries(host.n), first(host.n), standing;
    uint16_t marks = host.decision(1, first);
    for (int p = 1; p <= host.n; p++) {
        standing.push_back(8u * p); // what counts in the total where the entry of p is absent
        if (!host.runs(p)) continue;
        marks = host.decision(p, entries);
        if (entries != first) throw std::runtime_error("the decisions differ");
        std::cout << "process " << p << " decided in round " << int(host.process(p).round) << ":";
        for (int q = 1; q <= host.n; q++) {
            if (!has(marks, q)) std::cout << " -";
            else std::cout << ' ' << GERZULAN_PORTIONS(entries[q - 1]) << '/' << GERZULAN_DIET(entries[q - 1]);
        }
        std::cout << '\n';
    }
    uint64_t total;
    must("the total", gerzulan_total(host.n, entries.data(), host.n, marks, standing.data(), host.n, &total));
    std::cout << host.tally.accepted << " records, " << host.tally.crashes << " crashes, total " << total << std::endl;
    return std::cout ? 0 : 1;
} catch (const std::exception &error) {
    std::cerr << "host: " << error.what() << '\n';
    return 1;
}
