/* The proved library, for C99 or later and C++, on x86-64 Linux: link target/staticlib/libgerzulan.a, which `make
 * library` writes, as by `cc -std=c11 -Iinclude host.c target/staticlib/libgerzulan.a`.
 *
 * A bench is n processes of which at most t may crash, the network between them and their failure detector. The host
 * holds it and lends it to each call; a record of 8 bytes is one event of one process. docs/FORMATS.md has the
 * records, the refusals and what to do about each, and the layout; examples/ has whole hosts.
 *
 * Numbers. Processes and sites count from 1 in records, parameters and answers; in bits, sets and arrays process p is
 * at p - 1. A `length` is the number of elements of the slice before it: bytes where that points to uint8_t, words of
 * 32 bits where it points to uint32_t.
 *
 * Refusals. Any values may be given: a damaged bench is refused, and `decided` may be any byte. A call that is refused
 * changes nothing that is lent, but for four things that it is there to write: the tally, a step's closing, a run's
 * progress, and in a run the bench, in which the steps before the refused record stand.
 *
 * Memory. Each pointer is to memory of its type and alignment (as declared below; bytes need none), which the call may
 * use until it returns; none is kept. What is only written may hold anything before, uninitialised memory too:
 * closing, progress, sum, go, process, value, difference, and `out` of the two calls that read a bench. All else must
 * be initialised, since it is read: the tally, the bench and a week (which are written back as they were where a call
 * refuses; `= {0}` will do; padding may hold anything), and what is const. A slice of length 0 is not touched, and
 * its pointer may be NULL; no other pointer may. What is written overlaps nothing else that is given; what is only
 * read may overlap (entries and standing values may be one array).
 *
 * Stack. Below its caller `gerzulan_bench_open` needs at most 80 KiB, step and run 44, global data 42, the list in
 * transit 23, carry 22, and the others half a KiB: measured by include/stack.c, in `make test`. GERZULAN_STACK_BYTES is
 * room for any, and for the dynamic linker, which may look up memcpy and memset at the first call and needed 3 KiB for
 * it. The library calls these two and nothing else, so nothing is allocated. A bench is 19,748 bytes.
 *
 * Threads. The library has no state of its own, no variable data and no locks. Calls may run at once in several
 * threads as long as none writes what another is lent; two calls on one bench are the host's to keep apart, unless
 * both are of those that take a const bench. */
#ifndef GERZULAN_H
#define GERZULAN_H

#include <stddef.h>
#include <stdint.h>

#ifdef __cplusplus
extern "C" {
#endif

/* The version. The first number changes where a layout, a prototype or what a call does changes; the second where
 * names are added. */
#define GERZULAN_VERSION_MAJOR 1
#define GERZULAN_VERSION_MINOR 0

/* The limits. The list in transit is never longer than GERZULAN_LIST_BYTES: 16 senders, 17 messages of each, 16
 * receivers, and 3 bytes for each of these. */
#define GERZULAN_MAX_PROCESSES 16
#define GERZULAN_RECORD_BYTES 8
#define GERZULAN_LIST_BYTES 13056
#define GERZULAN_STACK_BYTES 98304

/* The kinds of records, byte 0. The bytes after it are a, b, r, and a value of 4 bytes; unused ones are 0. The opening
 * record is the program's alone: no call takes it. */
#define GERZULAN_OPEN 0    /* a is n, b is t */
#define GERZULAN_START 1   /* a starts with the value */
#define GERZULAN_SEND 2    /* a sends what it owes b: its estimate of this round, or its decision */
#define GERZULAN_ARRIVE 3  /* a's estimate of round r, or for r 0 its decision, arrives at b */
#define GERZULAN_CLOSE 4   /* a closes its round */
#define GERZULAN_CRASH 5   /* a crashes */
#define GERZULAN_SUSPECT 6 /* the failure detector tells a that b has crashed */

/* The refusals. Each call says below which it gives, in the order in which it checks. */
#define GERZULAN_REFUSAL_SIZE 1u
#define GERZULAN_REFUSAL_DAMAGED 2u
#define GERZULAN_REFUSAL_LENGTH 3u
#define GERZULAN_REFUSAL_KIND 4u
#define GERZULAN_REFUSAL_FIELD 5u
#define GERZULAN_REFUSAL_CRASHED 6u
#define GERZULAN_REFUSAL_NOT_DUE 7u
#define GERZULAN_REFUSAL_WAITING 8u
#define GERZULAN_REFUSAL_CRASH_LIMIT 9u
#define GERZULAN_REFUSAL_SLICE 10u
#define GERZULAN_REFUSAL_UNDECIDED 11u
#define GERZULAN_REFUSAL_ABSENT 12u
#define GERZULAN_REFUSAL_CALENDAR 13u
#define GERZULAN_REFUSAL_NO_SITE 14u
#define GERZULAN_REFUSAL_DIET 15u
#define GERZULAN_REFUSAL_LARGE_VALUE 16u

/* A refusal in words. */
static inline const char *gerzulan_refusal_text(uint32_t number) {
    switch (number) {
    case 0: return "accepted";
    case 1: return "n is not 1 to 16, or t is not below n";
    case 2: return "the bench is damaged: its n, t, a round, a set or a mark is out of range";
    case 3: return "the record is not 8 bytes long";
    case 4: return "there is no record of this kind";
    case 5: return "a process, round or mark is out of range, a and b are the same, or an unused byte is not 0";
    case 6: return "the process that is to act has crashed";
    case 7: return "the protocol does not allow this now";
    case 8: return "the close still waits for an arrival or a suspicion";
    case 9: return "t processes have crashed already";
    case 10: return "the memory lent is too short, or there are not n entries";
    case 11: return "the process has not decided";
    case 12: return "the entry is absent, or all are";
    case 13: return "a record of the calendar is at fault, or the last one is not whole";
    case 14: return "no site takes part in this week";
    case 15: return "there are more diet portions than portions";
    case 16: return "a value from before diet portions is above 65,535";
    default: return "no refusal of this version has this number";
    }
}

/* A value: portions, and the diet portions among them, each 0 to 65,535, in one word as the record of a start has it,
 * low bytes first: portions in the low half, diet portions in the high half. */
#define GERZULAN_VALUE(portions, diet) ((uint32_t)(portions) | (uint32_t)(diet) << 16)
#define GERZULAN_PORTIONS(value) ((uint16_t)((value) & 65535u))
#define GERZULAN_DIET(value) ((uint16_t)((value) >> 16))

/* The global data: the entry of process p is absent where bit p - 1 of `present` is clear, else it has the value in
 * word p - 1. */
struct gerzulan_global_data {
    uint16_t present;
    uint32_t values[16];
};

/* One process. Sets are bits, process p at bit p - 1. */
struct gerzulan_process {
    uint8_t round;      /* 0 before its start */
    uint8_t decided;    /* not 0: it has decided. A step that decides writes 1. */
    uint16_t previous;  /* whom it expected in the round before; in round 1 all n */
    uint16_t current;   /* whom it expects in this round, itself too */
    uint16_t suspected; /* of whom the failure detector has told it that they crashed */
    uint16_t outbox;    /* to whom it still owes its estimate of this round, or once decided its decision */
    struct gerzulan_global_data estimate; /* what it holds; once decided, what it has decided on */
    uint16_t received[16]; /* of round r at r - 1: whose estimate was kept; at the close those in `current` count. Its
                            * own bit is never set. */
};

/* n processes of which t may crash, and the network between them. Processes past n stay as opened. */
struct gerzulan_bench {
    uint8_t n;
    uint8_t t;
    uint16_t crashed;
    struct gerzulan_process processes[16]; /* process p at p - 1 */
    struct gerzulan_global_data sent[256]; /* what process p held when its round r opened, and so sends in it: at
                                            * (p - 1) * 16 + r - 1 */
    uint16_t in_transit[272];              /* to whom message r of process p is on its way, at (p - 1) * 17 + r;
                                            * message 0 is its decision */
};

/* The tally of the records stepped. Each number remains at its largest value. Every refusal counts, that of a damaged
 * bench too. */
struct gerzulan_counters {
    uint32_t accepted;
    uint32_t refused;
    uint32_t crashes; /* crashes accepted, which `accepted` counts too */
};

/* How a round ended that was closed. Where both grounds to decide hold, it is the last round. */
#define GERZULAN_NO_CLOSE 0u   /* none was closed; a decision that arrives is no close, nor is a refused record */
#define GERZULAN_NEXT_ROUND 1u /* the next round opened */
#define GERZULAN_AGREED 2u     /* decided because the estimates agree */
#define GERZULAN_LAST_ROUND 3u /* decided because it was round t + 1 */

/* How far a run came: records accepted, how the last round that it closed ended, also where a record was refused after
 * that, and bytes of the schedule taken, 8 for each record accepted. Padding may hold anything. */
struct gerzulan_progress {
    uint32_t accepted;
    uint8_t closing;
    size_t taken;
};

/* The sites that take part in a week, numbered as processes 1 to n in rising number of site, both ways; 0 for none. */
struct gerzulan_week {
    uint8_t n;
    uint8_t process_of[16]; /* of site s at s - 1 */
    uint8_t site_of[16];    /* of process p at p - 1 */
};

/* The layout that the library was built with, checked where the header is read. */
#if defined(__cplusplus) && __cplusplus >= 201103L
#define GERZULAN_LAYOUT(fact) static_assert(fact, "not the layout of the library")
#elif defined(__STDC_VERSION__) && __STDC_VERSION__ >= 201112L
#define GERZULAN_LAYOUT(fact) _Static_assert(fact, "not the layout of the library")
#else
#define GERZULAN_LAYOUT(fact) extern char gerzulan_layout[(fact) ? 1 : -1]
#endif
#define GERZULAN_FIELD(type, field, offset, bytes) \
    GERZULAN_LAYOUT(offsetof(struct type, field) == (offset) && sizeof(((struct type *)0)->field) == (bytes))
GERZULAN_FIELD(gerzulan_global_data, present, 0, 2);
GERZULAN_FIELD(gerzulan_global_data, values, 4, 64);
GERZULAN_LAYOUT(sizeof(struct gerzulan_global_data) == 68);
GERZULAN_FIELD(gerzulan_process, round, 0, 1);
GERZULAN_FIELD(gerzulan_process, decided, 1, 1);
GERZULAN_FIELD(gerzulan_process, previous, 2, 2);
GERZULAN_FIELD(gerzulan_process, current, 4, 2);
GERZULAN_FIELD(gerzulan_process, suspected, 6, 2);
GERZULAN_FIELD(gerzulan_process, outbox, 8, 2);
GERZULAN_FIELD(gerzulan_process, estimate, 12, 68);
GERZULAN_FIELD(gerzulan_process, received, 80, 32);
GERZULAN_LAYOUT(sizeof(struct gerzulan_process) == 112);
GERZULAN_FIELD(gerzulan_bench, n, 0, 1);
GERZULAN_FIELD(gerzulan_bench, t, 1, 1);
GERZULAN_FIELD(gerzulan_bench, crashed, 2, 2);
GERZULAN_FIELD(gerzulan_bench, processes, 4, 1792);
GERZULAN_FIELD(gerzulan_bench, sent, 1796, 17408);
GERZULAN_FIELD(gerzulan_bench, in_transit, 19204, 544);
GERZULAN_LAYOUT(sizeof(struct gerzulan_bench) == 19748);
GERZULAN_FIELD(gerzulan_counters, accepted, 0, 4);
GERZULAN_FIELD(gerzulan_counters, refused, 4, 4);
GERZULAN_FIELD(gerzulan_counters, crashes, 8, 4);
GERZULAN_LAYOUT(sizeof(struct gerzulan_counters) == 12);
GERZULAN_FIELD(gerzulan_progress, accepted, 0, 4);
GERZULAN_FIELD(gerzulan_progress, closing, 4, 1);
GERZULAN_FIELD(gerzulan_progress, taken, 8, 8);
GERZULAN_LAYOUT(sizeof(struct gerzulan_progress) == 16);
GERZULAN_FIELD(gerzulan_week, n, 0, 1);
GERZULAN_FIELD(gerzulan_week, process_of, 1, 16);
GERZULAN_FIELD(gerzulan_week, site_of, 17, 16);
GERZULAN_LAYOUT(sizeof(struct gerzulan_week) == 33);
#undef GERZULAN_FIELD
#undef GERZULAN_LAYOUT

/* Opens a bench of n processes, of which t may crash, in place of *bench, which may hold any values but must be
 * initialised. All fields but n and t become 0. 0, or 1 with *bench as it was. */
uint32_t gerzulan_bench_open(struct gerzulan_bench *bench, uint8_t n, uint8_t t);

/* Carries over a bench that was begun before diet portions, when a value was one number of 32 bits: what was held and
 * sent then are portions from now on, and no diet portions. 0; or 2, a damaged bench; or 16, a value above 65,535 is
 * present in some process's estimate, crashed or not, or in `sent`. No byte of *bench changes in any case. For 0 it
 * goes on by the calls below; for 16 it must not, since they would read other numbers in its words. Carry a bench
 * once: nothing in it shows that it was carried, but one that has diet portions is refused by 16. */
uint32_t gerzulan_bench_carry(struct gerzulan_bench *bench);

/* One record of `length` bytes, which must be 8, with the tally. 0, or its refusal, 2, 3, 4, 5, 15, 6, 7, 8 or 9, with
 * *bench as it was; the tally counts it in either case. 15 is of a start of one of the n processes whose diet portions
 * exceed its portions, whatever the bench holds; and a bench that holds such an entry is stepped like any other.
 * *closing is written each time: how the round that the record closed ended, or GERZULAN_NO_CLOSE. */
uint32_t gerzulan_bench_step(struct gerzulan_bench *bench, const uint8_t *record, size_t length,
                             struct gerzulan_counters *tally, uint8_t *closing);

/* A run of a schedule of `length` bytes, record after record, with a budget of records. A damaged bench is refused at
 * once. Else it ends where the schedule is empty, else where the budget is spent, else at the first record that is
 * refused; the steps before stand. Each field of *progress is written each time, with 0 for a damaged bench. No tally
 * is kept. Why it ended: */
#define GERZULAN_EMPTY 0u    /* the schedule is empty */
#define GERZULAN_SPENT 1u    /* the budget is spent */
#define GERZULAN_REFUSED 16u /* and the number of the refusal: of the record at `taken`, 19 to 25 or 31; or 18, of a
                              * damaged bench */
#define GERZULAN_RUN_REFUSAL(ended) ((ended) > GERZULAN_REFUSED ? (ended) - GERZULAN_REFUSED : 0u)
uint32_t gerzulan_bench_run(struct gerzulan_bench *bench, const uint8_t *schedule, size_t length, uint32_t budget,
                            struct gerzulan_progress *progress);

/* The two reading calls give what is asked for in the low half and 0 in the high half; or 0 in the low half and in the
 * high half the number of their refusal. */
#define GERZULAN_REFUSAL(answer) ((uint32_t)((answer) >> 32))

/* Writes the values of the n entries that a process, from 1, has decided on, a word each, absent as 0, and gives their
 * marks: bit p - 1 is set where the entry of process p is present. `length` is in words, at least n; words past n
 * stay. Refusals 2, 5, 10, 11. */
uint64_t gerzulan_bench_global_data(const struct gerzulan_bench *bench, uint8_t process, uint32_t *out, size_t length);

/* Writes sender, receiver and round of each message in transit, a byte each, and gives how many messages there are: by
 * round with decisions first as round 0, then by sender, then by receiver, so that the same messages are the same
 * bytes. It has the messages of processes 1 to n and rounds up to t + 1; no others are made. `length` is in bytes, at
 * least 3 for each message; GERZULAN_LIST_BYTES always suffice. Bytes past the list stay. Refusals 2, 10. */
uint64_t gerzulan_bench_in_transit(const struct gerzulan_bench *bench, uint8_t *out, size_t length);

/* Aggregates of n entries with their marks, as gerzulan_bench_global_data gives them: 0, and the words after them are
 * written; or a refusal, 1, 5, 10, 15 or 12, in this order. Lengths are in words and must be n: a longer list is
 * refused by 10 as a shorter one is. 5 is a mark past n, or no such process; 15 a present entry that has more diet
 * portions than portions. No word under an absent entry is read. What they give is of portions.
 * The total is lent n standing values of 32 bits too, one a process, and counts an absent entry as its process's; it
 * reads no other.
 * *go is 1 where no entry is absent and each has at least 1 portion, else 0.
 * The lead is the process, from 1, whose present entry has the most portions; of equal portions the one with more diet
 * portions, of those equal too the one with the highest number; *value is its portions. 12 where all entries are
 * absent.
 * The change is an entry's portions less the standing value, -4,294,967,295 to 65,535; 12 where it is absent. */
uint32_t gerzulan_total(uint8_t n, const uint32_t *entries, size_t length, uint16_t marks, const uint32_t *standing,
                        size_t standing_length, uint64_t *sum);
uint32_t gerzulan_go(uint8_t n, const uint32_t *entries, size_t length, uint16_t marks, uint8_t *go);
uint32_t gerzulan_lead(uint8_t n, const uint32_t *entries, size_t length, uint16_t marks, uint8_t *process,
                       uint32_t *value);
uint32_t gerzulan_change(uint8_t n, const uint32_t *entries, size_t length, uint16_t marks, uint8_t process,
                         uint32_t standing, int64_t *difference);

/* The sites that take part in a week, by a calendar of 8-byte records, `length` bytes in all: site, kind (1 term, 2
 * closed), first and last day, each 16 bits, low byte first, and two zero bytes. Day 0 is Monday 1 January 2024, week
 * w begins on day 7w, and a site takes part that is open on one of Monday to Friday: in a term record of its own and
 * in no closed one. 0, or a refusal with *out as it was: 13, some record is at fault or the last one partial; 14,
 * nobody takes part. */
uint32_t gerzulan_calendar_week(const uint8_t *calendar, size_t length, uint16_t week, struct gerzulan_week *out);

#ifdef __cplusplus
}
#endif

#endif
