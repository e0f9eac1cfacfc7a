/* Makes the calls of `bench_calls probe` from C, in the same order: `binding WORD CALLS`, where the word is observe,
 * stamp, receive or note (a stamp, an observation that emits, and the taking of its note). Two more words make a
 * checker's calls: take (notes of all processes but the last, so that no cut is found), and report (the same, and what
 * each note tells). Three more are of all pairs of processes: pairs (the same notes), pair (and what each note tells
 * one question), and save (and the checker is saved and loaded at each 1,000th note).
 * Build: cc -O2 -o binding bench/binding.c bindings/out/libwullaphi.a */
#include "../bindings/wullaphi.h"

#include <stdio.h>
#include <stdlib.h>
#include <string.h>
#include <time.h>

#define PROCS 16

static wcp_probe probes[PROCS];
static uint32_t state = 1;
static wcp_checker checker = WCP_CHECKER_NONE;
static unsigned long refused;

static uint32_t number(void)
{
    state = state * 1664525u + 1013904223u;
    return state >> 4;
}

static void pair(uint32_t *process, uint32_t *other)
{
    uint32_t drawn = number() >> 8;
    *process = drawn % PROCS;
    *other = (*process + 1 + drawn / PROCS % (PROCS - 1)) % PROCS;
}

static void observe(void)
{
    uint32_t process;
    uint32_t other;
    pair(&process, &other);
    (void)wcp_probe_observe(&probes[process], other < process);
}

static void stamp(void)
{
    uint32_t process;
    uint32_t other;
    wcp_stamp made;
    pair(&process, &other);
    (void)wcp_probe_stamp(&probes[process], other, &made);
}

static void receive(void)
{
    uint32_t process;
    uint32_t other;
    wcp_stamp made;
    pair(&process, &other);
    if (wcp_probe_stamp(&probes[process], other, &made) == WCP_DONE) {
        (void)wcp_probe_receive(&probes[other], &made);
    }
}

static void note(void)
{
    uint32_t process;
    uint32_t other;
    wcp_stamp made;
    wcp_note given;
    pair(&process, &other);
    (void)wcp_probe_stamp(&probes[process], other, &made);
    (void)wcp_probe_observe(&probes[process], 1);
    (void)wcp_probe_next(&probes[process], 0, &given);
}

static void take(void)
{
    uint32_t process = number() % (PROCS - 1);
    uint32_t other = PROCS - 1;
    wcp_stamp made;
    wcp_note given;
    (void)wcp_probe_stamp(&probes[process], other, &made);
    (void)wcp_probe_observe(&probes[process], 1);
    (void)wcp_probe_next(&probes[process], 0, &given);
    refused += wcp_checker_take(&checker, &given) != WCP_DONE;
}

static void report(void)
{
    take();
    refused += wcp_checker_report(&checker) != WCP_UNDECIDED;
}

static void pair_report(void)
{
    take();
    refused += wcp_checker_report_of(&checker, number() % 120) == WCP_OUT_OF_RANGE;
}

static void save(void)
{
    static uint8_t bytes[1u << 24];
    static unsigned long count;
    uint64_t written;
    take();
    if (++count % 1000 == 0) {
        refused += wcp_checker_save(&checker, bytes, sizeof bytes, &written) != WCP_DONE;
        (void)wcp_checker_end(&checker);
        refused += wcp_checker_load(&checker, bytes, written) != WCP_DONE;
    }
}

int main(int words, char **word)
{
    static const struct {
        const char *word;
        void (*call)(void);
    } calls[] = {{"observe", observe}, {"stamp", stamp}, {"receive", receive}, {"note", note},
               {"take", take}, {"report", report}, {"pairs", take}, {"pair", pair_report}, {"save", save}};
    int is_panel = words > 1 && (strcmp(word[1], "pairs") == 0 || strcmp(word[1], "pair") == 0
                                 || strcmp(word[1], "save") == 0);
    unsigned long rounds = words > 2 ? strtoul(word[2], NULL, 10) : 0;
    unsigned long round;
    unsigned long long events = 0;
    unsigned long long emitted = 0;
    clock_t start;
    size_t which;
    uint32_t p;
    uint32_t q;
    for (p = 0; p < PROCS; p++) {
        (void)wcp_probe_init(&probes[p], 0, p, PROCS);
    }
    (void)(is_panel ? wcp_checker_new_pairs(&checker, 0, PROCS) : wcp_checker_new(&checker, 0, PROCS));
    for (which = 0; which < sizeof calls / sizeof *calls; which++) {
        if (words > 1 && strcmp(word[1], calls[which].word) == 0) {
            start = clock();
            for (round = 0; round < rounds; round++) {
                calls[which].call();
            }
            fprintf(stderr, "%.1f ns a call, of the processor's time\n",
                    (double)(clock() - start) / CLOCKS_PER_SEC * 1e9 / (double)rounds);
        }
    }
    for (p = 0; p < PROCS; p++) {
        for (q = 0; q < PROCS; q++) {
            events += probes[p].clock[q];
        }
        emitted += probes[p].emitted;
    }
    (void)wcp_checker_end(&checker);
    printf("known %llu emitted %llu refused %lu\n", events, emitted, refused);
    return refused > 0;
}
