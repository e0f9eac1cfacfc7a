/* Three workers share a lock, and worker 2 takes it without being told that it is free. Which two of them could have
 * held it at once? One checker asks that of each pair. It is saved after each note, as a program does that may be
 * started again at any time, and goes on as what was loaded. */
#include "../wullaphi.h"

#include <stdint.h>
#include <stdio.h>
#include <stdlib.h>

#define WORKERS 3
#define WATCH 42

static wcp_probe probes[WORKERS];
static wcp_checker checker = WCP_CHECKER_NONE;

static void expect(uint32_t answer, uint32_t wanted)
{
    if (answer != wanted) {
        const char *name = wcp_answer_name(answer);
        fprintf(stderr, "the answer is %s\n", name == NULL ? "unknown" : name);
        exit(2);
    }
}

/* The checker, saved and loaded: what a program does before it ends, and when it starts again. */
static void start_again(void)
{
    uint64_t length = 0;
    uint8_t none = 0;
    uint8_t *bytes;
    expect(wcp_checker_save(&checker, &none, 0, &length), WCP_NO_ROOM);
    bytes = malloc(length);
    if (bytes == NULL) {
        exit(2);
    }
    expect(wcp_checker_save(&checker, bytes, length, &length), WCP_DONE);
    expect(wcp_checker_end(&checker), WCP_DONE);
    expect(wcp_checker_load(&checker, bytes, length), WCP_DONE);
    free(bytes);
}

static void send_note(uint32_t worker)
{
    wcp_note note;
    while (wcp_probe_next(&probes[worker], 0, &note) == WCP_DONE_WITH_NOTE) {
        expect(wcp_checker_take(&checker, &note), WCP_DONE);
        start_again();
    }
}

static void holds(uint32_t worker, uint32_t does)
{
    (void)wcp_probe_observe(&probes[worker], does);
    send_note(worker);
}

static void pass_on(uint32_t from, uint32_t to)
{
    wcp_stamp stamp;
    holds(from, 0);
    expect(wcp_probe_stamp(&probes[from], to, &stamp), WCP_DONE);
    expect(wcp_probe_receive(&probes[to], &stamp), WCP_DONE);
}

int main(void)
{
    uint32_t question = 0;
    uint32_t a;
    uint32_t b;
    for (a = 0; a < WORKERS; a++) {
        expect(wcp_probe_init(&probes[a], WATCH, a, WORKERS), WCP_DONE);
    }
    expect(wcp_checker_new_pairs(&checker, WATCH, WORKERS), WCP_DONE);
    holds(0, 1);
    pass_on(0, 1);
    holds(1, 1);
    holds(2, 1);
    for (a = 0; a < WORKERS; a++) {
        expect(wcp_probe_close(&probes[a]), WCP_DONE_WITH_NOTE);
        send_note(a);
    }
    for (a = 0; a < WORKERS; a++) {
        for (b = a + 1; b < WORKERS; b++, question++) {
            if (wcp_checker_report_of(&checker, question) == WCP_FOUND) {
                printf("workers %u and %u could have held the lock at once\n", (unsigned)a, (unsigned)b);
            }
        }
    }
    expect(wcp_checker_end(&checker), WCP_DONE);
    return 0;
}
