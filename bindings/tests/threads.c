/* A million calls in two threads, each with its probe, and their notes to one checker under a lock. */
#include "../wullaphi.h"
#include "checks.h"

#include <pthread.h>
#include <stdlib.h>

#define ROUNDS 125000

static pthread_mutex_t lock = PTHREAD_MUTEX_INITIALIZER;
static wcp_checker checker = WCP_CHECKER_NONE;

struct worker {
    uint32_t process;
    unsigned long calls;
    unsigned long wrong;
};

static void expect(struct worker *self, int holds)
{
    self->calls += 1;
    self->wrong += !holds;
}

static void pass_on(struct worker *self, wcp_probe *probe)
{
    wcp_note note;
    expect(self, wcp_probe_next(probe, 0, &note) == WCP_DONE_WITH_NOTE);
    pthread_mutex_lock(&lock);
    expect(self, wcp_checker_take(&checker, &note) == WCP_DONE);
    pthread_mutex_unlock(&lock);
}

static void *work(void *argument)
{
    struct worker *self = argument;
    wcp_probe probe;
    wcp_stamp stamp;
    int round;
    expect(self, wcp_probe_init(&probe, 3, self->process, 2) == WCP_DONE);
    for (round = 0; round < ROUNDS; round++) {
        expect(self, wcp_probe_observe(&probe, 1) == WCP_DONE_WITH_NOTE);
        pass_on(self, &probe);
        expect(self, wcp_probe_stamp(&probe, 1 - self->process, &stamp) == WCP_DONE);
    }
    expect(self, wcp_probe_close(&probe) == WCP_DONE_WITH_NOTE);
    pass_on(self, &probe);
    return NULL;
}

static void two_threads(void)
{
    pthread_t threads[2];
    struct worker workers[2] = {{0, 0, 0}, {1, 0, 0}};
    uint32_t p;
    uint32_t interval = 9;
    uint64_t count = 0;
    CHECK(wcp_checker_new(&checker, 3, 2) == WCP_DONE);
    for (p = 0; p < 2; p++) {
        CHECK(pthread_create(&threads[p], NULL, work, &workers[p]) == 0);
    }
    for (p = 0; p < 2; p++) {
        CHECK(pthread_join(threads[p], NULL) == 0);
    }
    for (p = 0; p < 2; p++) { /* only now, since each call on the checker wants it alone */
        CHECK(workers[p].wrong == 0);
        CHECK(wcp_checker_taken(&checker, p, &count) == WCP_DONE && count == ROUNDS);
    }
    CHECK(workers[0].calls + workers[1].calls >= 1000000);
    CHECK(wcp_checker_report(&checker) == WCP_FOUND);
    CHECK(wcp_checker_cut(&checker, 0, &interval) == WCP_DONE && interval == 0);
    CHECK(wcp_checker_end(&checker) == WCP_DONE);
}

int main(int argc, char **argv)
{
    static const struct checks_group groups[] = {
        GROUP(two_threads),
    };
    return CHECKS_MAIN(groups, argc, argv);
}
