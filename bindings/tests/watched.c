/* Two threads that one thing orders, in 1,000 runs: over the watched thing they never hold at once, and over that of
 * <pthread.h> they are found, since no stamp goes along with it. What could have been at once is found in 100. */
#include "../wullaphi_pthread.h"
#include "checks.h"

#include <sched.h>
#include <stdbool.h>
#include <string.h>
#include <time.h>

#define RUNS 1000

/* What two threads share: each thing watched and plain. */
struct shared {
    bool is_watched;
    wcp_mutex lock;
    wcp_mutex other;
    pthread_mutex_t plain;
    pthread_cond_t changed;
    bool turn;
    wcp_barrier barrier;
    pthread_barrier_t plain_barrier;
};

static void lock(struct shared *shared)
{
    if (shared->is_watched)
        wcp_mutex_lock(&shared->lock);
    else
        pthread_mutex_lock(&shared->plain);
}

static void unlock(struct shared *shared)
{
    if (shared->is_watched)
        wcp_mutex_unlock(&shared->lock);
    else
        pthread_mutex_unlock(&shared->plain);
}

static void wait_for_change(struct shared *shared)
{
    if (shared->is_watched)
        wcp_cond_wait(&shared->changed, &shared->lock);
    else
        pthread_cond_wait(&shared->changed, &shared->plain);
}

static void wait_for_a_time(struct shared *shared)
{
    struct timespec until;
    clock_gettime(CLOCK_REALTIME, &until);
    until.tv_sec += 60;
    if (shared->is_watched)
        wcp_cond_timedwait(&shared->changed, &shared->lock, &until);
    else
        pthread_cond_timedwait(&shared->changed, &shared->plain, &until);
}

static void meet(struct shared *shared)
{
    if (shared->is_watched)
        wcp_barrier_wait(&shared->barrier);
    else
        pthread_barrier_wait(&shared->plain_barrier);
}

static void held(void)
{
    WCP_HOLD("held");
    wcp_let_go();
}

static void *locked(void *argument)
{
    struct shared *shared = argument;
    lock(shared);
    held();
    unlock(shared);
    return NULL;
}

static void *tried(void *argument)
{
    struct shared *shared = argument;
    while ((shared->is_watched ? wcp_mutex_trylock(&shared->lock) : pthread_mutex_trylock(&shared->plain)) != 0)
        sched_yield();
    held();
    unlock(shared);
    return NULL;
}

static void *gives_the_turn(void *argument)
{
    struct shared *shared = argument;
    held();
    lock(shared);
    shared->turn = true;
    pthread_cond_signal(&shared->changed);
    unlock(shared);
    return NULL;
}

static void *waits_for_the_turn(void *argument)
{
    struct shared *shared = argument;
    lock(shared);
    while (!shared->turn)
        wait_for_change(shared);
    unlock(shared);
    held();
    return NULL;
}

static void *waits_for_some_time(void *argument)
{
    struct shared *shared = argument;
    lock(shared);
    while (!shared->turn)
        wait_for_a_time(shared);
    unlock(shared);
    held();
    return NULL;
}

/* A wait lets the lock go: who gets it meanwhile comes behind. */
static void *holds_and_waits(void *argument)
{
    struct shared *shared = argument;
    lock(shared);
    held();
    while (!shared->turn)
        wait_for_change(shared);
    unlock(shared);
    return NULL;
}

static void *holds_and_signals(void *argument)
{
    struct shared *shared = argument;
    lock(shared);
    held();
    shared->turn = true;
    pthread_cond_signal(&shared->changed);
    unlock(shared);
    return NULL;
}

static void *before_the_barrier(void *argument)
{
    held();
    meet(argument);
    return NULL;
}

static void *behind_the_barrier(void *argument)
{
    meet(argument);
    held();
    return NULL;
}

static void *under_another_lock(void *argument)
{
    struct shared *shared = argument;
    wcp_mutex_lock(&shared->other);
    held();
    wcp_mutex_unlock(&shared->other);
    return NULL;
}

/* Both are busy at once by the clock, since a barrier of <pthread.h> stands within. Each uses a lock, twice. */
static void *busy(void *argument)
{
    struct shared *shared = argument;
    WCP_HOLD("busy");
    wcp_mutex_lock(&shared->lock);
    wcp_mutex_unlock(&shared->lock);
    pthread_barrier_wait(&shared->plain_barrier);
    wcp_mutex_lock(&shared->lock);
    wcp_mutex_unlock(&shared->lock);
    wcp_let_go();
    return NULL;
}

/* Both wait at one condition variable, and their conditions last over it. */
static void *waits_while_busy(void *argument)
{
    struct shared *shared = argument;
    WCP_HOLD("waits");
    lock(shared);
    if (shared->turn) {
        pthread_cond_broadcast(&shared->changed);
    } else {
        shared->turn = true;
        wait_for_change(shared);
    }
    unlock(shared);
    wcp_let_go();
    return NULL;
}

static void *nothing(void *argument)
{
    (void)argument;
    return NULL;
}

static void *only_held(void *argument)
{
    held();
    return argument;
}

static void share(struct shared *shared, bool is_watched)
{
    memset(shared, 0, sizeof *shared);
    shared->is_watched = is_watched;
    wcp_mutex_init(&shared->lock, NULL);
    wcp_mutex_init(&shared->other, NULL);
    pthread_mutex_init(&shared->plain, NULL);
    pthread_cond_init(&shared->changed, NULL);
    wcp_barrier_init(&shared->barrier, 2);
    pthread_barrier_init(&shared->plain_barrier, NULL, 2);
}

static void end_shared(struct shared *shared)
{
    wcp_mutex_destroy(&shared->lock);
    wcp_mutex_destroy(&shared->other);
    pthread_mutex_destroy(&shared->plain);
    pthread_cond_destroy(&shared->changed);
    wcp_barrier_destroy(&shared->barrier);
    pthread_barrier_destroy(&shared->plain_barrier);
}

/* What is reported of ada, who does the one, and ben, who does the other. */
static uint32_t two(bool is_watched, void *(*ada)(void *), void *(*ben)(void *))
{
    struct shared shared;
    wcp_watch watch;
    wcp_thread threads[2];
    uint32_t report;
    int wrong = 0;
    share(&shared, is_watched);
    wrong |= wcp_watch_init(&watch, 2) != WCP_DONE;
    wrong |= wcp_enter(&watch, WCP_NO_PROCESS);
    wrong |= wcp_create(&threads[0], NULL, 0, ada, &shared);
    wrong |= wcp_create(&threads[1], NULL, 1, ben, &shared);
    wrong |= wcp_join(threads[0], NULL);
    wrong |= wcp_join(threads[1], NULL);
    wrong |= wcp_exit();
    report = wrong ? WCP_NO_ROOM : wcp_watch_report(&watch, 0);
    wcp_watch_end(&watch);
    end_shared(&shared);
    return report;
}

static int runs_with(uint32_t wanted, int runs, bool is_watched, void *(*ada)(void *), void *(*ben)(void *))
{
    int run, seen = 0;
    for (run = 0; run < runs; run++)
        seen += two(is_watched, ada, ben) == wanted;
    return seen;
}

static void kind(void *(*ada)(void *), void *(*ben)(void *))
{
    CHECK(runs_with(WCP_NOTHING, RUNS, true, ada, ben) == RUNS);
    CHECK(runs_with(WCP_FOUND, RUNS / 10, false, ada, ben) == RUNS / 10);
}

static void found(void *(*ada)(void *), void *(*ben)(void *))
{
    CHECK(runs_with(WCP_FOUND, RUNS / 10, true, ada, ben) == RUNS / 10);
}

/* One is joined before the other starts, by a thread that is no process. */
static void joins(void)
{
    int run, seen = 0;
    for (run = 0; run < RUNS; run++) {
        wcp_watch watch;
        wcp_thread thread;
        int value = 0;
        void *answer = NULL;
        wcp_watch_init(&watch, 2);
        wcp_enter(&watch, WCP_NO_PROCESS);
        wcp_create(&thread, NULL, 0, only_held, &value);
        wcp_join(thread, &answer);
        wcp_create(&thread, NULL, 1, only_held, &value);
        wcp_join(thread, &answer);
        wcp_exit();
        seen += answer == &value && wcp_watch_report(&watch, 0) == WCP_NOTHING;
        wcp_watch_end(&watch);
    }
    CHECK(seen == RUNS);
}

/* A lock that outlives its watch orders nothing in the next one. */
static void old_lock(void)
{
    static wcp_mutex lock = WCP_MUTEX_INITIALIZER;
    int turn;
    for (turn = 0; turn < 2; turn++) {
        wcp_watch watch;
        wcp_watch_init(&watch, 2);
        CHECK(wcp_enter(&watch, 0) == 0);
        held();
        if (turn == 0) {
            wcp_mutex_lock(&lock);
            wcp_mutex_unlock(&lock);
        }
        CHECK(wcp_exit() == 0);
        /* What the thread has left at its end goes to nobody: it was in no watch before. */
        CHECK(wcp_enter(&watch, 1) == 0);
        if (turn == 1) {
            wcp_mutex_lock(&lock);
            wcp_mutex_unlock(&lock);
        }
        held();
        CHECK(wcp_exit() == 0);
        CHECK(wcp_watch_report(&watch, 0) == WCP_FOUND);
        wcp_watch_end(&watch);
    }
    wcp_mutex_destroy(&lock);
}

static void *strays(void *argument)
{
    wcp_thread thread;
    wcp_create(&thread, NULL, WCP_NO_PROCESS, only_held, argument);
    wcp_join(thread, NULL);
    return NULL;
}

/* A thread that <pthread.h> has started is in no watch. */
static void *strays_alone(void *argument)
{
    pthread_t thread;
    pthread_create(&thread, NULL, only_held, argument);
    pthread_join(thread, NULL);
    return NULL;
}

/* What is outside is never told as nothing. */
static void outside(void)
{
    wcp_watch watch;
    wcp_thread thread;
    CHECK(two(true, strays, nothing) == WCP_UNDECIDED);
    CHECK(two(true, strays_alone, nothing) == WCP_UNDECIDED);
    CHECK(two(true, nothing, nothing) == WCP_NOTHING);
    CHECK(wcp_watch_init(&watch, 17) == WCP_OUT_OF_RANGE);
    CHECK(wcp_watch_init(&watch, 2) == WCP_DONE);
    CHECK(wcp_watch_report(&watch, 0) == WCP_UNDECIDED);
    CHECK(wcp_exit() == EINVAL);
    CHECK(wcp_enter(&watch, 2) == EINVAL);
    CHECK(wcp_enter(&watch, 0) == 0);
    CHECK(wcp_create(&thread, NULL, 0, nothing, NULL) == EEXIST);
    CHECK(wcp_create(&thread, NULL, 1, nothing, NULL) == 0);
    CHECK(wcp_watch_report(&watch, 0) == WCP_UNDECIDED);
    CHECK(wcp_join(thread, NULL) == 0);
    CHECK(wcp_exit() == 0);
    CHECK(wcp_watch_report(&watch, 0) == WCP_NOTHING);
    CHECK(wcp_enter(&watch, 1) == EEXIST);
    wcp_watch_end(&watch);
    /* In no watch the calls are those of <pthread.h>. */
    held();
    CHECK(wcp_create(&thread, NULL, 0, only_held, &watch) == 0);
    CHECK(wcp_join(thread, NULL) == 0);
}

static void *holds_in_two_places(void *argument)
{
    struct shared *shared = argument;
    WCP_HOLD("outer");
    held();
    wcp_mutex_lock(&shared->lock);
    wcp_mutex_unlock(&shared->lock);
    wcp_let_go();
    return NULL;
}

static void places(void)
{
    struct shared shared;
    wcp_watch watch;
    wcp_thread threads[3];
    const wcp_place *place;
    uint32_t p;
    share(&shared, true);
    CHECK(wcp_watch_init_pairs(&watch, 3) == WCP_DONE);
    CHECK(wcp_enter(&watch, WCP_NO_PROCESS) == 0);
    for (p = 0; p < 3; p++)
        CHECK(wcp_create(&threads[p], NULL, p, p == 0 ? holds_in_two_places : locked, &shared) == 0);
    for (p = 0; p < 3; p++)
        CHECK(wcp_join(threads[p], NULL) == 0);
    CHECK(wcp_exit() == 0);
    CHECK(wcp_watch_report(&watch, 0) == WCP_FOUND);
    CHECK(wcp_watch_report(&watch, 1) == WCP_FOUND);
    CHECK(wcp_watch_report(&watch, 2) == WCP_NOTHING);
    place = wcp_watch_place(&watch, 0, 0);
    CHECK(place != NULL && strcmp(place->label, "outer") == 0 && place->line > 0);
    place = wcp_watch_place(&watch, 0, 1);
    CHECK(place != NULL && strcmp(place->label, "held") == 0 && strstr(place->file, "watched.c") != NULL);
    CHECK(wcp_watch_place(&watch, 2, 1) == NULL);
    wcp_watch_end(&watch);
    end_shared(&shared);
}

static void locks(void)
{
    kind(locked, locked);
    kind(tried, locked);
}

static void conditions(void)
{
    kind(gives_the_turn, waits_for_the_turn);
    kind(gives_the_turn, waits_for_some_time);
    kind(holds_and_waits, holds_and_signals);
}

static void barriers(void)
{
    kind(before_the_barrier, behind_the_barrier);
}

static void found_at_once(void)
{
    found(locked, under_another_lock);
    found(behind_the_barrier, behind_the_barrier);
    found(busy, busy);
    found(waits_while_busy, waits_while_busy);
}

int main(int argc, char **argv)
{
    static const struct checks_group groups[] = {
        GROUP(locks),
        GROUP(conditions),
        GROUP(barriers),
        GROUP(found_at_once),
        GROUP(joins),
        GROUP(old_lock),
        GROUP(outside),
        GROUP(places),
    };
    return CHECKS_MAIN(groups, argc, argv);
}
