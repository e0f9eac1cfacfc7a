/* Threads of a watch that meet in a second run, at the moment that the first one has found. */
#include "../wullaphi_pthread.h"
#include "checks.h"

#include <sched.h>
#include <semaphore.h>
#include <stdbool.h>
#include <time.h>

/* More than any wait takes that is to end before. */
#define LONG 600000u
#define SHORT 5u

typedef void *body(void *argument);

/* What the threads of a run share. */
struct shared {
    body *bodies[2];
    wcp_meeting *meeting; /* or NULL */
    pthread_mutex_t plain;
    sem_t gate;
    wcp_mutex lock;
    pthread_cond_t changed;
    bool turn;
    wcp_barrier barrier;
    wcp_thread child;
    bool is_wrong;
};

static void *works(void *argument)
{
    WCP_HOLD("works");
    wcp_let_go();
    return argument;
}

static void *works_under_a_plain_lock(void *argument)
{
    struct shared *shared = argument;
    pthread_mutex_lock(&shared->plain);
    works(argument);
    pthread_mutex_unlock(&shared->plain);
    return NULL;
}

/* Is true, sends within by starting a thread, and stays true. */
static void *starts_another(void *argument)
{
    struct shared *shared = argument;
    WCP_HOLD("starts");
    shared->is_wrong |= wcp_create(&shared->child, NULL, 1, works, NULL) != 0;
    wcp_let_go();
    shared->is_wrong |= wcp_join(shared->child, NULL) != 0;
    return NULL;
}

/* Is true, sends within by the release of a lock, and stays true. */
static void *releases(void *argument)
{
    struct shared *shared = argument;
    WCP_HOLD("releases");
    wcp_mutex_lock(&shared->lock);
    wcp_mutex_unlock(&shared->lock);
    sem_post(&shared->gate);
    wcp_let_go();
    return NULL;
}

/* Is true once it has received by the lock. */
static void *receives(void *argument)
{
    struct shared *shared = argument;
    while (sem_wait(&shared->gate) != 0)
        continue;
    wcp_mutex_lock(&shared->lock);
    WCP_HOLD("has received");
    wcp_let_go();
    wcp_mutex_unlock(&shared->lock);
    return NULL;
}

static void share(struct shared *shared, body *ada, body *ben)
{
    memset(shared, 0, sizeof *shared);
    shared->bodies[0] = ada;
    shared->bodies[1] = ben;
    pthread_mutex_init(&shared->plain, NULL);
    sem_init(&shared->gate, 0, 0);
    wcp_mutex_init(&shared->lock, NULL);
    pthread_cond_init(&shared->changed, NULL);
    wcp_barrier_init(&shared->barrier, 2);
}

static void end_shared(struct shared *shared)
{
    pthread_mutex_destroy(&shared->plain);
    sem_destroy(&shared->gate);
    wcp_mutex_destroy(&shared->lock);
    pthread_cond_destroy(&shared->changed);
    wcp_barrier_destroy(&shared->barrier);
}

/* Runs process 0, and process 1 where it has a body of its own, in a watch that stays open. */
static uint32_t run(wcp_watch *watch, wcp_meeting *meeting, body *ada, body *ben)
{
    struct shared shared;
    wcp_thread threads[2];
    uint32_t process;
    share(&shared, ada, ben);
    shared.meeting = meeting;
    shared.is_wrong |= wcp_watch_init(watch, 2) != WCP_DONE;
    if (meeting != NULL)
        shared.is_wrong |= wcp_watch_meet(watch, meeting) != 0;
    shared.is_wrong |= wcp_enter(watch, WCP_NO_PROCESS) != 0;
    for (process = 0; process < 2; process++)
        if (shared.bodies[process] != NULL)
            shared.is_wrong |= wcp_create(&threads[process], NULL, process, shared.bodies[process], &shared) != 0;
    for (process = 0; process < 2; process++)
        if (shared.bodies[process] != NULL)
            shared.is_wrong |= wcp_join(threads[process], NULL) != 0;
    shared.is_wrong |= wcp_exit() != 0;
    end_shared(&shared);
    return shared.is_wrong ? WCP_NO_ROOM : wcp_watch_report(watch, 0);
}

static bool tells(wcp_meeting *meeting, const char *wanted)
{
    char text[300];
    wcp_meeting_tell(meeting, text, sizeof text);
    if (strcmp(text, wanted) != 0)
        fprintf(stderr, "%s\n", text);
    return strcmp(text, wanted) == 0;
}

/* How many of so many second runs have met. Each has to tell this, where it isn't NULL. */
static int met(int runs, uint32_t by, uint32_t patience, body *ada, body *ben, const char *told)
{
    int count = 0, at;
    wcp_watch first;
    CHECK(run(&first, NULL, ada, ben) == WCP_FOUND);
    for (at = 0; at < runs; at++) {
        wcp_watch second;
        wcp_meeting meeting;
        int is_right = wcp_meeting_init(&meeting, patience) == 0;
        is_right &= wcp_meeting_add_found(&meeting, &first, 0, by) == 0;
        is_right &= run(&second, &meeting, ada, ben) == WCP_FOUND;
        is_right &= told == NULL || tells(&meeting, told);
        CHECK(is_right);
        count += wcp_meeting_met(&meeting);
        wcp_watch_end(&second);
        wcp_meeting_destroy(&meeting);
    }
    wcp_watch_end(&first);
    return count;
}

static void nothing_shared(void)
{
    CHECK(met(100, WCP_BY_INTERVAL, LONG, works, works, NULL) == 100);
    CHECK(met(100, WCP_BY_LABEL, LONG, works, works, NULL) == 100);
    CHECK(met(100, WCP_ANYWHERE, LONG, works, works, NULL) == 100);
}

/* The lock isn't seen, so the moment is found; it can't be. */
static void one_plain_lock(void)
{
    const char *told = "not met: process 0 gave up 1 time while process 1 was missing; "
                       "process 1 gave up 1 time while process 0 was missing";
    body *both = works_under_a_plain_lock;
    CHECK(met(100, WCP_BY_INTERVAL, SHORT, both, both, told) == 0);
    CHECK(met(100, WCP_BY_LABEL, SHORT, both, both, told) == 0);
    CHECK(met(100, WCP_ANYWHERE, SHORT, both, both, told) == 0);
}

/* One that waited where it is true first would hold back what the other waits for. */
static void sends_and_stays(void)
{
    CHECK(met(30, WCP_BY_INTERVAL, LONG, starts_another, NULL, NULL) == 30);
    CHECK(met(30, WCP_BY_INTERVAL, LONG, releases, receives, NULL) == 30);
}

/* Where all stood. */
static void the_moment(void)
{
    wcp_watch watch;
    wcp_meeting meeting;
    uint32_t interval = 9;
    const wcp_place *place = NULL;
    CHECK(wcp_meeting_init(&meeting, LONG) == 0);
    CHECK(wcp_meeting_at_interval(&meeting, 0, 1) == 0);
    CHECK(wcp_meeting_at_label(&meeting, 1, "works") == 0);
    CHECK(run(&watch, &meeting, starts_another, NULL) == WCP_FOUND);
    CHECK(wcp_meeting_met(&meeting));
    CHECK(wcp_meeting_came(&meeting, 0) == 1 && wcp_meeting_came(&meeting, 1) == 1);
    CHECK(wcp_meeting_stood(&meeting, 0, &interval, &place) == 0);
    CHECK(interval == 1 && place != NULL && strcmp(place->label, "starts") == 0);
    CHECK(wcp_meeting_stood(&meeting, 1, &interval, &place) == 0);
    CHECK(interval == 1 && place != NULL && strcmp(place->label, "works") == 0);
    wcp_watch_end(&watch);
    CHECK(wcp_meeting_destroy(&meeting) == 0);
}

/* Holds, and opens the gate once it has waited. */
static void *waits_in_vain(void *argument)
{
    struct shared *shared = argument;
    works(argument);
    sem_post(&shared->gate);
    return NULL;
}

/* Holds elsewhere, and doesn't end before. */
static void *works_elsewhere(void *argument)
{
    struct shared *shared = argument;
    WCP_HOLD("elsewhere");
    wcp_let_go();
    while (sem_wait(&shared->gate) != 0)
        continue;
    return NULL;
}

static void *ends_at_once(void *argument)
{
    return argument;
}

/* Ends once the other one waits. */
static void *ends_later(void *argument)
{
    struct shared *shared = argument;
    while (wcp_meeting_came(shared->meeting, 0) == 0)
        sched_yield();
    return NULL;
}

static void in_vain(uint32_t patience, body *ben)
{
    wcp_watch watch;
    wcp_meeting meeting;
    CHECK(wcp_meeting_init(&meeting, patience) == 0);
    CHECK(wcp_meeting_at_label(&meeting, 0, "works") == 0);
    CHECK(wcp_meeting_at_label(&meeting, 1, "works") == 0);
    run(&watch, &meeting, waits_in_vain, ben);
    CHECK(!wcp_meeting_met(&meeting));
    CHECK(tells(&meeting, "not met: process 1 never came to its place; "
                          "process 0 gave up 1 time while process 1 was missing"));
    wcp_watch_end(&watch);
    CHECK(wcp_meeting_destroy(&meeting) == 0);
}

static void nobody_waits_for_ever(void)
{
    in_vain(SHORT, works_elsewhere);
    in_vain(LONG, ends_at_once);
    in_vain(LONG, ends_later);
}

/* One of three that meet, each of which comes once the one before it waits. */
struct comer {
    wcp_meeting *meeting;
    uint32_t process;
    int has_met;
};

static void *comes(void *argument)
{
    struct comer *comer = argument;
    const struct timespec while_others_wake = {0, 5000000};
    while (comer->process > 0 && wcp_meeting_came(comer->meeting, comer->process - 1) == 0)
        sched_yield();
    nanosleep(&while_others_wake, NULL);
    comer->has_met = wcp_meeting_arrive(comer->meeting, comer->process, 0, NULL);
    return NULL;
}

/* The first goes on waiting when the second one comes. */
static void three_meet(void)
{
    int at;
    for (at = 0; at < 20; at++) {
        wcp_meeting meeting;
        pthread_t threads[3];
        struct comer comers[3];
        uint32_t process;
        CHECK(wcp_meeting_init(&meeting, LONG) == 0);
        for (process = 0; process < 3; process++) {
            comers[process].meeting = &meeting;
            comers[process].process = process;
            CHECK(wcp_meeting_anywhere(&meeting, process) == 0);
        }
        for (process = 0; process < 3; process++)
            CHECK(pthread_create(&threads[process], NULL, comes, &comers[process]) == 0);
        for (process = 0; process < 3; process++)
            CHECK(pthread_join(threads[process], NULL) == 0 && comers[process].has_met);
        CHECK(tells(&meeting, "met: process 0 in interval 0, process 1 in interval 0, process 2 in interval 0"));
        CHECK(wcp_meeting_destroy(&meeting) == 0);
    }
}

/* How often the calling thread has gone to sleep. */
static unsigned long sleeps(void)
{
    unsigned long count = 0;
    char line[200];
    FILE *status = fopen("/proc/thread-self/status", "r");
    while (status != NULL && fgets(line, sizeof line, status) != NULL)
        if (sscanf(line, "voluntary_ctxt_switches: %lu", &count) == 1)
            break;
    if (status != NULL)
        fclose(status);
    return count;
}

static double seconds(clockid_t clock)
{
    struct timespec now;
    clock_gettime(clock, &now);
    return (double)now.tv_sec + (double)now.tv_nsec / 1e9;
}

/* What waits for half a second sleeps, and takes almost none of the processor's time. */
static void no_processor_time(void)
{
    wcp_meeting meeting;
    unsigned long slept;
    double used, waited;
    CHECK(wcp_meeting_init(&meeting, 500) == 0);
    CHECK(wcp_meeting_anywhere(&meeting, 0) == 0 && wcp_meeting_anywhere(&meeting, 1) == 0);
    slept = sleeps();
    waited = seconds(CLOCK_MONOTONIC);
    used = seconds(CLOCK_THREAD_CPUTIME_ID);
    CHECK(wcp_meeting_arrive(&meeting, 0, 0, NULL) == 0);
    used = seconds(CLOCK_THREAD_CPUTIME_ID) - used;
    waited = seconds(CLOCK_MONOTONIC) - waited;
    slept = sleeps() - slept;
    CHECK(waited >= 0.5);
    CHECK(used < 0.1);
    CHECK(slept >= 1 && slept < 50);
    CHECK(wcp_meeting_destroy(&meeting) == 0);
}

/* Waits before a lock that another one has, and who has it waits within. */
static void *waits_before_a_lock(void *argument)
{
    struct shared *shared = argument;
    while (sem_wait(&shared->gate) != 0)
        continue;
    WCP_HOLD("before");
    wcp_mutex_lock(&shared->lock);
    wcp_let_go();
    wcp_mutex_unlock(&shared->lock);
    return NULL;
}

static void *waits_with_a_lock(void *argument)
{
    struct shared *shared = argument;
    wcp_mutex_lock(&shared->lock);
    sem_post(&shared->gate);
    while (wcp_meeting_came(shared->meeting, 0) == 0)
        sched_yield();
    WCP_HOLD("within");
    wcp_mutex_unlock(&shared->lock);
    wcp_let_go();
    return NULL;
}

static void *waits_before_a_barrier(void *argument)
{
    struct shared *shared = argument;
    WCP_HOLD("before");
    wcp_barrier_wait(&shared->barrier);
    wcp_let_go();
    return NULL;
}

/* Waits before it waits for a turn, and the other one before it gives that. */
static void *waits_before_its_turn(void *argument)
{
    struct shared *shared = argument;
    wcp_mutex_lock(&shared->lock);
    WCP_HOLD("before");
    while (!shared->turn)
        wcp_cond_wait(&shared->changed, &shared->lock);
    wcp_let_go();
    wcp_mutex_unlock(&shared->lock);
    return NULL;
}

static void *gives_the_turn(void *argument)
{
    struct shared *shared = argument;
    works(argument);
    wcp_mutex_lock(&shared->lock);
    shared->turn = true;
    pthread_cond_signal(&shared->changed);
    wcp_mutex_unlock(&shared->lock);
    return NULL;
}

static void met_before(body *ada, body *ben)
{
    wcp_watch watch;
    wcp_meeting meeting;
    CHECK(wcp_meeting_init(&meeting, LONG) == 0);
    CHECK(wcp_meeting_at_interval(&meeting, 0, 0) == 0 && wcp_meeting_at_interval(&meeting, 1, 0) == 0);
    run(&watch, &meeting, ada, ben);
    CHECK(wcp_meeting_met(&meeting));
    wcp_watch_end(&watch);
    CHECK(wcp_meeting_destroy(&meeting) == 0);
}

static void no_lock_is_held(void)
{
    met_before(waits_before_a_lock, waits_with_a_lock);
    met_before(waits_before_a_barrier, waits_before_a_barrier);
    met_before(waits_before_its_turn, gives_the_turn);
}

/* The calls that the watch sees, but for that which waits for a signal. */
enum call { LOCK, TRYLOCK, UNLOCK, TIMEDWAIT, BARRIER, CREATE, JOIN, HOLD, LET_GO, ENTER, EXIT, CALLS };

static void make(enum call call, struct shared *shared, wcp_watch *other)
{
    static const wcp_place here = {"again", "here.c", 1};
    const struct timespec past = {0, 0};
    switch (call) {
    case LOCK: wcp_mutex_lock(&shared->lock); return;
    case TRYLOCK: wcp_mutex_trylock(&shared->lock); return;
    case UNLOCK: wcp_mutex_unlock(&shared->lock); return;
    case TIMEDWAIT: wcp_cond_timedwait(&shared->changed, &shared->lock, &past); return;
    case BARRIER: wcp_barrier_wait(&shared->barrier); return;
    case CREATE: wcp_create(&shared->child, NULL, WCP_NO_PROCESS, ends_at_once, NULL); return;
    case JOIN: wcp_join(shared->child, NULL); return;
    case HOLD: wcp_hold(&here); return;
    case LET_GO: wcp_let_go(); return;
    case ENTER: wcp_enter(other, 0); return;
    case EXIT: wcp_exit(); return;
    default: return;
    }
}

/* Comes to its place by this call, having done what must be done before, and without a wait. */
static uint64_t came_by(enum call call)
{
    struct shared shared;
    wcp_watch watch, other;
    wcp_meeting meeting;
    uint64_t came;
    share(&shared, NULL, NULL);
    wcp_barrier_destroy(&shared.barrier);
    wcp_barrier_init(&shared.barrier, 1);
    CHECK(wcp_watch_init(&other, 1) == WCP_DONE && wcp_watch_init(&watch, 2) == WCP_DONE);
    CHECK(wcp_meeting_init(&meeting, 0) == 0);
    CHECK(wcp_meeting_at_label(&meeting, 0, "holds") == 0 && wcp_meeting_anywhere(&meeting, 1) == 0);
    CHECK(wcp_watch_meet(&watch, &meeting) == 0 && wcp_enter(&watch, 0) == 0);
    if (call == UNLOCK || call == TIMEDWAIT)
        make(LOCK, &shared, &other);
    if (call == JOIN)
        make(CREATE, &shared, &other);
    WCP_HOLD("holds");
    CHECK(wcp_meeting_came(&meeting, 0) == 0);
    make(call, &shared, &other);
    came = wcp_meeting_came(&meeting, 0);
    if (call == CREATE)
        make(JOIN, &shared, &other);
    if (call == ENTER)
        CHECK(wcp_exit() == 0);
    if (call != EXIT)
        CHECK(wcp_exit() == 0);
    wcp_watch_end(&watch);
    wcp_watch_end(&other);
    end_shared(&shared);
    CHECK(wcp_meeting_destroy(&meeting) == 0);
    return came;
}

static void each_call(void)
{
    int call;
    for (call = LOCK; call < CALLS; call++)
        CHECK(came_by((enum call)call) == 1);
}

/* Who holds nothing isn't there, wherever it is to wait. */
static void nothing_holds(void)
{
    static wcp_mutex lock = WCP_MUTEX_INITIALIZER;
    wcp_watch watch;
    wcp_meeting meeting;
    CHECK(wcp_watch_init(&watch, 2) == WCP_DONE && wcp_meeting_init(&meeting, 0) == 0);
    CHECK(wcp_meeting_anywhere(&meeting, 0) == 0 && wcp_meeting_at_interval(&meeting, 1, 0) == 0);
    CHECK(wcp_watch_meet(&watch, &meeting) == 0);
    CHECK(wcp_enter(&watch, 0) == 0);
    wcp_mutex_lock(&lock);
    wcp_mutex_unlock(&lock);
    wcp_let_go();
    CHECK(wcp_exit() == 0 && wcp_enter(&watch, 1) == 0 && wcp_exit() == 0);
    CHECK(wcp_meeting_came(&meeting, 0) == 0 && wcp_meeting_came(&meeting, 1) == 0);
    wcp_watch_end(&watch);
    CHECK(wcp_meeting_destroy(&meeting) == 0);
    wcp_mutex_destroy(&lock);
}

/* A condition within another one: both hold, and each has its label. */
static void labels_within(void)
{
    wcp_watch watch;
    wcp_meeting meeting;
    CHECK(wcp_watch_init(&watch, 2) == WCP_DONE && wcp_meeting_init(&meeting, 0) == 0);
    CHECK(wcp_meeting_at_label(&meeting, 0, "outer") == 0 && wcp_meeting_at_label(&meeting, 1, "inner") == 0);
    CHECK(wcp_watch_meet(&watch, &meeting) == 0 && wcp_enter(&watch, 0) == 0);
    WCP_HOLD("outer");
    WCP_HOLD("inner");
    CHECK(wcp_meeting_came(&meeting, 0) == 1);
    wcp_let_go();
    CHECK(wcp_meeting_came(&meeting, 0) == 2);
    wcp_let_go();
    CHECK(wcp_meeting_came(&meeting, 0) == 3);
    wcp_let_go();
    CHECK(wcp_exit() == 0 && wcp_meeting_came(&meeting, 0) == 3);
    CHECK(wcp_enter(&watch, 1) == 0);
    WCP_HOLD("outer");
    WCP_HOLD("inner");
    CHECK(wcp_meeting_came(&meeting, 1) == 0);
    CHECK(wcp_exit() == 0 && wcp_meeting_came(&meeting, 1) == 1);
    wcp_watch_end(&watch);
    CHECK(wcp_meeting_destroy(&meeting) == 0);
}

static void bad_arguments(void)
{
    wcp_watch found, watch;
    wcp_meeting meeting;
    CHECK(run(&found, NULL, works, works) == WCP_FOUND);
    CHECK(wcp_watch_init(&watch, 2) == WCP_DONE && wcp_meeting_init(&meeting, 0) == 0);
    CHECK(wcp_watch_meet(&watch, &meeting) == EINVAL);
    CHECK(wcp_meeting_add_found(&meeting, &watch, 0, WCP_BY_LABEL) == EINVAL);
    CHECK(wcp_meeting_add_found(&meeting, &found, 1, WCP_BY_LABEL) == EINVAL);
    CHECK(wcp_meeting_add_found(&meeting, &found, 0, 4) == EINVAL);
    CHECK(wcp_meeting_at_label(&meeting, 1, "works") == 0);
    CHECK(wcp_meeting_add_found(&meeting, &found, 0, WCP_BY_LABEL) == EEXIST);
    CHECK(wcp_meeting_anywhere(&meeting, 0) == 0);
    CHECK(wcp_meeting_anywhere(&meeting, 2) == 0);
    CHECK(wcp_watch_meet(&watch, &meeting) == EINVAL);
    wcp_watch_end(&watch);
    CHECK(wcp_watch_init(&watch, 3) == WCP_DONE && wcp_watch_meet(&watch, &meeting) == 0);
    CHECK(wcp_watch_meet(&watch, &meeting) == EBUSY);
    CHECK(wcp_meeting_anywhere(&meeting, 3) == EBUSY);
    wcp_watch_end(&watch);
    CHECK(wcp_watch_init(&watch, 16) == WCP_DONE && wcp_watch_meet(&watch, &meeting) == EBUSY);
    CHECK(wcp_meeting_destroy(&meeting) == 0 && wcp_meeting_init(&meeting, 0) == 0);
    CHECK(wcp_meeting_anywhere(&meeting, 15) == 0);
    CHECK(wcp_enter(&watch, 0) == 0 && wcp_exit() == 0);
    CHECK(wcp_watch_meet(&watch, &meeting) == EBUSY);
    wcp_watch_end(&watch);
    wcp_watch_end(&found);
    CHECK(wcp_meeting_destroy(&meeting) == 0);
}

int main(int argc, char **argv)
{
    static const struct checks_group groups[] = {
        GROUP(nothing_shared),
        GROUP(one_plain_lock),
        GROUP(sends_and_stays),
        GROUP(the_moment),
        GROUP(nobody_waits_for_ever),
        GROUP(three_meet),
        GROUP(no_processor_time),
        GROUP(no_lock_is_held),
        GROUP(each_call),
        GROUP(nothing_holds),
        GROUP(labels_within),
        GROUP(bad_arguments),
    };
    return CHECKS_MAIN(groups, argc, argv);
}
