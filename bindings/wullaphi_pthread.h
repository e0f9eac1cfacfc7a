/* Wullaphi for POSIX threads: locks, condition variables, barriers and threads whose orders a watch sees.
 *
 * A program takes these calls in the place of those of <pthread.h>, and adds WCP_HOLD and wcp_let_go around what must
 * not happen at once:
 *
 *     wcp_mutex_lock(&lock);
 *     WCP_HOLD("transfer");
 *     ..
 *     wcp_let_go();
 *     wcp_mutex_unlock(&lock);
 *
 * A thread is in a watch by wcp_create or wcp_enter, and is a process of it where it is given the number of one. A
 * condition lasts over each lock and each wait until wcp_let_go, and ends with its thread. What comes before what:
 *
 *     an unlock                       each later lock of the same mutex
 *     all calls of wcp_barrier_wait   the return of each of them
 *     wcp_create                      what the thread does
 *     what the thread does            the return of wcp_join
 *
 * A condition variable adds none: who signals has had the lock, and who has waited gets it again. A thread of the watch
 * that is no process passes on what it has taken.
 *
 * A watch may be given a meeting (wullaphi_meeting.h): each of these calls then first waits there for the other
 * processes, where the caller's condition holds.
 *
 * The calls of locks and threads answer 0 or a number of <errno.h>, as those of <pthread.h> do. Order is lost where
 * memory runs out, or where a process has made all events that a clock can count; that can only add moments. Threads
 * and locks of a program that don't use these calls, atomics, and forked children are not seen.
 *
 * The library is proved; this header is only tested. It wants GCC or Clang, for thread-local and weak variables. */
#ifndef WULLAPHI_PTHREAD_H
#define WULLAPHI_PTHREAD_H

#include <errno.h>
#include <pthread.h>
#include <stdlib.h>
#include <string.h>

#include "wullaphi.h"
#include "wullaphi_meeting.h"

#ifdef __cplusplus
extern "C" {
#endif

/* The number of a thread that is no process. */
#define WCP_NO_PROCESS 4294967295u

/* The most conditions of one thread within each other of which each has a place of its own. */
#define WCP_MAX_HELD 16

/* A watch over threads of this program. The fields of this structure and of those below belong to these calls. */
typedef struct wcp_watch {
    pthread_mutex_t mutex;
    wcp_checker checker;
    uint64_t number;
    uint32_t processes;
    uint32_t begun;   /* a bit for each process */
    uint32_t ended;   /* a bit for each process */
    uint32_t strays;  /* how often a thread held that is no process */
    uint64_t outside; /* how often threads in no watch had held as this one began */
    uint32_t refusal; /* why the first note was refused, or WCP_DONE */
    wcp_meeting *meeting; /* where its processes meet, or NULL */
} wcp_watch;

/* Stamps that were left somewhere: of a process its own, of another thread those that it has taken. */
typedef struct wcp_marks {
    uint32_t count;
    wcp_stamp one;
    wcp_stamp *many; /* NULL, or room for WCP_MAX_PROCESSES */
} wcp_marks;

/* A thread of a watch. */
typedef struct wcp_party {
    wcp_watch *watch;
    wcp_probe probe; /* of a process */
    uint32_t process;
    wcp_marks taken; /* of a thread that is no process */
    wcp_stamp last;  /* what it left last, if it has received nothing since and no condition has held */
    int has_last;
    uint32_t held;
    const wcp_place *places[WCP_MAX_HELD];
    struct wcp_party *before;
} wcp_party;

typedef struct wcp_mutex {
    pthread_mutex_t inner;
    wcp_marks left;
} wcp_mutex;

#define WCP_MUTEX_INITIALIZER {PTHREAD_MUTEX_INITIALIZER, {0, {0, 0, 0, 0, 0, {0}}, NULL}}

typedef struct wcp_barrier {
    pthread_mutex_t mutex;
    pthread_cond_t is_full;
    unsigned threads;
    unsigned came;
    unsigned round;
    wcp_marks *of_each; /* what those that came have left */
    wcp_marks of_all;   /* what the last one of a round has left */
} wcp_barrier;

/* A thread that wcp_create has started. */
typedef struct wcp_thread {
    pthread_t inner;
    struct wcp_start *start;
} wcp_thread;

/* What a thread begins with and ends with. */
typedef struct wcp_start {
    wcp_party *party;
    void *(*run)(void *);
    void *argument;
    wcp_marks left;
} wcp_start;

/* The calling thread's part, or NULL. One variable of the program, though each of its files defines it. */
__attribute__((weak)) __thread wcp_party *wcp_party_now = NULL;

/* The number of the last watch. */
__attribute__((weak)) uint64_t wcp_last_watch = 0;

/* How often threads in no watch have held. */
__attribute__((weak)) uint64_t wcp_held_outside = 0;

/* ---- Marks. */

/* Adds a stamp, unless there is a later one of its process. Those of other watches go. */
WCP_INLINE void wcp_marks_add(wcp_marks *marks, const wcp_stamp *stamp)
{
    uint32_t kept = 0, at;
    wcp_stamp *stamps;
    if (marks->many == NULL) {
        marks->many = (wcp_stamp *)malloc(WCP_MAX_PROCESSES * sizeof *marks->many);
        if (marks->many == NULL)
            return;
        if (marks->count == 1)
            marks->many[0] = marks->one;
    }
    stamps = marks->many;
    for (at = 0; at < marks->count; at++)
        if (stamps[at].watch == stamp->watch)
            stamps[kept++] = stamps[at];
    marks->count = kept;
    for (at = 0; at < kept; at++)
        if (stamps[at].from == stamp->from) {
            if (stamps[at].clock[stamp->from] < stamp->clock[stamp->from])
                stamps[at] = *stamp;
            return;
        }
    stamps[marks->count++] = *stamp;
}

WCP_INLINE const wcp_stamp *wcp_marks_all(const wcp_marks *marks)
{
    return marks->many != NULL ? marks->many : &marks->one;
}

/* Puts these marks in the place of others. */
WCP_INLINE void wcp_marks_copy(wcp_marks *marks, const wcp_marks *from)
{
    const wcp_stamp *all = wcp_marks_all(from);
    uint32_t at, count = from->count;
    if (count == 1 && marks->many == NULL) {
        marks->one = all[0];
        marks->count = 1;
        return;
    }
    marks->count = 0;
    for (at = 0; at < count; at++)
        wcp_marks_add(marks, &all[at]);
}

WCP_INLINE void wcp_marks_free(wcp_marks *marks)
{
    free(marks->many);
    marks->many = NULL;
    marks->count = 0;
}

/* ---- What a thread gets and lets go. */

/* The calling thread is about to do something that its watch sees, with no lock of these calls: the end of an interval,
 * where its process waits for the others of a meeting if its condition holds. */
WCP_INLINE void wcp_party_meet(void)
{
    const wcp_party *party = wcp_party_now;
    const wcp_meeting *meeting = party == NULL ? NULL : party->watch->meeting;
    uint32_t interval, at;
    if (meeting == NULL || party->held == 0)
        return;
    interval = party->probe.clock[party->process];
    for (at = party->held < WCP_MAX_HELD ? party->held : WCP_MAX_HELD; at > 0; at--)
        if (wcp_meeting_is_at(meeting, party->process, interval, party->places[at - 1])) {
            wcp_meeting_arrive(party->watch->meeting, party->process, interval, party->places[at - 1]);
            return;
        }
}

WCP_INLINE void wcp_watch_take(wcp_watch *watch, wcp_probe *probe, const wcp_place *place)
{
    wcp_note note;
    uint32_t answer;
    if (wcp_probe_next(probe, (uint64_t)(size_t)place, &note) != WCP_DONE_WITH_NOTE)
        return;
    pthread_mutex_lock(&watch->mutex);
    answer = wcp_checker_take(&watch->checker, &note);
    if (answer != WCP_DONE && watch->refusal == WCP_DONE)
        watch->refusal = answer;
    pthread_mutex_unlock(&watch->mutex);
}

/* A condition that holds goes on, whatever the process gets or lets go. */
WCP_INLINE void wcp_party_again(wcp_party *party)
{
    uint32_t innermost = party->held < WCP_MAX_HELD ? party->held : WCP_MAX_HELD;
    if (party->held == 0)
        return;
    party->has_last = 0;
    if (wcp_probe_observe(&party->probe, 1) == WCP_DONE_WITH_NOTE)
        wcp_watch_take(party->watch, &party->probe, party->places[innermost - 1]);
}

/* The calling thread leaves its marks here. Those of before stay where it has none. */
WCP_INLINE void wcp_marks_leave(wcp_marks *here)
{
    wcp_party *party = wcp_party_now;
    int is_new;
    if (party == NULL)
        return;
    if (party->process == WCP_NO_PROCESS) {
        if (party->taken.count > 0)
            wcp_marks_copy(here, &party->taken);
        return;
    }
    /* Else the last stamp says as much as a new one. */
    is_new = !party->has_last;
    if (is_new && wcp_probe_stamp_open(&party->probe, &party->last) != WCP_DONE)
        return;
    party->has_last = 1;
    if (here->many == NULL)
        here->one = party->last;
    else
        here->many[0] = party->last;
    here->count = 1;
    if (is_new)
        wcp_party_again(party);
}

/* The calling thread got what carried these marks. Who knows the event of a sender knows all that the sender knew. */
WCP_INLINE void wcp_marks_take(const wcp_marks *marks)
{
    wcp_party *party = wcp_party_now;
    const wcp_stamp *stamps = wcp_marks_all(marks);
    uint32_t at;
    if (party == NULL)
        return;
    for (at = 0; at < marks->count; at++) {
        const wcp_stamp *stamp = &stamps[at];
        if (stamp->watch != party->watch->number)
            continue;
        if (party->process == WCP_NO_PROCESS)
            wcp_marks_add(&party->taken, stamp);
        else if (party->probe.clock[stamp->from] < stamp->clock[stamp->from]
                 && wcp_probe_receive(&party->probe, stamp) == WCP_DONE) {
            party->has_last = 0;
            wcp_party_again(party);
        }
    }
}

/* ---- Conditions. */

/* The condition of the calling thread's process holds from here on. A thread that is no process of its watch is told by
 * the report, which then is never WCP_NOTHING. So it is of each watch that is open, where a thread in no watch holds. */
WCP_INLINE void wcp_hold(const wcp_place *place)
{
    wcp_party *party = wcp_party_now;
    if (party == NULL) {
        __atomic_add_fetch(&wcp_held_outside, 1, __ATOMIC_RELAXED);
        return;
    }
    if (party->process == WCP_NO_PROCESS) {
        pthread_mutex_lock(&party->watch->mutex);
        party->watch->strays++;
        pthread_mutex_unlock(&party->watch->mutex);
        return;
    }
    wcp_party_meet();
    if (party->held < WCP_MAX_HELD)
        party->places[party->held] = place;
    party->held++;
    wcp_party_again(party);
}

/* The innermost condition of the calling thread is over. */
WCP_INLINE void wcp_let_go(void)
{
    wcp_party *party = wcp_party_now;
    wcp_party_meet();
    if (party != NULL && party->held > 0)
        party->held--;
}

/* Holds, and gives this place of the program to the moment that is found. */
#define WCP_HOLD(label)                                                   \
    do {                                                                  \
        static const wcp_place wcp_here = {(label), __FILE__, __LINE__}; \
        wcp_hold(&wcp_here);                                              \
    } while (0)

/* ---- The watch. */

/* Opens a watch of processes 0 to `processes` - 1, at most 16: could all have held at once? WCP_DONE, or
 * WCP_OUT_OF_RANGE or WCP_NO_MEMORY. */
WCP_INLINE uint32_t wcp_watch_init(wcp_watch *watch, uint32_t processes)
{
    const wcp_checker none = WCP_CHECKER_NONE;
    memset(watch, 0, sizeof *watch);
    watch->checker = none;
    watch->processes = processes;
    watch->number = __atomic_add_fetch(&wcp_last_watch, 1, __ATOMIC_RELAXED);
    watch->outside = __atomic_load_n(&wcp_held_outside, __ATOMIC_RELAXED);
    pthread_mutex_init(&watch->mutex, NULL);
    return wcp_checker_new(&watch->checker, watch->number, processes);
}

/* The same, with a question for each pair of the processes: (0, 1), (0, 2), .., (1, 2), .. */
WCP_INLINE uint32_t wcp_watch_init_pairs(wcp_watch *watch, uint32_t processes)
{
    uint32_t answer = wcp_watch_init(watch, processes);
    if (answer != WCP_DONE)
        return answer;
    wcp_checker_end(&watch->checker);
    return wcp_checker_new_pairs(&watch->checker, watch->number, processes);
}

/* What the watch tells of a question, 0 and up: WCP_FOUND, WCP_NOTHING or WCP_UNDECIDED. At the end of its threads it
 * is final. It isn't WCP_NOTHING where a process never began or hasn't ended, nor where a thread held that is no
 * process. */
WCP_INLINE uint32_t wcp_watch_report(wcp_watch *watch, uint32_t question)
{
    uint32_t report;
    pthread_mutex_lock(&watch->mutex);
    report = wcp_checker_report_of(&watch->checker, question);
    if (report == WCP_NOTHING && (watch->strays > 0 || watch->refusal != WCP_DONE
                                  || watch->outside != __atomic_load_n(&wcp_held_outside, __ATOMIC_RELAXED)))
        report = WCP_UNDECIDED;
    pthread_mutex_unlock(&watch->mutex);
    return report;
}

/* Where a process held in the moment that was found, or NULL. */
WCP_INLINE const wcp_place *wcp_watch_place(wcp_watch *watch, uint32_t question, uint32_t process)
{
    uint64_t tag = 0;
    pthread_mutex_lock(&watch->mutex);
    wcp_checker_tag_of(&watch->checker, question, process, &tag);
    pthread_mutex_unlock(&watch->mutex);
    return (const wcp_place *)(size_t)tag;
}

/* Adds the processes of the moment that a watch has found: each is to come by its interval (WCP_BY_INTERVAL), by the
 * label with which it held (WCP_BY_LABEL), or wherever its condition holds (WCP_ANYWHERE). Try them in turn. EINVAL
 * where nothing was found, there is no such question, or `by` is none of these; EEXIST where one is a member already,
 * EBUSY where a process has come, or a watch has taken the meeting. What is refused has added none. */
WCP_INLINE int wcp_meeting_add_found(wcp_meeting *meeting, wcp_watch *watch, uint32_t question, uint32_t by)
{
    uint32_t process, interval = 0, added = 0;
    int is_in_cut, error = wcp_watch_report(watch, question) == WCP_FOUND ? 0 : EINVAL;
    for (process = 0; error == 0 && process < watch->processes; process++) {
        const wcp_place *place = wcp_watch_place(watch, question, process);
        pthread_mutex_lock(&watch->mutex);
        is_in_cut = wcp_checker_cut_of(&watch->checker, question, process, &interval) == WCP_DONE;
        pthread_mutex_unlock(&watch->mutex);
        if (is_in_cut)
            error = wcp_meeting_add(meeting, process, by, interval, place == NULL ? NULL : place->label);
        if (is_in_cut && error == 0)
            added |= wcp_bit(process);
    }
    if (error != 0) {
        pthread_mutex_lock(&meeting->mutex);
        meeting->attendance.members &= ~added;
        pthread_mutex_unlock(&meeting->mutex);
    }
    return error;
}

/* The processes of the watch, none of which has begun, are to meet here. The meeting is destroyed after the watch has
 * ended. EINVAL where it has no member, or one that is no process of the watch; EBUSY where a process has begun, the
 * watch has a meeting, or the meeting another watch. */
WCP_INLINE int wcp_watch_meet(wcp_watch *watch, wcp_meeting *meeting)
{
    int error = 0;
    pthread_mutex_lock(&watch->mutex);
    pthread_mutex_lock(&meeting->mutex);
    if (meeting->attendance.members == 0 || (meeting->attendance.members & ~(wcp_bit(watch->processes) - 1)) != 0)
        error = EINVAL;
    else if (watch->begun != 0 || watch->meeting != NULL || meeting->has_begun)
        error = EBUSY;
    if (error == 0) {
        watch->meeting = meeting;
        meeting->has_begun = 1;
    }
    pthread_mutex_unlock(&meeting->mutex);
    pthread_mutex_unlock(&watch->mutex);
    return error;
}

/* Ends the watch, in which no thread is any more, and frees its memory. */
WCP_INLINE void wcp_watch_end(wcp_watch *watch)
{
    wcp_checker_end(&watch->checker);
    pthread_mutex_destroy(&watch->mutex);
}

/* A part in the watch: of the process with this number, or of none with WCP_NO_PROCESS. NULL, with *error: EINVAL where
 * there is no such process, EEXIST where it has begun before, ENOMEM. */
WCP_INLINE wcp_party *wcp_party_new(wcp_watch *watch, uint32_t process, int *error)
{
    wcp_party *party;
    uint32_t bit = 0;
    *error = process == WCP_NO_PROCESS || process < watch->processes ? 0 : EINVAL;
    if (*error != 0)
        return NULL;
    party = (wcp_party *)calloc(1, sizeof *party);
    *error = party == NULL ? ENOMEM : 0;
    if (party == NULL)
        return NULL;
    party->watch = watch;
    party->process = process;
    if (process == WCP_NO_PROCESS)
        return party;
    bit = (uint32_t)1 << process;
    pthread_mutex_lock(&watch->mutex);
    if (watch->begun & bit)
        *error = EEXIST;
    watch->begun |= bit;
    pthread_mutex_unlock(&watch->mutex);
    if (*error == 0 && wcp_probe_init(&party->probe, watch->number, process, watch->processes) == WCP_DONE)
        return party;
    if (*error == 0)
        *error = EINVAL;
    free(party);
    return NULL;
}

/* The calling thread's part ends: its conditions are over, and here is what it leaves. */
WCP_INLINE void wcp_party_end(wcp_marks *left)
{
    wcp_party *party = wcp_party_now;
    wcp_party_meet();
    party->held = 0;
    wcp_marks_leave(left);
    if (party->process != WCP_NO_PROCESS) {
        if (wcp_probe_close(&party->probe) == WCP_DONE_WITH_NOTE)
            wcp_watch_take(party->watch, &party->probe, NULL);
        pthread_mutex_lock(&party->watch->mutex);
        party->watch->ended |= (uint32_t)1 << party->process;
        pthread_mutex_unlock(&party->watch->mutex);
        if (party->watch->meeting != NULL)
            wcp_meeting_ended(party->watch->meeting, party->process);
    }
    wcp_party_now = party->before;
    wcp_marks_free(&party->taken);
    free(party);
}

/* The calling thread is in the watch until wcp_exit: as the process with this number, or as none with WCP_NO_PROCESS.
 * So is each thread that it starts by wcp_create meanwhile. 0, EINVAL, EEXIST or ENOMEM. */
WCP_INLINE int wcp_enter(wcp_watch *watch, uint32_t process)
{
    int error;
    wcp_marks left = {0, {0, 0, 0, 0, 0, {0}}, NULL};
    wcp_party *party = wcp_party_new(watch, process, &error);
    if (party == NULL)
        return error;
    wcp_party_meet();
    wcp_marks_leave(&left);
    party->before = wcp_party_now;
    wcp_party_now = party;
    wcp_marks_take(&left);
    wcp_marks_free(&left);
    return 0;
}

/* Ends what wcp_enter began. EINVAL where the thread is in no watch. */
WCP_INLINE int wcp_exit(void)
{
    wcp_marks left = {0, {0, 0, 0, 0, 0, {0}}, NULL};
    if (wcp_party_now == NULL)
        return EINVAL;
    wcp_party_end(&left);
    wcp_marks_take(&left);
    wcp_marks_free(&left);
    return 0;
}

/* ---- Locks. */

WCP_INLINE int wcp_mutex_init(wcp_mutex *mutex, const pthread_mutexattr_t *attributes)
{
    memset(&mutex->left, 0, sizeof mutex->left);
    return pthread_mutex_init(&mutex->inner, attributes);
}

WCP_INLINE int wcp_mutex_destroy(wcp_mutex *mutex)
{
    wcp_marks_free(&mutex->left);
    return pthread_mutex_destroy(&mutex->inner);
}

WCP_INLINE int wcp_mutex_lock(wcp_mutex *mutex)
{
    int error;
    wcp_party_meet();
    error = pthread_mutex_lock(&mutex->inner);
    if (error == 0)
        wcp_marks_take(&mutex->left);
    return error;
}

WCP_INLINE int wcp_mutex_trylock(wcp_mutex *mutex)
{
    int error;
    wcp_party_meet();
    error = pthread_mutex_trylock(&mutex->inner);
    if (error == 0)
        wcp_marks_take(&mutex->left);
    return error;
}

WCP_INLINE int wcp_mutex_unlock(wcp_mutex *mutex)
{
    wcp_party_meet();
    wcp_marks_leave(&mutex->left);
    return pthread_mutex_unlock(&mutex->inner);
}

/* pthread_cond_init, _signal, _broadcast and _destroy stay as they are. */
WCP_INLINE int wcp_cond_wait(pthread_cond_t *condition, wcp_mutex *mutex)
{
    int error;
    wcp_party_meet();
    wcp_marks_leave(&mutex->left);
    error = pthread_cond_wait(condition, &mutex->inner);
    wcp_marks_take(&mutex->left);
    return error;
}

WCP_INLINE int wcp_cond_timedwait(pthread_cond_t *condition, wcp_mutex *mutex, const struct timespec *until)
{
    int error;
    wcp_party_meet();
    wcp_marks_leave(&mutex->left);
    error = pthread_cond_timedwait(condition, &mutex->inner, until);
    wcp_marks_take(&mutex->left);
    return error;
}

/* ---- Barriers. */

/* A barrier for so many threads. 0, EINVAL or ENOMEM. */
WCP_INLINE int wcp_barrier_init(wcp_barrier *barrier, unsigned threads)
{
    memset(barrier, 0, sizeof *barrier);
    if (threads == 0)
        return EINVAL;
    barrier->threads = threads;
    barrier->of_each = (wcp_marks *)calloc(threads, sizeof *barrier->of_each);
    if (barrier->of_each == NULL)
        return ENOMEM;
    pthread_mutex_init(&barrier->mutex, NULL);
    pthread_cond_init(&barrier->is_full, NULL);
    return 0;
}

WCP_INLINE int wcp_barrier_destroy(wcp_barrier *barrier)
{
    unsigned at;
    for (at = 0; at < barrier->threads; at++)
        wcp_marks_free(&barrier->of_each[at]);
    free(barrier->of_each);
    wcp_marks_free(&barrier->of_all);
    pthread_cond_destroy(&barrier->is_full);
    return pthread_mutex_destroy(&barrier->mutex);
}

/* Waits until all have come. The last one takes what each has left, and leaves one stamp for all: it is answered
 * PTHREAD_BARRIER_SERIAL_THREAD, the others 0. */
WCP_INLINE int wcp_barrier_wait(wcp_barrier *barrier)
{
    unsigned at, round;
    int is_last;
    wcp_party_meet();
    pthread_mutex_lock(&barrier->mutex);
    is_last = barrier->came + 1 == barrier->threads;
    if (is_last) {
        for (at = 0; at < barrier->came; at++)
            wcp_marks_take(&barrier->of_each[at]);
        wcp_marks_leave(&barrier->of_all);
        barrier->came = 0;
        barrier->round++;
        pthread_cond_broadcast(&barrier->is_full);
    } else {
        barrier->of_each[barrier->came].count = 0;
        wcp_marks_leave(&barrier->of_each[barrier->came++]);
        for (round = barrier->round; round == barrier->round;)
            pthread_cond_wait(&barrier->is_full, &barrier->mutex);
        wcp_marks_take(&barrier->of_all);
    }
    pthread_mutex_unlock(&barrier->mutex);
    return is_last ? PTHREAD_BARRIER_SERIAL_THREAD : 0;
}

/* ---- Threads. */

WCP_INLINE void *wcp_start_run(void *data)
{
    wcp_start *start = (wcp_start *)data;
    void *value;
    wcp_party_now = start->party;
    value = start->run(start->argument);
    if (wcp_party_now != NULL)
        wcp_party_end(&start->left);
    return value;
}

/* Starts a thread: the process with this number of the caller's watch, or with WCP_NO_PROCESS none. It returns from
 * `run`, and isn't detached; pthread_exit and cancellation leave its process without an end, so that the report stays
 * undecided. As pthread_create, or EINVAL where there is no such process, EEXIST where it has begun, ENOMEM. */
WCP_INLINE int wcp_create(wcp_thread *thread, const pthread_attr_t *attributes, uint32_t process, void *(*run)(void *),
                          void *argument)
{
    int error = 0;
    wcp_start *start = (wcp_start *)calloc(1, sizeof *start);
    if (start == NULL)
        return ENOMEM;
    wcp_party_meet();
    start->run = run;
    start->argument = argument;
    if (wcp_party_now != NULL) {
        wcp_party *own = wcp_party_now;
        wcp_marks left = {0, {0, 0, 0, 0, 0, {0}}, NULL};
        start->party = wcp_party_new(own->watch, process, &error);
        if (start->party != NULL) {
            wcp_marks_leave(&left);
            wcp_party_now = start->party;
            wcp_marks_take(&left);
            wcp_party_now = own;
            wcp_marks_free(&left);
        }
    }
    if (error == 0)
        error = pthread_create(&thread->inner, attributes, wcp_start_run, start);
    if (error == 0) {
        thread->start = start;
        return 0;
    }
    if (start->party != NULL)
        wcp_marks_free(&start->party->taken);
    free(start->party);
    free(start);
    return error;
}

/* Waits for the thread's end, as pthread_join. */
WCP_INLINE int wcp_join(wcp_thread thread, void **value)
{
    int error;
    wcp_party_meet();
    error = pthread_join(thread.inner, value);
    if (error != 0)
        return error;
    wcp_marks_take(&thread.start->left);
    wcp_marks_free(&thread.start->left);
    free(thread.start);
    return 0;
}

#ifdef __cplusplus
}
#endif

#endif
