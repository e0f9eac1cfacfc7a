/* A meeting of processes: makes happen what a watch has found, in a second run.
 *
 * A moment that was found could have been. Here each process that comes to its place in that moment waits for the
 * others, at most so long as it is told. If all are there at once, they have met, and all go on: the moment has
 * happened.
 *
 *     wcp_meeting_init(&meeting, 200);
 *     wcp_meeting_add_found(&meeting, &first_watch, 0, WCP_BY_LABEL);
 *     wcp_watch_meet(&second_watch, &meeting);
 *
 * The last two calls are in wullaphi_pthread.h, whose watched calls make a process wait by themselves, each before it
 * does anything else. A program with probes of its own calls wcp_meeting_arrive before each call of a probe whose
 * process's condition holds.
 *
 * A member waits at the end of its interval, since what it does before may be what the others need to come. Where all
 * have met, there was a point of the run at which the condition of each held, between what it did last and what it did
 * next. Where they haven't, nothing is said: either the moment can't be, or the run didn't come there.
 *
 * The calls that answer an int answer 0 or a number of <errno.h>, unless their comment says otherwise. */
#ifndef WULLAPHI_MEETING_H
#define WULLAPHI_MEETING_H

#include <errno.h>
#include <pthread.h>
#include <stdarg.h>
#include <stdio.h>
#include <string.h>
#include <time.h>

#include "wullaphi.h"

#ifdef __cplusplus
extern "C" {
#endif

/* Where a program holds a condition. */
typedef struct wcp_place {
    const char *label;
    const char *file;
    int line;
} wcp_place;

/* Where a member waits: in one interval, where a condition with a label holds, or wherever its condition holds. An
 * interval's number differs from run to run where locks are got in another order; a label doesn't. */
#define WCP_BY_INTERVAL 1
#define WCP_BY_LABEL 2
#define WCP_ANYWHERE 3

/* Who is there: the rules of a meeting, without its waits. Each field but the last has a bit for each process. */
typedef struct wcp_attendance {
    uint32_t members; /* those that are to come */
    uint32_t here;
    uint32_t ended;   /* those that won't come any more */
    int has_met;      /* whether all were there at once */
} wcp_attendance;

/* A process that is to come, and how it went. The fields of this structure and of the next belong to these calls. */
typedef struct wcp_member {
    uint32_t by;
    uint32_t interval;
    const char *label;
    uint64_t came;                      /* how often it came to its place */
    uint64_t missed[WCP_MAX_PROCESSES]; /* how often it gave up while each other one was missing */
    uint32_t at_interval;               /* where it came last */
    const wcp_place *at_place;
} wcp_member;

typedef struct wcp_meeting {
    pthread_mutex_t mutex;
    pthread_cond_t changed;
    uint32_t patience; /* in milliseconds */
    int has_begun;
    wcp_attendance attendance;
    wcp_member of_each[WCP_MAX_PROCESSES];
} wcp_meeting;

/* ---- The rules. */

WCP_INLINE uint32_t wcp_bit(uint32_t process)
{
    return process < WCP_MAX_PROCESSES ? (uint32_t)1 << process : 0;
}

/* A member is there. If all are, they have met. One that has ended doesn't come any more. */
WCP_INLINE void wcp_attendance_arrive(wcp_attendance *attendance, uint32_t process)
{
    uint32_t bit = wcp_bit(process) & attendance->members & ~attendance->ended;
    if (bit == 0)
        return;
    attendance->here |= bit;
    if (attendance->here == attendance->members)
        attendance->has_met = 1;
}

/* A member goes on: it is no longer there, unless all have met. The answer is whether they have. */
WCP_INLINE int wcp_attendance_give_up(wcp_attendance *attendance, uint32_t process)
{
    if (!attendance->has_met)
        attendance->here &= ~wcp_bit(process);
    return attendance->has_met;
}

/* A process has ended. */
WCP_INLINE void wcp_attendance_end(wcp_attendance *attendance, uint32_t process)
{
    attendance->ended |= wcp_bit(process);
    wcp_attendance_give_up(attendance, process);
}

/* Whether it makes sense to wait. */
WCP_INLINE int wcp_attendance_is_open(const wcp_attendance *attendance)
{
    return !attendance->has_met && (attendance->members & attendance->ended) == 0;
}

/* ---- A meeting and its members. */

/* A meeting without members, in which each waits for so many milliseconds at most, each time that it comes. 0, or what
 * pthread_cond_init answers. */
WCP_INLINE int wcp_meeting_init(wcp_meeting *meeting, uint32_t patience)
{
    pthread_condattr_t attributes;
    int error;
    memset(meeting, 0, sizeof *meeting);
    meeting->patience = patience;
    error = pthread_condattr_init(&attributes);
    if (error != 0)
        return error;
    error = pthread_condattr_setclock(&attributes, CLOCK_MONOTONIC);
    if (error == 0)
        error = pthread_cond_init(&meeting->changed, &attributes);
    pthread_condattr_destroy(&attributes);
    if (error != 0)
        return error;
    error = pthread_mutex_init(&meeting->mutex, NULL);
    if (error != 0)
        pthread_cond_destroy(&meeting->changed);
    return error;
}

/* Frees what it has, once no process can come any more. */
WCP_INLINE int wcp_meeting_destroy(wcp_meeting *meeting)
{
    pthread_cond_destroy(&meeting->changed);
    return pthread_mutex_destroy(&meeting->mutex);
}

WCP_INLINE int wcp_meeting_add(wcp_meeting *meeting, uint32_t process, uint32_t by, uint32_t interval,
                               const char *label)
{
    int error = 0;
    if (process >= WCP_MAX_PROCESSES || by < WCP_BY_INTERVAL || by > WCP_ANYWHERE)
        return EINVAL;
    if (by == WCP_BY_LABEL && label == NULL)
        return EINVAL;
    pthread_mutex_lock(&meeting->mutex);
    if (meeting->has_begun)
        error = EBUSY;
    else if (meeting->attendance.members & wcp_bit(process))
        error = EEXIST;
    if (error == 0) {
        meeting->attendance.members |= wcp_bit(process);
        meeting->of_each[process].by = by;
        meeting->of_each[process].interval = interval;
        meeting->of_each[process].label = label;
    }
    pthread_mutex_unlock(&meeting->mutex);
    return error;
}

/* The process with this number is to come, in the interval with this number: behind so many sends and receives, as
 * wcp_checker_cut counts them. EINVAL where no watch has such a process, EEXIST where it is a member already, EBUSY
 * where a process has come, or a watch has taken the meeting. */
WCP_INLINE int wcp_meeting_at_interval(wcp_meeting *meeting, uint32_t process, uint32_t interval)
{
    return wcp_meeting_add(meeting, process, WCP_BY_INTERVAL, interval, NULL);
}

/* The same, wherever a condition with this label holds. The label, which isn't NULL, is kept as a pointer. */
WCP_INLINE int wcp_meeting_at_label(wcp_meeting *meeting, uint32_t process, const char *label)
{
    return wcp_meeting_add(meeting, process, WCP_BY_LABEL, 0, label);
}

/* The same, wherever its condition holds. */
WCP_INLINE int wcp_meeting_anywhere(wcp_meeting *meeting, uint32_t process)
{
    return wcp_meeting_add(meeting, process, WCP_ANYWHERE, 0, NULL);
}

/* ---- Waiting. */

/* Whether the process is to come, and waits here. */
WCP_INLINE int wcp_meeting_is_at(const wcp_meeting *meeting, uint32_t process, uint32_t interval,
                                 const wcp_place *place)
{
    const wcp_member *member;
    if ((meeting->attendance.members & wcp_bit(process)) == 0)
        return 0;
    member = &meeting->of_each[process];
    if (member->by == WCP_BY_INTERVAL)
        return member->interval == interval;
    if (member->by == WCP_BY_LABEL)
        return place != NULL && place->label != NULL && strcmp(member->label, place->label) == 0;
    return 1;
}

/* The time by which the patience of who comes now is over. */
WCP_INLINE struct timespec wcp_meeting_until(const wcp_meeting *meeting)
{
    struct timespec until;
    clock_gettime(CLOCK_MONOTONIC, &until);
    until.tv_sec += (time_t)(meeting->patience / 1000);
    until.tv_nsec += (long)(meeting->patience % 1000) * 1000000L;
    if (until.tv_nsec >= 1000000000L) {
        until.tv_sec += 1;
        until.tv_nsec -= 1000000000L;
    }
    return until;
}

/* Waits for the others with the meeting's mutex, and gives up where they don't come. */
WCP_INLINE void wcp_meeting_wait(wcp_meeting *meeting, uint32_t process)
{
    const struct timespec until = wcp_meeting_until(meeting);
    wcp_attendance *attendance = &meeting->attendance;
    uint32_t missing, other;
    int error = 0;
    while (wcp_attendance_is_open(attendance) && error == 0)
        error = pthread_cond_timedwait(&meeting->changed, &meeting->mutex, &until);
    if (wcp_attendance_give_up(attendance, process))
        return;
    missing = attendance->members & ~attendance->here & ~wcp_bit(process);
    for (other = 0; other < WCP_MAX_PROCESSES; other++)
        if (missing & wcp_bit(other))
            meeting->of_each[process].missed[other]++;
}

/* The process, whose condition holds in this interval and with this place (or NULL), is about to make the next call of
 * its probe. Where it is to come here, it waits until all are there, until its patience is over, or until another one
 * has ended. The answer is 1 where they have met, and else 0. */
WCP_INLINE int wcp_meeting_arrive(wcp_meeting *meeting, uint32_t process, uint32_t interval, const wcp_place *place)
{
    wcp_attendance *attendance = &meeting->attendance;
    int has_met, is_over;
    pthread_mutex_lock(&meeting->mutex);
    meeting->has_begun = 1;
    is_over = attendance->has_met || (attendance->ended & wcp_bit(process)) != 0;
    if (!is_over && wcp_meeting_is_at(meeting, process, interval, place)) {
        wcp_member *member = &meeting->of_each[process];
        member->came++;
        member->at_interval = interval;
        member->at_place = place;
        wcp_attendance_arrive(attendance, process);
        if (attendance->has_met)
            pthread_cond_broadcast(&meeting->changed);
        else
            wcp_meeting_wait(meeting, process);
    }
    has_met = attendance->has_met;
    pthread_mutex_unlock(&meeting->mutex);
    return has_met;
}

/* The process has ended and won't come any more: nobody goes on waiting for it. */
WCP_INLINE void wcp_meeting_ended(wcp_meeting *meeting, uint32_t process)
{
    pthread_mutex_lock(&meeting->mutex);
    meeting->has_begun = 1;
    wcp_attendance_end(&meeting->attendance, process);
    pthread_cond_broadcast(&meeting->changed);
    pthread_mutex_unlock(&meeting->mutex);
}

/* ---- How it went. */

/* 1 where all were there at once, and else 0. */
WCP_INLINE int wcp_meeting_met(wcp_meeting *meeting)
{
    int has_met;
    pthread_mutex_lock(&meeting->mutex);
    has_met = meeting->attendance.has_met;
    pthread_mutex_unlock(&meeting->mutex);
    return has_met;
}

/* Where a member stood as all met: its interval, and its place, which may be NULL. EINVAL where it is no member, EAGAIN
 * where they haven't met; both leave *interval and *place as they were. */
WCP_INLINE int wcp_meeting_stood(wcp_meeting *meeting, uint32_t process, uint32_t *interval, const wcp_place **place)
{
    int error = 0;
    pthread_mutex_lock(&meeting->mutex);
    if ((meeting->attendance.members & wcp_bit(process)) == 0)
        error = EINVAL;
    else if (!meeting->attendance.has_met)
        error = EAGAIN;
    if (error == 0) {
        *interval = meeting->of_each[process].at_interval;
        *place = meeting->of_each[process].at_place;
    }
    pthread_mutex_unlock(&meeting->mutex);
    return error;
}

/* How often a process came to its place until all met; 0 where it never did, or is no member. */
WCP_INLINE uint64_t wcp_meeting_came(wcp_meeting *meeting, uint32_t process)
{
    uint64_t count = 0;
    pthread_mutex_lock(&meeting->mutex);
    if (process < WCP_MAX_PROCESSES)
        count = meeting->of_each[process].came;
    pthread_mutex_unlock(&meeting->mutex);
    return count;
}

/* How often a process gave up while another one was missing. */
WCP_INLINE uint64_t wcp_meeting_missed(wcp_meeting *meeting, uint32_t process, uint32_t missing)
{
    uint64_t count = 0;
    pthread_mutex_lock(&meeting->mutex);
    if (process < WCP_MAX_PROCESSES && missing < WCP_MAX_PROCESSES)
        count = meeting->of_each[process].missed[missing];
    pthread_mutex_unlock(&meeting->mutex);
    return count;
}

/* A text that is written into so much room, and how long it is as a whole. */
typedef struct wcp_text {
    char *out;
    size_t room;
    size_t length;
} wcp_text;

__attribute__((format(printf, 2, 3))) WCP_INLINE void wcp_text_add(wcp_text *text, const char *format, ...)
{
    size_t used = text->length < text->room ? text->length : text->room;
    va_list values;
    int more;
    va_start(values, format);
    more = vsnprintf(text->room == 0 ? NULL : text->out + used, text->room - used, format, values);
    va_end(values);
    if (more > 0)
        text->length += (size_t)more;
}

WCP_INLINE void wcp_text_add_moment(wcp_text *text, const wcp_meeting *meeting)
{
    const char *before = "met: ", *slash;
    uint32_t process;
    for (process = 0; process < WCP_MAX_PROCESSES; process++) {
        const wcp_place *place = meeting->of_each[process].at_place;
        if ((meeting->attendance.members & wcp_bit(process)) == 0)
            continue;
        if (place == NULL || place->label == NULL || place->file == NULL) {
            wcp_text_add(text, "%sprocess %u in interval %u", before, (unsigned)process,
                         (unsigned)meeting->of_each[process].at_interval);
        } else {
            slash = strrchr(place->file, '/');
            wcp_text_add(text, "%sprocess %u at %s (%s:%d)", before, (unsigned)process, place->label,
                         slash == NULL ? place->file : slash + 1, place->line);
        }
        before = ", ";
    }
}

WCP_INLINE void wcp_text_add_missed(wcp_text *text, const wcp_meeting *meeting)
{
    const char *before = "not met: ";
    uint32_t process, other;
    for (process = 0; process < WCP_MAX_PROCESSES; process++)
        if ((meeting->attendance.members & wcp_bit(process)) && meeting->of_each[process].came == 0) {
            wcp_text_add(text, "%sprocess %u never came to its place", before, (unsigned)process);
            before = "; ";
        }
    for (process = 0; process < WCP_MAX_PROCESSES; process++)
        for (other = 0; other < WCP_MAX_PROCESSES; other++) {
            unsigned long times = (unsigned long)meeting->of_each[process].missed[other];
            if (times == 0)
                continue;
            wcp_text_add(text, "%sprocess %u gave up %lu time%s while process %u was missing", before,
                         (unsigned)process, times, times == 1 ? "" : "s", (unsigned)other);
            before = "; ";
        }
    if (text->length == 0)
        wcp_text_add(text, "not met");
}

/* Tells in a line, without its end, where all met, or who never came and who gave up while who was missing. As snprintf
 * it writes no more than `room` bytes, the last one a 0, and answers how many the whole text has without the 0. */
WCP_INLINE size_t wcp_meeting_tell(wcp_meeting *meeting, char *out, size_t room)
{
    wcp_text text;
    text.out = out;
    text.room = room;
    text.length = 0;
    if (room > 0)
        out[0] = 0;
    pthread_mutex_lock(&meeting->mutex);
    if (meeting->attendance.has_met)
        wcp_text_add_moment(&text, meeting);
    else
        wcp_text_add_missed(&text, meeting);
    pthread_mutex_unlock(&meeting->mutex);
    return text.length;
}

#ifdef __cplusplus
}
#endif

#endif
