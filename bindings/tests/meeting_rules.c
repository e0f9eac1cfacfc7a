/* The rules of a meeting, without threads: every order of what members do, what is refused, and what is told. */
#include "../wullaphi_meeting.h"
#include "checks.h"

#include <stdbool.h>

#define MOST_STEPS 7

enum { ARRIVES, GIVES_UP, ENDS, KINDS };

struct step {
    int kind;
    uint32_t member;
};

/* The steps of some members so far, and what differs from what they mean. */
struct history {
    uint32_t members;
    int most;
    int count;
    struct step steps[MOST_STEPS];
    unsigned long seen;
    unsigned long wrong;
};

/* Whether a member is there behind so many steps: it came, and has neither given up nor ended since, or before. */
static bool is_there(const struct history *history, int count, uint32_t member)
{
    bool there = false;
    int at;
    for (at = 0; at < count; at++) {
        if (history->steps[at].member != member)
            continue;
        if (history->steps[at].kind == ENDS)
            return false;
        there = history->steps[at].kind == ARRIVES;
    }
    return there;
}

static uint32_t all_there(const struct history *history, int count)
{
    uint32_t member, there = 0;
    for (member = 0; member < history->members; member++)
        there |= (uint32_t)is_there(history, count, member) << member;
    return there;
}

static bool has_anyone_ended(const struct history *history)
{
    int at;
    for (at = 0; at < history->count; at++)
        if (history->steps[at].kind == ENDS)
            return true;
    return false;
}

/* Compares who is there, and whether all ever were at once. */
static void compare(struct history *history, const wcp_attendance *attendance)
{
    const uint32_t all = ((uint32_t)1 << history->members) - 1;
    bool has_met = false;
    int count;
    for (count = 0; count <= history->count; count++)
        has_met |= all_there(history, count) == all;
    history->seen++;
    history->wrong += (attendance->has_met != 0) != has_met;
    history->wrong += attendance->here != (has_met ? all : all_there(history, history->count));
    history->wrong += (wcp_attendance_is_open(attendance) != 0) != (!has_met && !has_anyone_ended(history));
}

/* Takes each step that can be next, and each behind that. */
static void walk(struct history *history, const wcp_attendance *before)
{
    uint32_t member;
    int kind;
    compare(history, before);
    if (history->count == history->most)
        return;
    for (kind = 0; kind < KINDS; kind++)
        for (member = 0; member < history->members; member++) {
            wcp_attendance after = *before;
            history->steps[history->count].kind = kind;
            history->steps[history->count++].member = member;
            if (kind == ARRIVES)
                wcp_attendance_arrive(&after, member);
            else if (kind == ENDS)
                wcp_attendance_end(&after, member);
            else
                history->wrong += wcp_attendance_give_up(&after, member) != before->has_met;
            walk(history, &after);
            history->count--;
        }
}

static void every_order(uint32_t members, int most, unsigned long orders)
{
    struct history history = {0, 0, 0, {{0, 0}}, 0, 0};
    wcp_attendance attendance = {0, 0, 0, 0};
    history.members = members;
    history.most = most;
    attendance.members = ((uint32_t)1 << members) - 1;
    walk(&history, &attendance);
    CHECK(history.wrong == 0);
    CHECK(history.seen == orders);
}

static void two_members(void)
{
    every_order(2, 7, 335923);
}

static void three_members(void)
{
    every_order(3, 6, 597871);
}

/* Who is no member is never there, and changes nothing. */
static void others(void)
{
    wcp_attendance attendance = {2, 0, 0, 0};
    wcp_attendance_arrive(&attendance, 0);
    wcp_attendance_arrive(&attendance, 16);
    wcp_attendance_arrive(&attendance, 33);
    wcp_attendance_end(&attendance, 0);
    wcp_attendance_end(&attendance, 33);
    CHECK(attendance.here == 0 && !attendance.has_met && wcp_attendance_is_open(&attendance));
    wcp_attendance_arrive(&attendance, 1);
    CHECK(attendance.has_met);
}

static const wcp_place pays = {"pays", "src/bank.c", 20};
static const wcp_place audits = {"audits", "bank.c", 31};

static bool tells(wcp_meeting *meeting, const char *wanted)
{
    char text[200];
    char start[5];
    size_t length = wcp_meeting_tell(meeting, text, sizeof text);
    bool is_right = length == strlen(wanted) && strcmp(text, wanted) == 0;
    is_right &= wcp_meeting_tell(meeting, start, sizeof start) == length && strncmp(start, wanted, 4) == 0;
    is_right &= start[4] == 0 && wcp_meeting_tell(meeting, NULL, 0) == length;
    if (!is_right)
        fprintf(stderr, "%s\n", text);
    return is_right;
}

static void bad_arguments(void)
{
    wcp_meeting meeting;
    uint32_t interval = 9;
    const wcp_place *place = &pays;
    CHECK(wcp_meeting_init(&meeting, 0) == 0);
    CHECK(wcp_meeting_at_interval(&meeting, 16, 0) == EINVAL);
    CHECK(wcp_meeting_at_interval(&meeting, 33, 0) == EINVAL);
    CHECK(wcp_meeting_at_label(&meeting, 0, NULL) == EINVAL);
    CHECK(wcp_meeting_add(&meeting, 0, 0, 0, NULL) == EINVAL);
    CHECK(wcp_meeting_add(&meeting, 0, 4, 0, NULL) == EINVAL);
    CHECK(wcp_meeting_at_interval(&meeting, 0, 3) == 0);
    CHECK(wcp_meeting_anywhere(&meeting, 0) == EEXIST);
    CHECK(wcp_meeting_at_label(&meeting, 15, "audits") == 0);
    CHECK(wcp_meeting_stood(&meeting, 1, &interval, &place) == EINVAL);
    CHECK(wcp_meeting_stood(&meeting, 33, &interval, &place) == EINVAL);
    CHECK(wcp_meeting_stood(&meeting, 0, &interval, &place) == EAGAIN);
    CHECK(interval == 9 && place == &pays);
    CHECK(wcp_meeting_came(&meeting, 33) == 0 && wcp_meeting_missed(&meeting, 33, 0) == 0);
    CHECK(wcp_meeting_missed(&meeting, 0, 33) == 0);
    CHECK(tells(&meeting, "not met: process 0 never came to its place; process 15 never came to its place"));
    CHECK(wcp_meeting_arrive(&meeting, 0, 3, NULL) == 0);
    CHECK(wcp_meeting_anywhere(&meeting, 1) == EBUSY);
    CHECK(wcp_meeting_destroy(&meeting) == 0);
}

/* Each kind of place lets the right ones in, and a wait of no time gives up. */
static void where_one_waits(void)
{
    static const wcp_place nameless = {NULL, NULL, 0};
    wcp_meeting meeting;
    CHECK(wcp_meeting_init(&meeting, 0) == 0);
    CHECK(tells(&meeting, "not met"));
    CHECK(wcp_meeting_at_interval(&meeting, 0, 3) == 0);
    CHECK(wcp_meeting_at_label(&meeting, 1, "audits") == 0);
    CHECK(wcp_meeting_anywhere(&meeting, 2) == 0);
    CHECK(wcp_meeting_arrive(&meeting, 0, 2, &pays) == 0);
    CHECK(wcp_meeting_arrive(&meeting, 1, 3, &pays) == 0);
    CHECK(wcp_meeting_arrive(&meeting, 1, 3, &nameless) == 0);
    CHECK(wcp_meeting_arrive(&meeting, 1, 3, NULL) == 0);
    CHECK(wcp_meeting_arrive(&meeting, 3, 3, &audits) == 0);
    CHECK(wcp_meeting_came(&meeting, 0) == 0 && wcp_meeting_came(&meeting, 1) == 0);
    CHECK(wcp_meeting_arrive(&meeting, 0, 3, NULL) == 0);
    CHECK(wcp_meeting_arrive(&meeting, 1, 8, &audits) == 0);
    CHECK(wcp_meeting_arrive(&meeting, 1, 9, &audits) == 0);
    CHECK(wcp_meeting_arrive(&meeting, 2, 8, NULL) == 0);
    CHECK(wcp_meeting_came(&meeting, 0) == 1 && wcp_meeting_came(&meeting, 1) == 2);
    CHECK(wcp_meeting_missed(&meeting, 1, 0) == 2 && wcp_meeting_missed(&meeting, 1, 1) == 0);
    CHECK(!wcp_meeting_met(&meeting));
    CHECK(wcp_meeting_destroy(&meeting) == 0);
}

static void what_is_told(void)
{
    wcp_meeting meeting;
    CHECK(wcp_meeting_init(&meeting, 0) == 0);
    CHECK(wcp_meeting_at_label(&meeting, 0, "pays") == 0);
    CHECK(wcp_meeting_anywhere(&meeting, 2) == 0);
    wcp_meeting_arrive(&meeting, 0, 4, &pays);
    CHECK(tells(&meeting, "not met: process 2 never came to its place; "
                          "process 0 gave up 1 time while process 2 was missing"));
    wcp_meeting_arrive(&meeting, 0, 4, &pays);
    wcp_meeting_arrive(&meeting, 2, 1, &audits);
    CHECK(tells(&meeting, "not met: process 0 gave up 2 times while process 2 was missing; "
                          "process 2 gave up 1 time while process 0 was missing"));
    wcp_meeting_ended(&meeting, 2);
    CHECK(wcp_meeting_arrive(&meeting, 2, 1, &audits) == 0);
    CHECK(wcp_meeting_came(&meeting, 2) == 1 && !wcp_meeting_met(&meeting));
    CHECK(wcp_meeting_destroy(&meeting) == 0);
}

/* A meeting of one: who comes is there. */
static void the_moment(void)
{
    wcp_meeting meeting;
    uint32_t interval = 0;
    const wcp_place *place = NULL;
    CHECK(wcp_meeting_init(&meeting, 0) == 0);
    CHECK(wcp_meeting_at_label(&meeting, 5, "pays") == 0);
    CHECK(wcp_meeting_arrive(&meeting, 5, 4, &pays) == 1);
    CHECK(wcp_meeting_arrive(&meeting, 5, 7, &pays) == 1);
    CHECK(wcp_meeting_stood(&meeting, 5, &interval, &place) == 0);
    CHECK(interval == 4 && place == &pays && wcp_meeting_came(&meeting, 5) == 1);
    wcp_meeting_ended(&meeting, 5);
    CHECK(tells(&meeting, "met: process 5 at pays (bank.c:20)"));
    CHECK(wcp_meeting_destroy(&meeting) == 0);
    CHECK(wcp_meeting_init(&meeting, 0) == 0);
    CHECK(wcp_meeting_anywhere(&meeting, 0) == 0);
    CHECK(wcp_meeting_arrive(&meeting, 0, 4, NULL) == 1);
    CHECK(tells(&meeting, "met: process 0 in interval 4"));
    CHECK(wcp_meeting_destroy(&meeting) == 0);
}

int main(int argc, char **argv)
{
    static const struct checks_group groups[] = {
        GROUP(two_members),
        GROUP(three_members),
        GROUP(others),
        GROUP(bad_arguments),
        GROUP(where_one_waits),
        GROUP(what_is_told),
        GROUP(the_moment),
    };
    return CHECKS_MAIN(groups, argc, argv);
}
