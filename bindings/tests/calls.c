/* Every call and every refusal, once each. */
#include "../wullaphi.h"
#include "checks.h"

#include <stdlib.h>
#include <string.h>

#define MOST_BYTES 2097152

static wcp_probe probe_of(uint32_t process, uint32_t processes)
{
    wcp_probe probe;
    memset(&probe, 0xA5, sizeof probe);
    CHECK(wcp_probe_init(&probe, 7, process, processes) == WCP_DONE);
    return probe;
}

static void sizes(void)
{
    CHECK(sizeof(wcp_probe) == 112);
    CHECK(sizeof(wcp_stamp) == 88);
    CHECK(sizeof(wcp_note) == 104);
    CHECK(wcp_version() == WCP_VERSION);
}

static void init(void)
{
    wcp_probe probe;
    wcp_probe before;
    memset(&probe, 0x5A, sizeof probe);
    before = probe;
    CHECK(wcp_probe_init(&probe, 1, 2, 2) == WCP_OUT_OF_RANGE);
    CHECK(wcp_probe_init(&probe, 1, 0, 0) == WCP_OUT_OF_RANGE);
    CHECK(wcp_probe_init(&probe, 1, 0, 17) == WCP_OUT_OF_RANGE);
    CHECK(wcp_probe_init_with(&probe, 1, 0, 2, 2, 0) == WCP_OUT_OF_RANGE);
    CHECK(wcp_probe_init_with(&probe, 1, 0, 2, 1, 2) == WCP_OUT_OF_RANGE);
    CHECK(memcmp(&probe, &before, sizeof probe) == 0);
    CHECK(wcp_probe_observe(&probe, 1) == WCP_NO_PROBE);
    CHECK(wcp_probe_init(&probe, 1, 15, 16) == WCP_DONE);
    CHECK(wcp_probe_init_with(&probe, 1, 0, 1, 0, WCP_FLAG_SEND) == WCP_DONE);
}

static void observe(void)
{
    wcp_probe probe = probe_of(0, 2);
    wcp_probe quiet;
    wcp_note note;
    CHECK(wcp_probe_next(&probe, 0, &note) == WCP_DONE);
    CHECK(wcp_probe_observe(&probe, 0) == WCP_DONE);
    CHECK(wcp_probe_observe(&probe, 9) == WCP_DONE_WITH_NOTE);
    CHECK(wcp_probe_observe(&probe, 1) == WCP_DONE);
    CHECK(wcp_probe_next(&probe, 0xFEDCBA9876543210u, &note) == WCP_DONE_WITH_NOTE);
    CHECK(note.process == 0 && note.processes == 2 && note.kind == 1 && note.number == 0);
    CHECK(note.watch == 7 && note.watched == 1 && note.tag == 0xFEDCBA9876543210u);
    CHECK(note.clock[0] == 0 && note.clock[1] == 0 && note.clock[15] == 0);
    CHECK(wcp_probe_next(&probe, 0, &note) == WCP_DONE);
    CHECK(wcp_probe_init_with(&quiet, 7, 1, 2, 0, WCP_FLAG_EVENT) == WCP_DONE);
    CHECK(wcp_probe_observe(&quiet, 1) == WCP_DONE);
    CHECK(wcp_probe_close(&quiet) == WCP_DONE_WITH_NOTE);
    CHECK(wcp_probe_next(&quiet, 5, &note) == WCP_DONE_WITH_NOTE);
    CHECK(note.watch == 7 && note.watched == 0 && note.tag == 5);
}

static void messages(void)
{
    wcp_probe a = probe_of(0, 2);
    wcp_probe b = probe_of(1, 2);
    wcp_probe before;
    wcp_stamp stamp;
    wcp_note note;
    CHECK(wcp_probe_observe(&a, 1) == WCP_DONE_WITH_NOTE);
    CHECK(wcp_probe_stamp(&a, 1, &stamp) == WCP_BACKLOG);
    CHECK(wcp_probe_next(&a, 0, &note) == WCP_DONE_WITH_NOTE);
    CHECK(wcp_probe_stamp(&a, 0, &stamp) == WCP_NO_SUCH);
    CHECK(wcp_probe_stamp(&a, 2, &stamp) == WCP_NO_SUCH);
    CHECK(wcp_probe_stamp(&a, 1, &stamp) == WCP_DONE);
    CHECK(stamp.from == 0 && stamp.to == 1 && stamp.watch == 7 && stamp.processes == 2);
    CHECK(stamp.clock[0] == 1 && stamp.clock[1] == 0);
    CHECK(wcp_probe_observe(&b, 1) == WCP_DONE_WITH_NOTE);
    CHECK(wcp_probe_receive(&b, &stamp) == WCP_BACKLOG);
    CHECK(wcp_probe_next(&b, 0, &note) == WCP_DONE_WITH_NOTE);
    CHECK(wcp_probe_receive(&a, &stamp) == WCP_NOT_MINE);
    CHECK(wcp_probe_receive(&b, &stamp) == WCP_DONE);
    CHECK(b.clock[0] == 1 && b.clock[1] == 1);
    CHECK(wcp_probe_observe(&b, 1) == WCP_DONE_WITH_NOTE);
    CHECK(wcp_probe_next(&b, 0, &note) == WCP_DONE_WITH_NOTE);
    CHECK(note.number == 1 && note.clock[0] == 1 && note.clock[1] == 1);
    before = b;
    stamp.watch = 8;
    CHECK(wcp_probe_receive(&b, &stamp) == WCP_STRANGER);
    stamp.watch = 7;
    stamp.processes = 3;
    CHECK(wcp_probe_receive(&b, &stamp) == WCP_STRANGER);
    stamp.processes = 2;
    stamp.clock[1] = 2;
    CHECK(wcp_probe_receive(&b, &stamp) == WCP_AHEAD);
    stamp.clock[1] = 0;
    stamp.clock[2] = 1;
    CHECK(wcp_probe_receive(&b, &stamp) == WCP_NO_STAMP);
    stamp.clock[2] = 0;
    stamp.magic += 1;
    CHECK(wcp_probe_receive(&b, &stamp) == WCP_NO_STAMP);
    CHECK(memcmp(&b, &before, sizeof b) == 0);
}

/* Messages for whichever process takes them. */
static void open_messages(void)
{
    wcp_probe a = probe_of(0, 3);
    wcp_probe c = probe_of(2, 3);
    wcp_probe before;
    wcp_stamp stamp;
    wcp_stamp untouched;
    wcp_note note;
    memset(&stamp, 0x5A, sizeof stamp);
    untouched = stamp;
    CHECK(wcp_probe_stamp(&a, WCP_ANY_PROCESS, &stamp) == WCP_NO_SUCH);
    CHECK(wcp_probe_observe(&a, 1) == WCP_DONE_WITH_NOTE);
    CHECK(wcp_probe_stamp_open(&a, &stamp) == WCP_BACKLOG);
    CHECK(memcmp(&stamp, &untouched, sizeof stamp) == 0);
    CHECK(wcp_probe_next(&a, 0, &note) == WCP_DONE_WITH_NOTE);
    CHECK(wcp_probe_stamp_open(&a, &stamp) == WCP_DONE);
    CHECK(stamp.from == 0 && stamp.to == WCP_ANY_PROCESS && stamp.watch == 7 && stamp.processes == 3);
    CHECK(stamp.clock[0] == 1 && stamp.clock[1] == 0 && stamp.clock[2] == 0);
    CHECK(a.clock[0] == 1 && a.flag_up == 0);
    before = a;
    CHECK(wcp_probe_receive(&a, &stamp) == WCP_DONE);
    CHECK(memcmp(&a, &before, sizeof a) == 0);
    stamp.clock[0] = 2;
    CHECK(wcp_probe_receive(&a, &stamp) == WCP_AHEAD);
    stamp.clock[0] = 1;
    stamp.watch = 8;
    CHECK(wcp_probe_receive(&c, &stamp) == WCP_STRANGER);
    stamp.watch = 7;
    stamp.clock[2] = 1;
    CHECK(wcp_probe_receive(&c, &stamp) == WCP_AHEAD);
    stamp.clock[2] = 0;
    CHECK(wcp_probe_observe(&c, 1) == WCP_DONE_WITH_NOTE);
    CHECK(wcp_probe_receive(&c, &stamp) == WCP_BACKLOG);
    CHECK(wcp_probe_next(&c, 0, &note) == WCP_DONE_WITH_NOTE);
    CHECK(wcp_probe_receive(&c, &stamp) == WCP_DONE);
    CHECK(c.clock[0] == 1 && c.clock[1] == 0 && c.clock[2] == 1 && c.flag_up == 0);
    CHECK(wcp_probe_close(&c) == WCP_DONE_WITH_NOTE);
    CHECK(wcp_probe_receive(&c, &stamp) == WCP_CLOSED);
    CHECK(wcp_probe_stamp_open(&c, &stamp) == WCP_CLOSED);
    a.clock[0] = 4294967294u;
    CHECK(wcp_probe_stamp_open(&a, &stamp) == WCP_CLOCK_END);
    CHECK(wcp_probe_receive(&a, &stamp) == WCP_DONE);
    stamp.from = 1;
    CHECK(wcp_probe_receive(&a, &stamp) == WCP_CLOCK_END);
    a.magic += 1;
    CHECK(wcp_probe_stamp_open(&a, &stamp) == WCP_NO_PROBE);
}

static void flag_of_sends(void)
{
    wcp_probe a = probe_of(0, 2);
    wcp_probe b;
    wcp_stamp stamp;
    wcp_note note;
    CHECK(wcp_probe_init_with(&b, 7, 1, 2, 1, WCP_FLAG_SEND) == WCP_DONE);
    CHECK(wcp_probe_observe(&b, 1) == WCP_DONE_WITH_NOTE);
    CHECK(wcp_probe_next(&b, 0, &note) == WCP_DONE_WITH_NOTE);
    CHECK(wcp_probe_stamp(&a, 1, &stamp) == WCP_DONE);
    CHECK(wcp_probe_receive(&b, &stamp) == WCP_DONE);
    CHECK(wcp_probe_observe(&b, 1) == WCP_DONE);
    CHECK(wcp_probe_stamp(&b, 0, &stamp) == WCP_DONE);
    CHECK(wcp_probe_observe(&b, 1) == WCP_DONE_WITH_NOTE);
}

static void closing(void)
{
    wcp_probe a = probe_of(0, 2);
    wcp_probe b = probe_of(1, 2);
    wcp_stamp stamp;
    wcp_note note;
    CHECK(wcp_probe_stamp(&b, 0, &stamp) == WCP_DONE);
    CHECK(wcp_probe_observe(&a, 1) == WCP_DONE_WITH_NOTE);
    CHECK(wcp_probe_close(&a) == WCP_BACKLOG);
    CHECK(wcp_probe_next(&a, 0, &note) == WCP_DONE_WITH_NOTE);
    CHECK(wcp_probe_close(&a) == WCP_DONE_WITH_NOTE);
    CHECK(wcp_probe_close(&a) == WCP_CLOSED);
    CHECK(wcp_probe_observe(&a, 1) == WCP_CLOSED);
    CHECK(wcp_probe_stamp(&a, 1, &stamp) == WCP_CLOSED);
    CHECK(wcp_probe_receive(&a, &stamp) == WCP_CLOSED);
    CHECK(wcp_probe_next(&a, 0, &note) == WCP_DONE_WITH_NOTE);
    CHECK(note.kind == 2 && note.number == 1 && note.clock[0] == 0);
    CHECK(wcp_probe_next(&a, 0, &note) == WCP_DONE);
}

static void clock_end(void)
{
    wcp_probe a = probe_of(0, 2);
    wcp_stamp stamp;
    wcp_stamp other;
    wcp_probe b = probe_of(1, 2);
    CHECK(wcp_probe_stamp(&b, 0, &other) == WCP_DONE);
    a.clock[0] = 4294967293u;
    CHECK(wcp_probe_stamp(&a, 1, &stamp) == WCP_DONE);
    CHECK(stamp.clock[0] == 4294967294u);
    CHECK(wcp_probe_stamp(&a, 1, &stamp) == WCP_CLOCK_END);
    CHECK(wcp_probe_receive(&a, &other) == WCP_CLOCK_END);
    a.clock[0] = 4294967295u;
    CHECK(wcp_probe_observe(&a, 0) == WCP_NO_PROBE);
}

static void damaged_probes(void)
{
    wcp_probe good = probe_of(0, 2);
    wcp_probe bad = good;
    wcp_stamp stamp;
    wcp_note note;
    memset(&stamp, 0, sizeof stamp);
    memset(&note, 0, sizeof note);
    bad.magic ^= 1;
    CHECK(wcp_probe_observe(&bad, 1) == WCP_NO_PROBE);
    CHECK(wcp_probe_stamp(&bad, 1, &stamp) == WCP_NO_PROBE);
    CHECK(wcp_probe_receive(&bad, &stamp) == WCP_NO_PROBE);
    CHECK(wcp_probe_next(&bad, 0, &note) == WCP_NO_PROBE);
    CHECK(wcp_probe_close(&bad) == WCP_NO_PROBE);
#define DAMAGED(field, value) bad = good, bad.field = (value), wcp_probe_observe(&bad, 0) == WCP_NO_PROBE
    CHECK((DAMAGED(processes, 0)));
    CHECK((DAMAGED(processes, 17)));
    CHECK((DAMAGED(process, 2)));
    CHECK((DAMAGED(watched, 2)));
    CHECK((DAMAGED(flag, 2)));
    CHECK((DAMAGED(flag_up, 2)));
    CHECK((DAMAGED(closed, 2)));
    CHECK((DAMAGED(pending, 3)));
    CHECK((DAMAGED(pending, 1)));
    CHECK((DAMAGED(pending, 2)));
    CHECK((DAMAGED(emitted, 1)));
    CHECK((DAMAGED(reserved, 1)));
    CHECK((DAMAGED(clock[2], 1)));
    bad = good;
    bad.clock[1] = 12;
    CHECK(wcp_probe_observe(&bad, 0) == WCP_DONE);
}

static wcp_note note_of(uint32_t process, uint32_t kind, uint32_t number, uint32_t own, uint32_t other)
{
    wcp_probe probe = probe_of(process, 2);
    wcp_note note;
    CHECK(wcp_probe_observe(&probe, 1) == WCP_DONE_WITH_NOTE);
    CHECK(wcp_probe_next(&probe, 0, &note) == WCP_DONE_WITH_NOTE);
    note.kind = kind;
    note.number = number;
    if (kind == 1) {
        note.clock[process] = own;
        note.clock[1 - process] = other;
    }
    return note;
}

static void checker(void)
{
    wcp_checker checker = WCP_CHECKER_NONE;
    wcp_note note = note_of(0, 1, 0, 0, 0);
    uint32_t interval = 77;
    uint64_t count = 77;
    CHECK(wcp_checker_take(&checker, &note) == WCP_NO_CHECKER);
    CHECK(wcp_checker_report(&checker) == WCP_NO_CHECKER);
    CHECK(wcp_checker_cut(&checker, 0, &interval) == WCP_NO_CHECKER);
    CHECK(wcp_checker_taken(&checker, 0, &count) == WCP_NO_CHECKER);
    CHECK(wcp_checker_end(&checker) == WCP_NO_CHECKER);
    CHECK(wcp_checker_new(&checker, 7, 0) == WCP_OUT_OF_RANGE);
    CHECK(wcp_checker_new(&checker, 7, 17) == WCP_OUT_OF_RANGE);
    CHECK(wcp_checker_new(&checker, 7, 2) == WCP_DONE);
    CHECK(wcp_checker_new(&checker, 7, 2) == WCP_IN_USE);
    CHECK(wcp_checker_report(&checker) == WCP_UNDECIDED);
    CHECK(wcp_checker_cut(&checker, 0, &interval) == WCP_NOT_IN_CUT && interval == 77);
    CHECK(wcp_checker_taken(&checker, 2, &count) == WCP_OUT_OF_RANGE && count == 77);
    CHECK(wcp_checker_take(&checker, &note) == WCP_DONE);
    CHECK(wcp_checker_take(&checker, &note) == WCP_TAKEN_ALREADY);
    CHECK(wcp_checker_taken(&checker, 0, &count) == WCP_DONE && count == 1);
    note = note_of(0, 1, 2, 3, 0);
    CHECK(wcp_checker_take(&checker, &note) == WCP_OUT_OF_TURN);
    note = note_of(0, 2, 0, 0, 0);
    CHECK(wcp_checker_take(&checker, &note) == WCP_OUT_OF_TURN);
    note.processes = 3;
    CHECK(wcp_checker_take(&checker, &note) == WCP_OTHER_WATCH);
    note.processes = 2;
    note.process = 2;
    CHECK(wcp_checker_take(&checker, &note) == WCP_NO_NOTE);
    note = note_of(0, 2, 1, 0, 0);
    note.clock[0] = 1;
    CHECK(wcp_checker_take(&checker, &note) == WCP_NO_NOTE);
    note.clock[0] = 0;
    note.kind = 4;
    CHECK(wcp_checker_take(&checker, &note) == WCP_NO_NOTE);
    note.kind = 2;
    CHECK(wcp_checker_take(&checker, &note) == WCP_DONE);
    CHECK(wcp_checker_take(&checker, &note) == WCP_TAKEN_ALREADY);
    note.number = 0;
    CHECK(wcp_checker_take(&checker, &note) == WCP_ENDED);
    note = note_of(0, 1, 0, 0, 0);
    CHECK(wcp_checker_take(&checker, &note) == WCP_TAKEN_ALREADY);
    note.number = 1;
    CHECK(wcp_checker_take(&checker, &note) == WCP_ENDED);
    note.kind = 3;
    note.clock[0] = note.clock[1] = 0;
    CHECK(wcp_checker_take(&checker, &note) == WCP_ENDED);
    CHECK(wcp_checker_lose(&checker, 0) == WCP_ENDED);
    note = note_of(1, 1, 0, 4, 0);
    CHECK(wcp_checker_take(&checker, &note) == WCP_DONE);
    CHECK(wcp_checker_report(&checker) == WCP_FOUND);
    CHECK(wcp_checker_cut(&checker, 0, &interval) == WCP_DONE && interval == 0);
    CHECK(wcp_checker_cut(&checker, 1, &interval) == WCP_DONE && interval == 4);
    CHECK(wcp_checker_cut(&checker, 2, &interval) == WCP_NOT_IN_CUT);
    CHECK(wcp_checker_end(&checker) == WCP_DONE);
    CHECK(wcp_checker_report(&checker) == WCP_NO_CHECKER);
}

static void nothing_found(void)
{
    wcp_checker checker = WCP_CHECKER_NONE;
    wcp_note note = note_of(0, 1, 0, 0, 0);
    CHECK(wcp_checker_new(&checker, 7, 2) == WCP_DONE);
    CHECK(wcp_checker_take(&checker, &note) == WCP_DONE);
    note = note_of(1, 1, 0, 1, 1);
    CHECK(wcp_checker_take(&checker, &note) == WCP_DONE);
    CHECK(wcp_checker_report(&checker) == WCP_UNDECIDED);
    note = note_of(0, 2, 1, 0, 0);
    CHECK(wcp_checker_take(&checker, &note) == WCP_DONE);
    note = note_of(1, 2, 1, 0, 0);
    CHECK(wcp_checker_take(&checker, &note) == WCP_DONE);
    CHECK(wcp_checker_report(&checker) == WCP_NOTHING);
    CHECK(wcp_checker_end(&checker) == WCP_DONE);
}

static void lost(void)
{
    wcp_checker checker = WCP_CHECKER_NONE;
    wcp_note note = note_of(0, 3, 0, 0, 0);
    CHECK(wcp_checker_new(&checker, 7, 2) == WCP_DONE);
    CHECK(wcp_checker_take(&checker, &note) == WCP_DONE);
    CHECK(wcp_checker_take(&checker, &note) == WCP_TAKEN_ALREADY);
    note.number = 1;
    CHECK(wcp_checker_take(&checker, &note) == WCP_ENDED);
    note.number = 0;
    note.kind = 2;
    CHECK(wcp_checker_take(&checker, &note) == WCP_ENDED);
    note = note_of(1, 2, 0, 0, 0);
    CHECK(wcp_checker_take(&checker, &note) == WCP_DONE);
    CHECK(wcp_checker_report(&checker) == WCP_UNDECIDED);
    CHECK(wcp_checker_end(&checker) == WCP_DONE);
}

static void losing(void)
{
    wcp_checker checker = WCP_CHECKER_NONE;
    wcp_note note = note_of(0, 1, 0, 3, 0);
    uint32_t interval = 0;
    CHECK(wcp_checker_lose(&checker, 0) == WCP_NO_CHECKER);
    CHECK(wcp_checker_new(&checker, 7, 2) == WCP_DONE);
    CHECK(wcp_checker_lose(&checker, 2) == WCP_OUT_OF_RANGE);
    CHECK(wcp_checker_take(&checker, &note) == WCP_DONE);
    CHECK(wcp_checker_lose(&checker, 0) == WCP_DONE);
    CHECK(wcp_checker_lose(&checker, 0) == WCP_ENDED);
    CHECK(wcp_checker_take(&checker, &note) == WCP_TAKEN_ALREADY);
    note = note_of(0, 1, 1, 4, 0);
    CHECK(wcp_checker_take(&checker, &note) == WCP_ENDED);
    note = note_of(0, 3, 1, 0, 0);
    CHECK(wcp_checker_take(&checker, &note) == WCP_TAKEN_ALREADY);
    note = note_of(1, 1, 0, 5, 0);
    CHECK(wcp_checker_take(&checker, &note) == WCP_DONE);
    CHECK(wcp_checker_report(&checker) == WCP_FOUND);
    CHECK(wcp_checker_cut(&checker, 0, &interval) == WCP_DONE && interval == 3);
    CHECK(wcp_checker_end(&checker) == WCP_DONE);
    CHECK(wcp_checker_new(&checker, 7, 2) == WCP_DONE);
    CHECK(wcp_checker_lose(&checker, 0) == WCP_DONE);
    note = note_of(1, 2, 0, 0, 0);
    CHECK(wcp_checker_take(&checker, &note) == WCP_DONE);
    CHECK(wcp_checker_report(&checker) == WCP_UNDECIDED);
    CHECK(wcp_checker_end(&checker) == WCP_DONE);
}

/* The tags of the notes in a cut: process 0 has seven snapshots before the one that is in it, and one after it. */
static void tags(void)
{
    static const uint32_t both[2] = {0, 1};
    wcp_checker checker = WCP_CHECKER_NONE;
    wcp_probe late = probe_of(1, 3);
    wcp_probe early = probe_of(0, 3);
    wcp_stamp stamp;
    wcp_note note;
    uint64_t tag = 77;
    uint32_t sent;
    CHECK(wcp_checker_tag(&checker, 0, &tag) == WCP_NO_CHECKER && tag == 77);
    CHECK(wcp_checker_new_with(&checker, 7, 3, both, 2) == WCP_DONE);
    for (sent = 0; sent < 9; sent++) {
        CHECK(wcp_probe_observe(&early, 1) == WCP_DONE_WITH_NOTE);
        CHECK(wcp_probe_next(&early, 0xABCD000000000000u + sent, &note) == WCP_DONE_WITH_NOTE);
        CHECK(wcp_checker_take(&checker, &note) == WCP_DONE);
        CHECK(wcp_probe_stamp(&early, 1, &stamp) == WCP_DONE);
        if (sent < 7) {
            CHECK(wcp_probe_receive(&late, &stamp) == WCP_DONE);
        }
    }
    CHECK(wcp_checker_tag(&checker, 0, &tag) == WCP_NOT_IN_CUT && tag == 77);
    CHECK(wcp_probe_observe(&late, 1) == WCP_DONE_WITH_NOTE);
    CHECK(wcp_probe_next(&late, 0, &note) == WCP_DONE_WITH_NOTE);
    CHECK(wcp_checker_take(&checker, &note) == WCP_DONE);
    CHECK(wcp_checker_report(&checker) == WCP_FOUND);
    CHECK(wcp_checker_cut(&checker, 0, &sent) == WCP_DONE && sent == 7);
    CHECK(wcp_checker_tag(&checker, 0, &tag) == WCP_DONE && tag == 0xABCD000000000007u);
    CHECK(wcp_checker_tag(&checker, 1, &tag) == WCP_DONE && tag == 0);
    tag = 77;
    CHECK(wcp_checker_tag(&checker, 2, &tag) == WCP_NOT_IN_CUT && tag == 77);
    CHECK(wcp_checker_tag(&checker, 3, &tag) == WCP_NOT_IN_CUT && tag == 77);
    CHECK(wcp_checker_end(&checker) == WCP_DONE);
}

/* Notes of another watch, of a process whose probe has no condition, and of version 1: where several refusals hold, the
 * first of them. */
static void strangers(void)
{
    static const uint32_t second[1] = {1};
    wcp_checker checker = WCP_CHECKER_NONE;
    wcp_note note = note_of(0, 1, 3, 0, 0);
    CHECK(wcp_checker_new(&checker, 7, 2) == WCP_DONE);
    CHECK(wcp_checker_take(&checker, &note) == WCP_OUT_OF_TURN);
    note.watched = 0;
    CHECK(wcp_checker_take(&checker, &note) == WCP_NOT_AGREED);
    note.watch = 8;
    CHECK(wcp_checker_take(&checker, &note) == WCP_STRANGER);
    note.processes = 3;
    CHECK(wcp_checker_take(&checker, &note) == WCP_OTHER_WATCH);
    note.watched = 2;
    CHECK(wcp_checker_take(&checker, &note) == WCP_NO_NOTE);
    note = note_of(0, 1, 0, 0, 0);
    note.watched = 0;
    CHECK(wcp_checker_take(&checker, &note) == WCP_NOT_AGREED);
    note.watched = 1;
    note.watch = (uint64_t)7 << 32;
    CHECK(wcp_checker_take(&checker, &note) == WCP_STRANGER);
    note.watch = 7;
    CHECK(wcp_checker_take(&checker, &note) == WCP_DONE);
    note.watched = 0;
    CHECK(wcp_checker_take(&checker, &note) == WCP_NOT_AGREED);
    note.magic = 0x57434E31;
    CHECK(wcp_checker_take(&checker, &note) == WCP_NO_NOTE);
    CHECK(wcp_checker_end(&checker) == WCP_DONE);
    CHECK(wcp_checker_new_with(&checker, 7, 2, second, 1) == WCP_DONE);
    note = note_of(0, 2, 0, 0, 0);
    note.watched = 0;
    CHECK(wcp_checker_take(&checker, &note) == WCP_DONE);
    CHECK(wcp_checker_end(&checker) == WCP_DONE);
    CHECK(wcp_checker_new_with(&checker, 7, 2, second, 1) == WCP_DONE);
    note.watched = 1;
    CHECK(wcp_checker_take(&checker, &note) == WCP_DONE);
    CHECK(wcp_checker_end(&checker) == WCP_DONE);
}

static void names(void)
{
    uint32_t answer;
    uint32_t named = 0;
    CHECK(strcmp(wcp_answer_name(WCP_DONE), "WCP_DONE") == 0);
    CHECK(strcmp(wcp_answer_name(WCP_TAKEN_ALREADY), "WCP_TAKEN_ALREADY") == 0);
    CHECK(wcp_answer_name(5) == NULL && wcp_answer_name(UINT32_MAX) == NULL);
    for (answer = 0; answer < 1000; answer++) {
        named += wcp_answer_name(answer) != NULL;
    }
    CHECK(named == 27);
}

static void some_watched(void)
{
    wcp_checker checker = WCP_CHECKER_NONE;
    static const uint32_t second[1] = {1};
    static const uint32_t third[2] = {1, 2};
    wcp_note note = note_of(1, 1, 0, 5, 0);
    uint32_t interval = 0;
    CHECK(wcp_checker_new_with(&checker, 7, 2, third, 2) == WCP_OUT_OF_RANGE);
    CHECK(wcp_checker_new_with(&checker, 7, 2, third, 0) == WCP_OUT_OF_RANGE);
    CHECK(wcp_checker_new_with(&checker, 7, 17, second, 1) == WCP_OUT_OF_RANGE);
    CHECK(wcp_checker_new_with(&checker, 7, 2, second, 1) == WCP_DONE);
    CHECK(wcp_checker_new_with(&checker, 7, 2, second, 1) == WCP_IN_USE);
    CHECK(wcp_checker_take(&checker, &note) == WCP_DONE);
    CHECK(wcp_checker_report(&checker) == WCP_FOUND);
    CHECK(wcp_checker_cut(&checker, 0, &interval) == WCP_NOT_IN_CUT);
    CHECK(wcp_checker_cut(&checker, 1, &interval) == WCP_DONE && interval == 5);
    CHECK(wcp_checker_end(&checker) == WCP_DONE);
}

static void texts(void)
{
    static const char text[] = "wcp 1\nprocs 1\np 0 true\n";
    static const char wanted[] = "found 0\nprocess 0 emitted 1 taken 1\ntotal emitted 1 taken 1\n";
    static const char fault[] = "wcpwatch: line 3: line\n";
    uint8_t out[128];
    uint64_t written = 0;
    memset(out, 7, sizeof out);
    CHECK(wcp_single((const uint8_t *)text, sizeof text - 1, out, sizeof wanted - 2, &written) == WCP_NO_ROOM);
    CHECK(written == sizeof wanted - 1 && out[0] == 7);
    CHECK(wcp_single((const uint8_t *)text, sizeof text - 1, out, sizeof wanted - 1, &written) == 0);
    CHECK(written == sizeof wanted - 1 && memcmp(out, wanted, sizeof wanted - 1) == 0);
    CHECK(out[sizeof wanted - 1] == 7);
    CHECK(wcp_single((const uint8_t *)text, sizeof text - 2, out, sizeof out, &written) == 2);
    CHECK(written == sizeof fault - 1 && memcmp(out, fault, sizeof fault - 1) == 0);
}

/* A text as long as `wcpwatch` reads, whose last line has no end, and one that is a byte longer. */
static void long_texts(void)
{
    static const char head[] = "wcp 1\nprocs 2\n";
    static const char line[] = "wcpwatch: line 3: line\n";
    static const char wanted[] = "wcpwatch: toolarge\n";
    uint8_t *text = malloc(MOST_BYTES + 1);
    uint8_t out[64];
    uint64_t written = 0;
    CHECK(text != NULL);
    if (text == NULL) {
        return;
    }
    memset(text, 'x', MOST_BYTES + 1);
    memcpy(text, head, sizeof head - 1);
    memset(out, 7, sizeof out);
    CHECK(wcp_single(text, MOST_BYTES, out, sizeof out, &written) == 2);
    CHECK(written == sizeof line - 1 && memcmp(out, line, sizeof line - 1) == 0);
    memset(out, 7, sizeof out);
    CHECK(wcp_single(text, MOST_BYTES + 1, out, sizeof wanted - 2, &written) == WCP_NO_ROOM);
    CHECK(written == sizeof wanted - 1 && out[0] == 7);
    CHECK(wcp_single(text, MOST_BYTES + 1, out, sizeof wanted - 1, &written) == 2);
    CHECK(written == sizeof wanted - 1 && memcmp(out, wanted, sizeof wanted - 1) == 0);
    CHECK(out[sizeof wanted - 1] == 7);
    free(text);
}

int main(int argc, char **argv)
{
    static const struct checks_group groups[] = {
        GROUP(texts),
        GROUP(long_texts),
        GROUP(sizes),
        GROUP(init),
        GROUP(observe),
        GROUP(messages),
        GROUP(open_messages),
        GROUP(flag_of_sends),
        GROUP(closing),
        GROUP(clock_end),
        GROUP(damaged_probes),
        GROUP(checker),
        GROUP(nothing_found),
        GROUP(lost),
        GROUP(losing),
        GROUP(tags),
        GROUP(strangers),
        GROUP(names),
        GROUP(some_watched),
    };
    return CHECKS_MAIN(groups, argc, argv);
}
