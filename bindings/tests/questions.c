/* Checkers of several questions, and checkers that are saved and loaded. */
#include "../wullaphi.h"
#include "checks.h"

#include <stdlib.h>
#include <string.h>

#define WATCH 7
#define MOST 5
#define MOST_NOTES 200
#define COMPUTATIONS 2000
#define SAVED_RUNS 200

static uint64_t state = 88172645463325252u;

static uint32_t number(void)
{
    state ^= state << 13;
    state ^= state >> 7;
    state ^= state << 17;
    return (uint32_t)(state >> 16);
}

/* The notes of a random computation of `processes` processes, in an order that keeps those of each in theirs. */
static size_t computation(uint32_t processes, wcp_note *notes, int close)
{
    wcp_probe probes[MOST];
    wcp_stamp flying[MOST_NOTES];
    size_t flying_count = 0;
    size_t count = 0;
    uint32_t p;
    int step;
    for (p = 0; p < processes; p++) {
        CHECK(wcp_probe_init_with(&probes[p], WATCH, p, processes, 1, number() % 2) == WCP_DONE);
    }
    for (step = 0; step < 60; step++) {
        p = number() % processes;
        if (number() % 2 == 0) {
            if (wcp_probe_observe(&probes[p], number() % 3 == 0) == WCP_DONE_WITH_NOTE) {
                CHECK(wcp_probe_next(&probes[p], count % 4, &notes[count]) == WCP_DONE_WITH_NOTE);
                count++;
            }
        } else if (number() % 2 == 0 && processes > 1) {
            uint32_t to = (p + 1 + number() % (processes - 1)) % processes;
            CHECK(wcp_probe_stamp(&probes[p], to, &flying[flying_count++]) == WCP_DONE);
        } else if (flying_count > 0) {
            size_t place = number() % flying_count;
            CHECK(wcp_probe_receive(&probes[flying[place].to], &flying[place]) == WCP_DONE);
            flying[place] = flying[--flying_count];
        }
    }
    for (p = 0; close && p < processes; p++) {
        CHECK(wcp_probe_close(&probes[p]) == WCP_DONE_WITH_NOTE);
        CHECK(wcp_probe_next(&probes[p], 0, &notes[count++]) == WCP_DONE_WITH_NOTE);
    }
    return count;
}

static uint64_t questions_of(wcp_checker *checker)
{
    uint64_t count = 0;
    CHECK(wcp_checker_questions(checker, &count) == WCP_DONE);
    return count;
}

/* Whether a question of one checker tells what a question of another does. */
static int same(wcp_checker *some, uint32_t question, wcp_checker *other, uint32_t asked, uint32_t processes)
{
    uint32_t p;
    int equal = wcp_checker_report_of(some, question) == wcp_checker_report_of(other, asked);
    for (p = 0; p < processes; p++) {
        uint32_t interval = 77;
        uint32_t other_interval = 77;
        uint64_t tag = 77;
        uint64_t other_tag = 77;
        equal = equal && wcp_checker_cut_of(some, question, p, &interval)
                == wcp_checker_cut_of(other, asked, p, &other_interval) && interval == other_interval;
        equal = equal && wcp_checker_tag_of(some, question, p, &tag)
                == wcp_checker_tag_of(other, asked, p, &other_tag) && tag == other_tag;
    }
    return equal;
}

/* The bytes of a checker, which are to be freed. */
static uint8_t *bytes_of(wcp_checker *checker, size_t *length)
{
    uint64_t written = 0;
    uint8_t one = 0xA5;
    uint8_t *bytes;
    CHECK(wcp_checker_save(checker, &one, 0, &written) == WCP_NO_ROOM && one == 0xA5);
    bytes = malloc(written);
    CHECK(wcp_checker_save(checker, bytes, written - 1, &written) == WCP_NO_ROOM);
    CHECK(wcp_checker_save(checker, bytes, written, &written) == WCP_DONE);
    *length = written;
    return bytes;
}

static void refusals(void)
{
    wcp_checker none = WCP_CHECKER_NONE;
    wcp_checker checker = WCP_CHECKER_NONE;
    uint32_t masks[WCP_MAX_QUESTIONS + 1];
    uint32_t interval = 77;
    uint32_t starved = 77;
    uint64_t tag = 77;
    uint64_t count = 77;
    uint8_t byte = 0;
    size_t k;
    for (k = 0; k <= WCP_MAX_QUESTIONS; k++) {
        masks[k] = 1 + k % 7;
    }
    CHECK(wcp_checker_questions(&none, &count) == WCP_NO_CHECKER && count == 77);
    CHECK(wcp_checker_report_of(&none, 0) == WCP_NO_CHECKER);
    CHECK(wcp_checker_cut_of(&none, 0, 0, &interval) == WCP_NO_CHECKER && interval == 77);
    CHECK(wcp_checker_tag_of(&none, 0, 0, &tag) == WCP_NO_CHECKER && tag == 77);
    CHECK(wcp_checker_is_starved(&none, 0, &starved) == WCP_NO_CHECKER && starved == 77);
    CHECK(wcp_checker_save(&none, &byte, 1, &count) == WCP_NO_CHECKER && count == 77);
    CHECK(wcp_checker_load(&none, &byte, 0) == WCP_NO_SAVED);
    CHECK(wcp_checker_load(&none, &byte, 1) == WCP_NO_SAVED);
    CHECK(wcp_checker_new_sets(&checker, WATCH, 17, masks, 1) == WCP_OUT_OF_RANGE);
    CHECK(wcp_checker_new_sets(&checker, WATCH, 0, masks, 1) == WCP_OUT_OF_RANGE);
    CHECK(wcp_checker_new_sets(&checker, WATCH, 3, masks, 0) == WCP_OUT_OF_RANGE);
    CHECK(wcp_checker_new_sets(&checker, WATCH, 3, masks, WCP_MAX_QUESTIONS + 1) == WCP_OUT_OF_RANGE);
    CHECK(wcp_checker_new_sets(&checker, WATCH, 2, masks, 4) == WCP_OUT_OF_RANGE);
    masks[1] = 0;
    CHECK(wcp_checker_new_sets(&checker, WATCH, 3, masks, 2) == WCP_OUT_OF_RANGE);
    masks[1] = 0x80000000u;
    CHECK(wcp_checker_new_sets(&checker, WATCH, 16, masks, 2) == WCP_OUT_OF_RANGE);
    masks[1] = 2;
    CHECK(wcp_checker_new_pairs(&checker, WATCH, 0) == WCP_OUT_OF_RANGE);
    CHECK(wcp_checker_new_pairs(&checker, WATCH, 1) == WCP_OUT_OF_RANGE);
    CHECK(wcp_checker_new_pairs(&checker, WATCH, 17) == WCP_OUT_OF_RANGE);
    CHECK(wcp_checker_new_sets(&checker, WATCH, 3, masks, WCP_MAX_QUESTIONS) == WCP_DONE);
    CHECK(questions_of(&checker) == WCP_MAX_QUESTIONS);
    CHECK(wcp_checker_new_sets(&checker, WATCH, 3, masks, 1) == WCP_IN_USE);
    CHECK(wcp_checker_new_pairs(&checker, WATCH, 3) == WCP_IN_USE);
    CHECK(wcp_checker_load(&checker, &byte, 1) == WCP_IN_USE);
    CHECK(wcp_checker_report_of(&checker, WCP_MAX_QUESTIONS - 1) == WCP_UNDECIDED);
    CHECK(wcp_checker_report_of(&checker, WCP_MAX_QUESTIONS) == WCP_OUT_OF_RANGE);
    CHECK(wcp_checker_is_starved(&checker, WCP_MAX_QUESTIONS, &starved) == WCP_OUT_OF_RANGE && starved == 77);
    CHECK(wcp_checker_is_starved(&checker, WCP_MAX_QUESTIONS - 1, &starved) == WCP_DONE && starved == 0);
    CHECK(wcp_checker_cut_of(&checker, UINT32_MAX, 0, &interval) == WCP_OUT_OF_RANGE && interval == 77);
    CHECK(wcp_checker_tag_of(&checker, WCP_MAX_QUESTIONS, 0, &tag) == WCP_OUT_OF_RANGE && tag == 77);
    CHECK(wcp_checker_cut_of(&checker, 0, 0, &interval) == WCP_NOT_IN_CUT && interval == 77);
    CHECK(wcp_checker_tag_of(&checker, 0, 0, &tag) == WCP_NOT_IN_CUT && tag == 77);
    CHECK(wcp_checker_end(&checker) == WCP_DONE);
    CHECK(wcp_checker_new_pairs(&checker, WATCH, 16) == WCP_DONE && questions_of(&checker) == 120);
    CHECK(wcp_checker_end(&checker) == WCP_DONE);
    CHECK(wcp_checker_new(&checker, WATCH, 3) == WCP_DONE && questions_of(&checker) == 1);
    CHECK(wcp_checker_report_of(&checker, 0) == WCP_UNDECIDED);
    CHECK(wcp_checker_report_of(&checker, 1) == WCP_OUT_OF_RANGE);
    CHECK(wcp_checker_end(&checker) == WCP_DONE);
}

/* A process that a question watches must have a condition. */
static void agreed(void)
{
    static const uint32_t masks[] = {1, 2};
    wcp_checker checker = WCP_CHECKER_NONE;
    wcp_probe probe;
    wcp_note note;
    uint32_t p;
    CHECK(wcp_checker_new_sets(&checker, WATCH, 3, masks, 2) == WCP_DONE);
    for (p = 0; p < 3; p++) {
        CHECK(wcp_probe_init_with(&probe, WATCH, p, 3, 0, WCP_FLAG_EVENT) == WCP_DONE);
        CHECK(wcp_probe_close(&probe) == WCP_DONE_WITH_NOTE);
        CHECK(wcp_probe_next(&probe, 0, &note) == WCP_DONE_WITH_NOTE);
        CHECK(wcp_checker_take(&checker, &note) == (p < 2 ? WCP_NOT_AGREED : WCP_DONE));
    }
    CHECK(wcp_checker_lose(&checker, 0) == WCP_DONE && wcp_checker_lose(&checker, 0) == WCP_ENDED);
    CHECK(wcp_checker_lose(&checker, 3) == WCP_OUT_OF_RANGE);
    CHECK(wcp_checker_end(&checker) == WCP_DONE);
}

/* All pairs at once tell what one checker for each pair tells. */
static void pairs(void)
{
    static wcp_note notes[MOST_NOTES];
    int found = 0;
    int round;
    for (round = 0; round < COMPUTATIONS; round++) {
        uint32_t processes = 2 + number() % (MOST - 1);
        size_t count = computation(processes, notes, round % 2);
        wcp_checker panel = WCP_CHECKER_NONE;
        uint32_t question = 0;
        uint32_t a, b;
        size_t k;
        CHECK(wcp_checker_new_pairs(&panel, WATCH, processes) == WCP_DONE);
        for (k = 0; k < count; k++) {
            CHECK(wcp_checker_take(&panel, &notes[k]) == WCP_DONE);
            CHECK(wcp_checker_take(&panel, &notes[k]) == WCP_TAKEN_ALREADY);
        }
        for (a = 0; a < processes; a++) {
            for (b = a + 1; b < processes; b++) {
                wcp_checker alone = WCP_CHECKER_NONE;
                uint32_t watched[2];
                watched[0] = a;
                watched[1] = b;
                CHECK(wcp_checker_new_with(&alone, WATCH, processes, watched, 2) == WCP_DONE);
                for (k = 0; k < count; k++) {
                    CHECK(wcp_checker_take(&alone, &notes[k]) == WCP_DONE);
                }
                CHECK(same(&panel, question, &alone, 0, processes));
                found += wcp_checker_report(&alone) == WCP_FOUND;
                if (question == 0) {
                    CHECK(wcp_checker_report(&panel) == wcp_checker_report(&alone));
                }
                CHECK(wcp_checker_end(&alone) == WCP_DONE);
                question++;
            }
        }
        CHECK(question == questions_of(&panel));
        CHECK(wcp_checker_end(&panel) == WCP_DONE);
    }
    CHECK(found > COMPUTATIONS / 4);
}

static void begin(wcp_checker *checker, uint32_t processes, int round)
{
    uint32_t masks[4];
    int k;
    for (k = 0; k < 4; k++) {
        masks[k] = 1 + number() % ((1u << processes) - 1);
    }
    if (round % 3 == 0) {
        CHECK(wcp_checker_new(checker, WATCH, processes) == WCP_DONE);
    } else if (round % 3 == 1) {
        CHECK(wcp_checker_new_pairs(checker, WATCH, processes) == WCP_DONE);
    } else {
        CHECK(wcp_checker_new_sets(checker, WATCH, processes, masks, 4) == WCP_DONE);
    }
}

/* A checker that is saved and loaded at each note ends as one that is not. */
static void saving(void)
{
    static wcp_note notes[MOST_NOTES];
    int round;
    for (round = 0; round < SAVED_RUNS; round++) {
        uint32_t processes = 2 + number() % (MOST - 1);
        size_t count = computation(processes, notes, round % 2);
        wcp_checker whole = WCP_CHECKER_NONE;
        wcp_checker saved = WCP_CHECKER_NONE;
        uint64_t seed = state;
        uint32_t question;
        size_t k;
        begin(&whole, processes, round);
        state = seed;
        begin(&saved, processes, round);
        for (k = 0; k < count; k++) {
            size_t length;
            size_t again;
            uint8_t *bytes = bytes_of(&saved, &length);
            uint8_t *others;
            CHECK(wcp_checker_end(&saved) == WCP_DONE);
            CHECK(wcp_checker_load(&saved, bytes, length) == WCP_DONE);
            others = bytes_of(&saved, &again);
            CHECK(again == length && memcmp(bytes, others, length) == 0);
            free(bytes);
            free(others);
            CHECK(wcp_checker_take(&whole, &notes[k]) == WCP_DONE);
            CHECK(wcp_checker_take(&saved, &notes[k]) == WCP_DONE);
            CHECK(wcp_checker_take(&saved, &notes[number() % (k + 1)]) == WCP_TAKEN_ALREADY);
        }
        for (question = 0; question < questions_of(&whole); question++) {
            CHECK(same(&whole, question, &saved, question, processes));
        }
        CHECK(questions_of(&whole) == questions_of(&saved));
        CHECK(wcp_checker_end(&whole) == WCP_DONE && wcp_checker_end(&saved) == WCP_DONE);
    }
}

/* Each byte of a saved checker counts; so does each that is missing or too many. */
static void damage(void)
{
    static wcp_note notes[MOST_NOTES];
    int round;
    for (round = 0; round < 3; round++) {
        size_t count = computation(3, notes, 0);
        wcp_checker checker = WCP_CHECKER_NONE;
        wcp_checker other = WCP_CHECKER_NONE;
        uint8_t *bytes;
        uint8_t *copy;
        size_t length;
        size_t place;
        size_t k;
        begin(&checker, 3, round);
        for (k = 0; k < count / 2; k++) {
            CHECK(wcp_checker_take(&checker, &notes[k]) == WCP_DONE);
        }
        bytes = bytes_of(&checker, &length);
        for (place = 0; place < length; place++) {
            static const uint8_t flips[] = {1, 2, 0x80, 0xFF};
            for (k = 0; k < sizeof flips; k++) {
                bytes[place] ^= flips[k];
                CHECK(wcp_checker_load(&other, bytes, length) == WCP_NO_SAVED);
                bytes[place] ^= flips[k];
            }
        }
        for (place = 0; place < length; place++) {
            copy = malloc(place + 1);
            memcpy(copy, bytes, place);
            CHECK(wcp_checker_load(&other, copy, place) == WCP_NO_SAVED);
            free(copy);
        }
        copy = calloc(1, length + 8);
        memcpy(copy, bytes, length);
        for (k = 1; k <= 8; k++) {
            CHECK(wcp_checker_load(&other, copy, length + k) == WCP_NO_SAVED);
        }
        free(copy);
        for (k = 0; k < 2000; k++) {
            uint32_t times = 2 + number() % 6;
            copy = malloc(length);
            memcpy(copy, bytes, length);
            while (times-- > 0) {
                copy[number() % length] = (uint8_t)number();
            }
            CHECK(memcmp(copy, bytes, length) == 0 || wcp_checker_load(&other, copy, length) == WCP_NO_SAVED);
            free(copy);
        }
        CHECK(wcp_checker_load(&other, bytes, length) == WCP_DONE);
        CHECK(wcp_checker_end(&other) == WCP_DONE && wcp_checker_end(&checker) == WCP_DONE);
        free(bytes);
    }
}

static uint32_t checksum(const uint8_t *bytes, size_t length)
{
    uint32_t low = 1;
    uint32_t high = 0;
    size_t place;
    for (place = 0; place < length; place++) {
        low = (low + bytes[place]) % 65521;
        high = (high + low) % 65521;
    }
    return high * 65536 + low;
}

/* Makes the checksum of saved bytes right. */
static void seal(uint8_t *bytes, size_t length)
{
    uint32_t sum = checksum(bytes, length - 4);
    uint32_t at;
    for (at = 0; at < 4; at++) {
        bytes[length - 4 + at] = (uint8_t)(sum >> 8 * at);
    }
}

/* Damaged bytes with a right checksum: they are refused, or those of a checker, which is saved in these bytes. */
static void forged(void)
{
    static wcp_note notes[MOST_NOTES];
    int loaded = 0;
    int round;
    for (round = 0; round < 300; round++) {
        size_t count = computation(3, notes, 0);
        wcp_checker checker = WCP_CHECKER_NONE;
        uint8_t *bytes;
        size_t length;
        size_t k;
        begin(&checker, 3, round);
        for (k = 0; k < count / 2; k++) {
            CHECK(wcp_checker_take(&checker, &notes[k]) == WCP_DONE);
        }
        bytes = bytes_of(&checker, &length);
        CHECK(wcp_checker_end(&checker) == WCP_DONE);
        for (k = 0; k < 30; k++) {
            size_t place = number() % (length - 4);
            uint8_t before = bytes[place];
            bytes[place] = (uint8_t)(number() % 3 == 0 ? number() : number() % 4);
            seal(bytes, length);
            if (wcp_checker_load(&checker, bytes, length) == WCP_DONE) {
                size_t again;
                uint8_t *others = bytes_of(&checker, &again);
                CHECK(again == length && memcmp(others, bytes, length) == 0);
                free(others);
                wcp_checker_take(&checker, &notes[number() % (count + 1)]);
                CHECK(wcp_checker_report(&checker) <= WCP_UNDECIDED);
                CHECK(wcp_checker_end(&checker) == WCP_DONE);
                loaded++;
            }
            bytes[place] = before;
        }
        free(bytes);
    }
    CHECK(loaded > 100);
}

/* Saved bytes of as many questions as a checker may have are loaded; those of one more are refused. */
static void too_many(void)
{
    enum { COUNT_AT = 4 * 8, HEAD = 5 * 8 };
    static uint32_t masks[WCP_MAX_QUESTIONS];
    wcp_checker checker = WCP_CHECKER_NONE;
    uint8_t *bytes;
    uint8_t *more;
    size_t length;
    size_t each;
    size_t k;
    for (k = 0; k < WCP_MAX_QUESTIONS; k++) {
        masks[k] = 3;
    }
    CHECK(wcp_checker_new_sets(&checker, WATCH, 2, masks, WCP_MAX_QUESTIONS) == WCP_DONE);
    bytes = bytes_of(&checker, &length);
    CHECK(wcp_checker_end(&checker) == WCP_DONE);
    CHECK(wcp_checker_load(&checker, bytes, length) == WCP_DONE);
    CHECK(questions_of(&checker) == WCP_MAX_QUESTIONS);
    CHECK(wcp_checker_end(&checker) == WCP_DONE);
    /* Behind the questions, which are all of one length, stand the number of the tags and the checksum. */
    each = (length - HEAD - 8 - 4) / WCP_MAX_QUESTIONS;
    more = malloc(length + each);
    memcpy(more, bytes, HEAD + each);
    memcpy(more + HEAD + each, bytes + HEAD, length - HEAD);
    CHECK(more[COUNT_AT] == 0 && more[COUNT_AT + 1] == 4);
    more[COUNT_AT] = 1;
    seal(more, length + each);
    CHECK(wcp_checker_load(&checker, more, length + each) == WCP_NO_SAVED);
    memcpy(more, bytes, HEAD);
    memcpy(more + HEAD, bytes + HEAD + each, length - HEAD - each);
    more[COUNT_AT] = 0xFF;
    more[COUNT_AT + 1] = 3;
    seal(more, length - each);
    CHECK(wcp_checker_load(&checker, more, length - each) == WCP_DONE);
    CHECK(questions_of(&checker) == WCP_MAX_QUESTIONS - 1);
    CHECK(wcp_checker_end(&checker) == WCP_DONE);
    free(more);
    free(bytes);
}

int main(int argc, char **argv)
{
    static const struct checks_group groups[] = {
        GROUP(refusals),
        GROUP(agreed),
        GROUP(pairs),
        GROUP(saving),
        GROUP(damage),
        GROUP(forged),
        GROUP(too_many),
    };
    return CHECKS_MAIN(groups, argc, argv);
}
