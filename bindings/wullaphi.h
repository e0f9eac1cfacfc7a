/* Wullaphi for programs in C: the probe of a process, the checker, and the report of a text.
 *
 * Every call answers a number. It tests what it is given and refuses what it cannot use, and has then changed
 * nothing, except where its comment says otherwise. What is left to the caller:
 *
 *   - a pointer is not NULL, is aligned for its type and has room for what is written there, and what two
 *     pointers of one call point to does not overlap;
 *   - one call at a time uses a probe or a handle; it does not matter which thread makes the call;
 *   - a handle of a checker starts as WCP_CHECKER_NONE, is changed by calls alone, and is never copied.
 *
 * A probe, a stamp and a note are plain memory: they may be copied, kept, and sent to another machine of the
 * same byte order (a machine of another byte order finds no magic word in them). Copies of a probe are the same
 * probe: go on with only one of them. A stamp or a note proves nothing about who made it. */
#ifndef WULLAPHI_H
#define WULLAPHI_H

#include <stddef.h>
#include <stdint.h>

#ifdef __cplusplus
extern "C" {
#endif

/* The version of this header, 0.3.0: ten thousand times the first number, a hundred times the second, and the third.
 * wcp_version() answers that of the library. */
#define WCP_VERSION 300

/* The most processes of a watch. */
#define WCP_MAX_PROCESSES 16

/* The most questions that are asked of one checker. */
#define WCP_MAX_QUESTIONS 1024

/* Answers. Up to WCP_DONE_WITH_NOTE a call of a probe was accepted. */
#define WCP_DONE 0           /* done */
#define WCP_DONE_WITH_NOTE 1 /* done, and a note is pending, or was given */

/* Reports. */
#define WCP_FOUND 2     /* a cut was found, and stays */
#define WCP_NOTHING 3   /* all processes are closed, and there is no such cut */
#define WCP_UNDECIDED 4 /* neither is known yet */

/* What was passed cannot be used. */
#define WCP_NO_PROBE 16     /* the memory holds no probe, or a damaged one */
#define WCP_NO_STAMP 17     /* the memory holds no stamp, or a damaged one */
#define WCP_NO_NOTE 18      /* the memory holds no note, or a damaged one */
#define WCP_NO_CHECKER 19   /* the handle holds no checker */
#define WCP_OUT_OF_RANGE 20 /* a number names no process, no flag, or too few or too many processes */
#define WCP_IN_USE 21       /* the handle holds a checker already */
#define WCP_NO_MEMORY 22    /* there is no memory; nothing has changed */
#define WCP_NOT_IN_CUT 23   /* no cut was found, or the process is not watched */
#define WCP_NO_ROOM 24      /* there is too little room for what is to be written */
#define WCP_NO_SAVED 25     /* the bytes are no saved checker, or a damaged one, or of another version */

/* Why a probe refuses a call; where several hold, the first in this order. */
#define WCP_NO_SUCH 32   /* the receiver is no process of the watch, or is the probe's own */
#define WCP_CLOSED 33    /* the probe is closed */
#define WCP_BACKLOG 34   /* a note is pending: take it with wcp_probe_next first */
#define WCP_STRANGER 35  /* the stamp is of another watch; so is the note that a checker refuses by this */
#define WCP_NOT_MINE 36  /* the stamp is addressed to another process */
#define WCP_AHEAD 37     /* the stamp knows of events of this process that it has not made */
#define WCP_CLOCK_END 38 /* the process has made as many events as a clock can count: 4,294,967,294 */

/* Why a checker refuses a note; where several hold, the first in this order: WCP_OTHER_WATCH, WCP_STRANGER,
 * WCP_NOT_AGREED, WCP_TAKEN_ALREADY, WCP_ENDED, WCP_OUT_OF_TURN. */
#define WCP_OTHER_WATCH 48   /* the note is of a watch of another number of processes */
#define WCP_ENDED 49         /* the process was closed, or lost */
#define WCP_OUT_OF_TURN 50   /* a note of the process that comes before this one is missing */
#define WCP_NOT_AGREED 51    /* some question watches the process, whose probe has no condition (`watched` 0) */
#define WCP_TAKEN_ALREADY 52 /* the note was taken before: drop it, and go on */

/* What resets the flag of a probe. While its flag is up the probe emits no further snapshot. */
#define WCP_FLAG_EVENT 0 /* each send and each receive */
#define WCP_FLAG_SEND 1  /* each send: fewer notes, and the same reports */

/* The probe of one process: 112 bytes. Its fields belong to the library. */
typedef struct wcp_probe {
    uint32_t magic;
    uint32_t processes;
    uint32_t process;
    uint32_t watched;
    uint32_t flag;
    uint32_t flag_up;
    uint32_t closed;
    uint32_t pending;
    uint32_t emitted;
    uint32_t reserved;
    uint64_t watch;
    uint32_t clock[WCP_MAX_PROCESSES];
} wcp_probe;

/* The receiver that an open stamp names: whichever process takes the message. */
#define WCP_ANY_PROCESS 4294967295u

/* What goes along with a message: 88 bytes. */
typedef struct wcp_stamp {
    uint32_t magic;
    uint32_t processes;
    uint32_t from; /* the sender */
    uint32_t to;   /* the receiver, or WCP_ANY_PROCESS */
    uint64_t watch;
    uint32_t clock[WCP_MAX_PROCESSES];
} wcp_stamp;

/* What a process tells the checker: 104 bytes. Kind 1 is a snapshot, 2 says that the process is closed, and 3
 * that it was lost; `number` counts the snapshots of the process before this note. `watched` is 1 if the process has
 * a condition, else 0. `tag` is the caller's own. Notes of version 1, of 88 bytes, are refused. */
typedef struct wcp_note {
    uint32_t magic;
    uint32_t processes;
    uint32_t process;
    uint32_t kind;
    uint32_t number;
    uint32_t watched;
    uint64_t watch;
    uint64_t tag;
    uint32_t clock[WCP_MAX_PROCESSES];
} wcp_note;

/* The handle of a checker: it holds one or none. */
typedef struct wcp_checker {
    uint32_t held_word;
    uint32_t reserved;
    void *held;
} wcp_checker;

#define WCP_CHECKER_NONE {0, 0, NULL}

/* The version of the library, a number like WCP_VERSION. */
uint32_t wcp_version(void);

/* Makes the probe of process `process` (0 and up) of `processes` (1 to 16) of a watch, whose number tells its
 * stamps from those of other watches. Its process has a condition, and each event resets its flag.
 * WCP_DONE, or WCP_OUT_OF_RANGE. */
uint32_t wcp_probe_init(wcp_probe *probe, uint64_t watch, uint32_t process, uint32_t processes);

/* The same, where `watched` is 1 if the process has a condition and 0 if it only passes messages on, and
 * `flag` is WCP_FLAG_EVENT or WCP_FLAG_SEND. */
uint32_t wcp_probe_init_with(wcp_probe *probe, uint64_t watch, uint32_t process, uint32_t processes,
                             uint32_t watched, uint32_t flag);

/* The process looks at its condition; any `holds` but 0 says that it holds. WCP_DONE_WITH_NOTE: a note is
 * pending now. WCP_DONE: there is nothing to send. Else WCP_NO_PROBE or WCP_CLOSED. */
uint32_t wcp_probe_observe(wcp_probe *probe, uint32_t holds);

/* The process sends a message to process `to`: `stamp` is to go along with it. WCP_DONE, or WCP_NO_PROBE,
 * WCP_NO_SUCH, WCP_CLOSED, WCP_BACKLOG or WCP_CLOCK_END. */
uint32_t wcp_probe_stamp(wcp_probe *probe, uint32_t to, wcp_stamp *stamp);

/* The process sends an open message: whichever process takes it from a work queue receives it. `stamp` is to go along
 * with it, and one process takes it, once. WCP_DONE, or WCP_NO_PROBE, WCP_CLOSED, WCP_BACKLOG or WCP_CLOCK_END. */
uint32_t wcp_probe_stamp_open(wcp_probe *probe, wcp_stamp *stamp);

/* The process receives the message that came with `stamp`. Where that is an open message that it sent itself, it is
 * done and nothing has changed, since nothing happened between two processes. WCP_DONE, or WCP_NO_PROBE, WCP_NO_STAMP,
 * WCP_CLOSED, WCP_BACKLOG, WCP_STRANGER, WCP_NOT_MINE, WCP_AHEAD or WCP_CLOCK_END. */
uint32_t wcp_probe_receive(wcp_probe *probe, const wcp_stamp *stamp);

/* Gives the pending note, which is then no longer pending; send it to the checker. The notes of a probe go to the
 * checker in the order in which the probe gives them. `tag` goes with the note, and wcp_checker_tag gives it back: any
 * number that leads to this moment, as a line of a log, or 0. WCP_DONE_WITH_NOTE: here it is. WCP_DONE: none is
 * pending. Else WCP_NO_PROBE. */
uint32_t wcp_probe_next(wcp_probe *probe, uint64_t tag, wcp_note *note);

/* The process ends its part: a last note is pending. WCP_DONE_WITH_NOTE, or WCP_NO_PROBE, WCP_CLOSED or
 * WCP_BACKLOG. */
uint32_t wcp_probe_close(wcp_probe *probe);

/* Puts a checker of the watch with this number, of `processes` processes, each of them watched, into the handle.
 * Give each run a number of its own: the notes that an earlier run left in a queue are then refused. WCP_DONE, or
 * WCP_IN_USE, WCP_OUT_OF_RANGE or WCP_NO_MEMORY. */
uint32_t wcp_checker_new(wcp_checker *checker, uint64_t watch, uint32_t processes);

/* The same, but only the processes with these numbers are watched, at least one; `watched` is not NULL. A number that
 * comes twice counts once. So several checkers may take the same notes, each for some of the processes that have a
 * condition. */
uint32_t wcp_checker_new_with(wcp_checker *checker, uint64_t watch, uint32_t processes, const uint32_t *watched,
                              size_t count);

/* The same, with a question for each of `count` sets of processes, 1 to WCP_MAX_QUESTIONS; `masks` is not NULL. Bit p
 * of a mask, counted from the lowest, says that the question watches process p; each mask has such a bit, and none that
 * is no process. The questions are numbered from 0, in the order of their masks. Each takes every note, and has a
 * report of its own, as if it had a checker to itself. WCP_DONE, or WCP_IN_USE, WCP_OUT_OF_RANGE or WCP_NO_MEMORY.
 *
 * Where there is no memory for a note, a question that needs some is starved: it stays WCP_UNDECIDED, wants no memory
 * any more, and the others go on; wcp_checker_is_starved tells it from one that waits. wcp_checker_take then answers
 * WCP_NO_MEMORY only where there is none for the note's tag, and has changed nothing. A checker of wcp_checker_new or
 * wcp_checker_new_with is never starved: it answers WCP_NO_MEMORY, and has changed nothing. */
uint32_t wcp_checker_new_sets(wcp_checker *checker, uint64_t watch, uint32_t processes, const uint32_t *masks,
                              size_t count);

/* The same, with a question for each pair of the processes, of which there are two at least: (0, 1), (0, 2), ..,
 * (1, 2), .. */
uint32_t wcp_checker_new_pairs(wcp_checker *checker, uint64_t watch, uint32_t processes);

/* How many questions the checker has: 1, unless it was made with several. WCP_DONE, or WCP_NO_CHECKER. */
uint32_t wcp_checker_questions(wcp_checker *checker, uint64_t *count);

/* The checker takes a note, the next of its process; those of different processes may come in any order. WCP_DONE,
 * or WCP_NO_CHECKER, WCP_NO_NOTE, WCP_OTHER_WATCH, WCP_STRANGER, WCP_NOT_AGREED, WCP_TAKEN_ALREADY, WCP_ENDED,
 * WCP_OUT_OF_TURN or WCP_NO_MEMORY. */
uint32_t wcp_checker_take(wcp_checker *checker, const wcp_note *note);

/* Process `p` is gone, and its last note won't come. No more of its notes are taken, and the report is never
 * WCP_NOTHING: its last moments are unknown. A cut of what it told may still be found. WCP_DONE, or WCP_NO_CHECKER,
 * WCP_OUT_OF_RANGE or WCP_ENDED; or WCP_OUT_OF_TURN where 4,294,967,296 snapshots of it were taken, which is more
 * than a probe gives. */
uint32_t wcp_checker_lose(wcp_checker *checker, uint32_t p);

/* What the notes taken so far tell: WCP_FOUND, WCP_NOTHING or WCP_UNDECIDED; or WCP_NO_CHECKER. Of several questions
 * this call, wcp_checker_cut and wcp_checker_tag tell of question 0. */
uint32_t wcp_checker_report(wcp_checker *checker);

/* The interval of process `p` in the cut that was found: how many messages it had sent and received by then.
 * WCP_DONE, or WCP_NO_CHECKER or WCP_NOT_IN_CUT, which leave *interval as it was. */
uint32_t wcp_checker_cut(wcp_checker *checker, uint32_t p, uint32_t *interval);

/* The tag of process `p`'s note in the cut that was found: the number that wcp_probe_next was given, where 0 says that
 * there is none. WCP_DONE, or WCP_NO_CHECKER or WCP_NOT_IN_CUT, which leave *tag as it was. Only tags other than 0
 * want memory, and only as long as their note may be in the cut. */
uint32_t wcp_checker_tag(wcp_checker *checker, uint32_t p, uint64_t *tag);

/* The same three of the question with the number `question`. Each answers WCP_OUT_OF_RANGE where there is no such
 * question. */
uint32_t wcp_checker_report_of(wcp_checker *checker, uint32_t question);
uint32_t wcp_checker_cut_of(wcp_checker *checker, uint32_t question, uint32_t p, uint32_t *interval);
uint32_t wcp_checker_tag_of(wcp_checker *checker, uint32_t question, uint32_t p, uint64_t *tag);

/* Whether a question was starved, and so stays WCP_UNDECIDED unless it had found a cut before: *starved is then 1, and
 * else 0. WCP_DONE, or WCP_NO_CHECKER or WCP_OUT_OF_RANGE, which leave *starved as it was. */
uint32_t wcp_checker_is_starved(wcp_checker *checker, uint32_t question, uint32_t *starved);

/* How many snapshots of process `p` were taken. WCP_DONE, or WCP_NO_CHECKER or WCP_OUT_OF_RANGE. */
uint32_t wcp_checker_taken(wcp_checker *checker, uint32_t p, uint64_t *count);

/* Saves all that the handle holds, so that a checker goes on after a restart of its program: its bytes are put into
 * `bytes`, which has room for `room` of them and is not NULL, and their number into *written. The handle stays as it
 * is. WCP_DONE, or WCP_NO_CHECKER. WCP_NO_ROOM: they do not fit; none is put into `bytes`, and *written says how much
 * room they need. WCP_NO_MEMORY: none is put there, and *written stays as it was.
 *
 * The bytes are the same on every machine. They end with a checksum, which tells damage from what was saved; it proves
 * nothing about who made them. */
uint32_t wcp_checker_save(wcp_checker *checker, uint8_t *bytes, size_t room, uint64_t *written);

/* Puts the checker that was saved in `length` bytes into the handle, which holds none: it goes on as the saved one
 * does. WCP_DONE, or WCP_IN_USE, WCP_NO_SAVED or WCP_NO_MEMORY. Bytes whose checksum is another take no memory. */
uint32_t wcp_checker_load(wcp_checker *checker, const uint8_t *bytes, size_t length);

/* Ends the checker and frees its memory; the handle then holds none. WCP_DONE, or WCP_NO_CHECKER. */
uint32_t wcp_checker_end(wcp_checker *checker);

/* What `wcpwatch single` answers to a text of `length` bytes: its status, 0 where a bad moment was found, 1 where none
 * was, and 2 where the text has a fault. A text of more than 2,097,152 bytes has one; its line is
 * `wcpwatch: toolarge`. What is printed (for a fault, the line that says which) is put into `out`, which has room for
 * `room` bytes and is not NULL, and its length into *written. WCP_NO_ROOM: it does not fit; nothing is put into `out`,
 * and *written says how much room it needs. WCP_NO_MEMORY: nothing is put into `out`, and *written stays as it was. */
uint32_t wcp_single(const uint8_t *text, size_t length, uint8_t *out, size_t room, uint64_t *written);

#if defined(__cplusplus) || (defined(__STDC_VERSION__) && __STDC_VERSION__ >= 199901L)
#define WCP_INLINE static inline
#elif defined(__GNUC__)
#define WCP_INLINE static __inline__
#else
#define WCP_INLINE static
#endif

/* The name of an answer, as "WCP_DONE"; NULL where no call answers this. */
WCP_INLINE const char *wcp_answer_name(uint32_t answer)
{
#define WCP_NAMED(name) case name: return #name;
    switch (answer) {
    WCP_NAMED(WCP_DONE)
    WCP_NAMED(WCP_DONE_WITH_NOTE)
    WCP_NAMED(WCP_FOUND)
    WCP_NAMED(WCP_NOTHING)
    WCP_NAMED(WCP_UNDECIDED)
    WCP_NAMED(WCP_NO_PROBE)
    WCP_NAMED(WCP_NO_STAMP)
    WCP_NAMED(WCP_NO_NOTE)
    WCP_NAMED(WCP_NO_CHECKER)
    WCP_NAMED(WCP_OUT_OF_RANGE)
    WCP_NAMED(WCP_IN_USE)
    WCP_NAMED(WCP_NO_MEMORY)
    WCP_NAMED(WCP_NOT_IN_CUT)
    WCP_NAMED(WCP_NO_ROOM)
    WCP_NAMED(WCP_NO_SAVED)
    WCP_NAMED(WCP_NO_SUCH)
    WCP_NAMED(WCP_CLOSED)
    WCP_NAMED(WCP_BACKLOG)
    WCP_NAMED(WCP_STRANGER)
    WCP_NAMED(WCP_NOT_MINE)
    WCP_NAMED(WCP_AHEAD)
    WCP_NAMED(WCP_CLOCK_END)
    WCP_NAMED(WCP_OTHER_WATCH)
    WCP_NAMED(WCP_ENDED)
    WCP_NAMED(WCP_OUT_OF_TURN)
    WCP_NAMED(WCP_NOT_AGREED)
    WCP_NAMED(WCP_TAKEN_ALREADY)
    default: return NULL;
    }
#undef WCP_NAMED
}

#ifdef __cplusplus
}
#endif

#endif
