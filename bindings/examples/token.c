/* Two threads pass a token over pipes, and each holds a condition: that it has the token. With the word `keep`
 * the first thread goes on as if it had the token once it has passed it on. The stamp goes along with the token,
 * and the notes go over a third pipe to a checker in main. */
#include "../wullaphi.h"

#include <pthread.h>
#include <stdio.h>
#include <stdlib.h>
#include <string.h>
#include <unistd.h>

#define WATCH 1
#define PASSES 5

struct token {
    wcp_stamp stamp;
    uint32_t passes_left;
};

struct worker {
    uint32_t process;
    int inbox;
    int outbox;
    int notes;
    int starts;
    int keeps;
};

static void need(int holds, const char *what)
{
    if (!holds) {
        fprintf(stderr, "token: %s\n", what);
        exit(2);
    }
}

static void send_whole(int pipe, const void *data, size_t size)
{
    need(write(pipe, data, size) == (ssize_t)size, "a write failed");
}

static int take_whole(int pipe, void *data, size_t size)
{
    size_t taken = 0;
    while (taken < size) {
        ssize_t more = read(pipe, (char *)data + taken, size - taken);
        if (more <= 0) {
            return 0;
        }
        taken += (size_t)more;
    }
    return 1;
}

static void tell(struct worker *self, wcp_probe *probe)
{
    wcp_note note;
    while (wcp_probe_next(probe, 0, &note) == WCP_DONE_WITH_NOTE) {
        send_whole(self->notes, &note, sizeof note);
    }
}

static void observe(struct worker *self, wcp_probe *probe, int has_token)
{
    need(wcp_probe_observe(probe, (uint32_t)has_token) <= WCP_DONE_WITH_NOTE, "an observation was refused");
    tell(self, probe);
}

static void pass_on(struct worker *self, wcp_probe *probe, struct token *token)
{
    token->passes_left -= 1;
    need(wcp_probe_stamp(probe, 1 - self->process, &token->stamp) == WCP_DONE, "a stamp was refused");
    send_whole(self->outbox, token, sizeof *token);
    observe(self, probe, self->keeps);
}

static void *work(void *argument)
{
    struct worker *self = argument;
    struct token token;
    wcp_probe probe;
    need(wcp_probe_init(&probe, WATCH, self->process, 2) == WCP_DONE, "no probe");
    if (self->starts) {
        memset(&token, 0, sizeof token);
        token.passes_left = PASSES;
        observe(self, &probe, 1);
        pass_on(self, &probe, &token);
    }
    while (take_whole(self->inbox, &token, sizeof token)) {
        need(wcp_probe_receive(&probe, &token.stamp) == WCP_DONE, "a stamp is not right");
        observe(self, &probe, 1);
        if (token.passes_left == 0) {
            break;
        }
        pass_on(self, &probe, &token);
    }
    close(self->outbox);
    need(wcp_probe_close(&probe) == WCP_DONE_WITH_NOTE, "a close was refused");
    tell(self, &probe);
    return NULL;
}

static void report(wcp_checker *checker)
{
    uint32_t first;
    uint32_t second;
    if (wcp_checker_report(checker) != WCP_FOUND) {
        printf("the two threads never had the token at once\n");
        return;
    }
    need(wcp_checker_cut(checker, 0, &first) == WCP_DONE, "no cut");
    need(wcp_checker_cut(checker, 1, &second) == WCP_DONE, "no cut");
    printf("both threads had the token, thread 0 after %u of its messages, thread 1 after %u\n", (unsigned)first,
           (unsigned)second);
}

int main(int words, char **word)
{
    int keeps = words > 1 && strcmp(word[1], "keep") == 0;
    int there[2];
    int back[2];
    int notes[2];
    struct worker workers[2];
    pthread_t threads[2];
    wcp_checker checker = WCP_CHECKER_NONE;
    wcp_note note;
    int last = 0;
    int p;
    need(pipe(there) == 0 && pipe(back) == 0 && pipe(notes) == 0, "no pipe");
    need(wcp_checker_new(&checker, WATCH, 2) == WCP_DONE, "no checker");
    workers[0] = (struct worker){0, back[0], there[1], notes[1], 1, keeps};
    workers[1] = (struct worker){1, there[0], back[1], notes[1], 0, 0};
    for (p = 0; p < 2; p++) {
        need(pthread_create(&threads[p], NULL, work, &workers[p]) == 0, "no thread");
    }
    while (last < 2 && take_whole(notes[0], &note, sizeof note)) {
        need(wcp_checker_take(&checker, &note) == WCP_DONE, "a note was refused");
        last += note.kind == 2;
    }
    for (p = 0; p < 2; p++) {
        need(pthread_join(threads[p], NULL) == 0, "a thread is gone");
    }
    report(&checker);
    wcp_checker_end(&checker);
    return 0;
}
