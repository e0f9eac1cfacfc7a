/* A transfer and an audit, which forgets the lock. The first run finds that they could have been at once. In the second
 * one each waits for the other, at most 10 seconds: that makes it happen. */
#include "../wullaphi_pthread.h"

#include <stdio.h>
#include <stdlib.h>

static wcp_mutex books = WCP_MUTEX_INITIALIZER;

static void expect(int holds)
{
    if (!holds) {
        fputs("a call was refused\n", stderr);
        exit(2);
    }
}

static void *transfer(void *argument)
{
    wcp_mutex_lock(&books);
    WCP_HOLD("transfer");
    wcp_let_go();
    wcp_mutex_unlock(&books);
    return argument;
}

static void *audit(void *argument)
{
    WCP_HOLD("audit");
    wcp_let_go();
    return argument;
}

static void run(wcp_watch *watch)
{
    wcp_thread threads[2];
    expect(wcp_enter(watch, WCP_NO_PROCESS) == 0);
    expect(wcp_create(&threads[0], NULL, 0, transfer, NULL) == 0);
    expect(wcp_create(&threads[1], NULL, 1, audit, NULL) == 0);
    expect(wcp_join(threads[0], NULL) == 0);
    expect(wcp_join(threads[1], NULL) == 0);
    expect(wcp_exit() == 0);
}

int main(void)
{
    wcp_watch first, second;
    wcp_meeting meeting;
    char told[200];
    expect(wcp_watch_init(&first, 2) == WCP_DONE);
    run(&first);
    expect(wcp_watch_report(&first, 0) == WCP_FOUND);

    expect(wcp_meeting_init(&meeting, 10000) == 0);
    expect(wcp_meeting_add_found(&meeting, &first, 0, WCP_BY_LABEL) == 0);
    expect(wcp_watch_init(&second, 2) == WCP_DONE);
    expect(wcp_watch_meet(&second, &meeting) == 0);
    run(&second);
    wcp_meeting_tell(&meeting, told, sizeof told);
    puts(told);

    wcp_watch_end(&first);
    wcp_watch_end(&second);
    wcp_meeting_destroy(&meeting);
    wcp_mutex_destroy(&books);
    return 0;
}
