/* Starts two workers that come to an end and one that does not: supervisor WORKER. Of each end it is told by SIGCHLD.
 * Once the first two have ended it stops the third one by SIGTERM. */
#include "guest.h"

/* The children that have not ended. */
static volatile u64 left = 3;

static i64 employ(const char *worker, const char *name, const char *rounds)
{
    const char *const words[] = { worker, name, rounds, 0 };
    return start(words);
}

static void tell(i64 child, i32 status)
{
    text("supervisor: ");
    number((u64)child);
    ending(status);
    end_line();
}

/* One signal may stand for several ends. */
static void reap(i32 signal)
{
    i32 status = 0;
    i64 child;
    (void)signal;
    while ((child = call(SYS_wait4, ANY_CHILD, (i64)&status, WNOHANG, 0)) > 0) {
        tell(child, status);
        left--;
    }
}

static void wait_until(u64 children)
{
    while (left > children)
        call(SYS_sched_yield, 0, 0, 0, 0);
}

int main(int argc, char **argv)
{
    if (argc != 2)
        return 2;
    handle(SIGCHLD, reap);
    employ(argv[1], "north", "3");
    employ(argv[1], "south", "20");
    i64 third = employ(argv[1], "east", 0);
    wait_until(1);
    text("supervisor: two have ended, and ");
    number((u64)third);
    text(" is told to stop");
    end_line();
    call(SYS_kill, third, SIGTERM, 0, 0);
    wait_until(0);
    return 0;
}
