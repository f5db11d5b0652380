/* Works: worker NAME ROUNDS does so many rounds and ends with that code; worker NAME works until SIGTERM tells it to
 * stop, and then says how far it came. */
#include "guest.h"

static const char *name;
static volatile u64 done;

static void say(const char *what)
{
    text(name);
    text(what);
    number(done);
    end_line();
}

static void stop(i32 signal)
{
    (void)signal;
    say(" was told to stop after ");
    call(SYS_exit, 0, 0, 0, 0);
}

/* A round is a turn of each of those that live. */
static void work(u64 rounds)
{
    while (done != rounds) {
        call(SYS_sched_yield, 0, 0, 0, 0);
        done++;
    }
}

int main(int argc, char **argv)
{
    if (argc < 2)
        return 2;
    name = argv[1];
    handle(SIGTERM, stop);
    work(argc > 2 ? read_number(argv[2]) : -1ul);
    say(" has done ");
    return (int)done;
}
