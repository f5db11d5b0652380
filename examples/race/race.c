/* A race: two writers add lines to one file and to the standard output, at the same time and with nothing that keeps
 * one from the other. Each works for a while before a line, how long is said by random bytes. On Linux the lines stand
 * in another order in each run; here they stand in one. */
#include "guest.h"

enum { WRITERS = 2, LINES = 6, SYS_getrandom = 278 };

/* Counts for a while. */
static void work(void)
{
    unsigned char byte = 0;
    call(SYS_getrandom, (i64)&byte, 1, 0, 0);
    for (volatile u64 left = (u64)byte * 400; left > 0; left--)
        ;
}

static int write_lines(const char *name)
{
    i64 file = call(SYS_openat, AT_FDCWD, (i64) "/log", O_WRONLY | O_CREAT | O_APPEND, 0644);
    if (file < 0)
        return 1;
    for (u64 i = 1; i <= LINES; i++) {
        work();
        text(name);
        put(' ');
        number(i);
        put('\n');
        flush(file);
        text(name);
        text(" has written ");
        number(i);
        end_line();
    }
    return 0;
}

int main(void)
{
    static const char *const names[WRITERS] = { "ann", "bob" };
    i64 children[WRITERS];
    i32 status = 0;
    for (i32 i = 0; i < WRITERS; i++) {
        children[i] = call(SYS_clone, SIGCHLD, 0, 0, 0);
        if (children[i] == 0)
            return write_lines(names[i]);
    }
    for (i32 i = 0; i < WRITERS; i++)
        status |= wait_for(children[i]);
    return status ? 1 : 0;
}
