/* Runs programs side by side, each of which reads what the one before it writes:
 * pipeline PROGRAM ARG.. "|" PROGRAM ARG.. "|" .. It tells how each of them ended. */
#include "guest.h"

enum { PROGRAMS = 8 };

/* Ends the words of a program with a null pointer, and answers those of the next one, or none. */
static char **cut(char **words)
{
    for (; *words; words++)
        if (words[0][0] == '|' && !words[0][1]) {
            *words = 0;
            return words + 1;
        }
    return 0;
}

static void tell(i64 child)
{
    i32 status = wait_for(child);
    text("pipeline: ");
    number((u64)child);
    ending(status);
    put('\n');
    flush(ERR);
}

int main(int argc, char **argv)
{
    i64 children[PROGRAMS], in = IN;
    i32 count = 0;
    if (argc < 2)
        return 2;
    for (char **words = argv + 1; words && count < PROGRAMS;) {
        char **next = cut(words);
        i32 ends[2] = { IN, OUT };
        /* The last write end of a pipe goes when the process goes that writes to it, since a program gets its own ends
         * alone: all others are closed when it starts. */
        if (next && call(SYS_pipe2, (i64)ends, O_CLOEXEC, 0, 0) < 0)
            return 3;
        children[count++] = start_between((const char *const *)words, in, ends[1]);
        if (in != IN)
            call(SYS_close, in, 0, 0, 0);
        if (ends[1] != OUT)
            call(SYS_close, ends[1], 0, 0, 0);
        in = ends[0];
        words = next;
    }
    for (i32 i = 0; i < count; i++)
        tell(children[i]);
    return 0;
}
