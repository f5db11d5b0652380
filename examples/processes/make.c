/* A small build: it starts a compiler for each of three sources, so that all three run at the same time, waits for them
 * in the order of their start, and then runs the script that links what they made. */
#include "guest.h"

enum { COMPILERS = 3 };

static const char *const compilers[COMPILERS][4] = {
    { "/bin/compile", "/src/one", "/out/one", 0 },
    { "/bin/compile", "/src/two", "/out/two", 0 },
    { "/bin/compile", "/src/three", "/out/three", 0 },
};

static const char *const linker[] = { "/src/link", 0 };

static i64 begin(const char *const words[])
{
    i64 child = start(words);
    begin_line("make");
    text("started ");
    text(words[0]);
    text(" as ");
    number((u64)child);
    end_line();
    return child;
}

static i32 finish(i64 child)
{
    i32 status = wait_for(child);
    begin_line("make");
    number((u64)child);
    ending(status);
    end_line();
    return status;
}

int main(void)
{
    i64 children[COMPILERS];
    i32 failed = 0;
    call(SYS_mkdirat, AT_FDCWD, (i64) "/out", 0755, 0);
    for (i32 i = 0; i < COMPILERS; i++)
        children[i] = begin(compilers[i]);
    for (i32 i = 0; i < COMPILERS; i++)
        failed |= finish(children[i]);
    if (failed)
        return 1;
    return finish(begin(linker)) ? 1 : 0;
}
