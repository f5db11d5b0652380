/* Stands for a linker: join TARGET SOURCE.. makes a file of several, one behind the other. */
#include "guest.h"

static char buffer[4096];

int main(int argc, char **argv)
{
    if (argc < 2)
        return 2;
    i64 target = open_target(argv[1]);
    for (int i = 2; i < argc; i++) {
        i64 source = open_source(argv[i]), got;
        while ((got = call(SYS_read, source, (i64)buffer, sizeof buffer, 0)) > 0)
            call(SYS_write, target, (i64)buffer, got, 0);
    }
    begin_line("join");
    text(argv[1]);
    end_line();
    return 0;
}
