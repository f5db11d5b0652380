/* Prints a file: show FILE. */
#include "guest.h"

static char buffer[4096];

int main(int argc, char **argv)
{
    if (argc != 2)
        return 2;
    i64 source = open_source(argv[1]), got;
    while ((got = call(SYS_read, source, (i64)buffer, sizeof buffer, 0)) > 0)
        call(SYS_write, OUT, (i64)buffer, got, 0);
    return 0;
}
