/* Stands for a compiler: compile SOURCE TARGET makes a copy of a file in capitals, in pieces of PIECE bytes. */
#include "guest.h"

enum { PIECE = 16 };

static char piece[PIECE];

static void capitals(i64 count)
{
    for (i64 i = 0; i < count; i++)
        if (piece[i] >= 'a' && piece[i] <= 'z')
            piece[i] -= 'a' - 'A';
}

int main(int argc, char **argv)
{
    if (argc != 3)
        return 2;
    begin_line("compile");
    text(argv[1]);
    text(" for ");
    number((u64)call(SYS_getppid, 0, 0, 0, 0));
    end_line();
    i64 source = open_source(argv[1]), target = open_target(argv[2]);
    i64 got, bytes = 0;
    while ((got = call(SYS_read, source, (i64)piece, PIECE, 0)) > 0) {
        capitals(got);
        call(SYS_write, target, (i64)piece, got, 0);
        bytes += got;
    }
    begin_line("compile");
    text(argv[2]);
    text(" has ");
    number((u64)bytes);
    text(" bytes");
    end_line();
    return 0;
}
