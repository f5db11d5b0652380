/* Writes the first line of a file: first FILE. */
#include "guest.h"

static char bytes[4096];

int main(int argc, char **argv)
{
    if (argc != 2) {
        text("first: the path of a file is wanted");
        give_up();
    }
    u64 length = read_all(open_source(argv[1]), bytes, sizeof bytes);
    for (u64 i = 0; i < length && bytes[i] != '\n'; i++)
        put(bytes[i]);
    end_line();
    return 0;
}
