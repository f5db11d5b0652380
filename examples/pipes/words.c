/* Writes each word of a file on a line of its own, in small letters: words FILE. */
#include "guest.h"

static char bytes[65536];

static char small(char c)
{
    return c >= 'A' && c <= 'Z' ? c + ('a' - 'A') : c;
}

static i32 is_letter(char c)
{
    return small(c) >= 'a' && small(c) <= 'z';
}

int main(int argc, char **argv)
{
    if (argc != 2)
        return 2;
    u64 count = read_all(open_source(argv[1]), bytes, sizeof bytes - 1);
    for (u64 i = 0; i < count; i++) {
        if (is_letter(bytes[i]))
            put(small(bytes[i]));
        if (is_letter(bytes[i]) && !is_letter(bytes[i + 1])) {
            put('\n');
            flush(OUT);
        }
    }
    return 0;
}
