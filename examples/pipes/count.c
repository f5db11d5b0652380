/* Writes each line of its input that is not the one before it, behind how often it comes. */
#include "guest.h"

static char bytes[65536];

static void tell(const char *line, u64 times)
{
    number(times);
    put(' ');
    text(line);
    put('\n');
}

int main(void)
{
    u64 length = read_all(IN, bytes, sizeof bytes), times = 0;
    const char *last = 0;
    char *line = bytes;
    for (u64 i = 0; i < length; i++) {
        if (bytes[i] != '\n')
            continue;
        bytes[i] = 0;
        if (last && !is_same(line, last)) {
            tell(last, times);
            times = 0;
        }
        times++;
        last = line;
        line = bytes + i + 1;
    }
    if (last)
        tell(last, times);
    flush(OUT);
    return 0;
}
