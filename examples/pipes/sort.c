/* Writes the lines of its input in order. */
#include "guest.h"

enum { LINES = 4096 };

static char bytes[65536];
static char *lines[LINES];

static i32 is_before(const char *a, const char *b)
{
    while (*a && *a == *b)
        a++, b++;
    return *a < *b;
}

/* Puts a line among so many that are in order. */
static void insert(char *line, u64 count)
{
    u64 at = count;
    for (; at > 0 && is_before(line, lines[at - 1]); at--)
        lines[at] = lines[at - 1];
    lines[at] = line;
}

int main(void)
{
    u64 length = read_all(IN, bytes, sizeof bytes), count = 0;
    char *line = bytes;
    for (u64 i = 0; i < length && count < LINES; i++)
        if (bytes[i] == '\n') {
            bytes[i] = 0;
            insert(line, count++);
            line = bytes + i + 1;
        }
    for (u64 i = 0; i < count; i++) {
        text(lines[i]);
        put('\n');
        flush(OUT);
    }
    return 0;
}
