/* Counts what a file has: count lines FILE, count words FILE, count bytes FILE. */
#include "guest.h"

static char bytes[65536];

static i32 is_blank(char c)
{
    return c == ' ' || c == '\n';
}

static u64 lines(u64 length)
{
    u64 count = 0;
    for (u64 i = 0; i < length; i++)
        count += bytes[i] == '\n';
    return count;
}

static u64 words(u64 length)
{
    u64 count = 0;
    for (u64 i = 0; i < length; i++)
        count += !is_blank(bytes[i]) && (i == 0 || is_blank(bytes[i - 1]));
    return count;
}

int main(int argc, char **argv)
{
    if (argc != 3) {
        text("count: two words are wanted: what to count (lines, words, bytes), and a file");
        give_up();
    }
    u64 length = read_all(open_source(argv[2]), bytes, sizeof bytes);
    if (is_same(argv[1], "lines")) {
        number(lines(length));
    } else if (is_same(argv[1], "words")) {
        number(words(length));
    } else if (is_same(argv[1], "bytes")) {
        number(length);
    } else {
        text("count: not known: ");
        text(argv[1]);
        give_up();
    }
    end_line();
    return 0;
}
