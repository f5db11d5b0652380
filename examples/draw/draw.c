/* Draws lots: draw COUNT LOG reads names from the standard input, a line each, and draws so many of them by bytes from
 * /dev/random. A name that was drawn before counts no more: one atomic looks whether its bit is set, and sets it. Each draw
 * is a line of LOG, and /dev/null keeps none of them. */
#include "guest.h"

enum { MOST = 64 };

static char names[4096];
static const char *starts[MOST];

/* The names that were drawn, a bit each. */
static u64 drawn;

/* Ends each line by a 0, keeps where it begins, and answers how many there are. */
static u64 split(u64 size)
{
    u64 count = 0, start = 0;
    for (u64 i = 0; i < size && count < MOST; i++)
        if (names[i] == '\n') {
            names[i] = 0;
            starts[count++] = names + start;
            start = i + 1;
        }
    return count;
}

/* One of so many, by the next random byte. */
static u64 one_of(u64 count, i64 random)
{
    char byte = 0;
    read_all(random, &byte, 1);
    return (unsigned char)byte % count;
}

int main(int argc, char **argv)
{
    if (argc != 3) {
        text("draw: I want a count and a log");
        give_up();
    }
    u64 wanted = read_number(argv[1]), count = split(read_all(IN, names, sizeof names));
    i64 random = open_source("/dev/random"), log = open_target(argv[2]);
    for (u64 place = 1; place <= wanted && place <= count;) {
        u64 i = one_of(count, random), bit = 1ul << i;
        u64 before = __atomic_fetch_or(&drawn, bit, __ATOMIC_SEQ_CST);
        text(starts[i]);
        text(before & bit ? " again\n" : "\n");
        flush(log);
        if (before & bit)
            continue;
        number(place++);
        text(". ");
        text(starts[i]);
        end_line();
    }
    return 0;
}
