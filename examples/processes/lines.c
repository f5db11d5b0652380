/* An interpreter of scripts: lines MARK SCRIPT runs each line of a script as a program with its words, one after the
 * other, up to the first that fails. It tells each behind MARK before it runs, and skips those that begin with #. */
#include "guest.h"

enum { WORDS = 16 };

static char script[4096];
static const char *words[WORDS + 1];

static void read_script(const char *path)
{
    i64 got = call(SYS_read, open_source(path), (i64)script, sizeof script - 1, 0);
    script[got > 0 ? got : 0] = 0;
}

/* Cuts the line that begins here into words, and answers where the next line begins. */
static char *cut_line(char *at)
{
    i32 count = 0;
    while (*at && *at != '\n') {
        if (*at == ' ') {
            *at++ = 0;
            continue;
        }
        if (count < WORDS)
            words[count++] = at;
        while (*at && *at != ' ' && *at != '\n')
            at++;
    }
    words[count] = 0;
    if (*at)
        *at++ = 0;
    return at;
}

static void tell(const char *mark)
{
    begin_line("lines");
    text(mark);
    for (i32 i = 0; words[i]; i++) {
        text(" ");
        text(words[i]);
    }
    end_line();
}

int main(int argc, char **argv)
{
    if (argc != 3)
        return 2;
    read_script(argv[2]);
    for (char *at = script; *at;) {
        at = cut_line(at);
        if (!words[0] || words[0][0] == '#')
            continue;
        tell(argv[1]);
        i32 status = wait_for(start(words));
        if (status)
            return code_of(status);
    }
    return 0;
}
