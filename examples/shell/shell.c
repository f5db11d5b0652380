/* A small shell: shell SCRIPT runs each line of a script, one after the other.
 *
 * A line is a list of words, with blanks between them. A word in single quotes may hold blanks. A word $NAME is what a
 * variable holds, $? the code of the last program, and $(PROGRAM WORD ..) what a program writes, without the line's end
 * behind it. NAME=WORD sets a variable, `echo` writes its words, `exit` ends the shell with a code, and every other
 * line runs a program, in /bin where its name has no slash. A line that begins with # is skipped. A script is given no
 * words, and neither it nor its programs have an environment. */
#include "guest.h"

enum { WORDS = 32, NAMES = 32, ROOM = 16384, NOT_FOUND = 127, BY_SIGNAL = 128 };

struct variable {
    const char *name, *value;
};

static struct variable variables[NAMES];
static i32 names;
static i32 last;

/* What words, values and outputs are kept in, for as long as the shell runs. */
static char room[ROOM];
static u64 used;

static void fail(const char *why)
{
    text("shell: ");
    text(why);
    give_up();
}

static void keep(char c)
{
    if (used == sizeof room)
        fail("no room is left");
    room[used++] = c;
}

static const char *value_of(const char *name)
{
    for (i32 i = 0; i < names; i++)
        if (is_same(variables[i].name, name))
            return variables[i].value;
    return "";
}

static void set(const char *name, const char *value)
{
    i32 i = 0;
    while (i < names && !is_same(variables[i].name, name))
        i++;
    if (i == NAMES)
        fail("too many variables");
    if (i == names)
        names++;
    variables[i] = (struct variable){ name, value };
}

static void keep_text(const char *s)
{
    while (*s)
        keep(*s++);
}

static void keep_number(i32 n)
{
    if (n >= 10)
        keep_number(n / 10);
    keep((char)('0' + n % 10));
}

/* The code of the last program, as a word. */
static const char *last_word(void)
{
    const char *word = room + used;
    keep_number(last);
    keep(0);
    return word;
}

static const char *path_of(const char *program)
{
    const char *path = room + used;
    for (const char *c = program; *c; c++)
        if (*c == '/')
            return program;
    keep_text("/bin/");
    keep_text(program);
    keep(0);
    return path;
}

/* Waits for a program, and notes its code as shells do. */
static void finish(i64 child)
{
    i32 status = wait_for(child);
    last = signal_of(status) ? BY_SIGNAL + signal_of(status) : code_of(status);
    if (last == NOT_FOUND) {
        text("shell: a program is not there\n");
        flush(ERR);
    }
}

/* What a program writes. The shell's own write end is closed before it reads, or it would wait for itself. */
static const char *output_of(const char *words[])
{
    i32 ends[2];
    if (call(SYS_pipe2, (i64)ends, O_CLOEXEC, 0, 0) < 0)
        fail("no pipe can be made");
    words[0] = path_of(words[0]);
    i64 child = start_between(words, IN, ends[1]);
    call(SYS_close, ends[1], 0, 0, 0);
    char *output = room + used;
    u64 length = read_all(ends[0], output, sizeof room - used - 1);
    call(SYS_close, ends[0], 0, 0, 0);
    finish(child);
    while (length > 0 && output[length - 1] == '\n')
        length--;
    output[length] = 0;
    used += length + 1;
    return output;
}

static const char *cut_words(const char *at, const char *words[], char end);

/* The word that begins here, and behind it where it ends. */
static const char *cut_word(const char **at, char end)
{
    const char *inner[WORDS + 1], *c = *at;
    if (c[0] == '$' && c[1] == '(') {
        *at = cut_words(c + 2, inner, ')') + 1;
        return inner[0] ? output_of(inner) : "";
    }
    const char *word = room + used;
    char quote = *c == '\'' ? *c++ : 0;
    for (; *c && *c != '\n' && (quote ? *c != quote : *c != ' ' && *c != end); c++)
        keep(*c);
    keep(0);
    *at = quote && *c == quote ? c + 1 : c;
    if (quote || word[0] != '$')
        return word;
    return is_same(word, "$?") ? last_word() : value_of(word + 1);
}

/* Cuts a line into words up to its end or to a character that ends it, and answers where that is. */
static const char *cut_words(const char *at, const char *words[], char end)
{
    i32 count = 0;
    for (;;) {
        while (*at == ' ')
            at++;
        if (!*at || *at == '\n' || *at == end)
            break;
        if (count == WORDS)
            fail("too many words");
        words[count++] = cut_word(&at, end);
    }
    if (end && *at != end)
        fail("a $( has no )");
    words[count] = 0;
    return at;
}

/* Where a line NAME=WORD has its =, or null. */
static const char *assignment(const char *line)
{
    const char *c = line;
    while ((*c >= 'a' && *c <= 'z') || (*c >= 'A' && *c <= 'Z') || *c == '_')
        c++;
    return c > line && *c == '=' ? c : 0;
}

static void assign(const char *line, const char *equals)
{
    const char *name = room + used, *value = equals + 1;
    for (const char *c = line; c < equals; c++)
        keep(*c);
    keep(0);
    set(name, cut_word(&value, 0));
}

static void echo(const char *words[])
{
    for (i32 i = 1; words[i]; i++) {
        if (i > 1)
            put(' ');
        text(words[i]);
    }
    end_line();
    last = 0;
}

static void run(const char *words[])
{
    if (is_same(words[0], "echo")) {
        echo(words);
    } else if (is_same(words[0], "exit")) {
        call(SYS_exit, (i64)(words[1] ? read_number(words[1]) : (u64)last), 0, 0, 0);
    } else {
        words[0] = path_of(words[0]);
        finish(start(words));
    }
}

static void run_line(const char *line)
{
    const char *words[WORDS + 1], *equals = assignment(line);
    if (*line == '#')
        return;
    if (equals) {
        assign(line, equals);
        return;
    }
    cut_words(line, words, 0);
    if (words[0])
        run(words);
}

int main(int argc, char **argv)
{
    static char script[4096];
    if (argc != 2)
        fail("one word is wanted, the path of a script");
    u64 length = read_all(open_source(argv[1]), script, sizeof script);
    if (length == sizeof script)
        fail("the script is too long");
    for (const char *line = script; *line;) {
        run_line(line);
        while (*line && *line != '\n')
            line++;
        if (*line)
            line++;
    }
    return last;
}
