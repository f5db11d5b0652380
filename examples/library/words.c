/* Counts the words of a text: words TEXT TABLE [ROWS]. Each word, how often it stands there, and its share of all words
 * go to the file TABLE, the most frequent first; the first ROWS of these rows, and what holds for the whole text, go to
 * the standard output. */
#include <ctype.h>
#include <errno.h>
#include <limits.h>
#include <stdio.h>
#include <stdlib.h>
#include <string.h>

struct word {
    char *text;
    size_t count;
};

struct words {
    struct word *list;
    size_t length, room;
    size_t count, letters;
};

__attribute__((noreturn)) static void fail(const char *what)
{
    fprintf(stderr, "words: %s: %s\n", what, strerror(errno));
    exit(1);
}

static void *checked(void *memory)
{
    if (!memory)
        fail("memory");
    return memory;
}

static void add(struct words *words, const char *text)
{
    words->count++;
    words->letters += strlen(text);
    for (size_t i = 0; i < words->length; i++)
        if (strcmp(words->list[i].text, text) == 0) {
            words->list[i].count++;
            return;
        }
    if (words->length == words->room) {
        words->room = words->room ? 2 * words->room : 16;
        words->list = checked(realloc(words->list, words->room * sizeof *words->list));
    }
    words->list[words->length++] = (struct word){ checked(strdup(text)), 1 };
}

/* A word is letters, all made small; of a longer one the first LONGEST count. getc is asked instead of fgets, since
 * picolibc's fgets loses a last line that has no end. */
enum { LONGEST = 63 };

static struct words read_words(const char *path)
{
    struct words words = { 0 };
    char text[LONGEST + 1];
    size_t length = 0;
    FILE *file = fopen(path, "r");
    if (!file)
        fail(path);
    for (int c = 0; c != EOF;) {
        c = getc(file);
        if (c != EOF && isalpha(c)) {
            if (length < LONGEST)
                text[length++] = (char)tolower(c);
        } else if (length > 0) {
            text[length] = 0;
            add(&words, text);
            length = 0;
        }
    }
    if (ferror(file))
        fail(path);
    fclose(file);
    return words;
}

static int compare(const void *left, const void *right)
{
    const struct word *a = left, *b = right;
    if (a->count != b->count)
        return a->count < b->count ? 1 : -1;
    return strcmp(a->text, b->text);
}

static void write_rows(FILE *file, const struct words *words, size_t rows)
{
    for (size_t i = 0; i < rows && i < words->length; i++) {
        const struct word *word = &words->list[i];
        fprintf(file, "%-10s %4zu %6.2f%%\n", word->text, word->count, 100.0 * word->count / words->count);
    }
}

static void write_table(const char *path, const struct words *words)
{
    FILE *file = fopen(path, "w");
    if (!file)
        fail(path);
    write_rows(file, words, words->length);
    if (fclose(file) != 0)
        fail(path);
}

static size_t read_rows(const char *text)
{
    char *end;
    errno = 0;
    long rows = strtol(text, &end, 10);
    if (errno == 0 && (*text == 0 || *end || rows < 0))
        errno = EINVAL;
    if (errno)
        fail(text);
    return (size_t)rows;
}

int main(int argc, char **argv)
{
    if (argc < 3 || argc > 4) {
        fprintf(stderr, "usage: words TEXT TABLE [ROWS]\n");
        return 2;
    }
    size_t rows = argc > 3 ? read_rows(argv[3]) : INT_MAX;
    struct words words = read_words(argv[1]);
    qsort(words.list, words.length, sizeof *words.list, compare);
    write_table(argv[2], &words);
    write_rows(stdout, &words, rows);
    printf("%zu words, %zu of them different", words.count, words.length);
    if (words.count)
        printf(", of %.2f letters on average", (double)words.letters / words.count);
    printf("\n");
    if (fflush(stdout) != 0)
        fail("standard output");
    return 0;
}
