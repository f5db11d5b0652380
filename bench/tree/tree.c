/* Calls on names: tree find COUNT DIRECTORY NAMES asks for the status of one name after the other, of so many that are
 * numbers; tree path COUNT PATH asks for that of one path; tree list COUNT DIRECTORY lists it whole; tree turn COUNT
 * PATH makes and removes a directory. Each does so COUNT times. tree make COUNT NAMES makes so many empty files in each
 * of COUNT directories, and removes them, the last one first; tree rename gives each another name before; tree remove
 * removes the first one first. None of these files is left, since the report at the end would take its time for them. It
 * needs no C library. build.sh has the command line of its compiler. */

typedef unsigned long u64;
typedef long i64;

enum {
    SYS_mkdirat = 34, SYS_unlinkat = 35, SYS_openat = 56, SYS_close = 57, SYS_getdents64 = 61, SYS_lseek = 62,
    SYS_newfstatat = 79, SYS_exit = 93, SYS_renameat2 = 276
};

enum { AT_FDCWD = -100, AT_REMOVEDIR = 0x200, O_RDONLY = 0, O_WRONLY = 1, O_CREAT = 0100 };

enum { NUMBER = 5 };

static char buffer[1 << 18];

/* A path of a name that is a number, and a second one. */
static char path[64], other[64];

__asm__(".globl _start\n"
        "_start:\n"
        "    .option push\n"
        "    .option norelax\n"
        "    la gp, __global_pointer$\n"
        "    .option pop\n"
        "    ld a0, 0(sp)\n"
        "    addi a1, sp, 8\n"
        "    andi sp, sp, -16\n"
        "    call main\n"
        "    li a7, 93\n"
        "    ecall\n");

static i64 call(i64 number, i64 a, i64 b, i64 c, i64 d)
{
    register i64 a7 __asm__("a7") = number;
    register i64 a0 __asm__("a0") = a;
    register i64 a1 __asm__("a1") = b;
    register i64 a2 __asm__("a2") = c;
    register i64 a3 __asm__("a3") = d;
    register i64 a4 __asm__("a4") = 0;
    __asm__ volatile("ecall" : "+r"(a0) : "r"(a1), "r"(a2), "r"(a3), "r"(a4), "r"(a7) : "memory");
    return a0;
}

/* Ends the program where a call fails, since its time would say nothing. */
static i64 done(i64 answer)
{
    if (answer < 0)
        call(SYS_exit, 3, 0, 0, 0);
    return answer;
}

static u64 number(const char *text)
{
    u64 value = 0;
    while (*text)
        value = value * 10 + (u64)(*text++ - '0');
    return value;
}

/* Puts a text into a buffer, and answers its end. */
static char *put(char *at, const char *text)
{
    while (*text)
        *at++ = *text++;
    *at = 0;
    return at;
}

/* Puts a slash, a letter but for 0, and a number of five digits. */
static char *put_number(char *at, char letter, u64 value)
{
    *at++ = '/';
    if (letter)
        *at++ = letter;
    for (u64 digit = NUMBER; digit-- > 0; value /= 10)
        at[digit] = (char)('0' + value % 10);
    at[NUMBER] = 0;
    return at + NUMBER;
}

static void status(const char *name)
{
    done(call(SYS_newfstatat, AT_FDCWD, (i64)name, (i64)buffer, 0));
}

static void find(u64 count, const char *directory, u64 names)
{
    char *end = put(path, directory);
    for (u64 turn = 0; turn < count; turn++) {
        put_number(end, 0, turn % names);
        status(path);
    }
}

static void walk(u64 count, const char *name)
{
    for (u64 turn = 0; turn < count; turn++)
        status(name);
}

static void list(u64 count, const char *directory)
{
    i64 fd = done(call(SYS_openat, AT_FDCWD, (i64)directory, O_RDONLY, 0));
    for (u64 turn = 0; turn < count; turn++) {
        done(call(SYS_lseek, fd, 0, 0, 0));
        while (done(call(SYS_getdents64, fd, (i64)buffer, sizeof buffer, 0)) > 0)
            ;
    }
}

static void come_and_go(u64 count, const char *name)
{
    for (u64 turn = 0; turn < count; turn++) {
        done(call(SYS_mkdirat, AT_FDCWD, (i64)name, 0755, 0));
        done(call(SYS_unlinkat, AT_FDCWD, (i64)name, AT_REMOVEDIR, 0));
    }
}

/* The path of a file, after that of its directory. */
static const char *file(char *end, char letter, u64 name)
{
    put_number(end, letter, name);
    return path;
}

static void make(char *end, u64 names)
{
    for (u64 name = 0; name < names; name++) {
        i64 made = call(SYS_openat, AT_FDCWD, (i64)file(end, 'f', name), O_CREAT | O_WRONLY, 0644);
        done(call(SYS_close, done(made), 0, 0, 0));
    }
}

static void rename(char *end, u64 names, u64 directory)
{
    char *other_end = put_number(other, 'd', directory);
    for (u64 name = 0; name < names; name++) {
        put_number(other_end, 'g', name);
        done(call(SYS_renameat2, AT_FDCWD, (i64)file(end, 'f', name), AT_FDCWD, (i64)other));
    }
}

static void remove(const char *name)
{
    done(call(SYS_unlinkat, AT_FDCWD, (i64)name, 0, 0));
}

static void change(const char *kind, u64 count, u64 names)
{
    int renames = kind[2] == 'n', first_comes_first = kind[2] == 'm';
    for (u64 directory = 0; directory < count; directory++) {
        char *end = put_number(path, 'd', directory);
        done(call(SYS_mkdirat, AT_FDCWD, (i64)path, 0755, 0));
        make(end, names);
        if (renames)
            rename(end, names, directory);
        for (u64 name = 0; name < names; name++)
            remove(file(end, renames ? 'g' : 'f', first_comes_first ? name : names - 1 - name));
    }
}

int main(int argc, char **argv)
{
    if (argc < 4 || (argv[1][0] == 'f' && argc < 5))
        return 2;
    u64 count = number(argv[2]);
    switch (argv[1][0]) {
    case 'f':
        find(count, argv[3], number(argv[4]));
        break;
    case 'p':
        walk(count, argv[3]);
        break;
    case 'l':
        list(count, argv[3]);
        break;
    case 't':
        come_and_go(count, argv[3]);
        break;
    default:
        change(argv[1], count, number(argv[3]));
    }
    return 0;
}
