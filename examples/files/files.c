/* Works with files: copies one, appends to another, leaves a gap in a third, lists the directory, and reads a file whose
 * name is gone. It needs no C library. build.sh has the command line of its compiler. */

typedef unsigned char byte;
typedef unsigned short u16;
typedef unsigned int u32;
typedef unsigned long u64;
typedef long i64;

enum {
    SYS_dup3 = 24, SYS_mkdirat = 34, SYS_unlinkat = 35, SYS_ftruncate = 46, SYS_openat = 56, SYS_close = 57,
    SYS_getdents64 = 61, SYS_lseek = 62, SYS_read = 63, SYS_write = 64, SYS_writev = 66, SYS_pwrite64 = 68,
    SYS_fstat = 80
};

enum { O_RDONLY = 0, O_WRONLY = 1, O_RDWR = 2, O_CREAT = 0x40, O_EXCL = 0x80, O_APPEND = 0x400, O_DIRECTORY = 0x10000 };

enum { AT_FDCWD = -100, SEEK_SET = 0, SEEK_END = 2 };

/* The global pointer is set first, since the linker makes accesses to data go by it. */
__asm__(".globl _start\n"
        "_start:\n"
        "    .option push\n"
        "    .option norelax\n"
        "    la gp, __global_pointer$\n"
        "    .option pop\n"
        "    andi sp, sp, -16\n"
        "    call main\n"
        "    li a7, 93\n"
        "    ecall\n");

static i64 call(i64 number, i64 a, i64 b, i64 c, i64 d)
{
    register i64 a7 __asm__("a7") = number;
    register i64 a0 __asm__("a0") = a;
    register i64 a1 __asm__("a1") = b;
    register i64 a2 __asm__("a2") = c;
    register i64 a3 __asm__("a3") = d;
    __asm__ volatile("ecall" : "+r"(a0) : "r"(a1), "r"(a2), "r"(a3), "r"(a7) : "memory");
    return a0;
}

/* ---- output, gathered and written at the end ---- */

static char line[1024];
static u64 held;

static void text(const char *s)
{
    while (*s && held < sizeof line)
        line[held++] = *s++;
}

static void number(i64 n)
{
    char digits[24];
    int at = sizeof digits - 1;
    u64 left = n < 0 ? (u64)-n : (u64)n;
    digits[at] = 0;
    do {
        digits[--at] = (char)('0' + left % 10);
        left /= 10;
    } while (left);
    if (n < 0)
        text("-");
    text(digits + at);
}

static void say(const char *what, i64 n, const char *unit)
{
    text(what);
    number(n);
    text(unit);
    text("\n");
}

/* ---- files ---- */

static i64 open_at(i64 directory, const char *path, u32 flags, u32 mode)
{
    return call(SYS_openat, directory, (i64)path, flags, mode);
}

/* Copies a file by pieces of 32 bytes, and tells how many bytes it had. */
static i64 copy(i64 from, i64 to)
{
    char piece[32];
    i64 moved = 0, got;
    while ((got = call(SYS_read, from, (i64)piece, sizeof piece, 0)) > 0)
        moved += call(SYS_write, to, (i64)piece, got, 0);
    return moved;
}

static void append(i64 directory)
{
    struct { const char *base; u64 length; } parts[2] = { { "copied ", 7 }, { "a poem\n", 7 } };
    i64 fd = open_at(directory, "log", O_WRONLY | O_CREAT | O_APPEND, 0644);
    call(SYS_writev, fd, (i64)parts, 2, 0);
    call(SYS_lseek, fd, 0, SEEK_SET, 0);
    say("appended ", call(SYS_writev, fd, (i64)parts, 2, 0), " bytes");
    say("the log has ", call(SYS_lseek, fd, 0, SEEK_END, 0), " bytes");
    call(SYS_close, fd, 0, 0, 0);
}

static void leave_gap(i64 directory)
{
    i64 fd = open_at(directory, "gap", O_RDWR | O_CREAT | O_EXCL, 0600);
    say("wrote ", call(SYS_pwrite64, fd, (i64) "end", 3, 13), " bytes behind a gap of 13");
    call(SYS_ftruncate, fd, 15, 0, 0);
    call(SYS_close, fd, 0, 0, 0);
}

struct entry {
    u64 inode;
    i64 offset;
    u16 length;
    byte type;
    char name[];
};

static void list(i64 directory)
{
    char buffer[256];
    i64 got;
    while ((got = call(SYS_getdents64, directory, (i64)buffer, sizeof buffer, 0)) > 0)
        for (i64 at = 0; at < got; at += ((struct entry *)(buffer + at))->length) {
            struct entry *entry = (struct entry *)(buffer + at);
            text(entry->type == 4 ? "directory " : "file ");
            text(entry->name);
            say(", inode ", (i64)entry->inode, "");
        }
}

/* A file whose last name goes stays as long as it is open. */
static void read_unnamed(i64 directory)
{
    char status[128], bytes[16];
    i64 fd = open_at(directory, "poem", O_RDONLY, 0);
    call(SYS_dup3, fd, 9, 0, 0);
    call(SYS_close, fd, 0, 0, 0);
    call(SYS_unlinkat, directory, (i64) "poem", 0, 0);
    call(SYS_fstat, 9, (i64)status, 0, 0);
    say("links of a file whose name is gone: ", *(u32 *)(status + 20), "");
    say("read ", call(SYS_read, 9, (i64)bytes, sizeof bytes, 0), " bytes of it");
    say("opening it: errno ", -open_at(directory, "poem", O_RDONLY, 0), "");
}

int main(void)
{
    call(SYS_mkdirat, AT_FDCWD, (i64) "/out", 0755, 0);
    i64 directory = open_at(AT_FDCWD, "/out", O_RDONLY | O_DIRECTORY, 0);
    i64 from = open_at(AT_FDCWD, "/poem", O_RDONLY, 0);
    i64 to = open_at(directory, "poem", O_WRONLY | O_CREAT | O_EXCL, 0644);
    say("copied ", copy(from, to), " bytes");
    append(directory);
    leave_gap(directory);
    list(directory);
    read_unnamed(directory);
    call(SYS_write, 1, (i64)line, (i64)held, 0);
    return 0;
}
