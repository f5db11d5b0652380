/* Does with a file tree what the build of a small package does: it makes directories, gives a file a second name, moves
 * what it made to its place and takes away what is left. It prints what each call answered, and needs no C library.
 * build.sh has the command line of its compiler. */

typedef unsigned int u32;
typedef unsigned long u64;
typedef long i64;

enum {
    SYS_getcwd = 17, SYS_mkdirat = 34, SYS_unlinkat = 35, SYS_symlinkat = 36, SYS_linkat = 37, SYS_chdir = 49,
    SYS_fchmodat = 53, SYS_write = 64, SYS_readlinkat = 78, SYS_newfstatat = 79, SYS_umask = 166, SYS_renameat2 = 276,
};

enum { AT_FDCWD = -100, AT_SYMLINK_NOFOLLOW = 0x100, AT_REMOVEDIR = 0x200 };

/* The global pointer is set first, since the linker makes accesses to data go by it. */
__asm__(".globl _start\n"
        "_start:\n"
        "    .option push\n"
        "    .option norelax\n"
        "    la gp, __global_pointer$\n"
        "    .option pop\n"
        "    andi sp, sp, -16\n"
        "    call main\n"
        "    li a0, 0\n"
        "    li a7, 93\n"
        "    ecall\n");

static i64 call(i64 number, i64 a, i64 b, i64 c, i64 d, i64 e)
{
    register i64 a7 __asm__("a7") = number;
    register i64 a0 __asm__("a0") = a;
    register i64 a1 __asm__("a1") = b;
    register i64 a2 __asm__("a2") = c;
    register i64 a3 __asm__("a3") = d;
    register i64 a4 __asm__("a4") = e;
    __asm__ volatile("ecall" : "+r"(a0) : "r"(a1), "r"(a2), "r"(a3), "r"(a4), "r"(a7) : "memory");
    return a0;
}

/* ---- output, gathered and written at the end ---- */

static char buffer[2048];
static u64 held;

static void text(const char *s)
{
    while (*s && held < sizeof buffer)
        buffer[held++] = *s++;
}

static void number(u64 n, u64 base, int width)
{
    char digits[24];
    int at = sizeof digits - 1;
    digits[at] = 0;
    do {
        digits[--at] = (char)('0' + n % base);
        n /= base;
    } while (n || (int)sizeof digits - 1 - at < width);
    text(digits + at);
}

static const struct {
    i64 errno;
    const char *name;
} errors[] = { { 2, "ENOENT" }, { 17, "EEXIST" }, { 22, "EINVAL" }, { 39, "ENOTEMPTY" } };

static void answer(i64 result)
{
    text(": ");
    if (result >= 0) {
        text("done");
        return;
    }
    for (u64 i = 0; i < sizeof errors / sizeof *errors; i++)
        if (errors[i].errno == -result)
            text(errors[i].name);
}

/* A line of what was called, with one path or two, and of its answer. */
static void line(const char *what, const char *first, const char *second, i64 result)
{
    text(what);
    text(" ");
    text(first);
    if (second) {
        text(" ");
        text(second);
    }
    answer(result);
    text("\n");
}

/* ---- the calls ---- */

static void make_dir(const char *path, u32 mode)
{
    line("mkdir", path, 0, call(SYS_mkdirat, AT_FDCWD, (i64)path, mode, 0, 0));
}

static void change_mode(const char *path, u32 mode)
{
    line("chmod", path, 0, call(SYS_fchmodat, AT_FDCWD, (i64)path, mode, 0, 0));
}

static void add_name(const char *old, const char *new)
{
    line("link", old, new, call(SYS_linkat, AT_FDCWD, (i64)old, AT_FDCWD, (i64)new, 0));
}

static void move(const char *old, const char *new)
{
    line("rename", old, new, call(SYS_renameat2, AT_FDCWD, (i64)old, AT_FDCWD, (i64)new, 0));
}

static void remove_name(const char *path)
{
    line("unlink", path, 0, call(SYS_unlinkat, AT_FDCWD, (i64)path, 0, 0, 0));
}

static void remove_dir(const char *path)
{
    line("rmdir", path, 0, call(SYS_unlinkat, AT_FDCWD, (i64)path, AT_REMOVEDIR, 0, 0));
}

static void enter(const char *path)
{
    char cwd[256];
    line("chdir", path, 0, call(SYS_chdir, (i64)path, 0, 0, 0, 0));
    i64 got = call(SYS_getcwd, (i64)cwd, sizeof cwd, 0, 0, 0);
    line("getcwd", got > 0 ? cwd : "", 0, got);
}

static void make_link(const char *target, const char *path)
{
    char read[256];
    line("symlink", target, path, call(SYS_symlinkat, (i64)target, AT_FDCWD, (i64)path, 0, 0));
    i64 got = call(SYS_readlinkat, AT_FDCWD, (i64)path, (i64)read, sizeof read - 1, 0);
    read[got > 0 ? got : 0] = 0;
    line("readlink", path, read, got);
}

static void status(const char *path)
{
    u64 stat[16]; /* struct stat: the inode is word 1, mode and links are word 2, the time of change words 13 and 14 */
    i64 result = call(SYS_newfstatat, AT_FDCWD, (i64)path, (i64)stat, AT_SYMLINK_NOFOLLOW, 0);
    text("stat ");
    text(path);
    answer(result);
    if (result >= 0) {
        text(", inode ");
        number(stat[1], 10, 1);
        text(" mode ");
        number(stat[2] & 0xffffffff, 8, 6);
        text(" links ");
        number(stat[2] >> 32, 10, 1);
        text(" time ");
        number(stat[13], 10, 1);
        text(".");
        number(stat[14], 10, 9);
    }
    text("\n");
}

void main(void)
{
    call(SYS_umask, 027, 0, 0, 0, 0);
    make_dir("/build", 0777);
    enter("/build");
    make_dir("pkg", 0755);
    make_dir("pkg/share", 0755);
    add_name("/src/poem", "pkg/share/poem");
    make_link("share/poem", "pkg/latest");
    change_mode("pkg/share/poem", 0444);
    status("pkg/latest");
    status("/src/poem");
    make_dir("pkg", 0755);
    move("pkg", "pkg/share/pkg");
    remove_dir("pkg");
    move("pkg", "/package-1");
    status("/package-1");
    remove_name("/src/poem");
    remove_dir("/src");
    remove_dir("/build");
    status("/src");
    status(".");
    enter("/package-1/share");
    move("/package-1", "/package-2");
    enter(".");
    call(SYS_write, 1, (i64)buffer, (i64)held, 0, 0);
}
