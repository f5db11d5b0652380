/* Makes one system call many times: calls KIND COUNT PATH. It needs no C library. build.sh has the command line of its
 * compiler. */

typedef unsigned long u64;
typedef long i64;

enum {
    SYS_openat = 56, SYS_close = 57, SYS_pread64 = 67, SYS_pwrite64 = 68, SYS_fstat = 80, SYS_exit = 93
};

enum { AT_FDCWD = -100, O_RDWR = 2, LARGE = 65536 };

static char buffer[1 << 18];

__asm__(".globl _start\n"
        "_start:\n"
        "    .option push\n"
        "    .option norelax\n"
        "    la gp, __global_pointer$\n"
        "    .option pop\n"
        "    mv a0, sp\n"
        "    andi sp, sp, -16\n"
        "    call main\n"
        "    li a7, 93\n"
        "    ecall\n");

static i64 call(i64 number, i64 a, i64 b, i64 c, i64 d)
{
    register i64 a7 __asm__("a7") = number;
    register i64 a0 __asm__("a0") = a;
    register i64 a1 __asm__("a1") = b;
    register i64 a2 __asm__("a2") = c;
    register i64 a3 __asm__("a3") = d;
    __asm__ volatile("ecall" : "+r"(a0) : "r"(a1), "r"(a2), "r"(a3), "r"(a7) : "memory");
    return a0;
}

static u64 number(const char *text)
{
    u64 value = 0;
    while (*text)
        value = value * 10 + (u64)(*text++ - '0');
    return value;
}

/* Makes one call so many times, in a loop of four instructions. */
static void repeat(i64 number, i64 a, i64 b, i64 c, i64 d, u64 count)
{
    register i64 a7 __asm__("a7") = number;
    register i64 a1 __asm__("a1") = b;
    register i64 a2 __asm__("a2") = c;
    register i64 a3 __asm__("a3") = d;
    __asm__ volatile("1:\n"
                     "    mv a0, %1\n"
                     "    ecall\n"
                     "    addi %0, %0, -1\n"
                     "    bnez %0, 1b\n"
                     : "+r"(count)
                     : "r"(a), "r"(a1), "r"(a2), "r"(a3), "r"(a7)
                     : "a0", "memory");
}

static void make(char kind, i64 fd, u64 count)
{
    switch (kind) {
    case 'c':
        return repeat(SYS_close, 1000, 0, 0, 0, count);
    case 's':
        return repeat(SYS_fstat, fd, (i64)buffer, 0, 0, count);
    case 'r':
        return repeat(SYS_pread64, fd, (i64)buffer, 1, 7, count);
    case 'w':
        return repeat(SYS_pwrite64, fd, (i64)buffer, 1, 7, count);
    case 'R':
        return repeat(SYS_pread64, fd, (i64)buffer, LARGE, 0, count);
    default:
        return repeat(SYS_pwrite64, fd, (i64)buffer, LARGE, 0, count);
    }
}

int main(i64 *stack)
{
    char **argv = (char **)(stack + 1);
    char kind = argv[1][0];
    u64 count = number(argv[2]);
    i64 fd = call(SYS_openat, AT_FDCWD, (i64)argv[3], O_RDWR, 0);
    if (fd < 0)
        return 2;
    if (count > 0)
        make(kind, fd, count);
    return 0;
}
