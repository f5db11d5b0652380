/* Sends bytes through a pipe: pipes COUNT makes COUNT writes of 64 KiB, and a child reads them 4 KiB at a time until
 * there is no writer. It needs no C library. build.sh has the command line of its compiler. */

typedef unsigned long u64;
typedef long i64;
typedef int i32;

enum {
    SYS_close = 57, SYS_pipe2 = 59, SYS_read = 63, SYS_write = 64, SYS_exit = 93, SYS_clone = 220, SYS_wait4 = 260
};

enum { SIGCHLD = 17, WRITTEN = 65536, READ = 4096 };

static char buffer[WRITTEN];

__asm__(".globl _start\n"
        "_start:\n"
        "    .option push\n"
        "    .option norelax\n"
        "    la gp, __global_pointer$\n"
        "    .option pop\n"
        "    ld a0, 0(sp)\n"
        "    addi a1, sp, 8\n"
        "    andi sp, sp, -16\n"
        "    call main\n"
        "    li a7, 93\n"
        "    ecall\n");

static i64 call(i64 number, i64 a, i64 b, i64 c, i64 d)
{
    register i64 a7 __asm__("a7") = number;
    register i64 a0 __asm__("a0") = a;
    register i64 a1 __asm__("a1") = b;
    register i64 a2 __asm__("a2") = c;
    register i64 a3 __asm__("a3") = d;
    register i64 a4 __asm__("a4") = 0;
    __asm__ volatile("ecall" : "+r"(a0) : "r"(a1), "r"(a2), "r"(a3), "r"(a4), "r"(a7) : "memory");
    return a0;
}

/* The number of bytes that come until there is no writer. */
static u64 drain(i64 from)
{
    u64 bytes = 0;
    i64 got;
    while ((got = call(SYS_read, from, (i64)buffer, READ, 0)) > 0)
        bytes += (u64)got;
    return bytes;
}

/* Whether all of so many writes were done. */
static i32 fill(i64 to, u64 count)
{
    for (u64 made = 0; made < count; made++)
        if (call(SYS_write, to, (i64)buffer, WRITTEN, 0) != WRITTEN)
            return 0;
    return 1;
}

static u64 number(const char *text)
{
    u64 value = 0;
    while (*text)
        value = value * 10 + (u64)(*text++ - '0');
    return value;
}

/* Ends with code 0 where all that was written was read, else with another one. */
int main(int argc, char **argv)
{
    i32 ends[2], status = 0;
    if (argc != 2 || call(SYS_pipe2, (i64)ends, 0, 0, 0) < 0)
        return 2;
    u64 count = number(argv[1]);
    i64 child = call(SYS_clone, SIGCHLD, 0, 0, 0);
    if (child < 0)
        return 3;
    if (child == 0) {
        call(SYS_close, ends[1], 0, 0, 0);
        return drain(ends[0]) == count * WRITTEN ? 0 : 4;
    }
    call(SYS_close, ends[0], 0, 0, 0);
    if (!fill(ends[1], count))
        return 5;
    call(SYS_close, ends[1], 0, 0, 0);
    call(SYS_wait4, child, (i64)&status, 0, 0);
    return status ? 6 : 0;
}
