/* Signals itself: signals COUNT sends SIGUSR1 to itself COUNT times, and a handler takes each and returns. It needs no
 * C library. build.sh has the command line of its compiler. */

typedef unsigned long u64;
typedef long i64;
typedef int i32;

enum { SYS_kill = 129, SYS_rt_sigaction = 134, SYS_getpid = 172 };

enum { SIGUSR1 = 10 };

/* The action of a signal, as the kernel has it on RISC-V. */
struct action {
    void (*handler)(i32);
    u64 flags, mask;
};

static volatile u64 taken;

__asm__(".globl _start\n"
        "_start:\n"
        "    .option push\n"
        "    .option norelax\n"
        "    la gp, __global_pointer$\n"
        "    .option pop\n"
        "    ld a0, 0(sp)\n"
        "    addi a1, sp, 8\n"
        "    andi sp, sp, -16\n"
        "    call main\n"
        "    li a7, 93\n"
        "    ecall\n");

static i64 call(i64 number, i64 a, i64 b, i64 c, i64 d)
{
    register i64 a7 __asm__("a7") = number;
    register i64 a0 __asm__("a0") = a;
    register i64 a1 __asm__("a1") = b;
    register i64 a2 __asm__("a2") = c;
    register i64 a3 __asm__("a3") = d;
    register i64 a4 __asm__("a4") = 0;
    __asm__ volatile("ecall" : "+r"(a0) : "r"(a1), "r"(a2), "r"(a3), "r"(a4), "r"(a7) : "memory");
    return a0;
}

static void take(i32 signal)
{
    if (signal == SIGUSR1)
        taken++;
}

static u64 number(const char *text)
{
    u64 value = 0;
    while (*text)
        value = value * 10 + (u64)(*text++ - '0');
    return value;
}

/* Ends with code 0 where the handler ran as often as a signal was sent, else with another one. */
int main(int argc, char **argv)
{
    struct action action = { take, 0, 0 };
    if (argc != 2 || call(SYS_rt_sigaction, SIGUSR1, (i64)&action, 0, sizeof action.mask) < 0)
        return 2;
    u64 count = number(argv[1]);
    i64 own = call(SYS_getpid, 0, 0, 0, 0);
    for (u64 sent = 0; sent < count; sent++)
        if (call(SYS_kill, own, SIGUSR1, 0, 0) < 0)
            return 3;
    return taken == count ? 0 : 4;
}
