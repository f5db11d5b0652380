/* Makes processes: processes children COUNT makes as many children, one after the other, each of which ends at once;
 * processes turns COUNT PROCESSES has so many processes live together, each of which makes COUNT calls of sched_yield.
 * It needs no C library, and has no data of its own, so that it is one page. build.sh has the command line of its
 * compiler. */

typedef unsigned long u64;
typedef long i64;

enum { SYS_exit = 93, SYS_sched_yield = 124, SYS_clone = 220, SYS_wait4 = 260 };

enum { SIGCHLD = 17, ANY_CHILD = -1 };

__asm__(".globl _start\n"
        "_start:\n"
        "    ld a0, 0(sp)\n"
        "    addi a1, sp, 8\n"
        "    andi sp, sp, -16\n"
        "    call main\n"
        "    li a7, 93\n"
        "    ecall\n");

static i64 call(i64 number, i64 a, i64 b, i64 c, i64 d)
{
    register i64 a7 __asm__("a7") = number;
    register i64 a0 __asm__("a0") = a;
    register i64 a1 __asm__("a1") = b;
    register i64 a2 __asm__("a2") = c;
    register i64 a3 __asm__("a3") = d;
    register i64 a4 __asm__("a4") = 0;
    __asm__ volatile("ecall" : "+r"(a0) : "r"(a1), "r"(a2), "r"(a3), "r"(a4), "r"(a7) : "memory");
    return a0;
}

static void end(i64 code)
{
    call(SYS_exit, code, 0, 0, 0);
}

/* Answers 0 in the child. The program ends with code 3 where it cannot make one. */
static i64 make_child(void)
{
    i64 child = call(SYS_clone, SIGCHLD, 0, 0, 0);
    if (child < 0)
        end(3);
    return child;
}

static void wait_for(i64 child)
{
    if (call(SYS_wait4, child, 0, 0, 0) < 0)
        end(4);
}

/* The loop has three instructions, so that little but the calls is timed. */
static void yield(u64 count)
{
    register i64 a7 __asm__("a7") = SYS_sched_yield;
    if (count == 0)
        return;
    __asm__ volatile("1:\n"
                     "    ecall\n"
                     "    addi %0, %0, -1\n"
                     "    bnez %0, 1b\n"
                     : "+r"(count)
                     : "r"(a7)
                     : "a0", "memory");
}

static void one_by_one(u64 count)
{
    for (u64 made = 0; made < count; made++) {
        i64 child = make_child();
        if (child == 0)
            end(0);
        wait_for(child);
    }
}

static void together(u64 count, u64 processes)
{
    for (u64 live = 1; live < processes; live++)
        if (make_child() == 0) {
            yield(count);
            end(0);
        }
    yield(count);
    for (u64 left = 1; left < processes; left++)
        wait_for(ANY_CHILD);
}

static u64 number(const char *text)
{
    u64 value = 0;
    while (*text)
        value = value * 10 + (u64)(*text++ - '0');
    return value;
}

int main(int argc, char **argv)
{
    if (argc < 3)
        return 2;
    if (argv[1][0] == 'c')
        one_by_one(number(argv[2]));
    else
        together(number(argv[2]), number(argv[3]));
    return 0;
}
