/* Processes that compute: workers together CHILDREN STEPS makes so many children, which compute side by side for about
 * so many steps each, and waits for all of them; workers alone CHILDREN STEPS makes them one after the other, as a
 * script does, and waits for each before the next. It needs no C library, and has no data of its own, so that it is one
 * page. build.sh has the command line of its compiler. */

typedef unsigned long u64;
typedef long i64;

enum { SYS_exit = 93, SYS_clone = 220, SYS_wait4 = 260 };

enum { SIGCHLD = 17, ANY_CHILD = -1, STEPS_A_ROUND = 8 };

__asm__(".globl _start\n"
        "_start:\n"
        "    ld a0, 0(sp)\n"
        "    addi a1, sp, 8\n"
        "    andi sp, sp, -16\n"
        "    call main\n"
        "    li a7, 93\n"
        "    ecall\n");

static i64 call(i64 number, i64 a, i64 b, i64 c, i64 d)
{
    register i64 a7 __asm__("a7") = number;
    register i64 a0 __asm__("a0") = a;
    register i64 a1 __asm__("a1") = b;
    register i64 a2 __asm__("a2") = c;
    register i64 a3 __asm__("a3") = d;
    register i64 a4 __asm__("a4") = 0;
    __asm__ volatile("ecall" : "+r"(a0) : "r"(a1), "r"(a2), "r"(a3), "r"(a4), "r"(a7) : "memory");
    return a0;
}

static void end(i64 code)
{
    call(SYS_exit, code, 0, 0, 0);
}

/* Eight instructions a round, which shift a number that is not 0 and never becomes it. */
static u64 compute(u64 steps)
{
    u64 number = 1, rounds = steps / STEPS_A_ROUND;
    if (rounds == 0)
        return number;
    __asm__ volatile("1:\n"
                     "    slli t0, %0, 13\n"
                     "    xor %0, %0, t0\n"
                     "    srli t0, %0, 7\n"
                     "    xor %0, %0, t0\n"
                     "    slli t0, %0, 17\n"
                     "    xor %0, %0, t0\n"
                     "    addi %1, %1, -1\n"
                     "    bnez %1, 1b\n"
                     : "+r"(number), "+r"(rounds)
                     :
                     : "t0");
    return number;
}

/* A child that computes and ends. The program ends with code 3 where it cannot make one. */
static void make_child(u64 steps)
{
    i64 child = call(SYS_clone, SIGCHLD, 0, 0, 0);
    if (child < 0)
        end(3);
    if (child == 0)
        end(compute(steps) == 0);
}

/* The program ends with code 4 where no child is left, and with 5 where one did not end with 0. */
static void wait_for_a_child(void)
{
    int status = 0;
    if (call(SYS_wait4, ANY_CHILD, (i64)&status, 0, 0) < 0)
        end(4);
    if (status != 0)
        end(5);
}

static u64 number(const char *text)
{
    u64 value = 0;
    while (*text)
        value = value * 10 + (u64)(*text++ - '0');
    return value;
}

int main(int argc, char **argv)
{
    if (argc < 4)
        return 2;
    int are_together = argv[1][0] == 't';
    u64 children = number(argv[2]), steps = number(argv[3]);
    for (u64 made = 0; made < children; made++) {
        make_child(steps);
        if (!are_together)
            wait_for_a_child();
    }
    if (are_together)
        for (u64 left = children; left > 0; left--)
            wait_for_a_child();
    return 0;
}
