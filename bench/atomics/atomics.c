/* Atomics: atomics amo ROUNDS carries out eight atomics a round, of 32 and of 64 bits, and atomics pair ROUNDS eight pairs
 * of a load that reserves and a store that succeeds. Both write what they leave in memory. It needs no C library, and an
 * image of version 2. build.sh has the command line of its compiler. */

typedef unsigned long u64;
typedef long i64;

enum { SYS_write = 64, SYS_exit = 93 };

/* What the atomics work on, and a number and the end of its line. */
static u64 word = 1;
static char digits[24];

__asm__(".globl _start\n"
        "_start:\n"
        "    .option push\n"
        "    .option norelax\n"
        "    la gp, __global_pointer$\n"
        "    .option pop\n"
        "    ld a0, 0(sp)\n"
        "    addi a1, sp, 8\n"
        "    andi sp, sp, -16\n"
        "    call main\n"
        "    li a7, 93\n"
        "    ecall\n");

static i64 call(i64 number, i64 a, i64 b, i64 c)
{
    register i64 a7 __asm__("a7") = number;
    register i64 a0 __asm__("a0") = a;
    register i64 a1 __asm__("a1") = b;
    register i64 a2 __asm__("a2") = c;
    __asm__ volatile("ecall" : "+r"(a0) : "r"(a1), "r"(a2), "r"(a7) : "memory");
    return a0;
}

/* Eight atomics and two instructions of the loop a round. */
static void change(u64 rounds)
{
    __asm__ volatile("1:\n"
                     "    amoadd.w t0, %0, (%1)\n"
                     "    amoadd.d t0, %0, (%1)\n"
                     "    amoxor.w t0, %0, (%1)\n"
                     "    amoor.d t0, t0, (%1)\n"
                     "    amoswap.w t0, t0, (%1)\n"
                     "    amomax.d t0, %0, (%1)\n"
                     "    amominu.w t0, t0, (%1)\n"
                     "    amoand.d t0, t0, (%1)\n"
                     "    addi %0, %0, -1\n"
                     "    bnez %0, 1b\n"
                     : "+r"(rounds)
                     : "r"(&word)
                     : "t0", "memory");
}

#define PAIR                                                                                                           \
    "    lr.d t0, (%1)\n"                                                                                             \
    "    add t0, t0, %0\n"                                                                                            \
    "    sc.d t1, t0, (%1)\n"                                                                                         \
    "    bnez t1, 2f\n"

/* Eight pairs, each with a sum and a look at how it went, and two instructions of the loop a round. */
static void pair(u64 rounds)
{
    __asm__ volatile("1:\n" PAIR PAIR PAIR PAIR PAIR PAIR PAIR PAIR
                     "    addi %0, %0, -1\n"
                     "    bnez %0, 1b\n"
                     "2:\n"
                     : "+r"(rounds)
                     : "r"(&word)
                     : "t0", "t1", "memory");
}

static u64 number(const char *text)
{
    u64 value = 0;
    while (*text)
        value = value * 10 + (u64)(*text++ - '0');
    return value;
}

static void write_line(u64 value)
{
    char *end = digits + sizeof digits, *at = end;
    *--at = '\n';
    do {
        *--at = (char)('0' + value % 10);
        value /= 10;
    } while (value > 0);
    call(SYS_write, 1, (i64)at, end - at);
}

int main(int argc, char **argv)
{
    if (argc < 3)
        return 2;
    u64 rounds = number(argv[2]);
    if (rounds > 0 && argv[1][0] == 'a')
        change(rounds);
    else if (rounds > 0)
        pair(rounds);
    write_line(word);
    return 0;
}
