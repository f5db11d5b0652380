/* Loads and stores: machine loop ROUNDS PAGES carries out ten instructions a round, with a load and a store on the next
 * of so many pages, a power of 2, and writes the sum of what it loaded. machine look COUNT STRIDE maps 16,000 pages and
 * loads COUNT times from one of them, so many pages on from the one before. It needs no C library. build.sh has the
 * command line of its compiler. */

typedef unsigned long u64;
typedef long i64;

enum { SYS_write = 64, SYS_exit = 93, SYS_mmap = 222 };

enum { PROT_READ_WRITE = 3, MAP_PRIVATE_ANONYMOUS = 0x22, PAGE = 4096, PAGES = 16000 };

/* The digits of a sum, and the end of its line. */
static char digits[24];

__asm__(".globl _start\n"
        "_start:\n"
        "    .option push\n"
        "    .option norelax\n"
        "    la gp, __global_pointer$\n"
        "    .option pop\n"
        "    ld a0, 0(sp)\n"
        "    addi a1, sp, 8\n"
        "    andi sp, sp, -16\n"
        "    call main\n"
        "    li a7, 93\n"
        "    ecall\n");

static i64 call(i64 number, i64 a, i64 b, i64 c, i64 d)
{
    register i64 a7 __asm__("a7") = number;
    register i64 a0 __asm__("a0") = a;
    register i64 a1 __asm__("a1") = b;
    register i64 a2 __asm__("a2") = c;
    register i64 a3 __asm__("a3") = d;
    register i64 a4 __asm__("a4") = -1;
    register i64 a5 __asm__("a5") = 0;
    __asm__ volatile("ecall" : "+r"(a0) : "r"(a1), "r"(a2), "r"(a3), "r"(a4), "r"(a5), "r"(a7) : "memory");
    return a0;
}

static u64 map(u64 pages)
{
    i64 address = call(SYS_mmap, 0, (i64)(pages * PAGE), PROT_READ_WRITE, MAP_PRIVATE_ANONYMOUS);
    if (address < 0)
        call(SYS_exit, 3, 0, 0, 0);
    return (u64)address;
}

/* The loop of ../plain.rs: the same ten instructions a round, over so many pages at an address. */
static u64 loop(u64 rounds, u64 address, u64 pages)
{
    register u64 sum __asm__("a0") = 0;
    register u64 left __asm__("s0") = rounds;
    register u64 base __asm__("s1") = address;
    register u64 stride __asm__("s2") = PAGE + 8;
    register u64 mask __asm__("s3") = pages * PAGE - 8;
    register u64 offset __asm__("t2") = 0;
    __asm__ volatile("1:\n"
                     "    add t1, %3, %2\n"
                     "    ld t0, 0(t1)\n"
                     "    add %0, %0, t0\n"
                     "    xor t0, t0, %1\n"
                     "    slli t0, t0, 1\n"
                     "    sd t0, 0(t1)\n"
                     "    add %2, %2, %4\n"
                     "    and %2, %2, %5\n"
                     "    addi %1, %1, -1\n"
                     "    bnez %1, 1b\n"
                     : "+r"(sum), "+r"(left), "+r"(offset)
                     : "r"(base), "r"(stride), "r"(mask)
                     : "t0", "t1", "memory");
    return sum;
}

/* Loads from page after page, so many pages on each time, and from the first ones again past the last. */
static void look(u64 count, u64 stride)
{
    u64 first = map(PAGES), size = (u64)PAGES * PAGE, offset = 0;
    for (u64 turn = 0; turn < count; turn++) {
        *(volatile u64 *)(first + offset);
        offset += stride * PAGE;
        if (offset >= size)
            offset -= size;
    }
}

static u64 number(const char *text)
{
    u64 value = 0;
    while (*text)
        value = value * 10 + (u64)(*text++ - '0');
    return value;
}

static void write_line(u64 value)
{
    char *end = digits + sizeof digits, *at = end;
    *--at = '\n';
    do {
        *--at = (char)('0' + value % 10);
        value /= 10;
    } while (value > 0);
    call(SYS_write, 1, (i64)at, end - at, 0);
}

int main(int argc, char **argv)
{
    if (argc < 4)
        return 2;
    u64 count = number(argv[2]), size = number(argv[3]);
    if (argv[1][2] == 'o' && argv[1][3] == 'k')
        look(count, size);
    else if (count > 0)
        write_line(loop(count, map(size), size));
    return 0;
}
