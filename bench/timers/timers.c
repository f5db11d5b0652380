/* Timers and waits for events: timers turns COUNT CHILDREN ARMED lets so many children wait for a byte, each with a
 * timer that is due in an hour where ARMED is 1, while their parent asks COUNT times for its own id; timers polls COUNT
 * looks COUNT times at four descriptors, of which two are ready. It needs no C library. build.sh has the command line
 * of its compiler. */

typedef unsigned long u64;
typedef long i64;
typedef int i32;
typedef short i16;

enum { SYS_pipe2 = 59, SYS_read = 63, SYS_ppoll = 73, SYS_setitimer = 103, SYS_getpid = 172, SYS_clone = 220 };

enum { SIGCHLD = 17, POLLIN = 1, POLLOUT = 4 };

/* A timer, as the kernel has it. */
struct timer {
    i64 interval, interval_part, value, value_part;
};

struct entry {
    i32 fd;
    i16 asked, found;
};

__asm__(".globl _start\n"
        "_start:\n"
        "    .option push\n"
        "    .option norelax\n"
        "    la gp, __global_pointer$\n"
        "    .option pop\n"
        "    ld a0, 0(sp)\n"
        "    addi a1, sp, 8\n"
        "    andi sp, sp, -16\n"
        "    call main\n"
        "    li a7, 93\n"
        "    ecall\n");

static i64 call(i64 number, i64 a, i64 b, i64 c, i64 d)
{
    register i64 a7 __asm__("a7") = number;
    register i64 a0 __asm__("a0") = a;
    register i64 a1 __asm__("a1") = b;
    register i64 a2 __asm__("a2") = c;
    register i64 a3 __asm__("a3") = d;
    register i64 a4 __asm__("a4") = 0;
    __asm__ volatile("ecall" : "+r"(a0) : "r"(a1), "r"(a2), "r"(a3), "r"(a4), "r"(a7) : "memory");
    return a0;
}

static u64 number(const char *text)
{
    u64 value = 0;
    while (*text)
        value = value * 10 + (u64)(*text++ - '0');
    return value;
}

/* A child waits for a byte that never comes. */
static i32 wait_for_ever(i32 fd, u64 armed)
{
    struct timer hour = { 0, 0, 3600, 0 };
    char byte;
    if (armed && call(SYS_setitimer, 0, (i64)&hour, 0, 0) < 0)
        return 3;
    return (i32)call(SYS_read, fd, (i64)&byte, 1, 0);
}

static i32 turns(u64 count, u64 children, u64 armed, const i32 *ends)
{
    for (u64 child = 0; child < children; child++) {
        i64 id = call(SYS_clone, SIGCHLD, 0, 0, 0);
        if (id < 0)
            return 4;
        if (id == 0)
            return wait_for_ever(ends[0], armed);
    }
    for (u64 asked = 0; asked < count; asked++)
        call(SYS_getpid, 0, 0, 0, 0);
    return 0;
}

static i32 polls(u64 count, const i32 *ends)
{
    struct entry empty = { ends[0], POLLIN, 0 }, room = { ends[1], POLLOUT, 0 }, stream = { 1, POLLOUT, 0 };
    struct entry entries[4] = { empty, room, empty, stream };
    for (u64 looked = 0; looked < count; looked++)
        if (call(SYS_ppoll, (i64)entries, 4, 0, 0) != 2)
            return 5;
    return 0;
}

int main(int argc, char **argv)
{
    i32 ends[2];
    if (call(SYS_pipe2, (i64)ends, 0, 0, 0) < 0)
        return 2;
    if (argc == 5)
        return turns(number(argv[2]), number(argv[3]), number(argv[4]), ends);
    if (argc == 3)
        return polls(number(argv[2]), ends);
    return 2;
}
