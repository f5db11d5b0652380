/* The start of a program, and what guest.h says. */
#include "guest.h"

/* The global pointer is set first, since the linker makes accesses to data go by it. */
__asm__(".globl _start\n"
        "_start:\n"
        "    .option push\n"
        "    .option norelax\n"
        "    la gp, __global_pointer$\n"
        "    .option pop\n"
        "    ld a0, 0(sp)\n"
        "    addi a1, sp, 8\n"
        "    andi sp, sp, -16\n"
        "    call main\n"
        "    li a7, 93\n"
        "    ecall\n");

i64 call(i64 number, i64 a, i64 b, i64 c, i64 d)
{
    register i64 a7 __asm__("a7") = number;
    register i64 a0 __asm__("a0") = a;
    register i64 a1 __asm__("a1") = b;
    register i64 a2 __asm__("a2") = c;
    register i64 a3 __asm__("a3") = d;
    register i64 a4 __asm__("a4") = 0;
    __asm__ volatile("ecall" : "+r"(a0) : "r"(a1), "r"(a2), "r"(a3), "r"(a4), "r"(a7) : "memory");
    return a0;
}

i32 is_same(const char *a, const char *b)
{
    while (*a && *a == *b)
        a++, b++;
    return *a == *b;
}

u64 read_number(const char *s)
{
    u64 value = 0;
    while (*s)
        value = value * 10 + (u64)(*s++ - '0');
    return value;
}

static char added[4096];
static u64 length;

void put(char c)
{
    if (length < sizeof added)
        added[length++] = c;
}

void text(const char *s)
{
    while (*s)
        put(*s++);
}

void number(u64 n)
{
    char digits[24];
    i32 at = sizeof digits - 1;
    digits[at] = 0;
    do {
        digits[--at] = (char)('0' + n % 10);
        n /= 10;
    } while (n);
    text(digits + at);
}

void flush(i64 to)
{
    call(SYS_write, to, (i64)added, (i64)length, 0);
    length = 0;
}

void give_up(void)
{
    put('\n');
    flush(ERR);
    call(SYS_exit, 1, 0, 0, 0);
}

/* The answer of a call that is made on something of this name. Where it was refused, the program says so and ends. */
static i64 done(i64 answer, const char *name)
{
    if (answer >= 0)
        return answer;
    text(name);
    text(": errno ");
    number((u64)-answer);
    give_up();
    return answer;
}

i64 open_source(const char *path)
{
    return done(call(SYS_openat, AT_FDCWD, (i64)path, O_RDONLY, 0), path);
}

i64 open_target(const char *path)
{
    return done(call(SYS_openat, AT_FDCWD, (i64)path, O_WRONLY | O_CREAT | O_TRUNC, 0644), path);
}

u64 read_all(i64 from, char *room, u64 size)
{
    u64 bytes = 0;
    i64 got = 1;
    while (bytes < size && got > 0) {
        got = done(call(SYS_read, from, (i64)(room + bytes), (i64)(size - bytes), 0), "read");
        bytes += (u64)got;
    }
    return bytes;
}

void begin_line(const char *program)
{
    text(program);
    put(' ');
    number((u64)call(SYS_getpid, 0, 0, 0, 0));
    text(": ");
}

void end_line(void)
{
    put('\n');
    flush(OUT);
}

/* Has a descriptor stand where a program looks for it. */
static void place(i64 fd, i64 at)
{
    if (fd != at)
        call(SYS_dup3, fd, at, 0, 0);
}

i64 start_between(const char *const words[], i64 in, i64 out)
{
    i64 child = call(SYS_clone, SIGCHLD, 0, 0, 0);
    if (child == 0) {
        place(in, IN);
        place(out, OUT);
        call(SYS_execve, (i64)words[0], (i64)words, 0, 0);
        call(SYS_exit, 127, 0, 0, 0);
    }
    return child;
}

i64 start(const char *const words[])
{
    return start_between(words, IN, OUT);
}

i32 wait_for(i64 child)
{
    i32 status = 0;
    call(SYS_wait4, child, (i64)&status, 0, 0);
    return status;
}

i32 code_of(i32 status)
{
    return status >> 8 & 255;
}

i32 signal_of(i32 status)
{
    return status & 127;
}

void ending(i32 status)
{
    i32 signal = signal_of(status);
    text(signal ? " ended by signal " : " ended with code ");
    number((u64)(signal ? signal : code_of(status)));
}

/* The action of a signal, as the kernel has it on RISC-V. */
struct action {
    void (*handler)(i32);
    u64 flags, mask;
};

void handle(i32 signal, void (*handler)(i32))
{
    struct action action = { handler, SA_RESTART, 0 };
    done(call(SYS_rt_sigaction, signal, (i64)&action, 0, sizeof action.mask), "rt_sigaction");
}
