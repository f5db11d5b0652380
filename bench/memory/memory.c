/* Pages that come and go. Its path is /memory, it needs no C library, and build.sh has the command line of its compiler.
 *
 * memory start COUNT executes itself anew, COUNT times. memory KIND COUNT PAGES does COUNT times what its kind says:
 * brk-above, brk-below  a page comes and goes at the break, with so many pages below it or mapped above it;
 * map-above, map-below  a page is mapped and unmapped, above so many pages or below them;
 * fresh                 so many pages are mapped and unmapped, which nobody writes;
 * children              a process that has written so many pages makes a child, which ends at once, and waits for it;
 * stores                the same, but the child writes to each of these pages;
 * readers               COUNT children at a time read each of these pages. */

typedef unsigned long u64;
typedef long i64;

enum {
    SYS_close = 57,
    SYS_pipe2 = 59,
    SYS_read = 63,
    SYS_exit = 93,
    SYS_brk = 214,
    SYS_munmap = 215,
    SYS_clone = 220,
    SYS_execve = 221,
    SYS_mmap = 222,
    SYS_wait4 = 260
};

enum { PROT_READ_WRITE = 3, MAP_PRIVATE_ANONYMOUS = 0x22, PAGE = 4096, SIGCHLD = 17 };

/* The digits of a count. */
static char digits[24];

__asm__(".globl _start\n"
        "_start:\n"
        "    .option push\n"
        "    .option norelax\n"
        "    la gp, __global_pointer$\n"
        "    .option pop\n"
        "    ld a0, 0(sp)\n"
        "    addi a1, sp, 8\n"
        "    andi sp, sp, -16\n"
        "    call main\n"
        "    li a7, 93\n"
        "    ecall\n");

static i64 call(i64 number, i64 a, i64 b, i64 c, i64 d)
{
    register i64 a7 __asm__("a7") = number;
    register i64 a0 __asm__("a0") = a;
    register i64 a1 __asm__("a1") = b;
    register i64 a2 __asm__("a2") = c;
    register i64 a3 __asm__("a3") = d;
    register i64 a4 __asm__("a4") = -1;
    register i64 a5 __asm__("a5") = 0;
    __asm__ volatile("ecall" : "+r"(a0) : "r"(a1), "r"(a2), "r"(a3), "r"(a4), "r"(a5), "r"(a7) : "memory");
    return a0;
}

/* Ends the program where a call is not answered as it should be, since its time would say nothing. */
static void expect(i64 answer, i64 wanted)
{
    if (answer != wanted)
        call(SYS_exit, 3, 0, 0, 0);
}

static i64 map(u64 pages)
{
    i64 address = call(SYS_mmap, 0, (i64)(pages * PAGE), PROT_READ_WRITE, MAP_PRIVATE_ANONYMOUS);
    if (address < 0)
        call(SYS_exit, 3, 0, 0, 0);
    return address;
}

static void unmap(i64 address)
{
    expect(call(SYS_munmap, address, PAGE, 0, 0), 0);
}

static void move_break(u64 count)
{
    i64 start = call(SYS_brk, 0, 0, 0, 0);
    for (u64 turn = 0; turn < count; turn++) {
        expect(call(SYS_brk, start + PAGE, 0, 0, 0), start + PAGE);
        expect(call(SYS_brk, start, 0, 0, 0), start);
    }
}

/* Maps a page, which goes to an address, and unmaps it. */
static void map_page(u64 count, i64 address)
{
    for (u64 turn = 0; turn < count; turn++) {
        expect(map(1), address);
        unmap(address);
    }
}

static void brk_above(u64 count, u64 pages)
{
    i64 end = call(SYS_brk, 0, 0, 0, 0) + (i64)(pages * PAGE);
    expect(call(SYS_brk, end, 0, 0, 0), end);
    move_break(count);
}

static void map_below(u64 count, u64 pages)
{
    i64 first = map(pages + 1);
    unmap(first);
    map_page(count, first);
}

static void map_above(u64 count, u64 pages)
{
    i64 next = map(pages) + (i64)(pages * PAGE);
    map_page(count, next);
}

static u64 number(const char *text)
{
    u64 value = 0;
    while (*text)
        value = value * 10 + (u64)(*text++ - '0');
    return value;
}

/* Puts a number before the end of its digits, and answers its first one. */
static char *text_of(u64 value)
{
    char *at = digits + sizeof digits - 1;
    do {
        *--at = (char)('0' + value % 10);
        value /= 10;
    } while (value > 0);
    return at;
}

static void start(char **argv, u64 count)
{
    static char *words[4];
    if (count == 0)
        return;
    words[0] = argv[0];
    words[1] = argv[1];
    words[2] = text_of(count - 1);
    call(SYS_execve, (i64) "/memory", (i64)words, 0, 0);
    call(SYS_exit, 3, 0, 0, 0);
}

/* Writes a byte to each page, or reads one. */
static void store(i64 address, u64 pages)
{
    for (u64 page = 0; page < pages; page++)
        *(volatile char *)(address + (i64)(page * PAGE)) = 1;
}

static void load(i64 address, u64 pages)
{
    for (u64 page = 0; page < pages; page++)
        (void)*(volatile char *)(address + (i64)(page * PAGE));
}

/* Makes a child, which touches each page and ends. */
static void make_child(void (*touch)(i64, u64), i64 address, u64 pages)
{
    i64 child = call(SYS_clone, SIGCHLD, 0, 0, 0);
    if (child < 0)
        call(SYS_exit, 3, 0, 0, 0);
    if (child > 0)
        return;
    touch(address, pages);
    call(SYS_exit, 0, 0, 0, 0);
}

static void wait_for_child(void)
{
    if (call(SYS_wait4, -1, 0, 0, 0) < 0)
        call(SYS_exit, 3, 0, 0, 0);
}

/* Makes so many children one after another, each of which touches so many pages of those that were written. */
static void children(u64 count, u64 pages, void (*touch)(i64, u64), u64 touched)
{
    i64 address = map(pages);
    store(address, pages);
    for (u64 turn = 0; turn < count; turn++) {
        make_child(touch, address, touched);
        wait_for_child();
    }
}

/* Makes so many children that live at a time: each reads the pages, and then waits at a pipe until all are made. */
static void readers(u64 count, u64 pages)
{
    static unsigned ends[2];
    static char byte;
    i64 address = map(pages);
    store(address, pages);
    expect(call(SYS_pipe2, (i64)ends, 0, 0, 0), 0);
    for (u64 turn = 0; turn < count; turn++) {
        i64 child = call(SYS_clone, SIGCHLD, 0, 0, 0);
        if (child == 0) {
            load(address, pages);
            expect(call(SYS_close, ends[1], 0, 0, 0), 0);
            expect(call(SYS_read, ends[0], (i64)&byte, 1, 0), 0);
            call(SYS_exit, 0, 0, 0, 0);
        }
        if (child < 0)
            call(SYS_exit, 3, 0, 0, 0);
    }
    expect(call(SYS_close, ends[1], 0, 0, 0), 0);
    for (u64 turn = 0; turn < count; turn++)
        wait_for_child();
}

static void fresh(u64 count, u64 pages)
{
    for (u64 turn = 0; turn < count; turn++)
        expect(call(SYS_munmap, map(pages), (i64)(pages * PAGE), 0, 0), 0);
}

static int is(const char *word, const char *name)
{
    while (*word && *word == *name)
        word++, name++;
    return *word == *name;
}

int main(int argc, char **argv)
{
    if (argc < 3)
        return 2;
    const char *kind = argv[1];
    u64 count = number(argv[2]);
    if (is(kind, "start")) {
        start(argv, count);
        return 0;
    }
    if (argc < 4)
        return 2;
    u64 pages = number(argv[3]);
    if (is(kind, "brk-above"))
        brk_above(count, pages);
    else if (is(kind, "brk-below"))
        map(pages), move_break(count);
    else if (is(kind, "map-above"))
        map_above(count, pages);
    else if (is(kind, "map-below"))
        map_below(count, pages);
    else if (is(kind, "fresh"))
        fresh(count, pages);
    else if (is(kind, "children"))
        children(count, pages, load, 0);
    else if (is(kind, "stores"))
        children(count, pages, store, pages);
    else if (is(kind, "readers"))
        readers(count, pages);
    else
        return 2;
    return 0;
}
