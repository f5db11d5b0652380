/* Prints what a program finds when it starts (arguments, environment, auxiliary vector), and then asks for memory and
 * gives it back: from the break for small pieces, from mappings for large ones. It needs no C library.
 * build.sh has the command line of its compiler. */

typedef unsigned char byte;
typedef unsigned int u32;
typedef unsigned long u64;
typedef long i64;

enum { SYS_write = 64, SYS_exit = 93, SYS_brk = 214, SYS_munmap = 215, SYS_mmap = 222, SYS_mprotect = 226 };

enum { PROT_READ = 1, PROT_WRITE = 2, MAP_PRIVATE = 2, MAP_ANONYMOUS = 0x20 };

/* The global pointer is set first, since the linker makes accesses to data go by it. sp points at the number of
 * arguments; main gets it, and the stack is at a multiple of 16 from there on. */
__asm__(".globl _start\n"
        "_start:\n"
        "    .option push\n"
        "    .option norelax\n"
        "    la gp, __global_pointer$\n"
        "    .option pop\n"
        "    mv a0, sp\n"
        "    andi sp, sp, -16\n"
        "    call main\n"
        "    li a7, 93\n"
        "    ecall\n");

static i64 call(i64 number, i64 a, i64 b, i64 c, i64 d, i64 e, i64 f)
{
    register i64 a7 __asm__("a7") = number;
    register i64 a0 __asm__("a0") = a;
    register i64 a1 __asm__("a1") = b;
    register i64 a2 __asm__("a2") = c;
    register i64 a3 __asm__("a3") = d;
    register i64 a4 __asm__("a4") = e;
    register i64 a5 __asm__("a5") = f;
    __asm__ volatile("ecall" : "+r"(a0) : "r"(a1), "r"(a2), "r"(a3), "r"(a4), "r"(a5), "r"(a7) : "memory");
    return a0;
}

/* ---- output, gathered and written a buffer at a time ---- */

static char buffer[1024];
static u64 held;

static void flush(void)
{
    u64 done = 0;
    while (done < held) {
        i64 n = call(SYS_write, 1, (i64)(buffer + done), (i64)(held - done), 0, 0, 0);
        if (n <= 0)
            break;
        done += (u64)n;
    }
    held = 0;
}

static void put(char c)
{
    if (held == sizeof buffer)
        flush();
    buffer[held++] = c;
}

static void text(const char *s)
{
    while (*s)
        put(*s++);
}

static void decimal(u64 n)
{
    char digits[20];
    int count = 0;
    do {
        digits[count++] = (char)('0' + n % 10);
        n /= 10;
    } while (n);
    while (count)
        put(digits[--count]);
}

static void hexadecimal(u64 n)
{
    int shift = 60;
    while (shift && !(n >> shift))
        shift -= 4;
    text("0x");
    for (; shift >= 0; shift -= 4)
        put("0123456789abcdef"[n >> shift & 15]);
}

static void line(const char *name, u64 n)
{
    text(name);
    put(' ');
    hexadecimal(n);
    put('\n');
}

/* ---- what the start of a program lays on its stack ---- */

struct name {
    u64 type;
    const char *text;
};

static const struct name names[] = {
    { 3, "AT_PHDR" },    { 4, "AT_PHENT" },   { 5, "AT_PHNUM" },    { 6, "AT_PAGESZ" },  { 7, "AT_BASE" },
    { 8, "AT_FLAGS" },   { 9, "AT_ENTRY" },   { 11, "AT_UID" },     { 12, "AT_EUID" },   { 13, "AT_GID" },
    { 14, "AT_EGID" },   { 16, "AT_HWCAP" },  { 17, "AT_CLKTCK" },  { 23, "AT_SECURE" }, { 25, "AT_RANDOM" },
    { 31, "AT_EXECFN" }, { 33, "AT_SYSINFO_EHDR" },
};

static const char *name_of(u64 type)
{
    for (u64 i = 0; i < sizeof names / sizeof *names; i++)
        if (names[i].type == type)
            return names[i].text;
    return "AT_?";
}

static void vector_line(const u64 *pair)
{
    text(name_of(pair[0]));
    put(' ');
    hexadecimal(pair[1]);
    if (pair[0] == 31) {
        put(' ');
        text((const char *)pair[1]);
    }
    if (pair[0] == 25) {
        const byte *random = (const byte *)pair[1];
        for (int i = 0; i < 16; i++) {
            put(' ');
            hexadecimal(random[i]);
        }
    }
    put('\n');
}

static const u64 *start_lines(const u64 *sp)
{
    u64 count = sp[0];
    const u64 *word = sp + 1;
    text("arguments ");
    decimal(count);
    put('\n');
    for (; *word; word++) {
        text((const char *)*word);
        put('\n');
    }
    text("environment\n");
    for (word++; *word; word++) {
        text((const char *)*word);
        put('\n');
    }
    text("auxiliary vector\n");
    for (word++; word[0]; word += 2)
        vector_line(word);
    return word;
}

/* ---- memory: small pieces from the break, with a list of the free ones; large ones are mappings of their own ---- */

struct piece {
    u64 size; /* of the whole piece, its head included; the lowest bit says that it is a mapping */
    struct piece *next;
};

enum { HEAD = 16, LARGE = 16384, STEP = 4096 };

static struct piece *pieces;
static u64 brk_start, brk_end, brk_used, mapped;

static u64 rounded(u64 n, u64 to)
{
    return (n + to - 1) / to * to;
}

static void *grow(u64 size)
{
    if (!brk_start)
        brk_start = brk_end = brk_used = (u64)call(SYS_brk, 0, 0, 0, 0, 0, 0);
    if (brk_end - brk_used < size) {
        u64 wanted = brk_end + rounded(size, STEP);
        u64 got = (u64)call(SYS_brk, (i64)wanted, 0, 0, 0, 0, 0);
        if (got != wanted)
            return 0;
        brk_end = got;
    }
    struct piece *p = (struct piece *)brk_used;
    brk_used += size;
    p->size = size;
    return (byte *)p + HEAD;
}

static void *map(u64 size)
{
    size = rounded(size, STEP);
    i64 at = call(SYS_mmap, 0, (i64)size, PROT_READ | PROT_WRITE, MAP_PRIVATE | MAP_ANONYMOUS, -1, 0);
    if (at < 0)
        return 0;
    mapped += size;
    ((struct piece *)at)->size = size | 1;
    return (byte *)at + HEAD;
}

static void *allocate(u64 size)
{
    size = rounded(size + HEAD, 16);
    if (size >= LARGE)
        return map(size);
    for (struct piece **at = &pieces; *at; at = &(*at)->next)
        if ((*at)->size >= size) {
            struct piece *found = *at;
            *at = found->next;
            return (byte *)found + HEAD;
        }
    return grow(size);
}

static void release(void *pointer)
{
    struct piece *p = (struct piece *)((byte *)pointer - HEAD);
    if (p->size & 1) {
        mapped -= p->size & ~1UL;
        call(SYS_munmap, (i64)p, (i64)(p->size & ~1UL), 0, 0, 0, 0);
        return;
    }
    p->next = pieces;
    pieces = p;
}

/* ---- a check of what was kept: the CRC-32 of a piece of memory, by a table that lies in one ---- */

static u32 *table_of(u32 polynomial)
{
    u32 *table = allocate(256 * sizeof *table);
    if (!table)
        return 0;
    for (u32 i = 0; i < 256; i++) {
        u32 c = i;
        for (int bit = 0; bit < 8; bit++)
            c = c & 1 ? c >> 1 ^ polynomial : c >> 1;
        table[i] = c;
    }
    return table;
}

static u32 crc(const u32 *table, const byte *bytes, u64 count)
{
    u32 c = ~0U;
    for (u64 i = 0; i < count; i++)
        c = table[(c ^ bytes[i]) & 255] ^ c >> 8;
    return ~c;
}

static void fill(byte *bytes, u64 count, u64 x)
{
    for (u64 i = 0; i < count; i++) {
        x = x * 6364136223846793005UL + 1442695040888963407UL;
        bytes[i] = (byte)(x >> 56);
    }
}

enum { PIECES = 48 };

static void *kept[PIECES];

static int fill_and_free(const u32 *table)
{
    for (u64 round = 0; round < 3; round++) {
        for (u64 i = 0; i < PIECES; i++) {
            u64 size = (i + 1) * (i % 7 == 0 ? 1000 : 50);
            if (!(kept[i] = allocate(size)))
                return 0;
            fill(kept[i], size, i + round);
        }
        u32 sum = 0;
        for (u64 i = 0; i < PIECES; i++) {
            u64 size = (i + 1) * (i % 7 == 0 ? 1000 : 50);
            sum ^= crc(table, kept[i], size) + (u32)i;
        }
        text("round ");
        decimal(round);
        text(": checksum ");
        hexadecimal(sum);
        text(", from the break ");
        decimal(brk_used - brk_start);
        text(", mapped ");
        decimal(mapped);
        put('\n');
        for (u64 i = 0; i < PIECES; i++)
            release(kept[(i * 5) % PIECES]);
    }
    return 1;
}

/* A page that may only be read can be read, and given back its right to be written. */
static int change_rights(void)
{
    byte *page = (byte *)call(SYS_mmap, 0, STEP, PROT_READ | PROT_WRITE, MAP_PRIVATE | MAP_ANONYMOUS, -1, 0);
    if ((i64)page < 0)
        return 0;
    page[5] = 42;
    if (call(SYS_mprotect, (i64)page, STEP, PROT_READ, 0, 0, 0) || page[5] != 42)
        return 0;
    if (call(SYS_mprotect, (i64)page, STEP, PROT_READ | PROT_WRITE, 0, 0, 0))
        return 0;
    page[6] = (byte)(page[5] + 1);
    text("page ");
    hexadecimal((u64)page);
    text(" holds ");
    decimal(page[5]);
    text(" and ");
    decimal(page[6]);
    put('\n');
    return call(SYS_munmap, (i64)page, STEP, 0, 0, 0, 0) == 0;
}

int main(const u64 *sp)
{
    start_lines(sp);
    text("memory\n");
    u32 *table = table_of(0xedb88320U);
    if (!table || crc(table, (const byte *)"123456789", 9) != 0xcbf43926U)
        return 2;
    line("break", brk_start);
    int good = fill_and_free(table) && change_rights();
    release(table);
    call(SYS_brk, (i64)brk_start, 0, 0, 0, 0, 0);
    line("break", (u64)call(SYS_brk, 0, 0, 0, 0, 0, 0));
    flush();
    return good ? 0 : 3;
}
