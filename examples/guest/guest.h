/* What programs of several examples share: system calls, lines of output, reading, children, and signals. They need no
 * C library. */

typedef int i32;
typedef long i64;
typedef unsigned long u64;

enum {
    SYS_dup3 = 24, SYS_mkdirat = 34, SYS_chdir = 49, SYS_openat = 56, SYS_close = 57, SYS_pipe2 = 59, SYS_read = 63,
    SYS_write = 64, SYS_exit = 93, SYS_sched_yield = 124, SYS_kill = 129, SYS_rt_sigaction = 134, SYS_getpid = 172,
    SYS_getppid = 173, SYS_clone = 220, SYS_execve = 221, SYS_wait4 = 260
};

enum {
    AT_FDCWD = -100, O_RDONLY = 0, O_WRONLY = 1, O_CREAT = 0100, O_TRUNC = 01000, O_APPEND = 02000, O_CLOEXEC = 02000000
};

enum { SIGTERM = 15, SIGCHLD = 17, SA_RESTART = 0x10000000, WNOHANG = 1, ANY_CHILD = -1 };

/* The standard descriptors. */
enum { IN = 0, OUT = 1, ERR = 2 };

/* A system call; it answers minus the errno where it is refused. */
i64 call(i64 number, i64 a, i64 b, i64 c, i64 d);

/* Whether two texts are equal. */
i32 is_same(const char *a, const char *b);

/* The number that a text says. */
u64 read_number(const char *s);

/* Opens a file for reading, and makes one or empties it for writing. A program for which that cannot be done says so
 * and ends with code 1. */
i64 open_source(const char *path);
i64 open_target(const char *path);

/* Reads from a descriptor until nothing comes or the room is full, and answers how many bytes came. A program that
 * cannot read says so and ends with code 1. */
u64 read_all(i64 from, char *room, u64 size);

/* Adds to what is to be written next. */
void put(char c);
void text(const char *s);
void number(u64 n);

/* Writes what was added, by one call. */
void flush(i64 to);

/* Ends the line, writes it to the standard error output, and ends the program with code 1. */
void give_up(void);

/* Begins a line with a program's name and its process id. */
void begin_line(const char *program);

/* Adds a line's end and writes what was added to the standard output. */
void end_line(void);

/* Starts the program of the path words[0] in a child, with these words, the last of them followed by a null pointer,
 * and with the descriptors `in` and `out` as its standard input and output. Answers the child's process id. A child
 * that cannot start it ends with code 127. */
i64 start_between(const char *const words[], i64 in, i64 out);

/* The same, with the standard input and output that this program has. */
i64 start(const char *const words[]);

/* Waits for the end of a child, and answers its status. */
i32 wait_for(i64 child);

/* The code that a status tells, and the signal that ended the process, or 0. */
i32 code_of(i32 status);
i32 signal_of(i32 status);

/* Adds how a child of this status ended. */
void ending(i32 status);

/* Has a function called when a signal comes; calls that wait go on behind it. A program for which that cannot be done
 * says so and ends with code 1. */
void handle(i32 signal, void (*handler)(i32));
