/* What picolibc needs of a system, by Linux's system calls on RISC-V: the start of a program, its streams, files,
 * processes, signals, memory and time. It is a file to copy: link it with any program that is built as build.sh does.
 *
 * picolibc was made for machines without a system, and several of its numbers are not Linux's. So errnos, the flags of
 * open and fcntl, signals, clocks and struct stat are translated here, both ways: a program uses the names of
 * picolibc's headers. Below, the names of Linux's own numbers begin with LINUX_ or SYS_. */

#include <errno.h>
#include <fcntl.h>
#include <signal.h>
#include <stddef.h>
#include <stdint.h>
#include <stdio-bufio.h>
#include <stdio.h>
#include <stdlib.h>
#include <string.h>
#include <sys/stat.h>
#include <sys/time.h>
#include <sys/times.h>
#include <sys/wait.h>
#include <time.h>
#include <unistd.h>

enum {
    SYS_getcwd = 17, SYS_dup = 23, SYS_dup3 = 24, SYS_fcntl = 25, SYS_ioctl = 29, SYS_mkdirat = 34, SYS_unlinkat = 35,
    SYS_symlinkat = 36, SYS_linkat = 37, SYS_ftruncate = 46, SYS_faccessat = 48, SYS_chdir = 49, SYS_fchmodat = 53,
    SYS_openat = 56, SYS_close = 57, SYS_pipe2 = 59, SYS_lseek = 62, SYS_read = 63, SYS_write = 64, SYS_pread64 = 67,
    SYS_pwrite64 = 68, SYS_readlinkat = 78, SYS_newfstatat = 79, SYS_fstat = 80, SYS_exit_group = 94,
    SYS_nanosleep = 101, SYS_clock_gettime = 113, SYS_sched_yield = 124, SYS_kill = 129, SYS_rt_sigaction = 134,
    SYS_rt_sigprocmask = 135, SYS_umask = 166, SYS_getpid = 172, SYS_getppid = 173, SYS_brk = 214, SYS_clone = 220,
    SYS_execve = 221, SYS_wait4 = 260, SYS_renameat2 = 276, SYS_getrandom = 278
};

/* ---- system calls ---- */

/* A call as the kernel takes it; it answers minus Linux's errno where it is refused. A program that declares it may use
 * it for a call that has no function here. */
long linux_call(long number, long a, long b, long c, long d, long e, long f)
{
    register long a7 __asm__("a7") = number;
    register long a0 __asm__("a0") = a;
    register long a1 __asm__("a1") = b;
    register long a2 __asm__("a2") = c;
    register long a3 __asm__("a3") = d;
    register long a4 __asm__("a4") = e;
    register long a5 __asm__("a5") = f;
    __asm__ volatile("ecall" : "+r"(a0) : "r"(a1), "r"(a2), "r"(a3), "r"(a4), "r"(a5), "r"(a7) : "memory");
    return a0;
}

/* Up to 34 the errnos are Linux's. */
static int errno_of(int linux_errno)
{
    switch (linux_errno) {
    case 35: return EDEADLK;
    case 36: return ENAMETOOLONG;
    case 37: return ENOLCK;
    case 38: return ENOSYS;
    case 39: return ENOTEMPTY;
    case 40: return ELOOP;
    case 75: return EOVERFLOW;
    case 95: return EOPNOTSUPP;
    default: return linux_errno <= 34 ? linux_errno : EIO;
    }
}

static long answer(long result)
{
    if (result >= 0)
        return result;
    errno = errno_of((int)-result);
    return -1;
}

/* The same for functions of a C library, which answer -1 and set errno; arguments that are left out are 0. */
#define CALL6(number, a, b, c, d, e, f, ...) \
    answer(linux_call(number, (long)(a), (long)(b), (long)(c), (long)(d), (long)(e), (long)(f)))
#define CALL(...) CALL6(__VA_ARGS__, 0, 0, 0, 0, 0, 0, 0)

/* ---- the start and the end ---- */

int main(int argc, char **argv, char **environment);
void __libc_init_array(void);

/* The kernel puts argc, argv, the environment and the auxiliary vector on the stack. The global pointer comes first,
 * since the linker makes accesses to data go by it. */
__asm__(".section .text\n"
        ".globl _start\n"
        "_start:\n"
        "    .option push\n"
        "    .option norelax\n"
        "    la gp, __global_pointer$\n"
        "    .option pop\n"
        "    mv a0, sp\n"
        "    andi sp, sp, -16\n"
        "    call linux_start\n");

/* A header of the executable's table, and the two numbers that are wanted of the auxiliary vector and of that table. */
struct program_header {
    uint32_t type, flags;
    uint64_t offset, address, physical, size_in_file, size, alignment;
};

enum { AT_PHDR = 3, AT_PHNUM = 5, PT_TLS = 7 };

static void move_break(uintptr_t to);

static uintptr_t break_at;

static uintptr_t align_up(uintptr_t address, uintptr_t alignment)
{
    return (address + alignment - 1) & -alignment;
}

/* picolibc keeps errno and some more as variables of a thread, which are found from the register tp. They get their
 * place at the break, before anything can set errno. */
static void make_thread_variables(const struct program_header *header)
{
    uintptr_t alignment = header->alignment > 16 ? header->alignment : 16;
    uintptr_t place = align_up((uintptr_t)linux_call(SYS_brk, 0, 0, 0, 0, 0, 0), alignment);
    move_break(place + header->size);
    if (break_at != place + header->size)
        _exit(127);
    memcpy((void *)place, (const void *)header->address, header->size_in_file);
    __asm__ volatile("mv tp, %0" : : "r"(place) : "memory");
}

static void find_thread_variables(const long *auxiliary)
{
    const struct program_header *headers = NULL;
    long count = 0;
    for (; auxiliary[0] != 0; auxiliary += 2) {
        if (auxiliary[0] == AT_PHDR)
            headers = (const struct program_header *)auxiliary[1];
        if (auxiliary[0] == AT_PHNUM)
            count = auxiliary[1];
    }
    for (long i = 0; i < count; i++)
        if (headers[i].type == PT_TLS)
            make_thread_variables(&headers[i]);
}

__attribute__((noreturn, used)) void linux_start(long *stack)
{
    int argc = (int)stack[0];
    char **argv = (char **)(stack + 1);
    environ = argv + argc + 1;
    char **last = environ;
    while (*last)
        last++;
    find_thread_variables((const long *)(last + 1));
    __libc_init_array();
    exit(main(argc, argv, environ));
}

void _exit(int code)
{
    for (;;)
        linux_call(SYS_exit_group, code, 0, 0, 0, 0, 0);
}

/* ---- the three streams ---- */

/* No terminal is there, so the output is written when its buffer is full, at fflush and at exit; an error line at its
 * end. picolibc does not keep a list of what fopen opened: a program has to close its files, or flush them. */
static char in_buffer[4096], out_buffer[4096], error_buffer[1024];

static struct __file_bufio in_file =
    FDEV_SETUP_BUFIO(0, in_buffer, sizeof in_buffer, read, write, lseek, close, __SRD, 0);
static struct __file_bufio out_file =
    FDEV_SETUP_BUFIO(1, out_buffer, sizeof out_buffer, read, write, lseek, close, __SWR, 0);
static struct __file_bufio error_file =
    FDEV_SETUP_BUFIO(2, error_buffer, sizeof error_buffer, read, write, lseek, close, __SWR, __BLBF);

FILE *const stdin = &in_file.xfile.cfile.file;
FILE *const stdout = &out_file.xfile.cfile.file;
FILE *const stderr = &error_file.xfile.cfile.file;

__attribute__((destructor(101))) static void flush_streams(void)
{
    fflush(stdout);
    fflush(stderr);
}

/* ---- memory ---- */

static void move_break(uintptr_t to)
{
    break_at = (uintptr_t)linux_call(SYS_brk, (long)to, 0, 0, 0, 0, 0);
}

/* malloc gets its memory by this. */
void *sbrk(ptrdiff_t more)
{
    if (break_at == 0)
        move_break(0);
    uintptr_t old = break_at, wanted = old + (uintptr_t)more;
    if (more != 0)
        move_break(wanted);
    if (break_at != wanted) {
        errno = ENOMEM;
        return (void *)-1;
    }
    return (void *)old;
}

/* ---- open files ---- */

enum {
    LINUX_O_EXCL = 0x80, LINUX_O_NOCTTY = 0x100, LINUX_O_NONBLOCK = 0x800, LINUX_O_DIRECTORY = 0x10000,
    LINUX_O_NOFOLLOW = 0x20000, LINUX_O_CLOEXEC = 0x80000, LINUX_F_DUPFD_CLOEXEC = 1030, LINUX_TCGETS = 0x5401
};

static const struct {
    int here, linux_flag;
} open_flags[] = {
    { O_EXCL, LINUX_O_EXCL }, { O_NOCTTY, LINUX_O_NOCTTY }, { O_NONBLOCK, LINUX_O_NONBLOCK },
    { O_DIRECTORY, LINUX_O_DIRECTORY }, { O_NOFOLLOW, LINUX_O_NOFOLLOW }, { O_CLOEXEC, LINUX_O_CLOEXEC }
};

enum { SAME_FLAGS = O_ACCMODE | O_CREAT | O_TRUNC | O_APPEND, FLAG_COUNT = sizeof open_flags / sizeof open_flags[0] };

static int to_linux_flags(int flags)
{
    int result = flags & SAME_FLAGS;
    for (int i = 0; i < FLAG_COUNT; i++)
        if (flags & open_flags[i].here)
            result |= open_flags[i].linux_flag;
    return result;
}

static int from_linux_flags(int flags)
{
    int result = flags & SAME_FLAGS;
    for (int i = 0; i < FLAG_COUNT; i++)
        if (flags & open_flags[i].linux_flag)
            result |= open_flags[i].here;
    return result;
}

enum { LINUX_AT_FDCWD = -100, LINUX_AT_SYMLINK_NOFOLLOW = 0x100, LINUX_AT_REMOVEDIR = 0x200 };

int open(const char *path, int flags, ...)
{
    int mode = 0;
    if (flags & O_CREAT) {
        va_list arguments;
        va_start(arguments, flags);
        mode = va_arg(arguments, int);
        va_end(arguments);
    }
    return (int)CALL(SYS_openat, LINUX_AT_FDCWD, path, to_linux_flags(flags), mode);
}

int creat(const char *path, mode_t mode)
{
    return open(path, O_WRONLY | O_CREAT | O_TRUNC, mode);
}

int close(int descriptor)
{
    return (int)CALL(SYS_close, descriptor);
}

ssize_t read(int descriptor, void *bytes, size_t count)
{
    return CALL(SYS_read, descriptor, bytes, count);
}

ssize_t write(int descriptor, const void *bytes, size_t count)
{
    return CALL(SYS_write, descriptor, bytes, count);
}

ssize_t pread(int descriptor, void *bytes, size_t count, off_t offset)
{
    return CALL(SYS_pread64, descriptor, bytes, count, offset);
}

ssize_t pwrite(int descriptor, const void *bytes, size_t count, off_t offset)
{
    return CALL(SYS_pwrite64, descriptor, bytes, count, offset);
}

off_t lseek(int descriptor, off_t offset, int whence)
{
    return CALL(SYS_lseek, descriptor, offset, whence);
}

int ftruncate(int descriptor, off_t length)
{
    return (int)CALL(SYS_ftruncate, descriptor, length);
}

int truncate(const char *path, off_t length)
{
    int descriptor = open(path, O_WRONLY);
    if (descriptor < 0)
        return -1;
    int result = ftruncate(descriptor, length);
    int kept = errno;
    close(descriptor);
    errno = kept;
    return result;
}

int isatty(int descriptor)
{
    char settings[64];
    return CALL(SYS_ioctl, descriptor, LINUX_TCGETS, settings) == 0;
}

int fcntl(int descriptor, int command, ...)
{
    va_list arguments;
    va_start(arguments, command);
    long argument = va_arg(arguments, long);
    va_end(arguments);
    switch (command) {
    case F_DUPFD:
    case F_SETFD: return (int)CALL(SYS_fcntl, descriptor, command, (int)argument);
    case F_GETFD: return (int)CALL(SYS_fcntl, descriptor, F_GETFD);
    case F_DUPFD_CLOEXEC: return (int)CALL(SYS_fcntl, descriptor, LINUX_F_DUPFD_CLOEXEC, (int)argument);
    case F_SETFL: return (int)CALL(SYS_fcntl, descriptor, F_SETFL, to_linux_flags((int)argument));
    case F_GETFL: {
        long flags = CALL(SYS_fcntl, descriptor, F_GETFL);
        return flags < 0 ? -1 : from_linux_flags((int)flags);
    }
    default: errno = EINVAL; return -1;
    }
}

int dup(int descriptor)
{
    return (int)CALL(SYS_dup, descriptor);
}

int dup2(int descriptor, int wanted)
{
    if (descriptor == wanted)
        return fcntl(descriptor, F_GETFD) < 0 ? -1 : wanted;
    return (int)CALL(SYS_dup3, descriptor, wanted);
}

int pipe(int ends[2])
{
    return (int)CALL(SYS_pipe2, ends);
}

/* ---- names ---- */

int unlink(const char *path)
{
    return (int)CALL(SYS_unlinkat, LINUX_AT_FDCWD, path);
}

int rmdir(const char *path)
{
    return (int)CALL(SYS_unlinkat, LINUX_AT_FDCWD, path, LINUX_AT_REMOVEDIR);
}

int mkdir(const char *path, mode_t mode)
{
    return (int)CALL(SYS_mkdirat, LINUX_AT_FDCWD, path, mode);
}

int rename(const char *old_path, const char *new_path)
{
    return (int)CALL(SYS_renameat2, LINUX_AT_FDCWD, old_path, LINUX_AT_FDCWD, new_path);
}

int link(const char *old_path, const char *new_path)
{
    return (int)CALL(SYS_linkat, LINUX_AT_FDCWD, old_path, LINUX_AT_FDCWD, new_path);
}

int symlink(const char *target, const char *path)
{
    return (int)CALL(SYS_symlinkat, target, LINUX_AT_FDCWD, path);
}

ssize_t readlink(const char *restrict path, char *restrict bytes, size_t size)
{
    return CALL(SYS_readlinkat, LINUX_AT_FDCWD, path, bytes, size);
}

int access(const char *path, int rights)
{
    return (int)CALL(SYS_faccessat, LINUX_AT_FDCWD, path, rights);
}

int chmod(const char *path, mode_t mode)
{
    return (int)CALL(SYS_fchmodat, LINUX_AT_FDCWD, path, mode);
}

mode_t umask(mode_t mask)
{
    return (mode_t)CALL(SYS_umask, mask);
}

int chdir(const char *path)
{
    return (int)CALL(SYS_chdir, path);
}

char *getcwd(char *path, size_t size)
{
    return CALL(SYS_getcwd, path, size) < 0 ? NULL : path;
}

/* ---- status ---- */

/* Linux's struct stat on RISC-V. In picolibc's, inode and device have 16 bits. */
struct linux_stat {
    uint64_t device, inode;
    uint32_t mode, links, user, group;
    uint64_t device_of_node, padding;
    int64_t size;
    int32_t block_size, more_padding;
    int64_t blocks;
    struct {
        int64_t seconds;
        uint64_t nanoseconds;
    } accessed, modified, changed;
    uint32_t unused[2];
};

static int tell_status(long result, const struct linux_stat *from, struct stat *status)
{
    if (result < 0)
        return -1;
    memset(status, 0, sizeof *status);
    status->st_dev = (dev_t)from->device;
    status->st_ino = (ino_t)from->inode;
    status->st_mode = from->mode;
    status->st_nlink = (nlink_t)from->links;
    status->st_uid = (uid_t)from->user;
    status->st_gid = (gid_t)from->group;
    status->st_rdev = (dev_t)from->device_of_node;
    status->st_size = from->size;
    status->st_blksize = from->block_size;
    status->st_blocks = from->blocks;
    status->st_atim = (struct timespec){ from->accessed.seconds, (long)from->accessed.nanoseconds };
    status->st_mtim = (struct timespec){ from->modified.seconds, (long)from->modified.nanoseconds };
    status->st_ctim = (struct timespec){ from->changed.seconds, (long)from->changed.nanoseconds };
    return 0;
}

int stat(const char *restrict path, struct stat *restrict status)
{
    struct linux_stat from;
    return tell_status(CALL(SYS_newfstatat, LINUX_AT_FDCWD, path, &from), &from, status);
}

/* picolibc's headers don't declare it. */
int lstat(const char *restrict path, struct stat *restrict status)
{
    struct linux_stat from;
    long result = CALL(SYS_newfstatat, LINUX_AT_FDCWD, path, &from, LINUX_AT_SYMLINK_NOFOLLOW);
    return tell_status(result, &from, status);
}

int fstat(int descriptor, struct stat *status)
{
    struct linux_stat from;
    return tell_status(CALL(SYS_fstat, descriptor, &from), &from, status);
}

/* ---- signals ---- */

/* Linux's number of each signal; 0 for one that it doesn't have. */
static const signed char linux_signals[NSIG] = {
    [SIGHUP] = 1, [SIGINT] = 2, [SIGQUIT] = 3, [SIGILL] = 4, [SIGTRAP] = 5, [SIGABRT] = 6, [SIGBUS] = 7, [SIGFPE] = 8,
    [SIGKILL] = 9, [SIGUSR1] = 10, [SIGSEGV] = 11, [SIGUSR2] = 12, [SIGPIPE] = 13, [SIGALRM] = 14, [SIGTERM] = 15,
    [SIGCHLD] = 17, [SIGCONT] = 18, [SIGSTOP] = 19, [SIGTSTP] = 20, [SIGTTIN] = 21, [SIGTTOU] = 22, [SIGURG] = 23,
    [SIGXCPU] = 24, [SIGXFSZ] = 25, [SIGVTALRM] = 26, [SIGPROF] = 27, [SIGWINCH] = 28, [SIGIO] = 29, [SIGSYS] = 31
};

enum { LINUX_SIGCHLD = 17, LINUX_SA_RESTART = 0x10000000 };

/* Linux's number, or one that it refuses. */
static int to_linux_signal(int number)
{
    if (number == 0)
        return 0;
    return number > 0 && number < NSIG && linux_signals[number] ? linux_signals[number] : -1;
}

static int from_linux_signal(int linux_signal)
{
    for (int number = 1; number < NSIG; number++)
        if (linux_signals[number] == linux_signal)
            return number;
    return 0;
}

/* A set has bit N for signal N here, and bit N - 1 in Linux. */
static uint64_t to_linux_set(sigset_t set)
{
    uint64_t result = 0;
    for (int number = 1; number < NSIG; number++)
        if (set >> number & 1 && linux_signals[number])
            result |= UINT64_C(1) << (linux_signals[number] - 1);
    return result;
}

static sigset_t from_linux_set(uint64_t set)
{
    sigset_t result = 0;
    for (int number = 1; number < NSIG; number++)
        if (linux_signals[number] && set >> (linux_signals[number] - 1) & 1)
            result |= (sigset_t)1 << number;
    return result;
}

/* The action of a signal, as the kernel has it on RISC-V. qemu-riscv64 of Debian 12 has the mask a word further on, so
 * it stands there too. */
struct linux_action {
    void (*handler)(int);
    uint64_t flags, mask, mask_for_qemu;
};

static void (*volatile handlers[NSIG])(int);

/* What the kernel calls. A handler may change errno, which the program that it interrupts must not see. */
static void deliver(int linux_signal)
{
    int number = from_linux_signal(linux_signal), kept = errno;
    handlers[number](number);
    errno = kept;
}

static int is_function(void (*handler)(int))
{
    return handler != SIG_DFL && handler != SIG_IGN;
}

/* The flags are Linux's, of which picolibc names one; 0x10000000 is SA_RESTART. */
int sigaction(int number, const struct sigaction *restrict action, struct sigaction *restrict old)
{
    struct linux_action new_action = { 0 }, old_action;
    int linux_signal = to_linux_signal(number);
    void (*old_handler)(int) = linux_signal > 0 ? handlers[number] : SIG_DFL;
    if (action) {
        new_action.handler = is_function(action->sa_handler) ? deliver : action->sa_handler;
        new_action.flags = (uint64_t)(unsigned)action->sa_flags;
        new_action.mask = new_action.mask_for_qemu = to_linux_set(action->sa_mask);
        if (linux_signal > 0 && is_function(action->sa_handler))
            handlers[number] = action->sa_handler;
    }
    if (CALL(SYS_rt_sigaction, linux_signal, action ? &new_action : NULL, &old_action, sizeof new_action.mask) < 0)
        return -1;
    if (old) {
        old->sa_handler = old_action.handler == deliver ? old_handler : old_action.handler;
        old->sa_flags = (int)old_action.flags;
        old->sa_mask = from_linux_set(old_action.mask);
    }
    return 0;
}

/* As glibc has it: the handler stays, and a call that waits is made again after it. */
void (*signal(int number, void (*handler)(int)))(int)
{
    struct sigaction action = { .sa_handler = handler, .sa_flags = LINUX_SA_RESTART }, old;
    return sigaction(number, &action, &old) < 0 ? SIG_ERR : old.sa_handler;
}

int sigprocmask(int how, const sigset_t *set, sigset_t *old)
{
    int linux_how = how == SIG_BLOCK ? 0 : how == SIG_UNBLOCK ? 1 : how == SIG_SETMASK ? 2 : -1;
    uint64_t new_mask = set ? to_linux_set(*set) : 0, old_mask;
    if (CALL(SYS_rt_sigprocmask, linux_how, set ? &new_mask : NULL, &old_mask, sizeof new_mask) < 0)
        return -1;
    if (old)
        *old = from_linux_set(old_mask);
    return 0;
}

int kill(pid_t process, int number)
{
    int linux_signal = to_linux_signal(number);
    if (linux_signal < 0) {
        errno = EINVAL;
        return -1;
    }
    return (int)CALL(SYS_kill, process, linux_signal);
}

int raise(int number)
{
    return kill(getpid(), number);
}

/* ---- processes ---- */

pid_t getpid(void)
{
    return (pid_t)CALL(SYS_getpid);
}

pid_t getppid(void)
{
    return (pid_t)CALL(SYS_getppid);
}

/* What the streams hold then is written twice, by parent and child: flush them before. */
pid_t fork(void)
{
    return (pid_t)CALL(SYS_clone, LINUX_SIGCHLD);
}

pid_t vfork(void)
{
    return fork();
}

int execve(const char *path, char *const arguments[], char *const environment[])
{
    return (int)CALL(SYS_execve, path, arguments, environment);
}

int execv(const char *path, char *const arguments[])
{
    return execve(path, arguments, environ);
}

/* The low seven bits of a status are a signal's number, so they are translated too. */
pid_t waitpid(pid_t process, int *status, int options)
{
    int told = 0;
    pid_t child = (pid_t)CALL(SYS_wait4, process, &told, options);
    if (child > 0 && status)
        *status = (told & ~127) | (told & 127 ? from_linux_signal(told & 127) : 0);
    return child;
}

pid_t wait(int *status)
{
    return waitpid(-1, status, 0);
}

int sched_yield(void)
{
    return (int)CALL(SYS_sched_yield);
}

/* ---- time and random bytes ---- */

enum { LINUX_CLOCK_REALTIME = 0, LINUX_CLOCK_MONOTONIC = 1, LINUX_CLOCK_PROCESS_CPUTIME_ID = 2 };

int clock_gettime(clockid_t clock, struct timespec *time)
{
    switch (clock) {
    case CLOCK_REALTIME: return (int)CALL(SYS_clock_gettime, LINUX_CLOCK_REALTIME, time);
    case CLOCK_MONOTONIC: return (int)CALL(SYS_clock_gettime, LINUX_CLOCK_MONOTONIC, time);
    case CLOCK_PROCESS_CPUTIME_ID: return (int)CALL(SYS_clock_gettime, LINUX_CLOCK_PROCESS_CPUTIME_ID, time);
    default: errno = EINVAL; return -1;
    }
}

/* picolibc's time() stands on it. */
int gettimeofday(struct timeval *restrict time, void *restrict zone)
{
    struct timespec now;
    (void)zone;
    if (clock_gettime(CLOCK_REALTIME, &now) < 0)
        return -1;
    time->tv_sec = now.tv_sec;
    time->tv_usec = now.tv_nsec / 1000;
    return 0;
}

/* picolibc's clock() stands on it. */
clock_t times(struct tms *used)
{
    struct timespec now;
    if (clock_gettime(CLOCK_PROCESS_CPUTIME_ID, &now) < 0)
        return (clock_t)-1;
    clock_t ticks = (clock_t)(now.tv_sec * CLOCKS_PER_SEC + now.tv_nsec / (1000000000 / CLOCKS_PER_SEC));
    *used = (struct tms){ .tms_utime = ticks };
    return ticks;
}

int nanosleep(const struct timespec *time, struct timespec *left)
{
    return (int)CALL(SYS_nanosleep, time, left);
}

unsigned sleep(unsigned seconds)
{
    struct timespec time = { seconds, 0 }, left = { 0, 0 };
    return nanosleep(&time, &left) < 0 ? (unsigned)left.tv_sec : 0;
}

int usleep(useconds_t microseconds)
{
    struct timespec time = { microseconds / 1000000, (long)(microseconds % 1000000) * 1000 };
    return nanosleep(&time, NULL);
}

/* picolibc's arc4random() stands on it. */
int getentropy(void *bytes, size_t count)
{
    return CALL(SYS_getrandom, bytes, count) < 0 ? -1 : 0;
}
