/* A guest that calls each function of the library compat and prints what it answers. As /bin/sh it is the shell of its
 * own image, which knows three commands. */
#define _GNU_SOURCE
#include <errno.h>
#include <fcntl.h>
#include <sched.h>
#include <signal.h>
#include <spawn.h>
#include <stdio.h>
#include <stdlib.h>
#include <string.h>
#include <sys/resource.h>
#include <sys/select.h>
#include <sys/stat.h>
#include <sys/time.h>
#include <sys/times.h>
#include <sys/wait.h>
#include <time.h>
#include <unistd.h>

#include <compat.h>

extern char **environ;

#ifdef __PICOLIBC__
int lstat(const char *restrict path, struct stat *restrict status);
int sched_yield(void);
enum { RESTART = 0x10000000 };
#else
#include <sys/socket.h>
enum { RESTART = SA_RESTART };
#endif

/* A descriptor that is not open. */
enum { NONE = 50 };

/* ---- lines ---- */

static const char *name_of(int number)
{
    static char other[16];
    switch (number) {
    case EPERM: return "EPERM";
    case ENOENT: return "ENOENT";
    case ESRCH: return "ESRCH";
    case EINTR: return "EINTR";
    case EBADF: return "EBADF";
    case ECHILD: return "ECHILD";
    case EINVAL: return "EINVAL";
    case ENOTDIR: return "ENOTDIR";
    case ENOSYS: return "ENOSYS";
    case EOPNOTSUPP: return "EOPNOTSUPP";
    case EAFNOSUPPORT: return "EAFNOSUPPORT";
    default: sprintf(other, "errno %d", number); return other;
    }
}

/* Prints what a call has answered: a number, or why it was refused. */
static void tell(const char *call, long answer)
{
    if (answer == -1)
        printf("  %s: %s\n", call, name_of(errno));
    else
        printf("  %s: %ld\n", call, answer);
}

static void part(const char *name)
{
    printf("%s\n", name);
    fflush(stdout);
}

static void must(int is_so, const char *what)
{
    if (is_so)
        return;
    printf("%s: %s\n", what, name_of(errno));
    exit(1);
}

static int make(const char *path, const char *text)
{
    int file = open(path, O_RDWR | O_CREAT | O_TRUNC, 0644);
    must(file >= 0 && write(file, text, strlen(text)) == (ssize_t)strlen(text), path);
    return file;
}

/* Whether a node changed later than an earlier look has told. */
static long has_changed(const char *path, struct timespec *last)
{
    struct stat status;
    must(lstat(path, &status) == 0, path);
    int is_later = status.st_mtim.tv_sec > last->tv_sec ||
                   (status.st_mtim.tv_sec == last->tv_sec && status.st_mtim.tv_nsec > last->tv_nsec);
    *last = status.st_mtim;
    return is_later;
}

static unsigned mode_of(const char *path)
{
    struct stat status;
    must(stat(path, &status) == 0, path);
    return status.st_mode & 07777;
}

/* ---- nodes ---- */

static void check_times(void)
{
    struct timespec last = { 0, 0 }, named[2] = { { 1, 2 }, { 3, 4 } };
    struct timespec current[2] = { { 0, UTIME_OMIT }, { 0, UTIME_NOW } }, wrong[2] = { { 0, 1000000000 }, { 0, 0 } };
    struct timeval coarse[2] = { { 1, 2 }, { 3, 4 } };
    struct utimbuf old = { 1, 2 };
    int file = make("/f", "abc");
    part("times");
    has_changed("/f", &last);
    tell("utimensat, a named time", utimensat(AT_FDCWD, "/f", named, 0));
    tell("futimens, a named time", futimens(file, named));
    tell("utimes, a named time", utimes("/f", coarse));
    tell("utime, a named time", utime("/f", &old));
    tell("it has changed", has_changed("/f", &last));
    tell("utimensat, now", utimensat(AT_FDCWD, "/f", current, 0));
    tell("it has changed", has_changed("/f", &last));
    tell("futimens, now", futimens(file, NULL));
    tell("it has changed", has_changed("/f", &last));
    tell("utimes, now", utimes("/f", NULL));
    tell("it has changed", has_changed("/f", &last));
    tell("utime, now", utime("/f", NULL));
    tell("it has changed", has_changed("/f", &last));
    tell("lutimes, now", lutimes("/f", NULL));
    tell("it has changed", has_changed("/f", &last));
    tell("futimes, now", futimes(file, NULL));
    tell("it has changed", has_changed("/f", &last));
    tell("futimesat, now", futimesat(AT_FDCWD, "/f", NULL));
    tell("it has changed", has_changed("/f", &last));
    tell("utimensat of nothing", utimensat(AT_FDCWD, "/none", NULL, 0));
    tell("utimensat, no time", utimensat(AT_FDCWD, "/f", wrong, 0));
    tell("futimens of no descriptor", futimens(NONE, NULL));
    close(file);
}

static void check_modes(void)
{
    int ends[2], file = make("/f", "abc");
    part("modes");
    tell("fchmod", fchmod(file, 0600));
    printf("  the mode: %04o\n", mode_of("/f"));
    must(mkdir("/d", 0755) == 0 && mkdir("/d/deep", 0755) == 0 && rename("/f", "/d/deep/moved") == 0, "rename");
    tell("fchmod of a file that was moved", fchmod(file, 04755));
    printf("  the mode: %04o\n", mode_of("/d/deep/moved"));
    must(unlink("/d/deep/moved") == 0 && pipe(ends) == 0, "unlink");
    tell("fchmod of a file without a name", fchmod(file, 0600));
    tell("fchmod of a pipe", fchmod(ends[0], 0600));
    tell("fchmod of no descriptor", fchmod(NONE, 0600));
    must(symlink("/d", "/link") == 0, "symlink");
    tell("fchmodat of a link", fchmodat(AT_FDCWD, "/link", 0600, AT_SYMLINK_NOFOLLOW));
    tell("fchmodat, not of a link", fchmodat(AT_FDCWD, "/d", 0700, AT_SYMLINK_NOFOLLOW));
    tell("faccessat of a link", faccessat(AT_FDCWD, "/link", X_OK, AT_SYMLINK_NOFOLLOW));
    tell("faccessat of nothing", faccessat(AT_FDCWD, "/none", F_OK, AT_EACCESS));
    tell("eaccess", eaccess("/d", R_OK | W_OK));
    tell("euidaccess of nothing", euidaccess("/none", R_OK));
    tell("mkfifo", mkfifo("/fifo", 0600));
    tell("lchmod of a link", lchmod("/link", 0600));
    tell("mknod", mknod("/device", S_IFCHR | 0600, 0));
    close(file), close(ends[0]), close(ends[1]);
}

static void check_owners(void)
{
    int file = make("/f", "abc");
    part("owners");
    tell("chown to 0", chown("/f", 0, 0));
    tell("chown to 1", chown("/f", 1, 0));
    tell("chown of nothing", chown("/none", 0, 0));
    tell("lchown to what it is", lchown("/link", (uid_t)-1, (gid_t)-1));
    tell("fchown", fchown(file, 0, 0));
    tell("fchown of no descriptor", fchown(NONE, 0, 0));
    tell("fchownat", fchownat(AT_FDCWD, "/link", 0, 0, AT_SYMLINK_NOFOLLOW));
    close(file);
}

static void check_directories(void)
{
    char where[100];
    int file = make("/f", "abc"), directory = open("/d/deep", O_RDONLY | O_DIRECTORY);
    must(directory >= 0, "/d/deep");
    part("directories");
    tell("fchdir", fchdir(directory));
    printf("  the directory: %s\n", getcwd(where, sizeof where));
    must(rename("/d/deep", "/other") == 0, "rename");
    tell("fchdir to one that was moved", fchdir(directory));
    printf("  the directory: %s\n", getcwd(where, sizeof where));
    tell("fchdir to a file", fchdir(file));
    tell("fchdir to no descriptor", fchdir(NONE));
    must(chdir("/") == 0 && rmdir("/other") == 0, "rmdir");
    tell("fchdir to one that was removed", fchdir(directory));
    close(directory), close(file);
}

static void check_file_system(void)
{
    struct statfs status;
    struct statvfs other;
    part("the file system");
    tell("statfs", statfs("/", &status));
    printf("  files %lu, blocks %lu of %lu bytes\n", (unsigned long)status.f_files, (unsigned long)status.f_blocks,
           (unsigned long)status.f_bsize);
    tell("statfs of nothing", statfs("/none", &status));
    tell("fstatfs", fstatfs(1, &status));
    tell("statvfs", statvfs("/", &other));
    tell("fstatvfs of no descriptor", fstatvfs(NONE, &other));
    tell("files", (long)other.f_files);
}

/* ---- bytes ---- */

static void check_disks(void)
{
    int file = make("/f", "abc");
    part("disks");
    tell("fsync", fsync(file));
    tell("fdatasync", fdatasync(file));
    tell("fsync of no descriptor", fsync(NONE));
    tell("syncfs", syncfs(file));
    sync();
    tell("truncate", truncate("/f", 2));
    tell("truncate of nothing", truncate("/none", 2));
    tell("posix_fadvise", posix_fadvise(file, 0, 0, POSIX_FADV_SEQUENTIAL));
    tell("posix_fallocate", posix_fallocate(file, 1000, 24));
    tell("the size", lseek(file, 0, SEEK_END));
    close(file);
}

static void check_copies(void)
{
    char text[20] = "";
    off_t from = 1, to = 2;
    int one = make("/f", "abcdefgh"), two = make("/g", "123");
    part("copies");
    tell("copy_file_range at offsets", copy_file_range(one, &from, two, &to, 3, 0));
    printf("  offsets %ld and %ld\n", (long)from, (long)to);
    tell("copy_file_range past the end", copy_file_range(one, &from, two, &to, 100, 0));
    tell("copy_file_range with a flag", copy_file_range(one, NULL, two, NULL, 1, 1));
    from = 6;
    tell("sendfile", sendfile(two, one, &from, 100));
    tell("sendfile from no descriptor", sendfile(two, NONE, NULL, 1));
    must(pread(two, text, sizeof text - 1, 0) > 0, "pread");
    printf("  the file: %s\n", text);
    close(one), close(two);
}

/* ---- processes ---- */

static void check_groups(void)
{
    part("groups");
    tell("getpgrp", getpgrp());
    tell("getpgid of process 1", getpgid(1));
    tell("getpgid of no process", getpgid(60));
    fflush(stdout);
    pid_t child = fork();
    if (child == 0) {
        tell("setpgid in a child", setpgid(0, 0));
        tell("getpgrp there", getpgrp());
        tell("setsid of a group's leader", setsid());
        tell("getsid there", getsid(0));
        exit(0);
    }
    tell("setpgid of a child", setpgid(child, child));
    waitpid(child, NULL, 0);
    fflush(stdout);
    child = fork();
    if (child == 0) {
        tell("setsid in a child", setsid());
        exit(0);
    }
    waitpid(child, NULL, 0);
    tell("setpgrp", setpgrp());
    tell("getgroups", getgroups(0, NULL));
}

/* picolibc's users have 16 bits, and nothing changes them. */
static void check_users(void)
{
#ifndef __PICOLIBC__
    uid_t real = 1, effective = 1, saved = 1;
    gid_t group = 0;
    part("users");
    tell("setuid to 0", setuid(0));
    tell("setuid to 1", setuid(1));
    tell("setgid to 0", setgid(0));
    tell("seteuid to 1", seteuid(1));
    tell("setegid to 0", setegid(0));
    tell("setreuid to what they are", setreuid((uid_t)-1, (uid_t)-1));
    tell("setregid to 1", setregid(0, 1));
    tell("setresuid to 0", setresuid(0, 0, 0));
    tell("setresgid to 1", setresgid(0, 0, 1));
    tell("setgroups", setgroups(1, &group));
    tell("getresuid", getresuid(&real, &effective, &saved));
    tell("getresgid", getresgid(&real, &effective, &saved));
    tell("the sum of what is told", (long)real + effective + saved);
#endif
}

static void check_machine(void)
{
    struct rusage used;
    struct tms ticks;
    struct sysinfo info;
    struct timespec time;
    cpu_set_t processors;
    part("the machine");
    tell("getrusage", getrusage(RUSAGE_SELF, &used));
    printf("  some time has passed: %d\n", used.ru_utime.tv_sec > 0 || used.ru_utime.tv_usec > 0);
    tell("getrusage of children", getrusage(RUSAGE_CHILDREN, &used));
    sleep(2);
    tell("times", times(&ticks));
    tell("sysinfo", sysinfo(&info));
    printf("  %ld seconds, %lu bytes, %u process\n", info.uptime, info.totalram, info.procs);
    tell("sched_getaffinity", sched_getaffinity(0, sizeof processors, &processors));
    printf("  processors: %lx\n", *(unsigned long *)&processors);
    tell("sched_setaffinity", sched_setaffinity(0, sizeof processors, &processors));
    tell("sysconf of processors", sysconf(_SC_NPROCESSORS_ONLN));
    tell("sysconf of open files", sysconf(_SC_OPEN_MAX));
    tell("sysconf of nothing", sysconf(9999));
    tell("getdtablesize", getdtablesize());
    tell("prctl", prctl(15, "name"));
    tell("nice", nice(5));
    tell("getpriority", getpriority(PRIO_PROCESS, 0));
    tell("setpriority", setpriority(PRIO_PROCESS, 0, 5));
    tell("socket", socket(AF_INET, SOCK_STREAM, 0));
    tell("socketpair", socketpair(AF_UNIX, SOCK_STREAM, 0, NULL));
    tell("clock_getres", clock_getres(CLOCK_MONOTONIC, &time));
    printf("  %ld nanoseconds\n", time.tv_nsec);
#ifndef __PICOLIBC__
    struct rlimit limit;
    tell("getrlimit", getrlimit(RLIMIT_NOFILE, &limit));
    printf("  descriptors: %lu\n", (unsigned long)limit.rlim_cur);
    tell("setrlimit to what it is", setrlimit(RLIMIT_NOFILE, &limit));
    limit.rlim_cur = 10;
    tell("setrlimit", setrlimit(RLIMIT_NOFILE, &limit));
    tell("prlimit", prlimit(0, RLIMIT_STACK, NULL, &limit));
    printf("  the stack: %lu\n", (unsigned long)limit.rlim_max);
    tell("sigaltstack", sigaltstack(NULL, NULL));
#endif
}

static void check_shells(void)
{
    char line[100];
    part("commands of a shell");
    tell("system without a command", system(NULL));
    fflush(stdout);
    tell("system", system("say from system"));
    tell("system, code 3", WEXITSTATUS(system("exit 3")));
    FILE *from = popen("say from popen", "r");
    must(from && fgets(line, sizeof line, from), "popen");
    printf("  read: %s", line);
    tell("pclose", pclose(from));
    fflush(stdout);
    FILE *to = popen("show", "w");
    must(to != NULL, "popen");
    fputs("to popen\n", to);
    tell("pclose", pclose(to));
    tell("pclose of another stream", pclose(stdout));
}

static void tell_end(pid_t child)
{
    int status;
    must(waitpid(child, &status, 0) == child, "waitpid");
    tell("its code", WEXITSTATUS(status));
}

/* A child that reads a file, in another directory, with attributes of its own. */
static void check_spawn(void)
{
    char *words[] = { "sh", "-c", "show", NULL };
    int directory = open("/", O_RDONLY | O_DIRECTORY);
    posix_spawn_file_actions_t actions;
    posix_spawnattr_t attributes;
    sigset_t none, told;
    short flags;
    pid_t child, group = 1;
    close(make("/g", "read by a child\n"));
    sigemptyset(&none);
    posix_spawn_file_actions_init(&actions);
    posix_spawn_file_actions_addchdir_np(&actions, "/d");
    posix_spawn_file_actions_addfchdir_np(&actions, directory);
    posix_spawn_file_actions_addopen(&actions, 0, "g", O_RDONLY, 0);
    posix_spawn_file_actions_adddup2(&actions, 1, 7);
    posix_spawn_file_actions_addclose(&actions, 7);
    posix_spawnattr_init(&attributes);
    posix_spawnattr_setflags(&attributes, POSIX_SPAWN_SETSIGMASK | POSIX_SPAWN_SETSIGDEF | POSIX_SPAWN_SETPGROUP);
    posix_spawnattr_setsigmask(&attributes, &none);
    posix_spawnattr_setsigdefault(&attributes, &none);
    posix_spawnattr_setpgroup(&attributes, 0);
    posix_spawnattr_getflags(&attributes, &flags);
    posix_spawnattr_getpgroup(&attributes, &group);
    posix_spawnattr_getsigmask(&attributes, &told);
    posix_spawnattr_getsigdefault(&attributes, &told);
    tell("the attributes are told", flags != 0 && group == 0 && !sigismember(&told, SIGTERM));
    fflush(stdout);
    tell("posix_spawn", posix_spawn(&child, "/bin/sh", &actions, &attributes, words, environ));
    tell_end(child);
    posix_spawn_file_actions_destroy(&actions);
    posix_spawnattr_destroy(&attributes);
    close(directory);
}

static void check_children(void)
{
    char *words[] = { "sh", "-c", "exit 4", NULL };
    pid_t child;
    part("children");
    pid_t forked = vfork();
    if (forked == 0)
        _exit(5);
    tell("vfork", forked > 0);
    tell_end(forked);
    check_spawn();
    tell("posix_spawnp", posix_spawnp(&child, "sh", NULL, NULL, words, environ));
    tell_end(child);
    printf("  posix_spawn of nothing: %s\n", name_of(posix_spawn(&child, "/none", NULL, NULL, words, environ)));
    tell("a child that is left", waitpid(-1, NULL, 0));
    fflush(stdout);
    child = fork();
    if (child == 0) {
        int program = open("/bin/sh", O_RDONLY);
        fexecve(program, words, environ);
        _exit(1);
    }
    tell("fexecve", child > 0);
    tell_end(child);
}

/* ---- waiting ---- */

enum { SIGNALS = 65, TURNS = 20 };

/* How often each signal was handled. */
static volatile int handled[SIGNALS];

static void note(int number)
{
    handled[number]++;
}

/* A child that sends a signal to its parent after some turns, or none. */
static void start_child(int number)
{
    fflush(stdout);
    if (fork() == 0) {
        for (int i = 0; i < TURNS; i++)
            sched_yield();
        if (number)
            kill(getppid(), number);
        _exit(0);
    }
}

static void check_signals(void)
{
    struct sigaction action = { .sa_handler = note }, old;
    sigset_t masked, before;
    part("signals");
    tell("sigaction", sigaction(SIGUSR1, &action, NULL));
    tell("sigaction tells the handler", sigaction(SIGUSR1, NULL, &old));
    tell("it is the same", old.sa_handler == note);
    sigemptyset(&masked);
    sigaddset(&masked, SIGUSR1);
    sigprocmask(SIG_BLOCK, &masked, &before);
    kill(getpid(), SIGUSR1);
    tell("handled while it is masked", handled[SIGUSR1]);
    tell("sigsuspend, one is pending", sigsuspend(&before));
    tell("handled", handled[SIGUSR1]);
    start_child(SIGUSR1);
    tell("sigsuspend, one comes", sigsuspend(&before));
    tell("handled", handled[SIGUSR1]);
    wait(NULL);
    sigprocmask(SIG_SETMASK, &before, NULL);
    action.sa_flags = RESTART;
    tell("sigaction, calls are made again", sigaction(SIGCHLD, &action, NULL));
    start_child(0);
    tell("pause, until a child ends", pause());
    tell("handled", handled[SIGCHLD]);
    wait(NULL);
    tell("signal tells the handler", signal(SIGUSR1, SIG_DFL) == note);
    signal(SIGCHLD, SIG_DFL);
}

static void check_poll(void)
{
    int one[2], two[2], file = make("/f", "abc");
    must(pipe(one) == 0 && pipe(two) == 0, "pipe");
    part("poll");
    struct pollfd entries[2] = { { file, POLLIN | POLLOUT, 0 }, { one[0], POLLIN, 0 } };
    tell("a file and a pipe", poll(entries, 2, -1));
    tell("what the file is ready for", entries[0].revents);
    entries[0] = (struct pollfd){ two[0], POLLIN, 0 };
    tell("a pipe that is waited for", poll(entries, 1, -1));
    tell("a pipe, for a time", poll(entries, 1, 10));
    tell("two pipes", poll(entries, 2, -1));
    fcntl(one[0], F_SETFL, O_NONBLOCK);
    tell("two pipes, one of them without waiting", poll(entries, 2, -1));
    entries[0].fd = NONE;
    tell("no descriptor", poll(entries, 1, -1));
    tell("what is told of it", entries[0].revents);
    tell("a time alone", poll(NULL, 0, 10));
#ifndef __PICOLIBC__
    entries[0].fd = file;
    tell("ppoll of a file", ppoll(entries, 1, &(struct timespec){ 1, 0 }, NULL));
#endif
    close(file), close(one[0]), close(one[1]), close(two[0]), close(two[1]);
}

static void check_select(void)
{
    fd_set reads, writes;
    struct timeval time = { 1, 0 };
    FD_ZERO(&reads);
    FD_ZERO(&writes);
    FD_SET(0, &reads);
    FD_SET(1, &writes);
    part("select");
    tell("input and output", select(2, &reads, &writes, NULL, &time));
    FD_ZERO(&reads);
    FD_SET(NONE, &reads);
    tell("no descriptor", select(NONE + 1, &reads, NULL, NULL, &time));
    tell("a time alone", select(0, NULL, NULL, NULL, &time));
    FD_ZERO(&writes);
    FD_SET(1, &writes);
    tell("pselect of the output", pselect(2, NULL, &writes, NULL, NULL, NULL));
}

/* ---- the shell ---- */

static int run_command(const char *command)
{
    char bytes[100];
    ssize_t got;
    if (!strncmp(command, "say ", 4))
        printf("  %s\n", command + 4);
    else if (!strncmp(command, "exit ", 5))
        return atoi(command + 5);
    else if (!strcmp(command, "show")) {
        printf("  the child read: ");
        fflush(stdout);
        while ((got = read(0, bytes, sizeof bytes)) > 0)
            (void)!write(1, bytes, (size_t)got);
    } else
        return 127;
    return 0;
}

int main(int count, char **words)
{
    if (count == 3 && !strcmp(words[1], "-c"))
        return run_command(words[2]);
    check_times();
    check_modes();
    check_owners();
    check_directories();
    check_file_system();
    check_disks();
    check_copies();
    check_groups();
    check_users();
    check_machine();
    check_shells();
    check_children();
    check_signals();
    check_poll();
    check_select();
    return 0;
}
