/* posix_spawn by fork and execve. A child has memory of its own, so vfork is fork. */
#define _GNU_SOURCE
#include <errno.h>
#include <fcntl.h>
#include <signal.h>
#include <stdio.h>
#include <stdlib.h>
#include <string.h>
#include <sys/wait.h>
#include <unistd.h>

#include "actions.h"
#include "calls.h"

enum { NOT_STARTED = 127, SIGNALS = 65 };

pid_t vfork(void)
{
    return fork();
}

/* ---- what the child does ---- */

/* Has a descriptor stand at a number, and stay there when a program starts. */
static int place(int descriptor, int wanted)
{
    return descriptor == wanted ? fcntl(wanted, F_SETFD, 0) : dup2(descriptor, wanted);
}

static int open_at(const struct action *action)
{
    int opened = open(action->path, action->flags, action->mode);
    if (opened < 0 || opened == action->descriptor)
        return opened;
    int result = dup2(opened, action->descriptor);
    close(opened);
    return result;
}

static int perform(const struct action *action)
{
    switch (action->kind) {
    case OPEN: return open_at(action);
    case CLOSE: return close(action->descriptor), 0;
    case DUPLICATE: return place(action->descriptor, action->flags);
    case CHANGE_DIRECTORY: return chdir(action->path);
    default: return fchdir(action->descriptor);
    }
}

/* `told`, by which the child tells what goes wrong, makes room for a number that is asked for. */
static int perform_all(const struct action *action, int *told)
{
    for (; action; action = action->next) {
        int taken = action->kind == DUPLICATE ? action->flags : action->descriptor;
        if (taken == *told && (*told = dup(*told)) < 0)
            return -1;
        if (perform(action) < 0)
            return -1;
    }
    return fcntl(*told, F_SETFD, FD_CLOEXEC);
}

static int prepare(const posix_spawnattr_t *attributes)
{
    int flags = attributes ? FLAGS(attributes) : 0;
    struct sigaction action = { .sa_handler = SIG_DFL };
    for (int number = 1; (flags & POSIX_SPAWN_SETSIGDEF) && number < SIGNALS; number++)
        if (sigismember(&DEFAULTS(attributes), number) == 1)
            sigaction(number, &action, NULL);
    if ((flags & POSIX_SPAWN_SETPGROUP) && setpgid(0, GROUP(attributes)) < 0)
        return -1;
#ifdef POSIX_SPAWN_SETSID
    if ((flags & POSIX_SPAWN_SETSID) && setsid() < 0)
        return -1;
#endif
    return flags & POSIX_SPAWN_SETSIGMASK ? sigprocmask(SIG_SETMASK, &MASK(attributes), NULL) : 0;
}

/* ---- which program it starts ---- */

typedef int starter(const char *path, char *const arguments[], char *const environment[]);

/* Looks for a program in the PATH, and starts it. */
static int execute_found(const char *name, char *const arguments[], char *const environment[])
{
    const char *folders = getenv("PATH"), *end;
    char path[PATH_SIZE];
    int refused = ENOENT;
    if (strchr(name, '/'))
        return execve(name, arguments, environment);
    for (folders = folders ? folders : "/bin:/usr/bin"; folders; folders = *end ? end + 1 : NULL) {
        end = folders + strcspn(folders, ":");
        if ((size_t)(end - folders) + strlen(name) + 2 > sizeof path)
            continue;
        sprintf(path, "%.*s%s%s", (int)(end - folders), folders, end > folders ? "/" : "", name);
        execve(path, arguments, environment);
        if (errno == EACCES)
            refused = EACCES;
        else if (errno != ENOENT && errno != ENOTDIR)
            return -1;
    }
    return compat_refuse(refused);
}

/* Starts a program in a child, and is over when it has started or could not be. */
struct start {
    starter *function;
    const char *path;
    char *const *arguments, *const *environment;
};

static void start_child(const struct start *start, const struct action *first, const posix_spawnattr_t *attributes,
                        int told)
{
    if (prepare(attributes) == 0 && perform_all(first, &told) >= 0)
        start->function(start->path, start->arguments, start->environment);
    int refused = errno;
    (void)!write(told, &refused, sizeof refused);
    _exit(NOT_STARTED);
}

/* The child tells its errno through a pipe, which closes where its program starts. */
static int spawn(pid_t *started, const struct start *start, const posix_spawn_file_actions_t *actions,
                 const posix_spawnattr_t *attributes)
{
    int ends[2], refused = 0;
    if (compat_answer(compat_call(SYS_pipe2, (long)ends, LINUX_O_CLOEXEC, 0, 0)) < 0)
        return errno;
    pid_t child = fork();
    if (child == 0) {
        close(ends[0]);
        start_child(start, actions ? LIST((posix_spawn_file_actions_t *)actions) : NULL, attributes, ends[1]);
    }
    int failed = errno;
    close(ends[1]);
    while (child > 0 && read(ends[0], &refused, sizeof refused) < 0 && errno == EINTR) {
    }
    close(ends[0]);
    if (child < 0)
        return failed;
    if (refused)
        waitpid(child, NULL, 0);
    else if (started)
        *started = child;
    return refused;
}

int posix_spawn(pid_t *restrict child, const char *restrict path, const posix_spawn_file_actions_t *actions,
                const posix_spawnattr_t *restrict attributes, char *const *restrict arguments,
                char *const *restrict environment)
{
    struct start start = { execve, path, arguments, environment };
    return spawn(child, &start, actions, attributes);
}

int posix_spawnp(pid_t *restrict child, const char *restrict name, const posix_spawn_file_actions_t *actions,
                 const posix_spawnattr_t *restrict attributes, char *const *restrict arguments,
                 char *const *restrict environment)
{
    struct start start = { execute_found, name, arguments, environment };
    return spawn(child, &start, actions, attributes);
}
