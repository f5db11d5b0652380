/* system and popen: commands for /bin/sh, which has to be in the image. */
#define _GNU_SOURCE
#include <errno.h>
#include <fcntl.h>
#include <signal.h>
#include <stdio.h>
#include <stdlib.h>
#include <sys/wait.h>
#include <unistd.h>

#include "actions.h"
#include "calls.h"
#include "compat.h"

extern char **environ;

enum { NO_SHELL = 127 << 8 };

static int start_shell(pid_t *child, const char *command, const posix_spawn_file_actions_t *actions,
                       const posix_spawnattr_t *attributes)
{
    char *words[] = { "sh", "-c", (char *)command, NULL };
    return posix_spawn(child, "/bin/sh", actions, attributes, words, environ);
}

static int wait_for(pid_t child)
{
    int status;
    while (waitpid(child, &status, 0) < 0)
        if (errno != EINTR)
            return -1;
    return status;
}

/* ---- system ---- */

/* Has the program ignore a signal, and the child do what was done about it before. */
static void ignore(int number, struct sigaction *before, sigset_t *defaults)
{
    struct sigaction ignored = { .sa_handler = SIG_IGN };
    sigaction(number, &ignored, before);
    if (before->sa_handler != SIG_IGN)
        sigaddset(defaults, number);
}

int system(const char *command)
{
    struct sigaction interrupt, quit;
    sigset_t children, before, defaults;
    posix_spawnattr_t attributes;
    pid_t child;
    if (!command)
        return access("/bin/sh", X_OK) == 0;
    sigemptyset(&defaults);
    sigemptyset(&children);
    sigaddset(&children, SIGCHLD);
    ignore(SIGINT, &interrupt, &defaults);
    ignore(SIGQUIT, &quit, &defaults);
    sigprocmask(SIG_BLOCK, &children, &before);
    posix_spawnattr_init(&attributes);
    posix_spawnattr_setflags(&attributes, POSIX_SPAWN_SETSIGDEF | POSIX_SPAWN_SETSIGMASK);
    posix_spawnattr_setsigdefault(&attributes, &defaults);
    posix_spawnattr_setsigmask(&attributes, &before);
    int status = start_shell(&child, command, NULL, &attributes) == 0 ? wait_for(child) : NO_SHELL;
    posix_spawnattr_destroy(&attributes);
    sigaction(SIGINT, &interrupt, NULL);
    sigaction(SIGQUIT, &quit, NULL);
    sigprocmask(SIG_SETMASK, &before, NULL);
    return status;
}

/* ---- popen ---- */

/* The streams that are open, each with its child. */
static struct {
    FILE *stream;
    pid_t child;
} opened[DESCRIPTORS];

/* Starts the command with one end of a pipe as its standard input or output. */
static int start_between(pid_t *child, const char *command, int end, int stream)
{
    posix_spawn_file_actions_t actions;
    posix_spawn_file_actions_init(&actions);
    posix_spawn_file_actions_adddup2(&actions, end, stream);
    int refused = start_shell(child, command, &actions, NULL);
    posix_spawn_file_actions_destroy(&actions);
    return refused;
}

FILE *popen(const char *command, const char *mode)
{
    int ends[2], own = mode[0] == 'w';
    if (mode[0] != 'r' && mode[0] != 'w') {
        errno = EINVAL;
        return NULL;
    }
    if (compat_answer(compat_call(SYS_pipe2, (long)ends, LINUX_O_CLOEXEC, 0, 0)) < 0)
        return NULL;
    FILE *stream = fdopen(ends[own], own ? "w" : "r");
    pid_t child = 0;
    int refused = stream ? start_between(&child, command, ends[!own], !own) : errno;
    close(ends[!own]);
    if (refused) {
        if (stream)
            fclose(stream);
        else
            close(ends[own]);
        errno = refused;
        return NULL;
    }
    opened[ends[own]].stream = stream;
    opened[ends[own]].child = child;
    return stream;
}

int pclose(FILE *stream)
{
    for (int i = 0; i < DESCRIPTORS; i++)
        if (opened[i].stream == stream) {
            opened[i].stream = NULL;
            fclose(stream);
            return wait_for(opened[i].child);
        }
    return compat_refuse(ECHILD);
}
