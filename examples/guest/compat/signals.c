/* sigsuspend and pause, by a pipe that nobody writes to but a handler: its reader waits until one has run. So all
 * handlers have to be known here, and the linker has sigaction and signal go through (../cc). */
#define _GNU_SOURCE
#include <errno.h>
#include <fcntl.h>
#include <signal.h>
#include <unistd.h>

#include "calls.h"

#ifndef NSIG
#define NSIG _NSIG
#endif
#ifndef SA_RESTART
#define SA_RESTART 0x10000000
#endif

typedef void handler(int);
typedef void handler_of_three(int, void *, void *);
typedef void any(void);

int __real_sigaction(int number, const struct sigaction *restrict action, struct sigaction *restrict old);

static handler *volatile handlers[NSIG];

/* Whether a handler has run, and the end of the pipe whose reader waits for one, or -1. */
static volatile sig_atomic_t has_run;
static volatile int waker = -1;

static void handle(int number, void *info, void *context);

/* What the kernel is told to call. */
static handler *const known_handler = (handler *)(any *)handle;

static int is_function(handler *function)
{
    return function != SIG_DFL && function != SIG_IGN;
}

/* A handler with SA_SIGINFO has three arguments, and others take no harm by them. */
static void handle(int number, void *info, void *context)
{
    has_run = 1;
    if (waker >= 0) {
        int kept = errno;
        if (write(waker, "", 1) < 0)
            errno = kept;
    }
    ((handler_of_three *)(any *)handlers[number])(number, info, context);
}

int __wrap_sigaction(int number, const struct sigaction *restrict action, struct sigaction *restrict old)
{
    struct sigaction known;
    int is_there = number > 0 && number < NSIG;
    handler *before = is_there ? handlers[number] : SIG_DFL;
    if (action) {
        known = *action;
        if (is_there && is_function(action->sa_handler)) {
            handlers[number] = action->sa_handler;
            known.sa_handler = known_handler;
        }
    }
    if (__real_sigaction(number, action ? &known : NULL, old) < 0) {
        if (is_there)
            handlers[number] = before;
        return -1;
    }
    if (old && old->sa_handler == known_handler)
        old->sa_handler = before;
    return 0;
}

/* The handler stays, and a call that waits is made again after it. */
handler *__wrap_signal(int number, handler *function)
{
    struct sigaction action = { .sa_handler = function, .sa_flags = SA_RESTART }, old;
    return __wrap_sigaction(number, &action, &old) < 0 ? SIG_ERR : old.sa_handler;
}

int sigsuspend(const sigset_t *mask)
{
    sigset_t all, before;
    int ends[2], outer = waker;
    char byte;
    sigfillset(&all);
    if (compat_answer(compat_call(SYS_pipe2, (long)ends, LINUX_O_CLOEXEC, 0, 0)) < 0)
        return -1;
    sigprocmask(SIG_SETMASK, &all, &before);
    has_run = 0;
    waker = ends[1];
    sigprocmask(SIG_SETMASK, mask, NULL);
    if (!has_run)
        (void)!read(ends[0], &byte, 1);
    sigprocmask(SIG_SETMASK, &before, NULL);
    waker = outer;
    close(ends[0]);
    close(ends[1]);
    return compat_refuse(EINTR);
}

int pause(void)
{
    sigset_t mask;
    sigprocmask(SIG_SETMASK, NULL, &mask);
    return sigsuspend(&mask);
}

/* There is one stack. picolibc knows no other either. */
#ifndef __PICOLIBC__
int sigaltstack(const stack_t *restrict stack, stack_t *restrict old)
{
    (void)stack, (void)old;
    return compat_refuse(ENOSYS);
}
#endif
