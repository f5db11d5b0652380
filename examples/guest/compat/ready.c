/* poll and select. The kernel does not say whether a pipe is empty, so a pipe is said to be ready only where the
 * program can find out itself: it does not wait for it (O_NONBLOCK), or it waits for nothing else and without an end.
 * All else that can be open is ready. */
#define _GNU_SOURCE
#include <errno.h>
#include <fcntl.h>
#include <signal.h>
#include <sys/select.h>
#include <sys/stat.h>
#include <time.h>
#include <unistd.h>

#include "calls.h"
#include "compat.h"

/* What an open descriptor can be asked for: reading, writing or both, by its access mode. */
static short rights_of(int descriptor)
{
    switch (fcntl(descriptor, F_GETFL) & O_ACCMODE) {
    case O_RDONLY: return POLLIN;
    case O_WRONLY: return POLLOUT;
    default: return POLLIN | POLLOUT;
    }
}

static int is_blocking_pipe(int descriptor, const struct node *node)
{
    return compat_is(node, S_IFIFO) && !(fcntl(descriptor, F_GETFL) & O_NONBLOCK);
}

/* Looks at each entry: how many are ready, and how many only a wait would tell of. */
static int look(struct pollfd entries[], nfds_t count, nfds_t *unknown)
{
    int ready = 0;
    for (nfds_t i = 0; i < count; i++) {
        struct node node;
        struct pollfd *entry = &entries[i];
        entry->revents = 0;
        if (entry->fd < 0)
            continue;
        if (compat_look_open(entry->fd, &node) < 0)
            entry->revents = POLLNVAL;
        else if (!(entry->events & rights_of(entry->fd)))
            continue;
        else if (is_blocking_pipe(entry->fd, &node))
            ++*unknown;
        else
            entry->revents = (short)(entry->events & rights_of(entry->fd));
        ready += entry->revents != 0;
    }
    return ready;
}

static int sleep_for(int milliseconds)
{
    struct timespec time = { milliseconds / 1000, milliseconds % 1000 * 1000000L };
    return milliseconds < 0 ? pause() : nanosleep(&time, NULL);
}

int poll(struct pollfd entries[], nfds_t count, int timeout)
{
    nfds_t unknown = 0;
    int ready = look(entries, count, &unknown);
    if (ready > 0)
        return ready;
    if (unknown == 0)
        return sleep_for(timeout);
    if (unknown > 1 || timeout >= 0)
        return compat_refuse(ENOSYS);
    for (nfds_t i = 0; i < count; i++)
        if (entries[i].fd >= 0)
            entries[i].revents = (short)(entries[i].events & rights_of(entries[i].fd));
    return 1;
}

/* The milliseconds of a time, or -1 for none. */
static int milliseconds(const struct timespec *time)
{
    return time ? (int)(time->tv_sec * 1000 + (time->tv_nsec + 999999) / 1000000) : -1;
}

#ifndef __PICOLIBC__
int ppoll(struct pollfd entries[], nfds_t count, const struct timespec *timeout, const sigset_t *mask)
{
    sigset_t before;
    if (mask)
        sigprocmask(SIG_SETMASK, mask, &before);
    int ready = poll(entries, count, milliseconds(timeout));
    if (mask)
        sigprocmask(SIG_SETMASK, &before, NULL);
    return ready;
}
#endif

/* What a descriptor is in one of the sets, and taken out of it. */
static short taken(int descriptor, fd_set *set, short events)
{
    if (!set || !FD_ISSET(descriptor, set))
        return 0;
    FD_CLR(descriptor, set);
    return events;
}

int pselect(int count, fd_set *restrict reads, fd_set *restrict writes, fd_set *restrict others,
            const struct timespec *restrict timeout, const sigset_t *restrict mask)
{
    struct pollfd entries[DESCRIPTORS];
    nfds_t used = 0;
    sigset_t before;
    int told = 0;
    if (count < 0 || count > DESCRIPTORS)
        return compat_refuse(EINVAL);
    for (int i = 0; i < count; i++) {
        short events = (short)(taken(i, reads, POLLIN) | taken(i, writes, POLLOUT) | taken(i, others, 0));
        if (events)
            entries[used++] = (struct pollfd){ i, events, 0 };
    }
    if (mask)
        sigprocmask(SIG_SETMASK, mask, &before);
    int ready = poll(entries, used, milliseconds(timeout));
    if (mask)
        sigprocmask(SIG_SETMASK, &before, NULL);
    for (nfds_t i = 0; ready > 0 && i < used; i++) {
        if (entries[i].revents & POLLNVAL)
            return compat_refuse(EBADF);
        if (entries[i].revents & POLLIN)
            FD_SET(entries[i].fd, reads), told++;
        if (entries[i].revents & POLLOUT)
            FD_SET(entries[i].fd, writes), told++;
    }
    return ready < 0 ? -1 : told;
}

int select(int count, fd_set *restrict reads, fd_set *restrict writes, fd_set *restrict others,
           struct timeval *restrict timeout)
{
    struct timespec time;
    if (timeout)
        time = (struct timespec){ timeout->tv_sec, timeout->tv_usec * 1000L };
    return pselect(count, reads, writes, others, timeout ? &time : NULL, NULL);
}
