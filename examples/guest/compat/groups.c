/* Process groups, sessions and users. Nothing but these functions knows of groups and sessions: a process is in group
 * and session 1, or in those that it has made for itself, until it starts another program. Of users there is one, 0. */
#define _GNU_SOURCE
#include <errno.h>
#include <signal.h>
#include <sys/types.h>
#include <unistd.h>

#include "calls.h"
#include "compat.h"

enum { FIRST = 1 };

static pid_t group = FIRST, session = FIRST;

static int is_own(pid_t process)
{
    return process == 0 || process == getpid();
}

/* What is said of a process: of another one the first, where it is there. */
static pid_t tell(pid_t process, pid_t own)
{
    if (process < 0)
        return compat_refuse(EINVAL);
    if (is_own(process))
        return own;
    return kill(process, 0) < 0 ? -1 : FIRST;
}

pid_t getpgid(pid_t process)
{
    return tell(process, group);
}

pid_t getpgrp(void)
{
    return group;
}

pid_t getsid(pid_t process)
{
    return tell(process, session);
}

/* For another process it has no effect. */
int setpgid(pid_t process, pid_t wanted)
{
    if (process < 0 || wanted < 0)
        return compat_refuse(EINVAL);
    if (!is_own(process))
        return kill(process, 0);
    group = wanted ? wanted : getpid();
    return 0;
}

int setpgrp(void)
{
    return setpgid(0, 0);
}

pid_t setsid(void)
{
    pid_t own = getpid();
    if (group == own)
        return compat_refuse(EPERM);
    return group = session = own;
}

/* ---- users ---- */

int getgroups(int count, gid_t groups[])
{
    (void)groups;
    return count < 0 ? compat_refuse(EINVAL) : 0;
}

/* picolibc has users of 16 bits, and no program for it changes them. */
#ifndef __PICOLIBC__

int setgroups(size_t count, const gid_t groups[])
{
    return count == 0 || (count == 1 && groups[0] == 0) ? 0 : compat_refuse(EPERM);
}

/* 0, or -1 where it says that nothing is to change. */
static int become(uid_t one, uid_t other, uid_t third)
{
    uid_t none = (uid_t)-1;
    return (one == 0 || one == none) && (other == 0 || other == none) && (third == 0 || third == none)
               ? 0 : compat_refuse(EPERM);
}

int setuid(uid_t user) { return become(user, 0, 0); }
int setgid(gid_t group_of_users) { return become(group_of_users, 0, 0); }
int seteuid(uid_t user) { return become(user, 0, 0); }
int setegid(gid_t group_of_users) { return become(group_of_users, 0, 0); }
int setreuid(uid_t real, uid_t effective) { return become(real, effective, 0); }
int setregid(gid_t real, gid_t effective) { return become(real, effective, 0); }
int setresuid(uid_t real, uid_t effective, uid_t saved) { return become(real, effective, saved); }
int setresgid(gid_t real, gid_t effective, gid_t saved) { return become(real, effective, saved); }

static int tell_all(uid_t *real, uid_t *effective, uid_t *saved)
{
    *real = *effective = *saved = 0;
    return 0;
}

int getresuid(uid_t *real, uid_t *effective, uid_t *saved) { return tell_all(real, effective, saved); }
int getresgid(gid_t *real, gid_t *effective, gid_t *saved) { return tell_all(real, effective, saved); }

#endif
