/* What is told of nodes and cannot be set here: times, owners, and the room of a file system. User and group are 0. A
 * node has one time, which is when it was changed last. */
#define _GNU_SOURCE
#include <errno.h>
#include <fcntl.h>
#include <string.h>
#include <sys/stat.h>
#include <sys/time.h>
#include <unistd.h>

#include "calls.h"
#include "compat.h"

/* ---- times ---- */

/* Gives a file the time of now, as a write does: its first byte is written as it is, or an empty file is cut. */
static void change(int directory, const char *path)
{
    char byte;
    long file = compat_call(SYS_openat, compat_directory(directory), (long)path, LINUX_O_RDWR | LINUX_O_CLOEXEC, 0);
    if (file < 0)
        return;
    long got = compat_call(SYS_pread64, file, (long)&byte, 1, 0);
    if (got == 1)
        compat_call(SYS_pwrite64, file, (long)&byte, 1, 0);
    else if (got == 0)
        compat_call(SYS_ftruncate, file, 0, 0, 0);
    compat_call(SYS_close, file, 0, 0, 0);
}

static int is_time(const struct timespec *time)
{
    return time->tv_nsec == UTIME_NOW || time->tv_nsec == UTIME_OMIT ||
           (time->tv_nsec >= 0 && time->tv_nsec < 1000000000);
}

/* A time that is named has no effect. Now has one for a file; a directory or a link keeps its time. */
static int set_times(int directory, const char *path, const struct timespec times[2], int is_followed)
{
    struct node node;
    if (times && (!is_time(&times[0]) || !is_time(&times[1])))
        return compat_refuse(EINVAL);
    if (compat_answer(compat_look(directory, path, is_followed, &node)) < 0)
        return -1;
    if ((!times || times[1].tv_nsec == UTIME_NOW) && compat_is(&node, S_IFREG))
        change(directory, path);
    return 0;
}

int futimens(int descriptor, const struct timespec times[2])
{
    char path[PATH_SIZE];
    struct node node;
    if (compat_answer(compat_look_open(descriptor, &node)) < 0)
        return -1;
    return compat_path(descriptor, path) < 0 ? 0 : set_times(AT_FDCWD, path, times, 1);
}

int utimensat(int directory, const char *path, const struct timespec times[2], int flags)
{
    if (flags & ~AT_SYMLINK_NOFOLLOW)
        return compat_refuse(EINVAL);
    return path ? set_times(directory, path, times, !(flags & AT_SYMLINK_NOFOLLOW)) : futimens(directory, times);
}

/* The same by microseconds. */
static int set_times_by_microseconds(int directory, const char *path, const struct timeval times[2], int flags)
{
    struct timespec fine[2];
    for (int i = 0; times && i < 2; i++) {
        if (times[i].tv_usec < 0 || times[i].tv_usec >= 1000000)
            return compat_refuse(EINVAL);
        fine[i] = (struct timespec){ times[i].tv_sec, times[i].tv_usec * 1000L };
    }
    return utimensat(directory, path, times ? fine : NULL, flags);
}

int utimes(const char *path, const struct timeval times[2])
{
    return set_times_by_microseconds(AT_FDCWD, path, times, 0);
}

int lutimes(const char *path, const struct timeval times[2])
{
    return set_times_by_microseconds(AT_FDCWD, path, times, AT_SYMLINK_NOFOLLOW);
}

int futimes(int descriptor, const struct timeval times[2])
{
    return set_times_by_microseconds(descriptor, NULL, times, 0);
}

int futimesat(int directory, const char *path, const struct timeval times[2])
{
    return set_times_by_microseconds(directory, path, times, 0);
}

int utime(const char *path, const struct utimbuf *times)
{
    struct node node;
    return times ? (int)compat_answer(compat_look(AT_FDCWD, path, 1, &node)) : utimensat(AT_FDCWD, path, NULL, 0);
}

/* ---- owners, modes and rights ---- */

static int give(long looked, uid_t user, gid_t group)
{
    if (compat_answer(looked) < 0)
        return -1;
    return (user == 0 || user == (uid_t)-1) && (group == 0 || group == (gid_t)-1) ? 0 : compat_refuse(EPERM);
}

int chown(const char *path, uid_t user, gid_t group)
{
    struct node node;
    return give(compat_look(AT_FDCWD, path, 1, &node), user, group);
}

int lchown(const char *path, uid_t user, gid_t group)
{
    struct node node;
    return give(compat_look(AT_FDCWD, path, 0, &node), user, group);
}

int fchown(int descriptor, uid_t user, gid_t group)
{
    struct node node;
    return give(compat_look_open(descriptor, &node), user, group);
}

int fchownat(int directory, const char *path, uid_t user, gid_t group, int flags)
{
    struct node node;
    if ((flags & AT_EMPTY_PATH) && !path[0])
        return give(compat_look_open(directory, &node), user, group);
    return give(compat_look(directory, path, !(flags & AT_SYMLINK_NOFOLLOW), &node), user, group);
}

int fchmodat(int directory, const char *path, mode_t mode, int flags)
{
    struct node node;
    if (flags & ~AT_SYMLINK_NOFOLLOW)
        return compat_refuse(EINVAL);
    if (compat_answer(compat_look(directory, path, !flags, &node)) < 0)
        return -1;
    if (compat_is(&node, S_IFLNK))
        return compat_refuse(EOPNOTSUPP);
    return (int)compat_answer(compat_call(SYS_fchmodat, compat_directory(directory), (long)path, mode, 0));
}

int lchmod(const char *path, mode_t mode)
{
    return fchmodat(AT_FDCWD, path, mode, AT_SYMLINK_NOFOLLOW);
}

/* Every right is granted on what is there. */
int faccessat(int directory, const char *path, int rights, int flags)
{
    struct node node;
    if ((rights & ~(R_OK | W_OK | X_OK)) || (flags & ~(AT_EACCESS | AT_SYMLINK_NOFOLLOW)))
        return compat_refuse(EINVAL);
    return (int)compat_answer(compat_look(directory, path, !(flags & AT_SYMLINK_NOFOLLOW), &node));
}

int eaccess(const char *path, int rights)
{
    return faccessat(AT_FDCWD, path, rights, AT_EACCESS);
}

int euidaccess(const char *path, int rights)
{
    return eaccess(path, rights);
}

int mknod(const char *path, mode_t mode, dev_t device)
{
    (void)path, (void)mode, (void)device;
    return compat_refuse(EPERM);
}

int mkfifo(const char *path, mode_t mode)
{
    return mknod(path, S_IFIFO | mode, 0);
}

/* ---- the file system ---- */

enum { RAMFS = 0x858458f6, NODES = 4096, BLOCKS_OF_A_FILE = 4096, NAME_LIMIT = 255 };

/* What the limits say, however much of it is taken. */
static int tell(long looked, struct statfs *status)
{
    if (compat_answer(looked) < 0)
        return -1;
    memset(status, 0, sizeof *status);
    status->f_type = RAMFS;
    status->f_bsize = status->f_frsize = PAGE_SIZE;
    status->f_blocks = status->f_bfree = status->f_bavail = NODES * BLOCKS_OF_A_FILE;
    status->f_files = status->f_ffree = NODES;
    status->f_namelen = NAME_LIMIT;
    return 0;
}

int statfs(const char *path, struct statfs *status)
{
    struct node node;
    return tell(compat_look(AT_FDCWD, path, 1, &node), status);
}

int fstatfs(int descriptor, struct statfs *status)
{
    struct node node;
    return tell(compat_look_open(descriptor, &node), status);
}

static int convert(int result, const struct statfs *from, struct statvfs *status)
{
    if (result < 0)
        return -1;
    memset(status, 0, sizeof *status);
    status->f_bsize = status->f_frsize = from->f_bsize;
    status->f_blocks = status->f_bfree = status->f_bavail = from->f_blocks;
    status->f_files = status->f_ffree = status->f_favail = from->f_files;
    status->f_namemax = from->f_namelen;
    return 0;
}

int statvfs(const char *restrict path, struct statvfs *restrict status)
{
    struct statfs from;
    return convert(statfs(path, &from), &from, status);
}

int fstatvfs(int descriptor, struct statvfs *status)
{
    struct statfs from;
    return convert(fstatfs(descriptor, &from), &from, status);
}
