/* Declares what the library compat gives. musl's own headers do so already; picolibc has no headers for some of it, and
 * this one stands for them. It is found where ../cc compiles: #include <compat.h>. */
#ifndef COMPAT_H
#define COMPAT_H

#include <stdio.h>
#include <sys/resource.h>
#include <sys/types.h>
#include <utime.h>

#ifdef __PICOLIBC__

#include <spawn.h>
#include <stdint.h>
#include <time.h>

#define UTIME_NOW (-2L)
#define UTIME_OMIT (-1L)

struct pollfd {
    int fd;
    short events, revents;
};

typedef unsigned long nfds_t;

enum { POLLIN = 1, POLLPRI = 2, POLLOUT = 4, POLLERR = 8, POLLHUP = 16, POLLNVAL = 32 };

int poll(struct pollfd entries[], nfds_t count, int timeout);

struct statfs {
    unsigned long f_type, f_bsize, f_blocks, f_bfree, f_bavail, f_files, f_ffree, f_namelen, f_frsize, f_flags;
};

int statfs(const char *path, struct statfs *status);
int fstatfs(int descriptor, struct statfs *status);

struct statvfs {
    unsigned long f_bsize, f_frsize, f_blocks, f_bfree, f_bavail, f_files, f_ffree, f_favail, f_fsid, f_flag, f_namemax;
};

int statvfs(const char *restrict path, struct statvfs *restrict status);
int fstatvfs(int descriptor, struct statvfs *status);

struct sysinfo {
    long uptime;
    unsigned long loads[3], totalram, freeram, sharedram, bufferram, totalswap, freeswap;
    unsigned short procs;
    unsigned long totalhigh, freehigh;
    unsigned mem_unit;
};

int sysinfo(struct sysinfo *info);

typedef struct {
    unsigned long bits[16];
} cpu_set_t;

int sched_getaffinity(pid_t process, size_t size, cpu_set_t *set);
int sched_setaffinity(pid_t process, size_t size, const cpu_set_t *set);

enum { PRIO_PROCESS, PRIO_PGRP, PRIO_USER };

int getpriority(int which, id_t who);
int setpriority(int which, id_t who, int priority);
int prctl(int option, ...);

enum { AF_UNIX = 1, AF_INET = 2, SOCK_STREAM = 1 };

int socket(int domain, int type, int protocol);
int socketpair(int domain, int type, int protocol, int ends[2]);

enum { POSIX_FADV_NORMAL, POSIX_FADV_RANDOM, POSIX_FADV_SEQUENTIAL };

int posix_fadvise(int descriptor, off_t offset, off_t length, int advice);
int posix_fallocate(int descriptor, off_t offset, off_t length);
int syncfs(int descriptor);
int lchmod(const char *path, mode_t mode);
int mknod(const char *path, mode_t mode, dev_t device);
int posix_spawn_file_actions_addchdir_np(posix_spawn_file_actions_t *restrict actions, const char *restrict path);
int posix_spawn_file_actions_addfchdir_np(posix_spawn_file_actions_t *actions, int descriptor);

int utime(const char *path, const struct utimbuf *times);
int utimes(const char *path, const struct timeval times[2]);
ssize_t copy_file_range(int from, off_t *from_offset, int to, off_t *to_offset, size_t count, unsigned flags);
ssize_t sendfile(int to, int from, off_t *offset, size_t count);
FILE *popen(const char *command, const char *mode);
int pclose(FILE *stream);

#else

#include <poll.h>
#include <sched.h>
#include <sys/prctl.h>
#include <sys/sendfile.h>
#include <sys/statfs.h>
#include <sys/statvfs.h>
#include <sys/sysinfo.h>

#endif
#endif
