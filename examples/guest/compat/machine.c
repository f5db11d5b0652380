/* What a program may ask of the machine: it has one processor and what the limits of a process say, and the time that
 * anything has taken is the logical time. */
#define _GNU_SOURCE
#include <errno.h>
#include <limits.h>
#include <sched.h>
#include <stdarg.h>
#include <string.h>
#include <sys/resource.h>
#include <sys/times.h>
#include <time.h>
#include <unistd.h>

#include "calls.h"
#include "compat.h"

/* What is said of the whole machine. */
enum {
    PROCESSORS = 1, PROCESSES = 64, PAGES_OF_A_STACK = 256, FILE_SIZE = 16777216, ARGUMENTS = 131072,
    TICKS_IN_A_SECOND = 100, NANOSECONDS_IN_A_SECOND = 1000000000, RANGES = 1024, LINKS = 40, NAMES = 64
};

/* ---- times ---- */

static struct timespec now(void)
{
    struct timespec time = { 0, 0 };
    clock_gettime(CLOCK_MONOTONIC, &time);
    return time;
}

/* All time is the process's own, and none its children's. */
int getrusage(int who, struct rusage *used)
{
    memset(used, 0, sizeof *used);
    if (who == RUSAGE_SELF) {
        struct timespec time = now();
        used->ru_utime.tv_sec = time.tv_sec;
        used->ru_utime.tv_usec = time.tv_nsec / 1000;
    }
    return 0;
}

clock_t times(struct tms *used)
{
    struct timespec time = now();
    clock_t ticks = (clock_t)(time.tv_sec * TICKS_IN_A_SECOND +
                              time.tv_nsec / (NANOSECONDS_IN_A_SECOND / TICKS_IN_A_SECOND));
    if (used)
        *used = (struct tms){ .tms_utime = ticks };
    return ticks;
}

/* Each reading takes a microsecond. */
int clock_getres(clockid_t clock, struct timespec *resolution)
{
    struct timespec time;
    if (clock_gettime(clock, &time) < 0)
        return -1;
    if (resolution)
        *resolution = (struct timespec){ 0, 1000 };
    return 0;
}

/* ---- processors and memory ---- */

int sysinfo(struct sysinfo *info)
{
    memset(info, 0, sizeof *info);
    info->uptime = now().tv_sec;
    info->totalram = info->freeram = (unsigned long)PAGES * PAGE_SIZE;
    info->procs = 1;
    info->mem_unit = 1;
    return 0;
}

int sched_getaffinity(pid_t process, size_t size, cpu_set_t *set)
{
    (void)process;
    if (size < sizeof(long))
        return compat_refuse(EINVAL);
    memset(set, 0, size);
    *(unsigned long *)(void *)set = 1;
    return 0;
}

int sched_setaffinity(pid_t process, size_t size, const cpu_set_t *set)
{
    (void)process;
    return size >= sizeof(long) && (*(const unsigned long *)(const void *)set & 1) ? 0 : compat_refuse(EINVAL);
}

int getpriority(int which, id_t who)
{
    (void)which, (void)who;
    return 0;
}

int setpriority(int which, id_t who, int priority)
{
    (void)which, (void)who, (void)priority;
    return 0;
}

int nice(int more)
{
    (void)more;
    return 0;
}

int prctl(int option, ...)
{
    (void)option;
    return compat_refuse(EINVAL);
}

/* ---- limits ---- */

long sysconf(int name)
{
    switch (name) {
    case _SC_NPROCESSORS_CONF:
    case _SC_NPROCESSORS_ONLN: return PROCESSORS;
    case _SC_PHYS_PAGES:
    case _SC_AVPHYS_PAGES: return PAGES;
    case _SC_PAGESIZE: return PAGE_SIZE;
    case _SC_ARG_MAX: return ARGUMENTS;
    case _SC_CHILD_MAX: return PROCESSES;
    case _SC_OPEN_MAX:
    case _SC_STREAM_MAX: return DESCRIPTORS;
    case _SC_CLK_TCK: return TICKS_IN_A_SECOND;
    case _SC_NGROUPS_MAX: return 0;
    case _SC_IOV_MAX: return RANGES;
    case _SC_SYMLOOP_MAX: return LINKS;
    case _SC_HOST_NAME_MAX: return NAMES;
    case _SC_TZNAME_MAX: return 6;
    case _SC_LINE_MAX: return 2048;
    case _SC_GETPW_R_SIZE_MAX:
    case _SC_GETGR_R_SIZE_MAX: return -1;
    case _SC_VERSION: return 200809;
    case _SC_JOB_CONTROL:
    case _SC_SAVED_IDS: return 1;
    case _SC_THREADS: return -1;
    default: return compat_refuse(EINVAL);
    }
}

int getdtablesize(void)
{
    return DESCRIPTORS;
}

/* picolibc's headers know no limits. */
#ifdef RLIMIT_NOFILE

static rlim_t limit(int resource)
{
    switch (resource) {
    case RLIMIT_NOFILE: return DESCRIPTORS;
    case RLIMIT_NPROC: return PROCESSES;
    case RLIMIT_STACK: return (rlim_t)PAGES_OF_A_STACK * PAGE_SIZE;
    case RLIMIT_AS:
    case RLIMIT_DATA:
    case RLIMIT_RSS: return (rlim_t)PAGES * PAGE_SIZE;
    case RLIMIT_FSIZE: return FILE_SIZE;
    case RLIMIT_CORE: return 0;
    default: return RLIM_INFINITY;
    }
}

int getrlimit(int resource, struct rlimit *limits)
{
    if (resource < 0 || resource >= RLIM_NLIMITS)
        return compat_refuse(EINVAL);
    limits->rlim_cur = limits->rlim_max = limit(resource);
    return 0;
}

/* They are what they are: naming them again is taken, and any other ones are not. */
int setrlimit(int resource, const struct rlimit *limits)
{
    if (resource < 0 || resource >= RLIM_NLIMITS)
        return compat_refuse(EINVAL);
    return limits->rlim_cur == limit(resource) && limits->rlim_max == limit(resource) ? 0 : compat_refuse(EPERM);
}

int prlimit(pid_t process, int resource, const struct rlimit *wanted, struct rlimit *limits)
{
    (void)process;
    if (limits && getrlimit(resource, limits) < 0)
        return -1;
    return wanted ? setrlimit(resource, wanted) : 0;
}

#endif
