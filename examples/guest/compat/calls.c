/* Calls as the kernel takes them; calls.h says what each function is. */
#include <errno.h>
#include <fcntl.h>
#include <sys/stat.h>

#include "calls.h"

long compat_call(long number, long a, long b, long c, long d)
{
    register long a7 __asm__("a7") = number;
    register long a0 __asm__("a0") = a;
    register long a1 __asm__("a1") = b;
    register long a2 __asm__("a2") = c;
    register long a3 __asm__("a3") = d;
    register long a4 __asm__("a4") = 0;
    __asm__ volatile("ecall" : "+r"(a0) : "r"(a1), "r"(a2), "r"(a3), "r"(a4), "r"(a7) : "memory");
    return a0;
}

/* Up to 34 the errnos are the same in both C libraries. */
static int errno_of(long linux_errno)
{
    switch (linux_errno) {
    case 36: return ENAMETOOLONG;
    case 38: return ENOSYS;
    case 39: return ENOTEMPTY;
    case 40: return ELOOP;
    default: return (int)linux_errno;
    }
}

long compat_answer(long result)
{
    return result < 0 ? compat_refuse(errno_of(-result)) : result;
}

int compat_refuse(int error)
{
    errno = error;
    return -1;
}

long compat_directory(int directory)
{
    return directory == AT_FDCWD ? LINUX_AT_FDCWD : directory;
}

long compat_look(int directory, const char *path, int is_followed, struct node *node)
{
    return compat_call(SYS_newfstatat, compat_directory(directory), (long)path, (long)node,
                       is_followed ? 0 : LINUX_AT_SYMLINK_NOFOLLOW);
}

long compat_look_open(int descriptor, struct node *node)
{
    return compat_call(SYS_fstat, descriptor, (long)node, 0, 0);
}

int compat_is(const struct node *node, unsigned kind)
{
    return (node->mode & S_IFMT) == kind;
}
