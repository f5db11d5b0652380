/* What the files of this library share: calls as the kernel takes them, and nodes as it tells of them. A program has no
 * need of it. The names of Linux's own numbers begin with LINUX_ or SYS_, since picolibc has other ones. */

#include <stddef.h>
#include <stdint.h>

enum {
    SYS_ftruncate = 46, SYS_chdir = 49, SYS_fchmodat = 53, SYS_openat = 56, SYS_close = 57,
    SYS_pipe2 = 59, SYS_getdents64 = 61, SYS_pread64 = 67, SYS_pwrite64 = 68, SYS_newfstatat = 79, SYS_fstat = 80,
    SYS_execve = 221
};

enum {
    LINUX_O_RDONLY = 0, LINUX_O_RDWR = 2, LINUX_O_DIRECTORY = 0x10000, LINUX_O_CLOEXEC = 0x80000,
    LINUX_AT_FDCWD = -100, LINUX_AT_SYMLINK_NOFOLLOW = 0x100
};

/* What a process may have of each. */
enum { PATH_SIZE = 4096, DESCRIPTORS = 64, PAGE_SIZE = 4096, PAGES = 16384 };

/* Linux's struct stat on RISC-V. In picolibc's, the inode has 16 bits. */
struct node {
    uint64_t device, inode;
    uint32_t mode, links, user, group;
    uint64_t device_of_node, padding;
    int64_t size;
    int32_t block_size, more_padding;
    int64_t blocks;
    uint64_t times[6];
    uint32_t unused[2];
};

/* A call; it answers minus Linux's errno where it is refused. */
long compat_call(long number, long a, long b, long c, long d);

/* What a function of a C library makes of that answer: -1 and errno, where it was refused. */
long compat_answer(long result);

/* Sets errno, and answers -1. */
int compat_refuse(int error);

/* A directory argument as Linux has it. */
long compat_directory(int directory);

/* What stands at a path, and what a descriptor refers to: 0, or minus Linux's errno. */
long compat_look(int directory, const char *path, int is_followed, struct node *node);
long compat_look_open(int descriptor, struct node *node);

/* Whether a node is of this kind: S_IFREG, S_IFDIR and so on. */
int compat_is(const struct node *node, unsigned kind);

/* A path of what a descriptor refers to, from which it is reached now; -1 and errno where there is none. */
int compat_path(int descriptor, char path[PATH_SIZE]);
