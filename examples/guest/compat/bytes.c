/* Calls on the bytes of files that the kernel has not, by read and write and their kin. Nothing is ever on its way to a
 * disk. */
#define _GNU_SOURCE
#include <errno.h>
#include <fcntl.h>
#include <unistd.h>

#include "calls.h"
#include "compat.h"

/* ---- disks ---- */

int fsync(int descriptor)
{
    struct node node;
    return (int)compat_answer(compat_look_open(descriptor, &node));
}

int fdatasync(int descriptor)
{
    return fsync(descriptor);
}

int syncfs(int descriptor)
{
    return fsync(descriptor);
}

void sync(void)
{
}

int posix_fadvise(int descriptor, off_t offset, off_t length, int advice)
{
    (void)offset, (void)length, (void)advice;
    return fsync(descriptor) < 0 ? errno : 0;
}

/* ---- lengths ---- */

int truncate(const char *path, off_t length)
{
    int descriptor = open(path, O_WRONLY);
    if (descriptor < 0)
        return -1;
    int result = ftruncate(descriptor, length), kept_errno = errno;
    close(descriptor);
    errno = kept_errno;
    return result;
}

int posix_fallocate(int descriptor, off_t offset, off_t length)
{
    struct node node;
    if (offset < 0 || length <= 0)
        return EINVAL;
    if (compat_answer(compat_look_open(descriptor, &node)) < 0)
        return errno;
    return node.size >= offset + length || ftruncate(descriptor, offset + length) == 0 ? 0 : errno;
}

/* ---- copies ---- */

enum { MOVED = 4096 };

/* Copies at most so many bytes, from and to the offsets, or from and to where the descriptors are: how many they were,
 * or -1 and errno where it is none. */
static ssize_t copy(int from, off_t *from_offset, int to, off_t *to_offset, size_t count)
{
    char bytes[MOVED];
    size_t done = 0;
    while (done < count) {
        size_t wanted = count - done < sizeof bytes ? count - done : sizeof bytes;
        ssize_t got = from_offset ? pread(from, bytes, wanted, *from_offset) : read(from, bytes, wanted);
        ssize_t put = got <= 0 ? got : to_offset ? pwrite(to, bytes, (size_t)got, *to_offset)
                                                 : write(to, bytes, (size_t)got);
        if (put <= 0)
            return done || put == 0 ? (ssize_t)done : -1;
        if (put < got && !from_offset)
            lseek(from, put - got, SEEK_CUR);
        if (from_offset)
            *from_offset += put;
        if (to_offset)
            *to_offset += put;
        done += (size_t)put;
    }
    return (ssize_t)done;
}

ssize_t copy_file_range(int from, off_t *from_offset, int to, off_t *to_offset, size_t count, unsigned flags)
{
    return flags ? compat_refuse(EINVAL) : copy(from, from_offset, to, to_offset, count);
}

ssize_t sendfile(int to, int from, off_t *offset, size_t count)
{
    return copy(from, offset, to, NULL, count);
}
