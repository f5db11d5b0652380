/* Calls on descriptors for which the kernel has only calls on paths: fchmod, fchdir, fexecve. A descriptor keeps the
 * path by which it was opened. Where that leads elsewhere by now, or none is kept, the tree is searched from the root
 * for the inode, which is never used again. The linker has open and openat go through here (../cc). */
#define _GNU_SOURCE
#include <errno.h>
#include <fcntl.h>
#include <stdarg.h>
#include <stdlib.h>
#include <string.h>
#include <sys/stat.h>
#include <unistd.h>

#include "calls.h"

/* ---- what is kept ---- */

enum { KEPT = 256 };

/* An empty one is none. */
static char kept[DESCRIPTORS][KEPT];

static int keep(int descriptor, const char *path)
{
    size_t length = strlen(path);
    if (descriptor >= 0 && descriptor < DESCRIPTORS)
        memcpy(kept[descriptor], length < KEPT ? path : "", length < KEPT ? length + 1 : 1);
    return descriptor;
}

int __real_open(const char *path, int flags, ...);

int __wrap_open(const char *path, int flags, ...)
{
    va_list arguments;
    va_start(arguments, flags);
    int mode = flags & O_CREAT ? va_arg(arguments, int) : 0;
    va_end(arguments);
    return keep(__real_open(path, flags, mode), path);
}

/* picolibc has none. */
#ifndef __PICOLIBC__
int __real_openat(int directory, const char *path, int flags, ...);

int __wrap_openat(int directory, const char *path, int flags, ...)
{
    va_list arguments;
    va_start(arguments, flags);
    int mode = flags & O_CREAT ? va_arg(arguments, int) : 0;
    va_end(arguments);
    int descriptor = __real_openat(directory, path, flags, mode);
    return keep(descriptor, directory == AT_FDCWD || (descriptor >= 0 && path[0] == '/') ? path : "");
}
#endif

/* ---- what is searched for ---- */

/* A directory that has still to be looked at. */
struct place {
    struct place *next;
    char path[];
};

struct search {
    uint64_t inode;
    struct place *first, **end;
};

/* An entry of a listing, as the kernel writes it. */
struct entry {
    uint64_t inode, offset;
    uint16_t size;
    uint8_t kind;
    char name[];
};

enum { KIND_DIRECTORY = 4, LISTED = 2048 };

static int add(struct search *search, const char *directory, const char *name)
{
    size_t length = strlen(directory), more = strlen(name);
    struct place *place = malloc(sizeof *place + length + more + 2);
    if (!place)
        return compat_refuse(ENOMEM);
    memcpy(place->path, directory, length);
    place->path[length] = '/';
    memcpy(place->path + length + 1, name, more + 1);
    place->next = NULL;
    *search->end = place;
    search->end = &place->next;
    return 0;
}

/* Looks at the entries of a listing, and has directories looked at later: 1 where the node is there, and `found` its
 * name. */
static int find(struct search *search, const char *directory, const char *list, long size, const char **found)
{
    for (long at = 0; at < size; at += ((const struct entry *)(list + at))->size) {
        const struct entry *entry = (const struct entry *)(list + at);
        if (!strcmp(entry->name, ".") || !strcmp(entry->name, ".."))
            continue;
        *found = entry->name;
        if (entry->inode == search->inode)
            return 1;
        if (entry->kind == KIND_DIRECTORY && add(search, directory, entry->name) < 0)
            return -1;
    }
    return 0;
}

/* Looks through a directory: 1 where the node is there, and its path; 0, or -1 and errno. */
static int look_through(struct search *search, const char *directory, char path[PATH_SIZE])
{
    _Alignas(8) char list[LISTED];
    const char *name;
    const char *opened = directory[0] ? directory : "/";
    int is_found = 0;
    long size = 1;
    long descriptor = compat_answer(compat_call(SYS_openat, LINUX_AT_FDCWD, (long)opened,
                                                LINUX_O_RDONLY | LINUX_O_DIRECTORY | LINUX_O_CLOEXEC, 0));
    if (descriptor < 0)
        return errno == EMFILE ? -1 : 0;
    while (is_found == 0 && size > 0) {
        size = compat_call(SYS_getdents64, descriptor, (long)list, sizeof list, 0);
        is_found = find(search, directory, list, size, &name);
    }
    if (is_found == 1 && strlen(directory) + strlen(name) + 2 > PATH_SIZE)
        is_found = compat_refuse(ENAMETOOLONG);
    if (is_found == 1)
        strcat(strcat(strcpy(path, directory), "/"), name);
    compat_call(SYS_close, descriptor, 0, 0, 0);
    return is_found;
}

/* The first path at which the node stands, directory by directory. */
static int search_tree(uint64_t inode, char path[PATH_SIZE])
{
    struct search search = { inode, NULL, &search.first };
    int is_found = look_through(&search, "", path);
    while (is_found == 0 && search.first) {
        struct place *place = search.first;
        is_found = look_through(&search, place->path, path);
        search.first = place->next;
        if (!search.first)
            search.end = &search.first;
        free(place);
    }
    while (search.first) {
        struct place *place = search.first;
        search.first = place->next;
        free(place);
    }
    return is_found == 1 ? 0 : is_found == 0 ? compat_refuse(ENOENT) : -1;
}

static int is_at(const char *path, uint64_t inode)
{
    struct node node;
    return path[0] && compat_look(AT_FDCWD, path, 1, &node) == 0 && node.inode == inode;
}

int compat_path(int descriptor, char path[PATH_SIZE])
{
    struct node node;
    if (compat_answer(compat_look_open(descriptor, &node)) < 0)
        return -1;
    if (!compat_is(&node, S_IFREG) && !compat_is(&node, S_IFDIR))
        return compat_refuse(EINVAL);
    if (is_at("/", node.inode)) {
        strcpy(path, "/");
        return 0;
    }
    if (is_at(kept[descriptor], node.inode)) {
        strcpy(path, kept[descriptor]);
        return 0;
    }
    return search_tree(node.inode, path);
}

/* ---- what they are for ---- */

int fchmod(int descriptor, mode_t mode)
{
    char path[PATH_SIZE];
    if (compat_path(descriptor, path) < 0)
        return -1;
    return (int)compat_answer(compat_call(SYS_fchmodat, LINUX_AT_FDCWD, (long)path, mode, 0));
}

int fchdir(int descriptor)
{
    char path[PATH_SIZE];
    if (compat_path(descriptor, path) < 0)
        return errno == EINVAL ? compat_refuse(ENOTDIR) : -1;
    return (int)compat_answer(compat_call(SYS_chdir, (long)path, 0, 0, 0));
}

int fexecve(int descriptor, char *const arguments[], char *const environment[])
{
    char path[PATH_SIZE];
    if (compat_path(descriptor, path) < 0)
        return -1;
    return (int)compat_answer(compat_call(SYS_execve, (long)path, (long)arguments, (long)environment, 0));
}
