/* What posix_spawn is to do in a child before it starts a program. Private to this library. */
#include <spawn.h>
#include <sys/types.h>

enum kind { OPEN, CLOSE, DUPLICATE, CHANGE_DIRECTORY, CHANGE_TO_OPEN };

/* One thing to do. Behind it stands the path of OPEN and CHANGE_DIRECTORY; the flags of DUPLICATE are the number that
 * is wanted. */
struct action {
    struct action *next;
    enum kind kind;
    int descriptor, flags;
    mode_t mode;
    char path[];
};

/* Where the C library's types keep the list, and the attributes. musl's have room for them; picolibc's are pointers. */
#ifdef __PICOLIBC__

struct __posix_spawn_file_actions {
    struct action *first;
};

struct __posix_spawnattr {
    int flags;
    pid_t group;
    sigset_t defaults, mask;
};

#define LIST(actions) ((*(actions))->first)
#define FLAGS(attributes) ((*(attributes))->flags)
#define GROUP(attributes) ((*(attributes))->group)
#define DEFAULTS(attributes) ((*(attributes))->defaults)
#define MASK(attributes) ((*(attributes))->mask)

#else

#define LIST(actions) (*(struct action **)&(actions)->__actions)
#define FLAGS(attributes) ((attributes)->__flags)
#define GROUP(attributes) ((attributes)->__pgrp)
#define DEFAULTS(attributes) ((attributes)->__def)
#define MASK(attributes) ((attributes)->__mask)

#endif
