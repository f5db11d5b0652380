/* The lists and attributes of posix_spawn. */
#define _GNU_SOURCE
#include <errno.h>
#include <signal.h>
#include <stdlib.h>
#include <string.h>

#include "actions.h"

/* ---- attributes ---- */

#ifdef __PICOLIBC__

int posix_spawnattr_init(posix_spawnattr_t *attributes)
{
    *attributes = calloc(1, sizeof **attributes);
    return *attributes ? 0 : ENOMEM;
}

int posix_spawnattr_destroy(posix_spawnattr_t *attributes)
{
    free(*attributes);
    return 0;
}

int posix_spawn_file_actions_init(posix_spawn_file_actions_t *actions)
{
    *actions = calloc(1, sizeof **actions);
    return *actions ? 0 : ENOMEM;
}

static void destroy(posix_spawn_file_actions_t *actions)
{
    free(*actions);
}

#else

int posix_spawnattr_init(posix_spawnattr_t *attributes)
{
    memset(attributes, 0, sizeof *attributes);
    return 0;
}

int posix_spawnattr_destroy(posix_spawnattr_t *attributes)
{
    (void)attributes;
    return 0;
}

int posix_spawn_file_actions_init(posix_spawn_file_actions_t *actions)
{
    LIST(actions) = NULL;
    return 0;
}

static void destroy(posix_spawn_file_actions_t *actions)
{
    (void)actions;
}

#endif

int posix_spawnattr_setflags(posix_spawnattr_t *attributes, short flags)
{
    FLAGS(attributes) = flags;
    return 0;
}

int posix_spawnattr_getflags(const posix_spawnattr_t *restrict attributes, short *restrict flags)
{
    *flags = (short)FLAGS(attributes);
    return 0;
}

int posix_spawnattr_setpgroup(posix_spawnattr_t *attributes, pid_t group)
{
    GROUP(attributes) = group;
    return 0;
}

int posix_spawnattr_getpgroup(const posix_spawnattr_t *restrict attributes, pid_t *restrict group)
{
    *group = GROUP(attributes);
    return 0;
}

int posix_spawnattr_setsigdefault(posix_spawnattr_t *restrict attributes, const sigset_t *restrict set)
{
    DEFAULTS(attributes) = *set;
    return 0;
}

int posix_spawnattr_getsigdefault(const posix_spawnattr_t *restrict attributes, sigset_t *restrict set)
{
    *set = DEFAULTS(attributes);
    return 0;
}

int posix_spawnattr_setsigmask(posix_spawnattr_t *restrict attributes, const sigset_t *restrict set)
{
    MASK(attributes) = *set;
    return 0;
}

int posix_spawnattr_getsigmask(const posix_spawnattr_t *restrict attributes, sigset_t *restrict set)
{
    *set = MASK(attributes);
    return 0;
}

/* ---- what is to be done ---- */

int posix_spawn_file_actions_destroy(posix_spawn_file_actions_t *actions)
{
    struct action *next;
    for (struct action *action = LIST(actions); action; action = next) {
        next = action->next;
        free(action);
    }
    destroy(actions);
    return 0;
}

static int add(posix_spawn_file_actions_t *actions, struct action given, const char *path)
{
    struct action *action = malloc(sizeof *action + strlen(path) + 1), **end = &LIST(actions);
    if (!action)
        return ENOMEM;
    *action = given;
    strcpy(action->path, path);
    while (*end)
        end = &(*end)->next;
    *end = action;
    return 0;
}

int posix_spawn_file_actions_addopen(posix_spawn_file_actions_t *restrict actions, int descriptor,
                                     const char *restrict path, int flags, mode_t mode)
{
    return add(actions, (struct action){ NULL, OPEN, descriptor, flags, mode }, path);
}

int posix_spawn_file_actions_addclose(posix_spawn_file_actions_t *actions, int descriptor)
{
    return add(actions, (struct action){ NULL, CLOSE, descriptor, 0, 0 }, "");
}

int posix_spawn_file_actions_adddup2(posix_spawn_file_actions_t *actions, int descriptor, int wanted)
{
    return add(actions, (struct action){ NULL, DUPLICATE, descriptor, wanted, 0 }, "");
}

int posix_spawn_file_actions_addchdir_np(posix_spawn_file_actions_t *restrict actions, const char *restrict path)
{
    return add(actions, (struct action){ NULL, CHANGE_DIRECTORY, -1, 0, 0 }, path);
}

int posix_spawn_file_actions_addfchdir_np(posix_spawn_file_actions_t *actions, int descriptor)
{
    return add(actions, (struct action){ NULL, CHANGE_TO_OPEN, descriptor, 0, 0 }, "");
}
