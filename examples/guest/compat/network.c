/* There is no network. musl asks for a socket where it looks for a user's name, and takes this answer for an end. */
#include <errno.h>
#include <sys/types.h>

#include "calls.h"

int socket(int domain, int type, int protocol)
{
    (void)domain, (void)type, (void)protocol;
    return compat_refuse(EAFNOSUPPORT);
}

int socketpair(int domain, int type, int protocol, int ends[2])
{
    (void)ends;
    return socket(domain, type, protocol);
}
