#include "access.h"

#include <errno.h>
#include <stdlib.h>
#include <sys/stat.h>
#include <sys/xattr.h>
#include <unistd.h>

static const char list_name[] = "system.posix_acl_access";

/* Copies the access list. A file without one must not get that which its folder gives to new files. */
static bool keep_list(int old, int new)
{
    char list[4096];
    ssize_t length = fgetxattr(old, list_name, list, sizeof list);

    if (length > 0)
        return fsetxattr(new, list_name, list, (size_t)length, 0) == 0;
    if (length < 0 && errno != ENODATA && errno != ENOTSUP)
        return false;
    return fremovexattr(new, list_name) == 0 || errno == ENODATA || errno == ENOTSUP;
}

bool keep_access(int old, int new)
{
    struct stat wanted, found;

    if (fstat(old, &wanted) != 0 || fstat(new, &found) != 0)
        return false;
    if (wanted.st_uid != found.st_uid && fchown(new, wanted.st_uid, wanted.st_gid) == 0)
        found = wanted;
    if (wanted.st_gid != found.st_gid && fchown(new, (uid_t)-1, wanted.st_gid) != 0)
        return false;
    /* the list before the mode: without it, the folder's list would apply once the mode lets a group in */
    return keep_list(old, new) && fchmod(new, wanted.st_mode & 07777) == 0;
}
