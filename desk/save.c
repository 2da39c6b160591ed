#define _XOPEN_SOURCE 700
#include "save.h"

#include <errno.h>
#include <stdio.h>
#include <stdlib.h>
#include <string.h>
#include <sys/stat.h>
#include <unistd.h>

/* The rights that a new file has, since the one beside it is made closed to others. */
static mode_t rights_of_new(void)
{
    mode_t mask = umask(0);
    umask(mask);
    return 0666 & ~mask;
}

static bool write_all(int out, const uint8_t *bytes, size_t length)
{
    while (length > 0) {
        ssize_t written = write(out, bytes, length);
        if (written < 0 && errno == EINTR) {
            continue;
        }
        if (written <= 0) {
            return false;
        }
        bytes += written;
        length -= (size_t)written;
    }
    /* a disk may be full only now */
    return fsync(out) == 0;
}

/* Writes a file beside the old one, and then puts it in its place. The name of the one beside ends in six X. */
static bool replace(const char *file, char *beside, mode_t rights, const uint8_t *bytes, size_t length)
{
    int out = mkstemp(beside);
    if (out < 0) {
        return false;
    }
    bool good = write_all(out, bytes, length) && fchmod(out, rights) == 0;
    good = close(out) == 0 && good;
    if (good && rename(beside, file) == 0) {
        return true;
    }
    int why = errno;
    unlink(beside);
    errno = why;
    return false;
}

static bool replace_in_place(const char *file, mode_t rights, const uint8_t *bytes, size_t length)
{
    static const char BESIDE[] = ".desk.XXXXXX";
    const char *slash = strrchr(file, '/');
    size_t folder = slash == NULL ? 0 : (size_t)(slash - file) + 1;
    size_t room = folder + sizeof BESIDE;
    char *beside = malloc(room);
    if (beside == NULL) {
        return false;
    }
    /* a name of its own, since one made longer may be too long */
    snprintf(beside, room, "%.*s%s", (int)folder, file, BESIDE);
    bool good = replace(file, beside, rights, bytes, length);
    free(beside);
    return good;
}

/* A link to a file stays, and the file is replaced; a device or a folder is not. */
bool save(const char *file, const uint8_t *bytes, size_t length)
{
    struct stat old;
    if (stat(file, &old) != 0) {
        return errno == ENOENT && replace_in_place(file, rights_of_new(), bytes, length);
    }
    if (!S_ISREG(old.st_mode)) {
        errno = S_ISDIR(old.st_mode) ? EISDIR : ENOTSUP;
        return false;
    }
    char *whole = realpath(file, NULL);
    bool good = whole != NULL && replace_in_place(whole, old.st_mode & 0777, bytes, length);
    free(whole);
    return good;
}
