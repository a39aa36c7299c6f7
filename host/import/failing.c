/* Makes one write or one sync of a file fail, for host/import/test, which preloads it:
 *
 *     FAILING=KIND:END:NUMBER:ERROR LD_PRELOAD=.. COMMAND
 *
 * Of the calls of a KIND, `write` or `sync`, on files whose names end with END the one with the NUMBER, from 1, does nothing and is refused with the ERROR;
 * the others are the system's. A sync that was refused is not refused again: whoever asks once more and believes the answer has lost what was written.
 */
#define _GNU_SOURCE
#include <dlfcn.h>
#include <errno.h>
#include <limits.h>
#include <stdio.h>
#include <stdlib.h>
#include <string.h>
#include <unistd.h>

static int ends_with(int file, const char *end) {
    char path[32], name[PATH_MAX];
    size_t length = strlen(end);
    snprintf(path, sizeof path, "/proc/self/fd/%d", file);
    ssize_t read = readlink(path, name, sizeof name);
    return read >= (ssize_t)length && memcmp(name + read - length, end, length) == 0;
}

/* Only the thread that writes to the store comes here with a file that counts. */
static int fails(const char *kind, int file) {
    static int met;
    char asked[8], end[16];
    int number, error;
    const char *said = getenv("FAILING");
    if (!said || sscanf(said, "%7[^:]:%15[^:]:%d:%d", asked, end, &number, &error) != 4) return 0;
    if (strcmp(asked, kind) || !ends_with(file, end) || ++met != number) return 0;
    errno = error;
    return 1;
}

#define SYSTEMS(name) ((__typeof__(&name))dlsym(RTLD_NEXT, #name))

int fsync(int file) { return fails("sync", file) ? -1 : SYSTEMS(fsync)(file); }
int fdatasync(int file) { return fails("sync", file) ? -1 : SYSTEMS(fdatasync)(file); }
ssize_t write(int file, const void *bytes, size_t count) { return fails("write", file) ? -1 : SYSTEMS(write)(file, bytes, count); }
ssize_t pwrite(int file, const void *bytes, size_t count, off_t at) { return fails("write", file) ? -1 : SYSTEMS(pwrite)(file, bytes, count, at); }
ssize_t pwrite64(int file, const void *bytes, size_t count, off64_t at) { return fails("write", file) ? -1 : SYSTEMS(pwrite64)(file, bytes, count, at); }
