/* Lets calls of the system fail with an error of the disk. It is preloaded by `.ci/server_run`.
 *
 * FAILING=fsync lets each fsync fail, FAILING=fdatasync each fdatasync, and FAILING=N the N-th read of a folder, counted from 1. */
#define _GNU_SOURCE
#include <dlfcn.h>
#include <errno.h>
#include <stdatomic.h>
#include <stdlib.h>
#include <string.h>
#include <sys/types.h>

static atomic_ulong reads;

/* Returns what FAILING names, or an empty text. */
static const char *failing(void) {
    const char *name = getenv("FAILING");
    return name ? name : "";
}

static int fail(void) {
    errno = EIO;
    return -1;
}

int fsync(int fd) {
    if (strcmp(failing(), "fsync") == 0) return fail();
    return ((int (*)(int))dlsym(RTLD_NEXT, "fsync"))(fd);
}

int fdatasync(int fd) {
    if (strcmp(failing(), "fdatasync") == 0) return fail();
    return ((int (*)(int))dlsym(RTLD_NEXT, "fdatasync"))(fd);
}

ssize_t getdents64(int fd, void *buf, size_t len) {
    if (atomic_fetch_add(&reads, 1) + 1 == strtoul(failing(), 0, 10)) return fail();
    return ((ssize_t (*)(int, void *, size_t))dlsym(RTLD_NEXT, "getdents64"))(fd, buf, len);
}
