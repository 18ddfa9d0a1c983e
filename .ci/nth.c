/* Refuses one allocation of those that a program's own code asks for. It is preloaded by `.ci/refused_memory`.
 *
 * NTH=N refuses the N-th allocation, counted from 1; without it none is refused. NTH_LOG=FILE has two numbers of 8 bytes in
 * the machine's order, however the program ends: how many allocations were asked for, and how many threads were started. What
 * the C library asks for itself is not counted. */
#define _GNU_SOURCE
#include <errno.h>
#include <dlfcn.h>
#include <fcntl.h>
#include <link.h>
#include <pthread.h>
#include <stdatomic.h>
#include <stdlib.h>
#include <sys/mman.h>
#include <unistd.h>

extern void *__libc_malloc(size_t);
extern void *__libc_calloc(size_t, size_t);
extern void *__libc_realloc(void *, size_t);
extern void *__libc_memalign(size_t, size_t);

static atomic_ulong own_counts[2];
static atomic_ulong *counts = own_counts;
static unsigned long nth;
static uintptr_t low, high;

/* Finds where the program lies in memory: it is the first object. */
static int find(struct dl_phdr_info *info, size_t size, void *data) {
    (void)size, (void)data;
    for (int i = 0; i < info->dlpi_phnum; i++) {
        const ElfW(Phdr) *it = &info->dlpi_phdr[i];
        if (it->p_type != PT_LOAD) continue;
        uintptr_t from = info->dlpi_addr + it->p_vaddr;
        if (!low || from < low) low = from;
        if (from + it->p_memsz > high) high = from + it->p_memsz;
    }
    return 1;
}

__attribute__((constructor)) static void begin(void) {
    const char *number = getenv("NTH");
    nth = number ? strtoul(number, 0, 10) : 0;
    dl_iterate_phdr(find, 0);
    const char *name = getenv("NTH_LOG");
    int fd = name ? open(name, O_RDWR | O_CREAT | O_TRUNC, 0644) : -1;
    if (fd < 0) return;
    if (ftruncate(fd, sizeof own_counts) == 0) {
        void *shared = mmap(0, sizeof own_counts, PROT_READ | PROT_WRITE, MAP_SHARED, fd, 0);
        if (shared != MAP_FAILED) counts = shared;
    }
    close(fd);
}

/* Counts an allocation that the program asks for from this place, and returns whether it is the one to refuse. */
static int refused(void *caller) {
    uintptr_t at = (uintptr_t)caller;
    if (at < low || at >= high) return 0;
    if (atomic_fetch_add(&counts[0], 1) + 1 != nth) return 0;
    errno = ENOMEM;
    return 1;
}

#define REFUSED refused(__builtin_return_address(0))

void *malloc(size_t n) { return REFUSED ? 0 : __libc_malloc(n); }
void *calloc(size_t n, size_t m) { return REFUSED ? 0 : __libc_calloc(n, m); }
void *realloc(void *p, size_t n) { return REFUSED ? 0 : __libc_realloc(p, n); }
void *aligned_alloc(size_t a, size_t n) { return REFUSED ? 0 : __libc_memalign(a, n); }
int posix_memalign(void **p, size_t a, size_t n) {
    void *q = REFUSED ? 0 : __libc_memalign(a, n);
    if (q) *p = q;
    return q ? 0 : ENOMEM;
}

int pthread_create(pthread_t *thread, const pthread_attr_t *attributes, void *(*start)(void *), void *argument) {
    int (*real)(pthread_t *, const pthread_attr_t *, void *(*)(void *), void *) = dlsym(RTLD_NEXT, "pthread_create");
    atomic_fetch_add(&counts[1], 1);
    return real(thread, attributes, start, argument);
}
