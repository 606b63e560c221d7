// Fails calls of the program that it is loaded into by LD_PRELOAD: failing.py builds it and says which calls.
// FAIL_CALL is memory, thread, open, stat, read, write (to standard output) or note (to standard error). The calls of that kind are
// numbered from 0, through all threads; those from FAIL_FROM on and before FAIL_TO fail. FAIL_HOW says how: an error's number, `none` for
// 0 bytes, `short` for one byte at most, and `stop` stops the process before the call, which is made once the process is continued.
// FAIL_MOST is how many bytes any other write takes at most. The file FAIL_COUNTS gets how many calls there were, and how many failed.
// Openings below /sys/ aren't counted: the library looks there how many processors there are.
#define _GNU_SOURCE
#include <dlfcn.h>
#include <errno.h>
#include <fcntl.h>
#include <pthread.h>
#include <signal.h>
#include <stdatomic.h>
#include <stdlib.h>
#include <string.h>
#include <sys/mman.h>
#include <sys/stat.h>
#include <sys/syscall.h>
#include <unistd.h>

void *__libc_malloc(size_t);
void *__libc_calloc(size_t, size_t);
void *__libc_realloc(void *, size_t);
void *__libc_memalign(size_t, size_t);

static struct counts {
    atomic_long calls, failed;
} *counts;
static const char *failing = "", *how = "";
static long from, to, most;
static int (*create)(pthread_t *, const pthread_attr_t *, void *(*)(void *), void *);

static long number_of(const char *name) {
    const char *text = getenv(name);
    return text ? atol(text) : 0;
}

__attribute__((constructor)) static void begin(void) {
    create = dlsym(RTLD_NEXT, "pthread_create");
    int file = syscall(SYS_openat, AT_FDCWD, getenv("FAIL_COUNTS"), O_RDWR);
    counts = mmap(NULL, sizeof *counts, PROT_READ | PROT_WRITE, MAP_SHARED, file, 0);
    close(file);
    from = number_of("FAIL_FROM");
    to = number_of("FAIL_TO");
    most = number_of("FAIL_MOST");
    how = getenv("FAIL_HOW");
    failing = getenv("FAIL_CALL"); // From here on calls are counted.
}

static int fails(const char *call) {
    if (strcmp(call, failing))
        return 0;
    long number = counts->calls++;
    if (number < from || number >= to)
        return 0;
    counts->failed++;
    errno = atoi(how);
    if (strcmp(how, "stop"))
        return 1;
    raise(SIGSTOP);
    return 0;
}

// What a read or a write is, of so many bytes: as it is, none, short or an error.
static ssize_t moved(const char *call, long kind, int file, void *bytes, size_t size, off_t at) {
    int fail = fails(call);
    if (fail && !strcmp(how, "none"))
        return 0;
    if (fail && strcmp(how, "short"))
        return -1;
    if (fail && size > 1)
        size = 1;
    if (kind == SYS_write && most && size > (size_t)most)
        size = most;
    return syscall(kind, file, bytes, size, at);
}

ssize_t pread(int file, void *bytes, size_t size, off_t at) { return moved("read", SYS_pread64, file, bytes, size, at); }
ssize_t pread64(int file, void *bytes, size_t size, off_t at) { return pread(file, bytes, size, at); }

ssize_t write(int file, const void *bytes, size_t size) {
    return moved(file == 2 ? "note" : "write", SYS_write, file, (void *)bytes, size, 0);
}

int open(const char *name, int flags, ...) {
    int is_counted = strncmp(name, "/sys/", 5);
    return is_counted && fails("open") ? -1 : syscall(SYS_openat, AT_FDCWD, name, flags, 0);
}
int open64(const char *name, int flags, ...) { return open(name, flags); }

int statx(int folder, const char *name, int flags, unsigned mask, struct statx *found) {
    return fails("stat") ? -1 : syscall(SYS_statx, folder, name, flags, mask, found);
}

int pthread_create(pthread_t *thread, const pthread_attr_t *as, void *(*run)(void *), void *with) {
    return fails("thread") ? EAGAIN : create(thread, as, run, with);
}

void *malloc(size_t size) { return fails("memory") ? NULL : __libc_malloc(size); }
void *calloc(size_t count, size_t size) { return fails("memory") ? NULL : __libc_calloc(count, size); }
void *realloc(void *old, size_t size) { return fails("memory") ? NULL : __libc_realloc(old, size); }
void *memalign(size_t align, size_t size) { return fails("memory") ? NULL : __libc_memalign(align, size); }
void *aligned_alloc(size_t align, size_t size) { return memalign(align, size); }
int posix_memalign(void **made, size_t align, size_t size) { return (*made = memalign(align, size)) ? 0 : ENOMEM; }
