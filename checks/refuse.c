/* Loaded before a program (LD_PRELOAD), it lets one of the program's calls fail, or all from one on, and counts them.
 * checks/memory makes a library of it and says by REFUSE what fails, as KIND and NUMBER, counted from 1:
 *
 *   one N       the Nth allocation
 *   from N      the Nth allocation and each one after it
 *   fault N     the Nth read or write
 *   short N     the Nth read or write of several bytes moves one
 *   again N     the Nth read or write is interrupted before it moves any
 *   nothing N   the Nth read or write moves none
 *
 * The start of a thread counts as an allocation too. Reads are those of standard input, and writes those of standard
 * output. REFUSE_COUNTS names a file for the counts, which are there however the program ends. */
#define _GNU_SOURCE
#include <dlfcn.h>
#include <errno.h>
#include <fcntl.h>
#include <pthread.h>
#include <stdatomic.h>
#include <stdio.h>
#include <stdlib.h>
#include <string.h>
#include <sys/mman.h>
#include <unistd.h>

extern void *__libc_malloc(size_t);
extern void *__libc_calloc(size_t, size_t);
extern void *__libc_realloc(void *, size_t);

/* As checks/memory reads them: the allocations, how many there were at the first start of a thread, the starts, the
 * allocations since the first write, the reads, the writes, and how often a call failed. */
struct counts {
    atomic_ullong allocations, before, starts, late, reads, writes, failed;
};

static struct counts unseen, *counts = &unseen;
static char kind[16];
static unsigned long long number;
static ssize_t (*next_read)(int, void *, size_t);
static ssize_t (*next_write)(int, const void *, size_t);
static int (*next_create)(pthread_t *, const pthread_attr_t *, void *(*)(void *), void *);

__attribute__((constructor)) static void begin(void)
{
    *(void **)&next_read = dlsym(RTLD_NEXT, "read");
    *(void **)&next_write = dlsym(RTLD_NEXT, "write");
    *(void **)&next_create = dlsym(RTLD_NEXT, "pthread_create");
    const char *what = getenv("REFUSE"), *path = getenv("REFUSE_COUNTS");
    int file = path ? open(path, O_RDWR) : -1;
    void *shared = mmap(NULL, sizeof unseen, PROT_READ | PROT_WRITE, MAP_SHARED, file, 0);
    if (shared != MAP_FAILED) counts = shared;
    if (what) sscanf(what, "%15s %llu", kind, &number);
}

static int is_kind(const char *name) { return strcmp(kind, name) == 0; }

/* Whether the allocation that comes now is to fail. */
static int is_refused(void)
{
    unsigned long long now = atomic_fetch_add(&counts->allocations, 1) + 1;
    if (atomic_load(&counts->writes)) atomic_fetch_add(&counts->late, 1);
    if (!(is_kind("one") && now == number) && !(is_kind("from") && now >= number)) return 0;
    atomic_fetch_add(&counts->failed, 1);
    errno = ENOMEM;
    return 1;
}

void *malloc(size_t size) { return is_refused() ? NULL : __libc_malloc(size); }

void *calloc(size_t count, size_t size) { return is_refused() ? NULL : __libc_calloc(count, size); }

void *realloc(void *old, size_t size) { return is_refused() ? NULL : __libc_realloc(old, size); }

int pthread_create(pthread_t *thread, const pthread_attr_t *how, void *(*run)(void *), void *with)
{
    if (atomic_fetch_add(&counts->starts, 1) == 0) atomic_store(&counts->before, atomic_load(&counts->allocations));
    return is_refused() ? EAGAIN : next_create(thread, how, run, with);
}

/* How many bytes of a read or a write may move, or -1 where it fails. */
static ssize_t allowed(size_t size)
{
    static atomic_ullong calls;
    int is_short = is_kind("short"), is_again = is_kind("again"), is_nothing = is_kind("nothing");
    if (!is_short && !is_again && !is_nothing && !is_kind("fault")) return size;
    if (is_short && size < 2) return size;
    if (atomic_fetch_add(&calls, 1) + 1 != number) return size;
    atomic_fetch_add(&counts->failed, 1);
    errno = is_again ? EINTR : EIO;
    return is_short ? 1 : is_nothing ? 0 : -1;
}

ssize_t read(int from, void *to, size_t size)
{
    if (from != STDIN_FILENO) return next_read(from, to, size);
    atomic_fetch_add(&counts->reads, 1);
    ssize_t most = allowed(size);
    return most > 0 ? next_read(from, to, most) : most;
}

ssize_t write(int to, const void *bytes, size_t size)
{
    if (to != STDOUT_FILENO) return next_write(to, bytes, size);
    atomic_fetch_add(&counts->writes, 1);
    ssize_t most = allowed(size);
    return most > 0 ? next_write(to, bytes, most) : most;
}
