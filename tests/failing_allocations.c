/* A library for LD_PRELOAD, which tests/allocations builds: allocations of the program that loads it fail.

   FAILING_FILE names a file of two numbers of eight bytes each: how many allocations there have been, and how many of
   them failed. Those fail whose number, counted from 1, is at least FAILING_FIRST and at most FAILING_LAST. An
   allocation is a call of malloc, calloc, realloc, memalign, aligned_alloc or posix_memalign; those before this library
   is set up do not count.

   A program built with the address sanitizer has these functions itself, and there each begins with a jump. The jump is
   then led here, and from here to where it led. That is for x86-64 alone. */
#define _GNU_SOURCE
#include <dlfcn.h>
#include <errno.h>
#include <fcntl.h>
#include <stddef.h>
#include <stdint.h>
#include <stdio.h>
#include <stdlib.h>
#include <string.h>
#include <sys/mman.h>
#include <unistd.h>

extern void *__libc_malloc(size_t), *__libc_calloc(size_t, size_t);
extern void *__libc_realloc(void *, size_t), *__libc_memalign(size_t, size_t);

static void *(*next_malloc)(size_t) = __libc_malloc;
static void *(*next_calloc)(size_t, size_t) = __libc_calloc;
static void *(*next_realloc)(void *, size_t) = __libc_realloc;
static void *(*next_memalign)(size_t, size_t) = __libc_memalign;

struct counts {
    uint64_t made, failed;
};

static struct counts *counts;
static uint64_t first, last;

/* Says whether the allocation that is asked for now fails. */
static int fails(void) {
    if (!counts) return 0;
    uint64_t number = __atomic_add_fetch(&counts->made, 1, __ATOMIC_RELAXED);
    if (number < first || number > last) return 0;
    __atomic_add_fetch(&counts->failed, 1, __ATOMIC_RELAXED);
    errno = ENOMEM;
    return 1;
}

static void *failing_malloc(size_t size) { return fails() ? NULL : next_malloc(size); }

static void *failing_calloc(size_t count, size_t size) { return fails() ? NULL : next_calloc(count, size); }

static void *failing_realloc(void *old, size_t size) { return fails() ? NULL : next_realloc(old, size); }

static void *failing_memalign(size_t alignment, size_t size) { return fails() ? NULL : next_memalign(alignment, size); }

static int failing_posix_memalign(void **given, size_t alignment, size_t size) {
    void *made = failing_memalign(alignment, size);
    if (!made) return ENOMEM;
    *given = made;
    return 0;
}

/* In the place of the C library's own, where the program has none of these functions. */
void *malloc(size_t size) __attribute__((alias("failing_malloc")));
void *calloc(size_t count, size_t size) __attribute__((alias("failing_calloc")));
void *realloc(void *old, size_t size) __attribute__((alias("failing_realloc")));
void *memalign(size_t alignment, size_t size) __attribute__((alias("failing_memalign")));
void *aligned_alloc(size_t alignment, size_t size) __attribute__((alias("failing_memalign")));
int posix_memalign(void **given, size_t alignment, size_t size) __attribute__((alias("failing_posix_memalign")));

static void stop(const char *why) {
    dprintf(2, "failing_allocations: %s\n", why);
    _exit(98);
}

enum { JUMP = 0xe9, JUMP_SIZE = 5, FAR_JUMP_SIZE = 14, PAGE = 4096 };

/* Returns a page to jump from, so near that a jump from the program reaches it. */
static unsigned char *page_near(uintptr_t place) {
    for (uintptr_t at = place & ~(uintptr_t)(PAGE - 1), tries = 0; tries < 100000; at -= 16 * PAGE, tries++) {
        int how = MAP_PRIVATE | MAP_ANONYMOUS | MAP_FIXED_NOREPLACE;
        void *page = mmap((void *)at, PAGE, PROT_READ | PROT_WRITE | PROT_EXEC, how, -1, 0);
        if (page == (void *)at) return page;
        if (page != MAP_FAILED) munmap(page, PAGE);
    }
    stop("no page near the program");
    return NULL;
}

/* Has the program's own function lead to `here`. Returns where it led, or `otherwise` where the program has none. */
static void *lead(const char *name, void *here, void *otherwise) {
    static unsigned char *page, *end;
    unsigned char *theirs = dlsym(RTLD_DEFAULT, name);
    if (theirs == here) return otherwise;
    if (!theirs || theirs[0] != JUMP) stop("the program's own allocation does not begin with a jump");
    int32_t way;
    memcpy(&way, theirs + 1, sizeof way);
    void *there = theirs + JUMP_SIZE + way;
    if (!page) page = end = page_near((uintptr_t)theirs);
    memcpy(end, "\xff\x25\0\0\0\0", 6);
    memcpy(end + 6, &here, sizeof here);
    way = (int32_t)(end - (theirs + JUMP_SIZE));
    end += FAR_JUMP_SIZE;
    unsigned char *from = (unsigned char *)((uintptr_t)theirs & ~(uintptr_t)(PAGE - 1));
    if (mprotect(from, 2 * PAGE, PROT_READ | PROT_WRITE | PROT_EXEC)) stop("the program cannot be changed");
    memcpy(theirs + 1, &way, sizeof way);
    mprotect(from, 2 * PAGE, PROT_READ | PROT_EXEC);
    return there;
}

static uint64_t number_of(const char *name) {
    const char *text = getenv(name);
    return text ? strtoull(text, NULL, 10) : 0;
}

__attribute__((constructor)) static void set_up(void) {
    const char *path = getenv("FAILING_FILE");
    if (!path) return;
    first = number_of("FAILING_FIRST");
    last = number_of("FAILING_LAST");
    next_malloc = lead("malloc", failing_malloc, __libc_malloc);
    next_calloc = lead("calloc", failing_calloc, __libc_calloc);
    next_realloc = lead("realloc", failing_realloc, __libc_realloc);
    next_memalign = lead("memalign", failing_memalign, __libc_memalign);
    int file = open(path, O_RDWR);
    void *mapped = file < 0 ? MAP_FAILED : mmap(NULL, sizeof *counts, PROT_READ | PROT_WRITE, MAP_SHARED, file, 0);
    if (mapped == MAP_FAILED) stop("no file to count in");
    close(file);
    counts = mapped;
}
