// Refuses one allocation of a program; to be preloaded (LD_PRELOAD).
//
// REFUSED   the number of the allocation that is refused, from 1; 0 for none
// COUNTED   a file of eight bytes, into which the number of allocations so far is written
// CALLERS   where in the program's file the functions stand that ask for memory: FROM-TO,FROM-TO, hexadecimal
//
// Only calls that return into these functions count: not those of the loader and of the C library, nor those by which a
// thread is started.
#define _GNU_SOURCE
#include <dlfcn.h>
#include <errno.h>
#include <fcntl.h>
#include <link.h>
#include <stdatomic.h>
#include <stdint.h>
#include <stdlib.h>
#include <sys/mman.h>
#include <unistd.h>

enum { MOST_CALLERS = 8 };

static struct { uintptr_t from, to; } callers[MOST_CALLERS];
static int caller_count;
static unsigned long long refused;
static _Atomic unsigned long long *counted;

// Where the first object lies, which is the program.
static int find_program(struct dl_phdr_info *object, size_t size, void *base) {
    (void)size;
    *(uintptr_t *)base = object->dlpi_addr;
    return 1;
}

static void read_callers(const char *text) {
    uintptr_t base = 0;
    dl_iterate_phdr(find_program, &base);
    while (*text && caller_count < MOST_CALLERS) {
        char *end;
        callers[caller_count].from = base + strtoull(text, &end, 16);
        if (*end++ != '-') abort();
        callers[caller_count++].to = base + strtoull(end, &end, 16);
        text = *end == ',' ? end + 1 : end;
    }
}

__attribute__((constructor)) static void begin(void) {
    const char *number = getenv("REFUSED"), *file = getenv("COUNTED"), *from = getenv("CALLERS");
    int at = file ? open(file, O_RDWR) : -1;
    if (!number || !from || at < 0) abort();
    refused = strtoull(number, NULL, 10);
    read_callers(from);
    void *place = mmap(NULL, sizeof *counted, PROT_READ | PROT_WRITE, MAP_SHARED, at, 0);
    if (place == MAP_FAILED) abort();
    close(at);
    counted = place;
}

// Whether the call that returns to this address is the one that is refused.
static int is_refused(void *back) {
    if (!counted) return 0;
    for (int i = 0; i < caller_count; i++)
        if (callers[i].from < (uintptr_t)back && (uintptr_t)back <= callers[i].to)
            return atomic_fetch_add(counted, 1) + 1 == refused;
    return 0;
}

#define BACK __builtin_extract_return_addr(__builtin_return_address(0))

// The next function of this name, which is the C library's. The library asks for these before `begin`, too.
#define NEXT(name) \
    static __typeof__(name) *next; \
    if (!next) next = (__typeof__(name) *)dlsym(RTLD_NEXT, #name)

void *malloc(size_t size) {
    NEXT(malloc);
    return is_refused(BACK) ? (errno = ENOMEM, NULL) : next(size);
}

void *realloc(void *old, size_t size) {
    NEXT(realloc);
    return is_refused(BACK) ? (errno = ENOMEM, NULL) : next(old, size);
}

void *aligned_alloc(size_t align, size_t size) {
    NEXT(aligned_alloc);
    return is_refused(BACK) ? (errno = ENOMEM, NULL) : next(align, size);
}

int posix_memalign(void **place, size_t align, size_t size) {
    NEXT(posix_memalign);
    return is_refused(BACK) ? ENOMEM : next(place, align, size);
}

// `dlsym` itself may ask for zeroed memory, so this one needs no `dlsym`.
extern void *__libc_calloc(size_t count, size_t size);

void *calloc(size_t count, size_t size) {
    return is_refused(BACK) ? (errno = ENOMEM, NULL) : __libc_calloc(count, size);
}
