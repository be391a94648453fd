/* Is preloaded into a program. Counts the calls of malloc and realloc, the bytes that they request,
 * and the most bytes that are held at once. Prints these three numbers on standard error when the
 * program ends. */
#define _GNU_SOURCE
#include <dlfcn.h>
#include <stdint.h>
#include <stdio.h>
#include <stdlib.h>

#include "at_end.h"

/* The blocks that are held, in a hash table with linear probing. Few enough are held at once. */
#define PLACES (1UL << 22)
static struct { uintptr_t at; size_t size; } blocks[PLACES];
static const uintptr_t FREED = 1;

static long counted;
static size_t asked, held, most;

static size_t place_of(uintptr_t at)
{
    return (at >> 4) * 0x9E3779B97F4A7C15UL >> 42;
}

static void *taken(void *block, size_t size)
{
    counted++;
    asked += size;
    if (!block)
        return block;
    size_t place = place_of((uintptr_t)block);
    while (blocks[place].at > FREED)
        place = (place + 1) % PLACES;
    blocks[place].at = (uintptr_t)block;
    blocks[place].size = size;
    held += size;
    if (held > most)
        most = held;
    return block;
}

/* Blocks from other functions aren't in the table. */
static void given_back(void *block)
{
    size_t place = place_of((uintptr_t)block);
    for (; block && blocks[place].at; place = (place + 1) % PLACES)
        if (blocks[place].at == (uintptr_t)block) {
            held -= blocks[place].size;
            blocks[place].at = FREED;
            return;
        }
}

void *malloc(size_t size)
{
    static void *(*real)(size_t);
    if (!real)
        real = dlsym(RTLD_NEXT, "malloc");
    return taken(real(size), size);
}

void *realloc(void *old, size_t size)
{
    static void *(*real)(void *, size_t);
    if (!real)
        real = dlsym(RTLD_NEXT, "realloc");
    given_back(old);
    return taken(real(old, size), size);
}

/* dlsym may call `free` itself. Such a block isn't freed. */
void free(void *block)
{
    static void (*real)(void *);
    static int looking;
    if (!real && looking++ == 0)
        real = dlsym(RTLD_NEXT, "free");
    if (!real)
        return;
    given_back(block);
    real(block);
}

static void tell(void)
{
    long requests = counted;
    size_t bytes = asked, highest = most;
    fprintf(stderr, "%ld %zu %zu\n", requests, bytes, highest);
}
