/* Is preloaded into a program. Makes call number REFUSE_AT (from 1) of the kind REFUSE_KIND fail:
 * malloc (or realloc), read, or write (to standard output). If REFUSE_FROM is set, counting starts
 * at the first write to standard output that begins with it. Creates the file REFUSE_TOLD when the
 * call fails. At the end writes the number of blocks that are held to the file REFUSE_HELD. */
#define _GNU_SOURCE
#include <dlfcn.h>
#include <errno.h>
#include <fcntl.h>
#include <stdio.h>
#include <stdlib.h>
#include <string.h>
#include <sys/types.h>
#include <unistd.h>

static long counted, held;
static int begun;

static int refused(const char *kind)
{
    if (!begun && getenv("REFUSE_FROM"))
        return 0;
    const char *wanted = getenv("REFUSE_KIND");
    const char *at = getenv("REFUSE_AT");
    const char *told = getenv("REFUSE_TOLD");
    if (!wanted || !at || strcmp(wanted, kind) != 0 || ++counted != atol(at))
        return 0;
    if (told)
        close(open(told, O_CREAT | O_WRONLY, 0600));
    return 1;
}

void *malloc(size_t size)
{
    void *(*real)(size_t) = dlsym(RTLD_NEXT, "malloc");
    void *block = refused("malloc") ? NULL : real(size);
    held += block != NULL;
    return block;
}

void *realloc(void *old, size_t size)
{
    void *(*real)(void *, size_t) = dlsym(RTLD_NEXT, "realloc");
    void *block = refused("malloc") ? NULL : real(old, size);
    held += !old && block;
    return block;
}

/* dlsym may call `free` itself. Such a block isn't freed. */
void free(void *block)
{
    static void (*real)(void *);
    static int looking;
    if (!real && looking++ == 0)
        real = dlsym(RTLD_NEXT, "free");
    if (!real)
        return;
    held -= block != NULL;
    real(block);
}

/* Doesn't allocate, since that would count. */
__attribute__((destructor)) static void tell(void)
{
    const char *path = getenv("REFUSE_HELD");
    int file = path ? open(path, O_CREAT | O_WRONLY, 0600) : -1;
    if (file >= 0) {
        dprintf(file, "%ld\n", held);
        close(file);
    }
}

static ssize_t failed(void)
{
    errno = EIO;
    return -1;
}

ssize_t read(int file, void *bytes, size_t size)
{
    ssize_t (*real)(int, void *, size_t) = dlsym(RTLD_NEXT, "read");
    return refused("read") ? failed() : real(file, bytes, size);
}

static void look(const void *bytes, size_t size)
{
    const char *from = getenv("REFUSE_FROM");
    if (from && size >= strlen(from) && memcmp(bytes, from, strlen(from)) == 0)
        begun = 1;
}

ssize_t write(int file, const void *bytes, size_t size)
{
    ssize_t (*real)(int, const void *, size_t) = dlsym(RTLD_NEXT, "write");
    if (file == 1)
        look(bytes, size);
    return file == 1 && refused("write") ? failed() : real(file, bytes, size);
}

ssize_t __write(int file, const void *bytes, size_t size)
{
    return write(file, bytes, size);
}
