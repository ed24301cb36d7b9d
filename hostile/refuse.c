/* Refuses the allocation (by malloc or realloc, which are all that the program uses) whose number is in REFUSE, counted from 1, and writes how many there were to the file in COUNT. Preloaded by memory.sh. */
#define _GNU_SOURCE
#include <dlfcn.h>
#include <errno.h>
#include <fcntl.h>
#include <stdio.h>
#include <stdlib.h>
#include <unistd.h>

static unsigned long count, refused;

__attribute__((constructor)) static void begin(void)
{
    const char *word = getenv("REFUSE");
    refused = word ? strtoul(word, 0, 10) : 0;
    count = 0;
}

__attribute__((destructor)) static void end(void)
{
    const char *name = getenv("COUNT");
    char text[32];
    int file = name ? open(name, O_WRONLY | O_CREAT | O_TRUNC, 0600) : -1;
    if (file >= 0) {
        int size = snprintf(text, sizeof text, "%lu\n", count);
        if (write(file, text, size) != size)
            _exit(99);
        close(file);
    }
}

static int is_refused(void)
{
    if (++count != refused)
        return 0;
    errno = ENOMEM;
    return 1;
}

void *malloc(size_t size)
{
    static void *(*next)(size_t);
    if (is_refused())
        return 0;
    if (!next)
        next = (void *(*)(size_t))dlsym(RTLD_NEXT, "malloc");
    return next(size);
}

void *realloc(void *old, size_t size)
{
    static void *(*next)(void *, size_t);
    if (is_refused())
        return 0;
    if (!next)
        next = (void *(*)(void *, size_t))dlsym(RTLD_NEXT, "realloc");
    return next(old, size);
}
