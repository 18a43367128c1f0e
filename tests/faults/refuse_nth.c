/* Loaded before a program, it refuses the Nth allocation that the program asks for (REFUSE_NTH), and no other.
   With REFUSE_NTH=0 it refuses none, and says at the end on standard error how many there were before each write to standard output, and in all. */
#define _GNU_SOURCE
#include <dlfcn.h>
#include <stdio.h>
#include <stdlib.h>
#include <sys/types.h>

#define MOST 1024

static unsigned long asked, written, before[MOST];

static unsigned long nth(void)
{
    const char *word = getenv("REFUSE_NTH");
    return word ? strtoul(word, NULL, 10) : 0;
}

void *malloc(size_t size)
{
    void *(*next)(size_t) = (void *(*)(size_t))dlsym(RTLD_NEXT, "malloc");
    return ++asked == nth() ? NULL : next(size);
}

void *realloc(void *place, size_t size)
{
    void *(*next)(void *, size_t) = (void *(*)(void *, size_t))dlsym(RTLD_NEXT, "realloc");
    return ++asked == nth() ? NULL : next(place, size);
}

ssize_t write(int file, const void *bytes, size_t count)
{
    ssize_t (*next)(int, const void *, size_t) = (ssize_t (*)(int, const void *, size_t))dlsym(RTLD_NEXT, "write");
    if (file == 1 && written < MOST)
        before[written++] = asked;
    return next(file, bytes, count);
}

__attribute__((destructor)) static void tell(void)
{
    if (nth() == 0) {
        unsigned long count = asked;
        for (unsigned long it = 0; it < written; it++)
            fprintf(stderr, "%lu\n", before[it]);
        fprintf(stderr, "%lu\n", count);
    }
}
