/* Stands between a program that it is loaded into by LD_PRELOAD and the C library, and lets its calls fail. The settings, in
   the environment, each a number; calls are counted from 1:

   REFUSE       the request for memory with this number is refused
   STARVE       each request for memory after the read with this number is refused
   READ_MOST    a read gives at most so many bytes
   READ_FAILS   the read with this number fails
   WRITE_MOST   a write to standard output takes at most so many bytes
   WRITE_FAILS  the write to standard output with this number fails
   WRITE_NONE   the write to standard output with this number takes no byte
   ERROR        with this error
   FROM         where it is set, the requests, reads or writes after that one fail too

   REQUESTS names a file, to which it writes at the end how many requests for memory there were. */
#define _GNU_SOURCE
#include <dlfcn.h>
#include <errno.h>
#include <stdio.h>
#include <stdlib.h>
#include <unistd.h>

static unsigned long requests, reads, writes;

static unsigned long number_of(const char *name, unsigned long absent)
{
    const char *text = getenv(name);
    return text == NULL ? absent : strtoul(text, NULL, 10);
}

/* Whether the call with a number is one that a setting names. */
static int is_named(unsigned long call, const char *setting)
{
    unsigned long first = number_of(setting, 0);
    return first != 0 && (call == first || (call > first && getenv("FROM") != NULL));
}

static int is_refused(void)
{
    unsigned long starved = number_of("STARVE", 0);
    requests++;
    if (!is_named(requests, "REFUSE") && (starved == 0 || reads < starved))
        return 0;
    errno = ENOMEM;
    return 1;
}

void *malloc(size_t size)
{
    static void *(*real)(size_t);
    if (real == NULL)
        real = dlsym(RTLD_NEXT, "malloc");
    return is_refused() ? NULL : real(size);
}

void *realloc(void *block, size_t size)
{
    static void *(*real)(void *, size_t);
    if (real == NULL)
        real = dlsym(RTLD_NEXT, "realloc");
    return is_refused() ? NULL : real(block, size);
}

/* Whether the call with a number is one that fails. */
static int fails(unsigned long call, const char *setting)
{
    if (!is_named(call, setting))
        return 0;
    errno = (int)number_of("ERROR", EIO);
    return 1;
}

ssize_t read(int file, void *bytes, size_t count)
{
    static ssize_t (*real)(int, void *, size_t);
    unsigned long most = number_of("READ_MOST", count);
    if (real == NULL)
        real = dlsym(RTLD_NEXT, "read");
    return fails(++reads, "READ_FAILS") ? -1 : real(file, bytes, count < most ? count : most);
}

ssize_t write(int file, const void *bytes, size_t count)
{
    static ssize_t (*real)(int, const void *, size_t);
    unsigned long most = number_of("WRITE_MOST", count);
    if (real == NULL)
        real = dlsym(RTLD_NEXT, "write");
    if (file != STDOUT_FILENO)
        return real(file, bytes, count);
    if (is_named(++writes, "WRITE_NONE"))
        return 0;
    return fails(writes, "WRITE_FAILS") ? -1 : real(file, bytes, count < most ? count : most);
}

__attribute__((destructor)) static void tell(void)
{
    const char *path = getenv("REQUESTS");
    unsigned long told = requests;
    FILE *file = path == NULL ? NULL : fopen(path, "w");
    if (file == NULL)
        return;
    fprintf(file, "%lu\n", told);
    fclose(file);
}
