/* Loaded before the C library, refuses allocations of a program that calls malloc, realloc and calloc by name.

   REFUSED_COUNT names a file: it gets the number of allocations between the begin of main and its end or a call of _exit, of all threads.
   REFUSED_FROM is the number, from 1, of the first that is refused, and REFUSED_TO that of the last. */
#define _GNU_SOURCE
#include <dlfcn.h>
#include <errno.h>
#include <stdio.h>
#include <stdlib.h>
#include <sys/syscall.h>
#include <unistd.h>

static unsigned long made, from, to;
static int counts;
static int (*program)(int, char **, char **);

/* Whether this allocation is refused. Behind the end of main none is counted: the C library allocates there itself.
   The C library's own calls, as that for a thread, want errno to say why. */
static int refused(void) {
    if (!counts) return 0;
    unsigned long number = __sync_add_and_fetch(&made, 1);
    if (number < from || to < number) return 0;
    errno = ENOMEM;
    return 1;
}

extern void *__libc_malloc(size_t), *__libc_realloc(void *, size_t), *__libc_calloc(size_t, size_t);
void *malloc(size_t n) { return refused() ? NULL : __libc_malloc(n); }
void *realloc(void *p, size_t n) { return refused() ? NULL : __libc_realloc(p, n); }
void *calloc(size_t n, size_t size) { return refused() ? NULL : __libc_calloc(n, size); }

static unsigned long number_of(const char *name, unsigned long otherwise) {
    const char *text = getenv(name);
    return text ? strtoul(text, NULL, 10) : otherwise;
}

static void tell(void) {
    counts = 0;
    const char *name = getenv("REFUSED_COUNT");
    FILE *file = name ? fopen(name, "w") : NULL;
    if (file) {
        fprintf(file, "%lu\n", made);
        fclose(file);
    }
}

void _exit(int status) {
    tell();
    for (;;) syscall(SYS_exit_group, status);
}

static int counted(int argc, char **argv, char **environment) {
    from = number_of("REFUSED_FROM", ~0UL);
    to = number_of("REFUSED_TO", ~0UL);
    counts = 1;
    int status = program(argc, argv, environment);
    tell();
    return status;
}

int __libc_start_main(int (*main)(int, char **, char **), int argc, char **argv, void (*init)(void), void (*fini)(void), void (*end)(void), void *stack) {
    program = main;
    int (*start)(int (*)(int, char **, char **), int, char **, void (*)(void), void (*)(void), void (*)(void), void *) = dlsym(RTLD_NEXT, "__libc_start_main");
    return start(counted, argc, argv, init, fini, end, stack);
}
