/* Lets each read of a program return at most one byte, and prints the number of reads at the end. tests/hostile builds it. */
#define _GNU_SOURCE
#include <dlfcn.h>
#include <stdio.h>
#include <stdlib.h>
#include <unistd.h>
static long count;
static ssize_t (*next)(int, void *, size_t);
ssize_t read(int file, void *bytes, size_t size)
{
    if (!next)
        next = (ssize_t (*)(int, void *, size_t))dlsym(RTLD_NEXT, "read");
    count += 1;
    return next(file, bytes, size > 1 ? 1 : size);
}
__attribute__((destructor)) static void tell(void)
{
    FILE *file = fopen(getenv("READS"), "w");
    if (file) {
        fprintf(file, "%ld", count);
        fclose(file);
    }
}
