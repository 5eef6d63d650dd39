// Copies BYTES in memory, TIMES times, and prints the microseconds of the copies: each into a fresh buffer, or with a
// third word all into one that was written before.
#define _GNU_SOURCE
#include <stdio.h>
#include <stdlib.h>
#include <string.h>
#include <sys/mman.h>
#include <time.h>

static char *buffer(size_t bytes)
{
    char *made = mmap(NULL, bytes, PROT_READ | PROT_WRITE, MAP_PRIVATE | MAP_ANONYMOUS, -1, 0);
    if (made == MAP_FAILED)
        exit(1);
    return made;
}

static double now(void)
{
    struct timespec at;
    clock_gettime(CLOCK_MONOTONIC, &at);
    return at.tv_sec * 1e6 + at.tv_nsec / 1e3;
}

int main(int words, char **word)
{
    if (words != 3 && words != 4)
        return 1;
    size_t bytes = strtoull(word[1], NULL, 10);
    int times = atoi(word[2]);
    char *from = buffer(bytes);
    memset(from, 1, bytes);
    char *again = words == 4 ? buffer(bytes) : NULL;
    if (again)
        memset(again, 1, bytes);
    double taken = 0;
    for (int i = 0; i < times; i++) {
        double start = now();
        char *to = again ? again : buffer(bytes);
        memcpy(to, from, bytes);
        __asm__ volatile("" : : "r"(to) : "memory");
        taken += now() - start;
        if (!again)
            munmap(to, bytes);
    }
    printf("%.0f\n", taken);
    return 0;
}
