// Loaded before the C library, it refuses the allocation whose number FAIL_ALLOCATION names, counted from 1, and
// creates the file FAIL_MARK when it does. Where FAIL_OF is `program`, only allocations count that the program itself
// asks for, and none that the C library needs for a thread or a socket.
#define _GNU_SOURCE
#include <errno.h>
#include <fcntl.h>
#include <link.h>
#include <stddef.h>
#include <stdint.h>
#include <stdlib.h>
#include <string.h>
#include <unistd.h>

void *__libc_malloc(size_t size);
void *__libc_calloc(size_t count, size_t size);
void *__libc_realloc(void *old, size_t size);

static long number, seen;
// where the program's code lies
static uintptr_t first, end = UINTPTR_MAX;

// The first object that is told of is the program.
static int note_code(struct dl_phdr_info *object, size_t size, void *nothing)
{
    (void)size, (void)nothing;
    for (int i = 0; i < object->dlpi_phnum; i++) {
        const ElfW(Phdr) *part = &object->dlpi_phdr[i];
        if (part->p_type == PT_LOAD && (part->p_flags & PF_X)) {
            first = object->dlpi_addr + part->p_vaddr;
            end = first + part->p_memsz;
        }
    }
    return 1;
}

__attribute__((constructor)) static void begin(void)
{
    const char *of = getenv("FAIL_OF"), *wanted = getenv("FAIL_ALLOCATION");
    if (of && strcmp(of, "program") == 0)
        dl_iterate_phdr(note_code, NULL);
    number = wanted ? atol(wanted) : 0;
}

static int is_refused(void *caller)
{
    if (number == 0 || (uintptr_t)caller < first || (uintptr_t)caller >= end)
        return 0;
    if (__atomic_add_fetch(&seen, 1, __ATOMIC_RELAXED) != number)
        return 0;
    const char *mark = getenv("FAIL_MARK");
    int file = mark ? open(mark, O_CREAT | O_WRONLY, 0600) : -1;
    if (file >= 0)
        close(file);
    errno = ENOMEM;
    return 1;
}

void *malloc(size_t size)
{
    return is_refused(__builtin_return_address(0)) ? NULL : __libc_malloc(size);
}

void *calloc(size_t count, size_t size)
{
    return is_refused(__builtin_return_address(0)) ? NULL : __libc_calloc(count, size);
}

void *realloc(void *old, size_t size)
{
    return is_refused(__builtin_return_address(0)) ? NULL : __libc_realloc(old, size);
}
