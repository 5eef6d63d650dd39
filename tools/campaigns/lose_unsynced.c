// Loaded before the C library, it notes what a program writes to files named journal-* and has not synced yet, so that
// a power cut can be played after the program was killed: what was not synced may then be there or not, or torn.
//
// Each write by pwrite is noted, before it is done, in a file of the same name in the folder LOSE_NOTES: in native
// order four numbers of eight bytes, which are its place, how many bytes it has, how long the file was, and how many
// bytes it goes over; then these bytes, and those that are written. After fsync and fdatasync the notes of the file are
// dropped. Where LOSE_KILL is a number the program is killed at that call, counted from 1: at a write that was noted
// and is not done, or before a sync. Where LOSE_FAIL is two numbers, as in `20:30`, the calls from the first to the
// second fail: half of a write is done, and no sync is. Where LOSE_SYNCS is `none`, nothing waits for the disk.
#define _GNU_SOURCE
#include <errno.h>
#include <fcntl.h>
#include <signal.h>
#include <stdint.h>
#include <stdio.h>
#include <stdlib.h>
#include <string.h>
#include <sys/stat.h>
#include <sys/syscall.h>
#include <sys/uio.h>
#include <unistd.h>

enum { LONGEST = 4096 };

static long calls;

// The path of the notes of an open file; whether it is one of which notes are kept.
static int is_noted(int file, char *notes)
{
    char link[64], path[LONGEST];
    const char *folder = getenv("LOSE_NOTES");
    snprintf(link, sizeof link, "/proc/self/fd/%d", file);
    ssize_t length = readlink(link, path, sizeof path - 1);
    if (folder == NULL || length < 0)
        return 0;
    path[length] = 0;
    const char *name = strrchr(path, '/');
    if (name == NULL || strncmp(name, "/journal-", 9) != 0)
        return 0;
    return snprintf(notes, LONGEST, "%s%s", folder, name) < LONGEST;
}

static void fail(const char *why)
{
    perror(why);
    abort();
}

// Counts a call, at which the program may be killed; whether it fails.
static int is_failing(void)
{
    const char *last = getenv("LOSE_KILL"), *failing = getenv("LOSE_FAIL");
    long from, to, call = __atomic_add_fetch(&calls, 1, __ATOMIC_RELAXED);
    if (call == (last ? atol(last) : 0))
        kill(getpid(), SIGKILL);
    return failing && sscanf(failing, "%ld:%ld", &from, &to) == 2 && from <= call && call <= to;
}

static void note(const char *notes, int file, const void *bytes, size_t size, off_t at)
{
    struct stat now;
    if (fstat(file, &now) != 0)
        fail("lose_unsynced: fstat");
    uint64_t over = at < now.st_size ? (uint64_t)(now.st_size - at) : 0;
    over = over < size ? over : size;
    char *old = malloc(over + 1);
    if (old == NULL || pread(file, old, over, at) != (ssize_t)over)
        fail("lose_unsynced: what was there");
    uint64_t numbers[] = {at, size, now.st_size, over};
    struct iovec parts[] = {{numbers, sizeof numbers}, {old, over}, {(void *)bytes, size}};
    int into = open(notes, O_WRONLY | O_CREAT | O_APPEND, 0600);
    if (into < 0 || writev(into, parts, 3) != (ssize_t)(sizeof numbers + over + size))
        fail("lose_unsynced: notes");
    close(into);
    free(old);
}

ssize_t pwrite(int file, const void *bytes, size_t size, off_t at)
{
    char notes[LONGEST];
    if (is_noted(file, notes)) {
        note(notes, file, bytes, size, at);
        if (is_failing()) {
            syscall(SYS_pwrite64, file, bytes, size / 2, at);
            errno = ENOSPC;
            return -1;
        }
    }
    return syscall(SYS_pwrite64, file, bytes, size, at);
}

ssize_t pwrite64(int file, const void *bytes, size_t size, off_t at) __attribute__((alias("pwrite")));

static int synced(int file, long number)
{
    char notes[LONGEST];
    int is_ours = is_noted(file, notes);
    const char *how = getenv("LOSE_SYNCS");
    if (is_ours && is_failing()) {
        errno = EIO;
        return -1;
    }
    int result = is_ours && how && strcmp(how, "none") == 0 ? 0 : syscall(number, file);
    if (is_ours && result == 0 && truncate(notes, 0) != 0) {
        int made = open(notes, O_WRONLY | O_CREAT, 0600);
        if (made < 0)
            fail("lose_unsynced: notes");
        close(made);
    }
    return result;
}

int fsync(int file)
{
    return synced(file, SYS_fsync);
}

int fdatasync(int file)
{
    return synced(file, SYS_fdatasync);
}
