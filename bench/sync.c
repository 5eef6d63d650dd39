// Writes records to files and waits for the disk, as what keeps a journal has to.
//
//     sync FOLDER THREADS FILES COUNT SIZE HOW
//
// Each of THREADS threads writes its part of COUNT records of SIZE bytes, thread n to the file n % FILES, whose turn it
// waits for. HOW is `journal`: a record and its closed gate are written behind the last gate and synced, and then that
// gate is opened, one byte, and synced. Or it is `least`: a record is written and synced, once.
//
// It prints the seconds from the first begin to the last end.
#define _GNU_SOURCE
#include <fcntl.h>
#include <pthread.h>
#include <stdio.h>
#include <stdlib.h>
#include <string.h>
#include <time.h>
#include <unistd.h>

enum { MOST = 64, LONGEST = 4096, OPEN = 0xA5 };

struct file {
    pthread_mutex_t turn;
    int into;
    off_t end;
};

struct writer {
    pthread_t thread;
    int number;
    double began, ended;
};

static long threads, files, count, size;
static int has_gates;
static struct file file[MOST];
static char *record;
static pthread_barrier_t begin;

static void fail(const char *why)
{
    perror(why);
    exit(1);
}

static double now(void)
{
    struct timespec at;
    clock_gettime(CLOCK_MONOTONIC, &at);
    return at.tv_sec + at.tv_nsec / 1e9;
}

static void put(const struct file *it, const void *bytes, size_t length, off_t at)
{
    if (pwrite(it->into, bytes, length, at) != (ssize_t)length || fsync(it->into) != 0)
        fail("sync: write");
}

// The byte before the end is the last gate.
static void add(struct file *it)
{
    char gate = (char)OPEN;
    put(it, record, size, it->end);
    if (has_gates)
        put(it, &gate, 1, it->end - 1);
    it->end += size;
}

static void *run(void *which)
{
    struct writer *it = which;
    struct file *mine = &file[it->number % files];
    pthread_barrier_wait(&begin);
    it->began = now();
    for (long i = 0; i < count / threads; i++) {
        pthread_mutex_lock(&mine->turn);
        add(mine);
        pthread_mutex_unlock(&mine->turn);
    }
    it->ended = now();
    return NULL;
}

static void make(const char *folder, int number)
{
    char path[LONGEST];
    snprintf(path, sizeof path, "%s/sync-%d", folder, number);
    file[number].into = open(path, O_RDWR | O_CREAT | O_TRUNC, 0644);
    if (file[number].into < 0)
        fail(path);
    pthread_mutex_init(&file[number].turn, NULL);
    put(&file[number], record, 1, 0);
    file[number].end = 1;
}

int main(int words, char **word)
{
    if (words != 7)
        return 1;
    threads = atol(word[2]), files = atol(word[3]), count = atol(word[4]), size = atol(word[5]);
    has_gates = strcmp(word[6], "journal") == 0;
    if (threads < 1 || files < 1 || threads > MOST || files > MOST || size < 1)
        return 1;
    record = calloc(size, 1);
    if (record == NULL)
        fail("sync");
    struct writer writers[MOST];
    pthread_barrier_init(&begin, NULL, threads);
    for (int i = 0; i < files; i++)
        make(word[1], i);
    for (int i = 0; i < threads; i++) {
        writers[i].number = i;
        if (pthread_create(&writers[i].thread, NULL, run, &writers[i]) != 0)
            fail("sync: thread");
    }
    double began = 1e18, ended = 0;
    for (int i = 0; i < threads; i++) {
        pthread_join(writers[i].thread, NULL);
        began = writers[i].began < began ? writers[i].began : began;
        ended = writers[i].ended > ended ? writers[i].ended : ended;
    }
    printf("%.6f\n", ended - began);
    return 0;
}
