// Loads a program that serves, and compares each byte of its replies.
//
//     load HOST PORT CONNECTIONS UNITS LENGTH BLOCKS COUNT AHEAD [writes]
//
// Each of CONNECTIONS threads has a connection of its own, and sends its part of COUNT commands: in turn a WRITE (16) of
// BLOCKS blocks of LENGTH bytes and a READ (16) of the same blocks, or where BLOCKS is 0 READs of none; behind the word
// `writes` they are WRITEs alone. AHEAD of them may wait for their replies, and as long as more are to be sent at least
// half of AHEAD do. The connection of number n asks unit n % UNITS, for blocks from 256 n on.
//
// It prints the seconds from the first begin to the last end, and how many commands, and bytes both ways, there were.
// Where a reply is not the right one it says so, and its status is 1. After five minutes it is ended.
#define _GNU_SOURCE
#include <errno.h>
#include <netdb.h>
#include <netinet/in.h>
#include <netinet/tcp.h>
#include <poll.h>
#include <pthread.h>
#include <stdint.h>
#include <stdio.h>
#include <stdlib.h>
#include <string.h>
#include <sys/socket.h>
#include <time.h>
#include <unistd.h>

enum { LIMIT = 300, PIECE = 64 << 10, APART = 256, FRONT = 22, GOOD = 6, READ = 0x88, WRITE = 0x8A };

// What goes one way, again and again: the bytes of a first command or reply, and of a second one. They lie in a row as
// often as what is sent or taken at once may have them.
struct pair {
    unsigned char *bytes;
    size_t first, both;
};

struct client {
    pthread_t thread;
    int number, link;
    double began, ended;
};

static long connections, units, length, blocks, count, ahead;
static int only_writes;
static pthread_barrier_t begin;

static void fail(int number, const char *why)
{
    fprintf(stderr, "connection %d: %s\n", number, why);
    exit(1);
}

static void *memory(size_t bytes)
{
    void *made = calloc(bytes, 1);
    if (made == NULL)
        fail(0, "no memory");
    return made;
}

static double now(void)
{
    struct timespec at;
    clock_gettime(CLOCK_MONOTONIC, &at);
    return at.tv_sec + at.tv_nsec / 1e9;
}

static void put(unsigned char *to, int bytes, uint64_t number)
{
    for (int i = bytes; i-- > 0; number >>= 8)
        to[i] = number & 0xFF;
}

// A request for the blocks of a client, whose data-out has so many bytes.
static void put_request(unsigned char *to, int number, int code, size_t out)
{
    put(to, 4, out);
    put(to + 4, 2, number % units);
    to[6] = code;
    put(to + 8, 8, (uint64_t)number * APART);
    put(to + 16, 4, blocks);
    memset(to + FRONT, 1 + number % 255, out);
}

static void put_reply(unsigned char *to, int number, size_t in)
{
    put(to + 2, 4, in);
    memset(to + GOOD, 1 + number % 255, in);
}

static struct pair new_pair(size_t first, size_t both)
{
    return (struct pair){memory((ahead / 2 + 2) * both), first, both};
}

static void repeat(struct pair *it)
{
    for (long i = 1; i < ahead / 2 + 2; i++)
        memcpy(it->bytes + i * it->both, it->bytes, it->both);
}

static struct pair requests_of(int number)
{
    size_t data = blocks * length, second = only_writes ? data : 0;
    struct pair it = new_pair(FRONT + data, 2 * FRONT + data + second);
    put_request(it.bytes, number, blocks ? WRITE : READ, data);
    put_request(it.bytes + it.first, number, only_writes ? WRITE : READ, second);
    repeat(&it);
    return it;
}

static struct pair replies_of(int number)
{
    size_t data = only_writes ? 0 : blocks * length;
    struct pair it = new_pair(GOOD, 2 * GOOD + data);
    put_reply(it.bytes, number, 0);
    put_reply(it.bytes + it.first, number, data);
    repeat(&it);
    return it;
}

// The bytes of so many commands or replies.
static size_t bytes_of(const struct pair *it, long number)
{
    return number / 2 * it->both + (number % 2 ? it->first : 0);
}

// How many commands or replies are whole in so many bytes.
static long whole_in(const struct pair *it, size_t bytes)
{
    return bytes / it->both * 2 + (bytes % it->both >= it->first);
}

// The bytes that a call moved; 0 where it would have to wait.
static size_t moved(int number, ssize_t bytes)
{
    if (bytes > 0)
        return bytes;
    if (bytes == 0)
        fail(number, "it ends too early");
    if (errno != EAGAIN && errno != EWOULDBLOCK && errno != EINTR)
        fail(number, strerror(errno));
    return 0;
}

// Wakes a client only when so many bytes are there, or a second has passed.
static void wake_at(int link, int bytes)
{
    struct timeval second = {1, 0};
    setsockopt(link, SOL_SOCKET, SO_RCVTIMEO, &second, sizeof second);
    setsockopt(link, SOL_SOCKET, SO_RCVLOWAT, &bytes, sizeof bytes);
}

static void talk(int number, int link, const struct pair *out, const struct pair *in)
{
    long mine = count / connections;
    size_t sent = 0, got = 0;
    unsigned char taken[PIECE];
    wake_at(link, bytes_of(in, ahead / 2));
    while (got < bytes_of(in, mine)) {
        long begun = whole_in(in, got) + ahead;
        begun = begun < mine ? begun : mine;
        size_t may = bytes_of(out, begun), due = bytes_of(in, begun) - got;
        if (sent < may) {
            size_t some = moved(number, send(link, out->bytes + sent % out->both, may - sent, MSG_DONTWAIT | MSG_NOSIGNAL));
            sent += some;
            if (sent == bytes_of(out, mine))
                wake_at(link, 1);
            if (some == 0)
                poll(&(struct pollfd){link, POLLIN | POLLOUT, 0}, 1, -1);
        }
        size_t some = moved(number, recv(link, taken, due < PIECE ? due : PIECE, sent < may ? MSG_DONTWAIT : 0));
        if (memcmp(taken, in->bytes + got % in->both, some) != 0)
            fail(number, "a reply is not the right one");
        got += some;
    }
}

static void *run(void *which)
{
    struct client *it = which;
    struct pair out = requests_of(it->number), in = replies_of(it->number);
    char more;
    pthread_barrier_wait(&begin);
    it->began = now();
    talk(it->number, it->link, &out, &in);
    it->ended = now();
    shutdown(it->link, SHUT_WR);
    if (recv(it->link, &more, 1, 0) != 0)
        fail(it->number, "there is more than the replies");
    return NULL;
}

static int connected(int number, const char *host, const char *port)
{
    struct addrinfo *found, hints = {.ai_socktype = SOCK_STREAM, .ai_flags = AI_NUMERICHOST | AI_NUMERICSERV};
    if (getaddrinfo(host, port, &hints, &found) != 0)
        fail(number, "no such address");
    int link = socket(found->ai_family, SOCK_STREAM, 0), on = 1;
    if (link < 0 || connect(link, found->ai_addr, found->ai_addrlen) != 0)
        fail(number, strerror(errno));
    setsockopt(link, IPPROTO_TCP, TCP_NODELAY, &on, sizeof on);
    freeaddrinfo(found);
    return link;
}

int main(int words, char **word)
{
    only_writes = words == 10 && strcmp(word[9], "writes") == 0;
    if (words != 9 && !only_writes)
        return 1;
    connections = atol(word[3]), units = atol(word[4]), length = atol(word[5]);
    blocks = atol(word[6]), count = atol(word[7]), ahead = atol(word[8]);
    if (connections < 1 || units < 1 || ahead < 1)
        return 1;
    alarm(LIMIT);
    struct client *clients = memory(connections * sizeof *clients);
    pthread_barrier_init(&begin, NULL, connections);
    for (int i = 0; i < connections; i++)
        clients[i].number = i, clients[i].link = connected(i, word[1], word[2]);
    for (int i = 0; i < connections; i++)
        if (pthread_create(&clients[i].thread, NULL, run, &clients[i]) != 0)
            fail(i, "no thread");
    double began = 1e18, ended = 0;
    for (int i = 0; i < connections; i++) {
        pthread_join(clients[i].thread, NULL);
        began = clients[i].began < began ? clients[i].began : began;
        ended = clients[i].ended > ended ? clients[i].ended : ended;
    }
    struct pair out = requests_of(0), in = replies_of(0);
    long done = count / connections * connections;
    printf("%.6f %ld %zu\n", ended - began, done, bytes_of(&out, done) + bytes_of(&in, done));
    return 0;
}
