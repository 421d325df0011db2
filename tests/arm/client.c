/* The bridge's side for this machine: the functions of slatmonief.h, each of which sends its call
 * to the library in the program of server.c under the emulator. It also checks that the library
 * changes neither its input nor a byte beside the lent buffer, and ends the test with a message if
 * it does. */
#define _GNU_SOURCE
#include "shared.h"

#include <pthread.h>
#include <stdio.h>
#include <stdlib.h>
#include <string.h>
#include <sys/mman.h>
#include <sys/socket.h>
#include <unistd.h>

enum { GUARD = 64, MARK = 0xEE };

/* A program that answers calls. It serves one call at a time, so there are as many as calls at
 * once. */
struct server {
    int socket;
    uint8_t *memory;
    struct server *next;
};

static struct server *idle;
static pthread_mutex_t lock = PTHREAD_MUTEX_INITIALIZER;

static void fail(const char *why)
{
    fprintf(stderr, "tests/arm: %s\n", why);
    abort();
}

static struct server *start(void)
{
    struct server *server = malloc(sizeof *server);
    int ends[2], memory = memfd_create("slatmonief", MFD_CLOEXEC);
    if (!server || memory < 0 || ftruncate(memory, SIZE) != 0) fail("no memory to share");
    server->memory = mmap(NULL, SIZE, PROT_READ | PROT_WRITE, MAP_SHARED, memory, 0);
    if (server->memory == MAP_FAILED) fail("no memory to share");
    if (socketpair(AF_UNIX, SOCK_STREAM | SOCK_CLOEXEC, 0, ends) != 0) fail("no socket");
    pid_t child = fork();
    if (child == 0) {
        if (dup2(ends[1], 0) == 0 && dup2(memory, 1) == 1) execl(X86, X86, SERVER, (char *)NULL);
        _exit(127);
    }
    if (child < 0) fail("no process for the library");
    close(ends[1]);
    close(memory);
    server->socket = ends[0];
    return server;
}

/* An idle server, or a new one. That of this thread's last call comes first: it wakes sooner. */
static struct server *take(void)
{
    static __thread struct server *last;
    pthread_mutex_lock(&lock);
    struct server **place = &idle;
    while (*place && *place != last) place = &(*place)->next;
    if (!*place) place = &idle;
    last = *place;
    if (last) *place = last->next;
    pthread_mutex_unlock(&lock);
    if (!last) last = start();
    return last;
}

static void give_back(struct server *server)
{
    pthread_mutex_lock(&lock);
    server->next = idle;
    idle = server;
    pthread_mutex_unlock(&lock);
}

static int marked(const uint8_t *guard)
{
    for (int i = 0; i < GUARD; i++)
        if (guard[i] != MARK) return 0;
    return 1;
}

/* memcpy, which may not be given NULL even where the size is 0. */
static void copy(void *to, const void *from, size_t size)
{
    if (size != 0) memcpy(to, from, size);
}

static slatmonief_answer ask(struct call call, const void *input, size_t input_size,
                             void *lent, size_t lent_size)
{
    if (input_size > LENT - GUARD - INPUT || lent_size > SIZE - GUARD - LENT) fail("a buffer is too long");
    struct server *server = take();
    uint8_t *there = server->memory + INPUT, *buffer = server->memory + LENT;
    copy(there, input, input_size);
    memset(buffer - GUARD, MARK, GUARD);
    copy(buffer, lent, lent_size);
    memset(buffer + lent_size, MARK, GUARD);
    memcpy(server->memory, &call, sizeof call);
    char byte = 0;
    if (send(server->socket, &byte, 1, MSG_NOSIGNAL) != 1 || recv(server->socket, &byte, 1, 0) != 1)
        fail("the program with the library ended: " SERVER);
    if (!marked(buffer - GUARD) || !marked(buffer + lent_size))
        fail("the library wrote beside the lent buffer");
    if (input_size != 0 && memcmp(there, input, input_size) != 0) fail("the library changed its input");
    copy(lent, buffer, lent_size);
    memcpy(&call, server->memory, sizeof call);
    give_back(server);
    return call.answer;
}

#define FUNCTION(name, from, to) \
    slatmonief_answer slatmonief_##name(const from *input, size_t input_len, to *lent, size_t lent_len) \
    { \
        struct call call = {number_##name, input_len, lent_len, !input, !lent, \
                            {98, 0}}; /* no refusal has this number */ \
        return ask(call, input, input_len * sizeof *input, lent, lent_len * sizeof *lent); \
    }
FUNCTIONS(FUNCTION)
