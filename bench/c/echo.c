/* Answers the lines of a load with the lines of the arena, and plays no match: what a server with a thread for each
 * connection can reach.
 *
 *     cc -O2 -Wall -Wextra -pthread -o echo echo.c
 *     ./echo PORT all|each
 *
 * Listens on 127.0.0.1, prints `listening PORT`, and serves until it is killed. A line is told by its eighth byte, the
 * first of the command's name. With `all` the answers to all lines that one read brought go out by one write, with
 * `each` there is a write for each line.
 */
#include <arpa/inet.h>
#include <netinet/in.h>
#include <netinet/tcp.h>
#include <pthread.h>
#include <stdbool.h>
#include <stdint.h>
#include <stdio.h>
#include <stdlib.h>
#include <string.h>
#include <sys/socket.h>
#include <unistd.h>

#include "lines.h"

enum { LINE = 65536, ANSWERS = 65536, STACK = 65536, NAME = 7 };

/* One connection: the bytes that were read and make no whole line yet, and the answers that were not sent yet. */
struct session {
    int client;
    size_t held, owed;
    char line[LINE], answers[ANSWERS];
};

static bool writes_each;

static void stop(const char *why)
{
    fprintf(stderr, "echo: %s\n", why);
    exit(1);
}

static bool send_owed(struct session *s)
{
    size_t sent = 0;
    while (sent < s->owed) {
        ssize_t count = send(s->client, s->answers + sent, s->owed - sent, MSG_NOSIGNAL);
        if (count <= 0)
            return false;
        sent += (size_t)count;
    }
    s->owed = 0;
    return true;
}

static bool owe(struct session *s, const char *answer, size_t length)
{
    if (s->owed + length > ANSWERS && !send_owed(s))
        return false;
    memcpy(s->answers + s->owed, answer, length);
    s->owed += length;
    return true;
}

/* Answers a line, which ends in its line feed. */
static bool answer(struct session *s, const char *line, size_t length)
{
    switch (length > NAME ? line[NAME] : '\0') {
    case 'e':
    case 'l':
        return owe(s, HERE, sizeof HERE - 1);
    case 'w':
        return owe(s, WRITTEN, sizeof WRITTEN - 1);
    case 'd':
        return owe(s, GONE ARRIVED, sizeof GONE ARRIVED - 1);
    default:
        return owe(s, NO_LINE, sizeof NO_LINE - 1);
    }
}

/* Answers the whole lines that were read, and keeps what is left. */
static bool answer_all(struct session *s)
{
    char *next = s->line, *end = s->line + s->held, *feed;
    while (next < end && (feed = memchr(next, '\n', (size_t)(end - next)))) {
        if (!answer(s, next, (size_t)(feed + 1 - next)) || (writes_each && !send_owed(s)))
            return false;
        next = feed + 1;
    }
    s->held = (size_t)(end - next);
    memmove(s->line, next, s->held);
    return send_owed(s);
}

static void *serve(void *word)
{
    struct session *s = malloc(sizeof *s);
    int on = 1;
    if (!s)
        stop("out of memory");
    s->client = (int)(intptr_t)word;
    s->held = s->owed = 0;
    setsockopt(s->client, IPPROTO_TCP, TCP_NODELAY, &on, sizeof on);
    while (s->held < LINE) {
        ssize_t count = recv(s->client, s->line + s->held, LINE - s->held, 0);
        if (count <= 0)
            break;
        s->held += (size_t)count;
        if (!answer_all(s))
            break;
    }
    close(s->client);
    free(s);
    return NULL;
}

static int listen_on(int port)
{
    struct sockaddr_in address = {.sin_family = AF_INET, .sin_port = htons((unsigned short)port)};
    int listener = socket(AF_INET, SOCK_STREAM, 0), on = 1;
    address.sin_addr.s_addr = htonl(INADDR_LOOPBACK);
    if (listener < 0)
        stop("no socket");
    setsockopt(listener, SOL_SOCKET, SO_REUSEADDR, &on, sizeof on);
    if (bind(listener, (struct sockaddr *)&address, sizeof address) != 0 || listen(listener, 128) != 0)
        stop("the port is taken");
    printf("listening %d\n", port);
    fflush(stdout);
    return listener;
}

int main(int count, char **words)
{
    pthread_attr_t small;
    if (count != 3)
        stop("usage: echo PORT all|each");
    writes_each = strcmp(words[2], "each") == 0;
    pthread_attr_init(&small);
    pthread_attr_setstacksize(&small, STACK);
    pthread_attr_setdetachstate(&small, PTHREAD_CREATE_DETACHED);
    for (int listener = listen_on(atoi(words[1]));;) {
        int client = accept(listener, NULL, NULL);
        pthread_t thread;
        if (client < 0 || pthread_create(&thread, &small, serve, (void *)(intptr_t)client) != 0)
            stop("no more sessions");
    }
}
