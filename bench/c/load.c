/* Loads a server with sessions of agents, and says how fast it answers.
 *
 *     cc -O2 -Wall -Wextra -pthread -o load load.c
 *     ./load PORT KIND MODE ACTIVE COMMANDS THREADS < KEYS
 *
 * KIND is looks, moves or writes, and MODE one, many or hold. Standard input has a line `KEY STEPS` for each session.
 * First all sessions connect and enter, and their agents go STEPS steps by port 0; for writes each then puts the
 * first of two texts on its whiteboard, unless it stands there already. Then the clock starts. ACTIVE sessions
 * at a time send COMMANDS commands each; when one is done, another begins that stands ACTIVE lines further down. In the
 * mode `one` a session waits for the answer before it sends the next command; in the mode `many` it sends all of them
 * as fast as the socket takes them, and reads the answers as they come. Every byte that comes is compared with what
 * should come. Sessions stay open until the program ends.
 *
 * Prints {"commands":N,"seconds":S,"p50":T,"p99":T}: how many commands were answered in how long, and in the mode `one`
 * the median and the 99th percentile of the answer times in microseconds. The answer to a move is its `gone`; the next
 * move waits for the arrival. In the mode `hold` each session looks once, `open` is printed, and nothing more happens.
 */
#include <arpa/inet.h>
#include <errno.h>
#include <fcntl.h>
#include <netinet/in.h>
#include <netinet/tcp.h>
#include <pthread.h>
#include <stdbool.h>
#include <stdint.h>
#include <stdio.h>
#include <stdlib.h>
#include <string.h>
#include <sys/epoll.h>
#include <sys/socket.h>
#include <time.h>
#include <unistd.h>

#include "lines.h"

enum { KEY = 80, LINE = 256, READ = 65536, EVENTS = 64, PATIENCE = 10, MOST_SESSIONS = 1024 };

/* A kind of load: commands alternate between two lines; what comes of each command, and how much of it is the answer;
 * whether one of the two texts has to stand on the whiteboard before. */
struct kind {
    const char *name, *lines[2], *comes;
    size_t answer;
    bool needs_text;
};

static const struct kind KINDS[] = {
    {"looks", {LOOK, LOOK}, HERE, sizeof HERE - 1, false},
    {"moves", {DEPART, DEPART}, GONE ARRIVED, sizeof GONE - 1, false},
    {"writes", {WRITE(ONE_TEXT, OTHER_TEXT), WRITE(OTHER_TEXT, ONE_TEXT)}, WRITTEN, sizeof WRITTEN - 1, true},
};

struct session {
    int socket, steps;
    char key[KEY];
    size_t sent;     /* how many bytes it has sent since the clock started */
    size_t heard;    /* how many bytes it has heard */
    size_t asked;    /* how many commands it has asked, one by one */
    uint64_t since;  /* when it asked the last one */
    uint32_t *times; /* how long each answer took, in nanoseconds */
};

static const struct kind *kind;
static bool one_by_one;
static size_t sessions, active, commands, threads;
static struct session all[MOST_SESSIONS];
static char *burst;         /* the lines of all commands of a session */
static size_t burst_length; /* how long they are */
static char *due;           /* what comes of many commands */
static size_t length;       /* how long what comes of one command is */
static pthread_barrier_t ready;

static void stop(const char *why)
{
    fprintf(stderr, "load: %s\n", why);
    exit(1);
}

static uint64_t now(void)
{
    struct timespec time;
    clock_gettime(CLOCK_MONOTONIC, &time);
    return (uint64_t)time.tv_sec * 1000000000u + (uint64_t)time.tv_nsec;
}

static void *memory(size_t size)
{
    void *taken = calloc(1, size);
    if (!taken)
        stop("out of memory");
    return taken;
}

/* Before the clock starts: sockets block. */

static void say(const struct session *s, const char *line)
{
    size_t count = strlen(line);
    if (send(s->socket, line, count, MSG_NOSIGNAL) != (ssize_t)count)
        stop("the server takes no line");
}

static void read_line(const struct session *s, char *line)
{
    size_t count = 0;
    do {
        if (count == LINE - 1 || recv(s->socket, line + count, 1, 0) != 1)
            stop("the server gives no answer");
    } while (line[count++] != '\n');
    line[count] = '\0';
}

/* Reads a line, which is to be one of two. */
static void hear(const struct session *s, const char *one, const char *other)
{
    char line[LINE];
    read_line(s, line);
    if (strcmp(line, one) != 0 && strcmp(line, other) != 0) {
        fprintf(stderr, "load: %s", line);
        stop("that should be another answer");
    }
}

/* Closing resets the connection, so that no port is kept for it. */
static void connect_to(struct session *s, int port)
{
    struct sockaddr_in address = {.sin_family = AF_INET, .sin_port = htons((unsigned short)port)};
    struct timeval patience = {.tv_sec = PATIENCE};
    struct linger reset = {.l_onoff = 1, .l_linger = 0};
    int on = 1;
    address.sin_addr.s_addr = htonl(INADDR_LOOPBACK);
    s->socket = socket(AF_INET, SOCK_STREAM, 0);
    if (s->socket < 0 || connect(s->socket, (struct sockaddr *)&address, sizeof address) != 0)
        stop("no server is listening there");
    setsockopt(s->socket, IPPROTO_TCP, TCP_NODELAY, &on, sizeof on);
    setsockopt(s->socket, SOL_SOCKET, SO_LINGER, &reset, sizeof reset);
    setsockopt(s->socket, SOL_SOCKET, SO_RCVTIMEO, &patience, sizeof patience);
}

static void enter(struct session *s, int port)
{
    char line[LINE];
    connect_to(s, port);
    snprintf(line, sizeof line, ENTER, s->key);
    say(s, line);
    hear(s, HERE, HERE);
}

/* All agents that have to go a step further do so at the same time, as arrivals wait for turns. */
static void walk(void)
{
    bool is_done = false;
    for (int step = 0; !is_done; step++) {
        is_done = true;
        for (size_t i = 0; i < sessions; i++)
            if (all[i].steps > step)
                say(&all[i], DEPART);
        for (size_t i = 0; i < sessions; i++)
            if (all[i].steps > step) {
                hear(&all[i], GONE, GONE);
                hear(&all[i], ARRIVED, ARRIVED);
                is_done = false;
            }
    }
}

static void prepare(int port)
{
    for (size_t i = 0; i < sessions; i++)
        enter(&all[i], port);
    walk();
    for (size_t i = 0; kind->needs_text && i < sessions; i++) {
        say(&all[i], WRITE("", ONE_TEXT));
        hear(&all[i], WRITTEN, CHANGED);
    }
}

/* After the clock has started: sockets do not block, and each thread waits for its own active sessions at once. */

static void ask(struct session *s)
{
    const char *line = kind->lines[s->asked % 2];
    size_t count = strlen(line);
    s->since = now();
    s->asked++;
    if (send(s->socket, line, count, MSG_NOSIGNAL) != (ssize_t)count)
        stop("the server takes no line");
}

/* Sends as much of the burst as the socket takes. */
static void push(struct session *s)
{
    while (s->sent < burst_length) {
        ssize_t count = send(s->socket, burst + s->sent, burst_length - s->sent, MSG_NOSIGNAL);
        if (count < 0 && (errno == EAGAIN || errno == EWOULDBLOCK))
            return;
        if (count <= 0)
            stop("the server takes no line");
        s->sent += (size_t)count;
    }
}

/* Reads what has come; false if nothing has. */
static bool pull(struct session *s, char *buffer)
{
    ssize_t count = recv(s->socket, buffer, READ, 0);
    if (count < 0 && (errno == EAGAIN || errno == EWOULDBLOCK))
        return false;
    if (count <= 0)
        stop("the server has closed a connection");
    if (memcmp(buffer, due + s->heard % length, (size_t)count) != 0) {
        fprintf(stderr, "load: %.*s\n", (int)(count < LINE ? count : LINE), buffer);
        stop("that should be another answer");
    }
    s->heard += (size_t)count;
    if (s->heard > commands * length)
        stop("the server gives more than one answer to a command");
    return true;
}

/* Takes the time of an answer, and asks again where all has come that the last command brings. */
static void go_on(struct session *s)
{
    size_t before = (s->asked - 1) * length;
    if (s->heard > before + length)
        stop("the server gives more than one answer to a command");
    if (s->heard >= before + kind->answer && s->times[s->asked - 1] == 0) {
        uint64_t took = now() - s->since;
        s->times[s->asked - 1] = took < UINT32_MAX ? (uint32_t)took : UINT32_MAX;
    }
    if (s->heard == before + length && s->asked < commands)
        ask(s);
}

static bool is_done(const struct session *s)
{
    return s->heard >= commands * length;
}

/* Goes on with a session at which something has happened, as far as can be without waiting. */
static void attend(struct session *s, char *buffer)
{
    if (!one_by_one)
        push(s);
    while (!is_done(s) && pull(s, buffer))
        if (one_by_one)
            go_on(s);
}

static void begin(int poll, struct session *s)
{
    struct epoll_event event = {.events = EPOLLIN | EPOLLOUT | EPOLLET, .data.ptr = s};
    if (one_by_one) {
        event.events = EPOLLIN | EPOLLET;
        ask(s);
    }
    if (epoll_ctl(poll, EPOLL_CTL_ADD, s->socket, &event) != 0)
        stop("no room to wait");
}

/* Plays every session of this thread: those of each THREADS-th of the ACTIVE places. */
static void *play(void *word)
{
    struct epoll_event events[EVENTS];
    char *buffer = memory(READ);
    int poll = epoll_create1(0);
    size_t left = 0;
    pthread_barrier_wait(&ready);
    for (size_t i = (size_t)(intptr_t)word; i < active; i += threads, left++)
        begin(poll, &all[i]);
    while (left > 0) {
        int count = epoll_wait(poll, events, EVENTS, PATIENCE * 1000);
        if (count == 0 || (count < 0 && errno != EINTR))
            stop("the server does not answer");
        for (int i = 0; i < count; i++) {
            struct session *s = events[i].data.ptr, *next = s + active;
            if (is_done(s))
                continue;
            attend(s, buffer);
            if (is_done(s) && next < all + sessions)
                begin(poll, next);
            else
                left -= is_done(s);
        }
    }
    close(poll);
    free(buffer);
    return NULL;
}

static int compare_times(const void *one, const void *other)
{
    uint32_t a = *(const uint32_t *)one, b = *(const uint32_t *)other;
    return (a > b) - (a < b);
}

/* Plays all sessions, and prints the figures. */
static void measure(uint32_t *times)
{
    size_t count = sessions * commands;
    pthread_t *running = memory(threads * sizeof *running);
    pthread_barrier_init(&ready, NULL, (unsigned)threads + 1);
    for (size_t i = 0; i < threads; i++)
        if (pthread_create(&running[i], NULL, play, (void *)(intptr_t)i) != 0)
            stop("no more threads");
    uint64_t start = now();
    pthread_barrier_wait(&ready);
    for (size_t i = 0; i < threads; i++)
        pthread_join(running[i], NULL);
    double seconds = (double)(now() - start) / 1e9;
    free(running);
    qsort(times, count, sizeof *times, compare_times);
    printf("{\"commands\":%zu,\"seconds\":%.6f,\"p50\":%.1f,\"p99\":%.1f}\n", count, seconds, times[count / 2] / 1e3,
           times[count * 99 / 100] / 1e3);
}

/* Makes the burst, what is due for it, and the places of the answer times. */
static uint32_t *make_room(void)
{
    size_t lines = strlen(kind->lines[0]) + strlen(kind->lines[1]);
    uint32_t *times = memory(sessions * commands * sizeof *times);
    char *end = burst = memory(commands * lines + 1);
    length = strlen(kind->comes);
    due = memory(READ + 2 * length);
    for (size_t i = 0; i < commands; i++)
        end = stpcpy(end, kind->lines[i % 2]);
    burst_length = (size_t)(end - burst);
    for (size_t i = 0; i < READ + length; i++)
        due[i] = kind->comes[i % length];
    for (size_t i = 0; i < sessions; i++)
        all[i].times = times + i * commands;
    return times;
}

static void hold(void)
{
    for (size_t i = 0; i < sessions; i++) {
        say(&all[i], LOOK);
        hear(&all[i], HERE, HERE);
    }
    puts("open");
    fflush(stdout);
    for (;;)
        pause();
}

static void read_words(int count, char **words)
{
    if (count != 7)
        stop("usage: load PORT KIND MODE ACTIVE COMMANDS THREADS < KEYS");
    for (size_t i = 0; i < sizeof KINDS / sizeof *KINDS; i++)
        if (strcmp(words[2], KINDS[i].name) == 0)
            kind = &KINDS[i];
    one_by_one = strcmp(words[3], "one") == 0;
    active = strtoul(words[4], NULL, 10);
    commands = strtoul(words[5], NULL, 10);
    threads = strtoul(words[6], NULL, 10);
    while (sessions < MOST_SESSIONS && scanf("%79s %d", all[sessions].key, &all[sessions].steps) == 2)
        sessions++;
    if (!kind || active < 1 || active > sessions || commands < 1 || threads < 1)
        stop("such a load is none");
}

int main(int count, char **words)
{
    read_words(count, words);
    prepare(atoi(words[1]));
    if (strcmp(words[3], "hold") == 0)
        hold();
    uint32_t *times = make_room();
    for (size_t i = 0; i < sessions; i++)
        fcntl(all[i].socket, F_SETFL, O_NONBLOCK);
    measure(times);
    return 0;
}
