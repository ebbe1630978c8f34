/* Searches a ring with two agents that know its number of nodes: the search of ring.py, which says how it goes and
 * whose it is, in C, to show that an agent needs no library.
 *
 *     cc -O2 -Wall -Wextra -o ring ring.c
 *     ./ring PORT KEY NODES
 *
 * The server is at 127.0.0.1. Agents in C and in Python understand each other's whiteboards.
 */
#include <arpa/inet.h>
#include <netinet/in.h>
#include <netinet/tcp.h>
#include <stdbool.h>
#include <stdio.h>
#include <stdlib.h>
#include <string.h>
#include <sys/socket.h>
#include <unistd.h>

enum { RIGHT, LEFT };
enum { FIELD = 24, BOARD = 64, LINE = 65536 };

static const char *const SIDES[] = {"right", "left"};

/* The agent: its connection, what it sees, and what it knows of the ring. Halves are counted from the home base. */
struct agent {
    FILE *from_server, *to_server;
    int came;          /* the port by which it came, or -1 */
    int going;         /* the side to which it went last, or -1 */
    char board[BOARD]; /* what stands on the whiteboard */
    int side;          /* the side that it explores */
    int nodes, mine, theirs, target;
};

/* Ends the program, and with it the agent. */
static void stop(const char *why)
{
    fprintf(stderr, "ring: %s\n", why);
    exit(1);
}

/* What stands behind a name in a line of the server, which is always spelled the same way. */
static const char *value(const char *line, const char *name)
{
    const char *found = strstr(line, name);
    return found ? found + strlen(name) : NULL;
}

/* Reads an answer, and what it shows of the node. This team's whiteboards hold no character that JSON would escape. */
static void answer(struct agent *a, char *line)
{
    if (!fgets(line, LINE, a->from_server))
        stop("the server has closed the connection");
    if (value(line, "\"ok\":\"over\""))
        stop("the match ended before the search did");
    if (value(line, "{\"no\":"))
        stop(line);
    const char *board = value(line, "\"board\":\"");
    if (board) {
        size_t length = strcspn(board, "\"");
        if (length >= BOARD)
            stop("the whiteboard holds a stranger's text");
        memcpy(a->board, board, length);
        a->board[length] = '\0';
    }
    const char *came = value(line, "\"from\":");
    if (came)
        a->came = *came == 'n' ? -1 : atoi(came);
}

/* Sends a line and reads its answer. */
static void ask(struct agent *a, char *line)
{
    fputs(line, a->to_server);
    fputc('\n', a->to_server);
    if (fflush(a->to_server) != 0)
        stop("the server has closed the connection");
    answer(a, line);
}

static int port(const struct agent *a, int side)
{
    if (a->going < 0 || a->came < 0)
        return side;
    return side == a->going ? 1 - a->came : a->came;
}

static void walk(struct agent *a, int side, int steps)
{
    char line[LINE];
    while (steps-- > 0) {
        snprintf(line, sizeof line, "{\"do\":\"depart\",\"port\":%d}", port(a, side));
        ask(a, line);
        answer(a, line); /* the arrival, whenever it comes */
        a->going = side;
    }
}

static void accuse(struct agent *a, int side)
{
    char line[LINE];
    snprintf(line, sizeof line, "{\"do\":\"accuse\",\"port\":%d}", port(a, side));
    ask(a, line);
}

/* Puts a text, unless somebody wrote since the whiteboard was read; then reads it again. */
static bool swap(struct agent *a, const char *put)
{
    char line[LINE];
    snprintf(line, sizeof line, "{\"do\":\"write\",\"expect\":\"%s\",\"put\":\"%s\"}", a->board, put);
    ask(a, line);
    if (!value(line, "\"ok\":\"written\""))
        return false;
    snprintf(a->board, sizeof a->board, "%s", put);
    return true;
}

/* What the whiteboard says of the link on a side: new, going, safe, told N or hole. */
static void field(const struct agent *a, int side, char *said)
{
    char fields[2][FIELD] = {"new", "new"};
    if (a->board[0])
        sscanf(a->board, "right %23[^,], left %23[^,]", fields[RIGHT], fields[LEFT]);
    memcpy(said, fields[side], FIELD);
}

/* Puts this of the link on a side, and of the other what stood there. */
static bool put(struct agent *a, int side, const char *what)
{
    char fields[2][FIELD], text[BOARD];
    field(a, RIGHT, fields[RIGHT]);
    field(a, LEFT, fields[LEFT]);
    snprintf(fields[side], FIELD, "%s", what);
    snprintf(text, sizeof text, "%s %s, %s %s", SIDES[RIGHT], fields[RIGHT], SIDES[LEFT], fields[LEFT]);
    return swap(a, text);
}

static int left(const struct agent *a)
{
    return a->nodes - 1 - a->mine - a->theirs;
}

/* Writes this of the link ahead, and takes what the other agent wrote there; false where that is the black hole. */
static bool mark(struct agent *a, const char *what)
{
    char found[FIELD];
    for (;;) {
        field(a, a->side, found);
        if (strcmp(found, "hole") == 0)
            return false;
        if (sscanf(found, "told %d", &a->theirs) == 1)
            a->target = a->mine + (left(a) + 1) / 2;
        if (strcmp(found, what) == 0 || put(a, a->side, what))
            return true;
    }
}

/* Explores the agent's half by cautious walk; false where it has accused. */
static bool explore(struct agent *a)
{
    while (a->mine < a->target) {
        if (!mark(a, "going")) {
            accuse(a, a->side);
            return false;
        }
        walk(a, a->side, 1);
        walk(a, 1 - a->side, 1);
        mark(a, "safe");
        a->mine++;
        walk(a, a->side, 1);
    }
    return true;
}

/* Goes to the last safe node of the other side and divides what is left; false where it has accused. */
static bool divide(struct agent *a)
{
    int other = 1 - a->side;
    char found[FIELD], told[FIELD];
    walk(a, other, a->mine);
    a->theirs = 0;
    for (;;) {
        field(a, other, found);
        if (strcmp(found, "safe") == 0) {
            walk(a, other, 1);
            a->theirs++;
            continue;
        }
        snprintf(told, sizeof told, "told %d", a->mine);
        if (put(a, other, left(a) == 1 ? "hole" : told))
            break;
    }
    if (left(a) == 1) {
        accuse(a, other);
        return false;
    }
    a->target = a->mine + left(a) / 2;
    walk(a, a->side, a->theirs + a->mine);
    return true;
}

static void search(struct agent *a)
{
    a->side = !a->board[0] && put(a, RIGHT, "going") ? RIGHT : LEFT;
    a->target = a->side == RIGHT ? a->nodes / 2 : (a->nodes - 1) / 2;
    while (explore(a)) {
        if (left(a) == 1) {
            accuse(a, a->side);
            return;
        }
        if (!divide(a))
            return;
    }
}

static void connect_to(struct agent *a, int number)
{
    struct sockaddr_in address = {.sin_family = AF_INET, .sin_port = htons((unsigned short)number)};
    int server = socket(AF_INET, SOCK_STREAM, 0), on = 1;
    address.sin_addr.s_addr = htonl(INADDR_LOOPBACK);
    if (server < 0 || connect(server, (struct sockaddr *)&address, sizeof address) != 0)
        stop("no server is listening there");
    setsockopt(server, IPPROTO_TCP, TCP_NODELAY, &on, sizeof on);
    a->from_server = fdopen(server, "r");
    a->to_server = fdopen(dup(server), "w");
    if (!a->from_server || !a->to_server)
        stop("out of memory");
}

int main(int count, char **words)
{
    struct agent a = {.came = -1, .going = -1};
    char line[LINE];
    if (count != 4)
        stop("usage: ring PORT KEY NODES");
    a.nodes = atoi(words[3]);
    connect_to(&a, atoi(words[1]));
    snprintf(line, sizeof line, "{\"do\":\"enter\",\"key\":\"%s\"}", words[2]);
    ask(&a, line);
    search(&a);
    return 0;
}
