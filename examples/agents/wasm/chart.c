/* Searches a network without a map. The module's arguments are the numbers of its nodes and of its links, or 0 links if
 * no node has more than three. One agent more than the black hole has links solves it. It is the search of ../chart.py,
 * command for command.
 *
 * All agents are alike. They share a chart on the home base's whiteboard: a row for each node that is known, with the
 * row and the port by which it was found, and for each of its ports whether it is free, claimed or done. An agent
 * claims a free port, goes through it, and writes on an empty whiteboard there how the node was found; then it comes
 * back, and notes in the chart that the port is done, and the node if it is new. Whoever claimed a port to the black
 * hole does not come back. Once all other nodes are known, so is how many of the ports lead to the black hole. Once no
 * others are left, each of them is a right one to accuse. Meanwhile agents that find no port free sleep.
 *
 * The whiteboard of the home base needs six bytes for each node but the black hole, and one for each port of these. An
 * agent traps if it has fewer, and on networks of more than 24 nodes, or with a node of more than 23 ports.
 */
#include "arena.h"

enum { NODES = 24, PORTS = NODES - 1, NAME = 4, HEAD = 6, TEXT = NODES * (HEAD + PORTS) };
enum { FREE = 0, CLAIMED = 1, DONE = 2 };

/* a node: the row and the port by which it was found, how many ports it has, and how these stand */
struct row {
    int father, port, degree;
    char state[PORTS];
};

/* what an agent knows while it is at the home base; cleared when it sets out or sleeps, so that it tells no states
 * apart */
static struct row chart[NODES];
static int rows;
/* what a whiteboard shows and what is written there */
static char shown[TEXT], put[TEXT];
/* the ports of a way from the home base, and those of the way back */
static int ahead[NODES], behind[NODES];

static char *put_number(char *to, int number)
{
    *to++ = (char)(' ' + number / 64);
    *to++ = (char)(' ' + number % 64);
    return to;
}

static int number_at(const char *at)
{
    return 64 * (at[0] - ' ') + (at[1] - ' ');
}

static void forget(void)
{
    arena_clear(chart, sizeof chart);
    arena_clear(shown, sizeof shown);
    rows = 0;
}

/* Adds a node to the chart, all of whose ports are free. */
static struct row *add(int father, int port, int degree)
{
    if (rows == NODES || degree > PORTS)
        __builtin_trap();
    chart[rows] = (struct row){father, port, degree, {FREE}};
    return &chart[rows++];
}

/* Takes the chart that the home base shows; if it shows none, the home base alone is known. */
static void read_chart(int length, int ports)
{
    arena_clear(chart, sizeof chart);
    rows = 0;
    if (length == 0)
        add(0, 0, ports);
    for (const char *at = shown; at < shown + length;) {
        struct row *row = add(number_at(at), number_at(at + 2), number_at(at + NAME));
        for (int port = 0; port < row->degree; port++)
            row->state[port] = (char)(at[HEAD + port] - ' ');
        at += HEAD + row->degree;
    }
}

/* Writes the chart at the home base, in place of what it shows. What was written is shown then, if nobody was first. */
static int write_chart(int length)
{
    char *end = put;
    for (const struct row *row = chart; row < chart + rows; row++) {
        end = put_number(put_number(put_number(end, row->father), row->port), row->degree);
        for (int port = 0; port < row->degree; port++)
            *end++ = (char)(' ' + row->state[port]);
    }
    int reply = arena_write(shown, length, put, (int)(end - put));
    if (reply < 0 && reply != ARENA_SPENT)
        __builtin_trap();
    if (reply == ARENA_WRITTEN)
        arena_copy(shown, put, TEXT);
    arena_clear(put, sizeof put);
    return reply;
}

/* The length of the chart as text. */
static int length_of_chart(void)
{
    int length = 0;
    for (int row = 0; row < rows; row++)
        length += HEAD + chart[row].degree;
    return length;
}

/* The first port whose state is below this one: its row times PORTS, and its number; -1 if there is none. */
static int first(int below)
{
    for (int place = 0; place < rows * PORTS; place++) {
        const struct row *row = &chart[place / PORTS];
        if (place % PORTS < row->degree && row->state[place % PORTS] < below)
            return place;
    }
    return -1;
}

/* Whether the ports that are not done are those that lead to the black hole. */
static int is_known(int nodes, int links)
{
    int ends = 0, left = 0;
    for (const struct row *row = chart; row < chart + rows; row++) {
        ends += row->degree;
        for (int port = 0; port < row->degree; port++)
            left += row->state[port] < DONE;
    }
    return rows == nodes - 1 && left == (links ? 2 * links - ends : 2 + ends % 2);
}

/* The way from the home base to the node of a row; answers how many ports it has. */
static int way_to(int row)
{
    int count = 0;
    for (int at = row; at; at = chart[at].father)
        count++;
    for (int at = row, step = count; at; at = chart[at].father)
        ahead[--step] = chart[at].port;
    return count;
}

/* Goes this way; answers whether it arrives. */
static int go(int count)
{
    for (int step = 0; step < count; step++) {
        if (arena_depart(ahead[step]) != ARENA_HERE)
            return 0;
        behind[step] = arena_came();
    }
    return 1;
}

/* Learns how the node was found at which it is, and writes so if nobody has. Answers its length: a name, or else a
 * chart, if it is the home base. */
static int name(int row, int port)
{
    int length = arena_board(shown, TEXT);
    if (length)
        return length;
    put_number(put_number(shown, row), port);
    return arena_write("", 0, shown, NAME) == ARENA_CHANGED ? arena_board(shown, TEXT) : NAME;
}

/* Notes in the chart that the port at a place is done, and the node behind it if that is new. The home base, where the
 * degree is 0, is not. */
static int note(int place, int father, int port, int degree)
{
    int length = arena_board(shown, TEXT), is_new = degree > 0;
    read_chart(length, 0);
    chart[place / PORTS].state[place % PORTS] = DONE;
    for (int row = 1; row < rows; row++)
        is_new &= chart[row].father != father || chart[row].port != port;
    if (is_new)
        add(father, port, degree);
    return write_chart(length);
}

/* Explores the port at a place, which this agent has claimed. Answers whether it came back and noted what it found. */
static int explore(int place)
{
    int count = way_to(place / PORTS);
    ahead[count++] = place % PORTS;
    forget();
    if (!go(count))
        return 0;
    int degree = arena_ports();
    if (name(place / PORTS, place % PORTS) != NAME)
        degree = 0;
    int father = degree ? number_at(shown) : 0, port = degree ? number_at(shown + 2) : 0;
    forget();
    while (count > 0)
        if (arena_depart(behind[--count]) != ARENA_HERE)
            return 0;
    arena_clear(ahead, sizeof ahead);
    arena_clear(behind, sizeof behind);
    int reply;
    do
        reply = note(place, father, port, degree);
    while (reply == ARENA_CHANGED);
    return reply == ARENA_WRITTEN;
}

/* Goes to the first port that is not done and accuses it. */
static void accuse(void)
{
    int place = first(DONE), count = way_to(place / PORTS);
    forget();
    if (!go(count) || arena_accuse(place % PORTS) != ARENA_NOTED)
        arena_leave();
}

/* Claims the port at a place and explores it, or reads what another has written first. Answers the length of the chart
 * that is shown, or less than 0. */
static int claim(int place, int length)
{
    chart[place / PORTS].state[place % PORTS] = CLAIMED;
    int reply = write_chart(length);
    if (reply == ARENA_CHANGED)
        return arena_board(shown, TEXT);
    return reply == ARENA_WRITTEN && explore(place) ? length_of_chart() : -1;
}

/* Sleeps until the whiteboard changes. Answers the length of the chart that it shows then, or less than 0. */
static int await_change(void)
{
    forget();
    return arena_sleep() == ARENA_WOKE && arena_look() == ARENA_HERE ? arena_board(shown, TEXT) : -1;
}

ARENA_RUN
{
    int nodes = arena_argument(0), links = arena_argument(1);
    if (arena_enter() != ARENA_HERE)
        return;
    int ports = arena_ports(), length = arena_board(shown, TEXT);
    while (length >= 0) {
        read_chart(length, ports);
        if (is_known(nodes, links)) {
            accuse();
            return;
        }
        int place = first(CLAIMED);
        length = place < 0 ? await_change() : claim(place, length);
    }
    arena_leave();
}
