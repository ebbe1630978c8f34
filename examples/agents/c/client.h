/* A client of the arena: connect, enter, look, write, depart, accuse, leave.
 *
 *     struct agent agent;
 *     struct here here;
 *     if (agent_join(&agent, "127.0.0.1", "4000", "KEY", &here) != DONE) ..   here.ports, here.came, here.board
 *     agent_depart(&agent, 0, &here);      waits until the agent has arrived
 *     agent_accuse(&agent, 1);             port 1 leads to a black hole; the agent ends
 *
 * Each call sends a line, waits for its answer, and says what came of it.
 */
#ifndef ARENA_CLIENT_H
#define ARENA_CLIENT_H

#include <stdbool.h>
#include <stddef.h>
#include <stdio.h>

/* What came of a call: it is done, the match is over, or the server refused it or is gone: see `why`. */
enum outcome { DONE, OVER, REFUSED };

struct agent {
    FILE *from_server;
    FILE *to_server;
    char *line; /* the last answer; texts are read in place */
    size_t room;
    char why[64]; /* why the last call was refused */
};

/* A node as an agent sees it. `came` is the port by which the agent came, or -1. The text of the whiteboard is the
 * agent's own, and stays until its next call. */
struct here {
    int ports;
    int came;
    const char *board;
};

/* Connects and enters. Tries again if the server has no room yet. */
enum outcome agent_join(struct agent *agent, const char *host, const char *port, const char *key, struct here *here);
/* Looks at the node where the agent is. */
enum outcome agent_look(struct agent *agent, struct here *here);
/* Puts a text on the whiteboard if what stands there is what is expected, else changes nothing. Says whether it was
 * put; if not, *board is what stands there. */
enum outcome agent_write(struct agent *agent, const char *expect, const char *put, bool *written, const char **board);
/* Leaves by this port, and waits until the agent arrives. If it is destroyed, that is until the match ends. */
enum outcome agent_depart(struct agent *agent, int port, struct here *here);
/* Says that the link at this port leads to a black hole, or is dark. The agent ends. */
enum outcome agent_accuse(struct agent *agent, int port);
/* Leaves the match. */
enum outcome agent_leave(struct agent *agent);
void agent_close(struct agent *agent);

#endif
