#include "client.h"

#include <netdb.h>
#include <netinet/in.h>
#include <netinet/tcp.h>
#include <signal.h>
#include <stdlib.h>
#include <string.h>
#include <sys/socket.h>
#include <time.h>
#include <unistd.h>

enum { TRIES = 20, FIRST_PAUSE = 50, LONGEST_PAUSE = 2000 };

static enum outcome refused(struct agent *agent, const char *why)
{
    snprintf(agent->why, sizeof agent->why, "%s", why);
    return REFUSED;
}

/* ---- JSON: the server's lines are flat objects whose members are texts, whole numbers or null, without spaces */

/* Writes a character in UTF-8. */
static char *put_character(char *to, unsigned long code)
{
    if (code < 0x80) {
        *to++ = (char)code;
    } else if (code < 0x800) {
        *to++ = (char)(0xc0 | code >> 6);
        *to++ = (char)(0x80 | (code & 0x3f));
    } else if (code < 0x10000) {
        *to++ = (char)(0xe0 | code >> 12);
        *to++ = (char)(0x80 | (code >> 6 & 0x3f));
        *to++ = (char)(0x80 | (code & 0x3f));
    } else {
        *to++ = (char)(0xf0 | code >> 18);
        *to++ = (char)(0x80 | (code >> 12 & 0x3f));
        *to++ = (char)(0x80 | (code >> 6 & 0x3f));
        *to++ = (char)(0x80 | (code & 0x3f));
    }
    return to;
}

static unsigned long hex_at(const char *text)
{
    char digits[5] = {text[0], text[1], text[2], text[3], '\0'};
    return strtoul(digits, NULL, 16);
}

/* Reads the text whose opening quotation mark is before `from`, in place; *end is behind its closing one. */
static char *text_at(char *from, char **end)
{
    static const char escapes[] = "\"\\/bfnrt", meanings[] = "\"\\/\b\f\n\r\t";
    char *to = from, *start = from;
    while (*from && *from != '"') {
        const char *escape;
        if (*from != '\\') {
            *to++ = *from++;
        } else if (from[1] == 'u') {
            unsigned long code = hex_at(from + 2);
            from += 6;
            if (code >= 0xd800 && code < 0xdc00 && from[0] == '\\') {
                code = 0x10000 + ((code - 0xd800) << 10) + (hex_at(from + 2) - 0xdc00);
                from += 6;
            }
            to = put_character(to, code);
        } else {
            escape = strchr(escapes, from[1]);
            *to++ = escape ? meanings[escape - escapes] : from[1];
            from += 2;
        }
    }
    *end = *from ? from + 1 : from;
    *to = '\0';
    return start;
}

/* What an answer holds: texts that it has not are NULL, numbers -1. */
struct answer {
    const char *ok, *no, *board;
    int from, ports;
};

static struct answer parsed(char *line)
{
    struct answer answer = {NULL, NULL, NULL, -1, -1};
    char *at = line;
    while (*at && (at = strchr(at, '"'))) {
        const char *name = text_at(at + 1, &at);
        if (*at == ':')
            at++;
        if (*at == '"') {
            const char *text = text_at(at + 1, &at);
            if (strcmp(name, "ok") == 0)
                answer.ok = text;
            else if (strcmp(name, "no") == 0)
                answer.no = text;
            else if (strcmp(name, "board") == 0)
                answer.board = text;
        } else if (*at != 'n') {
            if (strcmp(name, "from") == 0)
                answer.from = atoi(at);
            else if (strcmp(name, "ports") == 0)
                answer.ports = atoi(at);
        }
    }
    return answer;
}

/* Writes a text as JSON: quotation marks, backslashes and control characters are escaped. */
static void put_text(FILE *to, const char *text)
{
    fputc('"', to);
    for (; *text; text++) {
        if (*text == '"' || *text == '\\')
            fprintf(to, "\\%c", *text);
        else if ((unsigned char)*text < 0x20)
            fprintf(to, "\\u%04x", *text);
        else
            fputc(*text, to);
    }
    fputc('"', to);
}

/* ---- lines */

static enum outcome receive(struct agent *agent, struct answer *answer)
{
    if (fflush(agent->to_server) != 0 || getline(&agent->line, &agent->room, agent->from_server) < 0)
        return refused(agent, "the server has closed the connection");
    *answer = parsed(agent->line);
    if (answer->no)
        return refused(agent, answer->no);
    return answer->ok && strcmp(answer->ok, "over") == 0 ? OVER : DONE;
}

static enum outcome receive_here(struct agent *agent, struct here *here)
{
    struct answer answer;
    enum outcome outcome = receive(agent, &answer);
    if (outcome == DONE) {
        here->ports = answer.ports;
        here->came = answer.from;
        here->board = answer.board ? answer.board : "";
    }
    return outcome;
}

/* ---- commands */

enum outcome agent_look(struct agent *agent, struct here *here)
{
    fputs("{\"do\":\"look\"}\n", agent->to_server);
    return receive_here(agent, here);
}

enum outcome agent_write(struct agent *agent, const char *expect, const char *put, bool *written, const char **board)
{
    struct answer answer;
    fputs("{\"do\":\"write\",\"expect\":", agent->to_server);
    put_text(agent->to_server, expect);
    fputs(",\"put\":", agent->to_server);
    put_text(agent->to_server, put);
    fputs("}\n", agent->to_server);
    enum outcome outcome = receive(agent, &answer);
    if (outcome == DONE) {
        *written = strcmp(answer.ok, "written") == 0;
        *board = *written ? put : answer.board;
    }
    return outcome;
}

enum outcome agent_depart(struct agent *agent, int port, struct here *here)
{
    struct answer gone;
    fprintf(agent->to_server, "{\"do\":\"depart\",\"port\":%d}\n", port);
    enum outcome outcome = receive(agent, &gone);
    return outcome == DONE ? receive_here(agent, here) : outcome;
}

enum outcome agent_accuse(struct agent *agent, int port)
{
    struct answer noted;
    fprintf(agent->to_server, "{\"do\":\"accuse\",\"port\":%d}\n", port);
    return receive(agent, &noted);
}

enum outcome agent_leave(struct agent *agent)
{
    struct answer bye;
    fputs("{\"do\":\"leave\"}\n", agent->to_server);
    return receive(agent, &bye);
}

/* ---- connections */

static int connected(const char *host, const char *port)
{
    struct addrinfo hints = {.ai_socktype = SOCK_STREAM}, *found, *it;
    int server = -1, on = 1;
    if (getaddrinfo(host, port, &hints, &found) != 0)
        return -1;
    for (it = found; it && server < 0; it = it->ai_next) {
        server = socket(it->ai_family, it->ai_socktype, it->ai_protocol);
        if (server >= 0 && connect(server, it->ai_addr, it->ai_addrlen) != 0) {
            close(server);
            server = -1;
        }
    }
    freeaddrinfo(found);
    if (server >= 0)
        setsockopt(server, IPPROTO_TCP, TCP_NODELAY, &on, sizeof on);
    return server;
}

static enum outcome enter(struct agent *agent, const char *host, const char *port, const char *key, struct here *here)
{
    int server = connected(host, port);
    *agent = (struct agent){0};
    if (server < 0)
        return refused(agent, "no server is listening there");
    agent->from_server = fdopen(server, "r");
    agent->to_server = fdopen(dup(server), "w");
    if (!agent->from_server || !agent->to_server)
        return refused(agent, "out of memory");
    fputs("{\"do\":\"enter\",\"key\":", agent->to_server);
    put_text(agent->to_server, key);
    fputs("}\n", agent->to_server);
    return receive_here(agent, here);
}

/* The server has no room yet, or the first line came late: the key is not used up. */
static bool may_try_again(const char *why)
{
    return strcmp(why, "full") == 0 || strcmp(why, "late") == 0 || strcmp(why, "memory") == 0;
}

enum outcome agent_join(struct agent *agent, const char *host, const char *port, const char *key, struct here *here)
{
    long pause = FIRST_PAUSE;
    signal(SIGPIPE, SIG_IGN);
    for (int left = TRIES;; left--) {
        enum outcome outcome = enter(agent, host, port, key, here);
        if (outcome != REFUSED || left == 0 || !may_try_again(agent->why))
            return outcome;
        agent_close(agent);
        nanosleep(&(struct timespec){pause / 1000, pause % 1000 * 1000000}, NULL);
        pause = 2 * pause < LONGEST_PAUSE ? 2 * pause : LONGEST_PAUSE;
    }
}

void agent_close(struct agent *agent)
{
    if (agent->from_server)
        fclose(agent->from_server);
    if (agent->to_server)
        fclose(agent->to_server);
    free(agent->line);
    agent->from_server = agent->to_server = NULL;
    agent->line = NULL;
}
