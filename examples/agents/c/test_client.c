/* A first test: make test */
#include <arpa/inet.h>
#include <assert.h>
#include <string.h>
#include <sys/socket.h>
#include <sys/wait.h>
#include <unistd.h>

#include "client.h"

static const char *const LINES[] = {"{\"do\":\"enter\",\"key\":\"ka\"}\n", "{\"do\":\"depart\",\"port\":0}\n"};
static const char *const ANSWERS[] = {
    "{\"board\":\"\",\"from\":null,\"ok\":\"here\",\"ports\":2}\n",
    "{\"ok\":\"gone\"}\n{\"board\":\"say \\\"5\\\" \\u2713\",\"from\":1,\"ok\":\"here\",\"ports\":2}\n",
};

/* Wants these lines of one client, and answers each. */
static int serve(int listener)
{
    char line[256];
    int client = accept(listener, NULL, NULL);
    FILE *lines = fdopen(client, "r");
    for (int at = 0; at < 2; at++) {
        if (!fgets(line, sizeof line, lines) || strcmp(line, LINES[at]) != 0)
            return 1;
        if (write(client, ANSWERS[at], strlen(ANSWERS[at])) < 0)
            return 1;
    }
    return 0;
}

int main(void)
{
    struct sockaddr_in address = {.sin_family = AF_INET, .sin_addr.s_addr = htonl(INADDR_LOOPBACK)};
    socklen_t size = sizeof address;
    int listener = socket(AF_INET, SOCK_STREAM, 0), status;
    assert(bind(listener, (struct sockaddr *)&address, size) == 0 && listen(listener, 1) == 0);
    getsockname(listener, (struct sockaddr *)&address, &size);
    pid_t server = fork();
    if (server == 0)
        _exit(serve(listener));
    struct agent agent;
    struct here here;
    char port[8];
    snprintf(port, sizeof port, "%d", ntohs(address.sin_port));
    assert(agent_join(&agent, "127.0.0.1", port, "ka", &here) == DONE);
    assert(here.ports == 2 && here.came == -1 && strcmp(here.board, "") == 0);
    /* a departure is answered twice */
    assert(agent_depart(&agent, 0, &here) == DONE);
    assert(here.came == 1 && strcmp(here.board, "say \"5\" \xe2\x9c\x93") == 0);
    agent_close(&agent);
    assert(waitpid(server, &status, 0) == server && status == 0);
    puts("1 test passed");
    return 0;
}
