/* Runs a program once, and tells how long it took and how much memory it held.
 *
 *     timer DESCRIPTOR PROGRAM [WORD ..]
 *
 * The program has the standard streams of this one. Once it has ended, a line goes to DESCRIPTOR: the seconds that it
 * took, the seconds that a processor worked for it, and the most memory that it held, in KiB. What this program holds
 * itself, 1.2 MiB, is the least that is told. The exit status is that of the program, or 2 if it could not be run.
 * Python would do, but it takes half a millisecond to start a program, as long as a short run takes. */
#include <errno.h>
#include <fcntl.h>
#include <spawn.h>
#include <stdio.h>
#include <stdlib.h>
#include <sys/resource.h>
#include <sys/time.h>
#include <sys/wait.h>
#include <time.h>

extern char **environ;

static double seconds_of(struct timeval time)
{
    return (double)time.tv_sec + (double)time.tv_usec / 1e6;
}

static double now(void)
{
    struct timespec time;
    clock_gettime(CLOCK_MONOTONIC, &time);
    return (double)time.tv_sec + (double)time.tv_nsec / 1e9;
}

int main(int count, char **words)
{
    if (count < 3) {
        fprintf(stderr, "usage: timer DESCRIPTOR PROGRAM [WORD ..]\n");
        return 2;
    }
    int descriptor = atoi(words[1]);
    fcntl(descriptor, F_SETFD, FD_CLOEXEC);
    double begin = now();
    pid_t child;
    int status;
    struct rusage used;
    errno = posix_spawnp(&child, words[2], NULL, NULL, words + 2, environ);
    if (errno != 0 || wait4(child, &status, 0, &used) < 0) {
        perror(words[2]);
        return 2;
    }
    double took = now() - begin;
    double worked = seconds_of(used.ru_utime) + seconds_of(used.ru_stime);
    dprintf(descriptor, "%.6f %.6f %ld\n", took, worked, used.ru_maxrss);
    return WIFEXITED(status) ? WEXITSTATUS(status) : 2;
}
