#define _POSIX_C_SOURCE 200809L /* fork and what goes with it */

#include "apart.h"

#include <stdio.h>
#include <stdlib.h>
#include <sys/wait.h>
#include <unistd.h>

/* What the system refuses ends the program, with another status than a difference. */
static void demand_system(int result, const char *what)
{
    if (result != -1)
        return;
    perror(what);
    exit(2);
}

static void do_and_end(void (*deed)(const void *), const void *with, const int ends[2])
{
    close(ends[0]);
    demand_system(dup2(ends[1], STDOUT_FILENO), "dup2");
    deed(with);
    exit(0);
}

/* What is printed comes at the end of the process and all at once, so that it is read at once. */
struct ending apart(void (*deed)(const void *), const void *with)
{
    struct ending ending = { .printed = "" };
    int ends[2], status;
    fflush(stdout);
    demand_system(pipe(ends), "pipe");
    pid_t child = fork();
    demand_system(child, "fork");
    if (child == 0)
        do_and_end(deed, with, ends);
    close(ends[1]);
    demand_system(read(ends[0], ending.printed, sizeof ending.printed - 1), "read");
    close(ends[0]);
    demand_system(waitpid(child, &status, 0), "waitpid");
    ending.status = WIFEXITED(status) ? WEXITSTATUS(status) : -1;
    return ending;
}
