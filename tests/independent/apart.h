/* Does something in a process of its own, which may end there. */
#ifndef APART_H
#define APART_H

struct ending {
    int status;        /* -1 for a process that a signal ended */
    char printed[256]; /* what it printed, or as much of it as there is room for */
};

/* A deed that comes to its end, ends with status 0. What it writes in memory is lost. */
struct ending apart(void (*deed)(const void *), const void *with);

#endif
