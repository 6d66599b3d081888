#include "met.h"

#include <stdio.h>

bool lacking(bool lacks, const char *what, const char *which)
{
    if (lacks)
        printf("not covered: %s %s\n", what, which);
    return lacks;
}

bool met_enough(const char *what, unsigned long met, unsigned long more_often_than)
{
    printf("  %s: %lu\n", what, met);
    return !lacking(met <= more_often_than, what, "often enough");
}
