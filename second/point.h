/* A point: one line, ok or not ok, as check counts them. */
#ifndef POINT_H
#define POINT_H

#include <stdio.h>

static void point(const char *name, int holds)
{
    printf("%s %s\n", holds ? "ok" : "not ok", name);
}

#endif
