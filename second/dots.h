/* A frame as text. */
#ifndef DOTS_H
#define DOTS_H

#include <stdio.h>

#include "second.h"

/* A line for each dot row: `#` for a dot that is set, else `.`. */
static void print_dots(const struct second_panel *panel, const unsigned char *frame)
{
    unsigned row, x;
    for (row = 0; row < 8 * panel->lines; row++) {
        for (x = 0; x < panel->columns * panel->width; x++) {
            unsigned char packed = frame[row * second_row_length(panel) + x / 8];
            putchar((packed >> (7 - x % 8)) & 1 ? '#' : '.');
        }
        putchar('\n');
    }
}

#endif
