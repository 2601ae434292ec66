/* From one screen to another by a short stream. No system headers, no state of its own. */
#ifndef DIFFERENCE_H
#define DIFFERENCE_H

#include "screens.h"

/* 0, 1, 9, 10 for A then B, 11 for A then B, or 12. On a controller that has run A's stream, and since then only ticks
   and status reads, the stream shows B. It fills the room's start; else the room is unchanged. */
struct second_write_reply second_write_difference(const struct second_panel *panel,
                                                  const unsigned char *book, unsigned long book_length,
                                                  unsigned long screen_a, unsigned long screen_b,
                                                  unsigned char *room, unsigned long room_length);

#endif
