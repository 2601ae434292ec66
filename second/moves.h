/* Books moved between form one and form two. No system headers, no state of its own. */
#ifndef MOVES_H
#define MOVES_H

#include "screens.h"

struct second_move_reply {
    unsigned number;
    unsigned long place;
    unsigned long length; /* of the moved book; 0 on refusal */
};

/* The moved book fills the output's start; else the output is unchanged. Book and output do not overlap. */

/* 0, 1, 9, 11, 19, 18 or 12. Identities become 0 to n - 1; every body is right on the panel and without AND. */
struct second_move_reply second_move_up(const struct second_panel *panel,
                                        const unsigned char *book, unsigned long book_length,
                                        unsigned char *output, unsigned long output_length);

/* 0, 9, 17 or 12. The bodies are not looked at. */
struct second_move_reply second_move_down(const unsigned char *book, unsigned long book_length,
                                          unsigned char *output, unsigned long output_length);

#endif
