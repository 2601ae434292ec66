/* A torn book saved: of each body what is right from its start. No system headers, no state of its own. */
#ifndef SAVING_H
#define SAVING_H

#include "screens.h"

struct second_save_reply {
    unsigned number;
    unsigned long place;
    unsigned long length;  /* of the saved book; this and all below are 0 on refusal */
    unsigned long screens; /* n */
    unsigned long kept[SECOND_MOST_SCREENS], dropped[SECOND_MOST_SCREENS]; /* bytes of each body; 0 from n on */
};

/* 0, 1, 9 or 12. The saved book, in the same form with the same identities, fills the output's start; else the output
   is unchanged. Book and output do not overlap. */
struct second_save_reply second_save_book(const struct second_panel *panel,
                                          const unsigned char *book, unsigned long book_length,
                                          unsigned char *output, unsigned long output_length);

#endif
