/* Did a recorded log ask for the status first, and are its answers the controller's? No system headers, no state of
   its own. */
#ifndef ASKING_H
#define ASKING_H

#include "second.h"

struct second_check_reply {
    unsigned number;
    unsigned long place;
    unsigned unasked_named;   /* 1 if an access was made without asking */
    unsigned long unasked;    /* the first such pair, else 0 */
    unsigned differing_named; /* 1 if an answer differs from the controller's */
    unsigned long differing;  /* the first such answer's index among the answers, else 0 */
};

/* 0, 1, 2, 8, 3 to 7, or 14. The log runs from the given state, which stays as it is; memory is that after the run,
   on a refusal too. With number 0 the log passes exactly if neither is named; on refusal nothing is named. */
struct second_check_reply second_check_log(const struct second_panel *panel, const struct second_registers *registers,
                                           unsigned char *memory, unsigned long memory_length,
                                           const unsigned char *rom, unsigned long rom_length,
                                           const unsigned char *log, unsigned long log_length,
                                           const unsigned char *recorded, unsigned long recorded_length);

#endif
