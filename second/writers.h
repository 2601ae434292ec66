/* Who wrote there: every store of a log into a stretch of memory. No system headers, no state of its own. */
#ifndef WRITERS_H
#define WRITERS_H

#include "second.h"

/* The numbers of one entry: the pair, the address, the byte there before the store and after it. */
#define SECOND_STORE_NUMBERS 4UL

struct second_writers_reply {
    unsigned number;      /* 0, 1, 2, 8 or 15 */
    unsigned long place;  /* 8: the whole pairs in the log; 15: the entries needed; else 0 */
    unsigned long stores; /* entries listed; 0 on refusal */
};

/* All of the log by the run that skips, its answers dropped. The stretch is the addresses from first up to last, by way
   of FFFFH and 0000H where first is above last; both are modulo 65,536. list_length counts numbers, and a rest of fewer
   than four is not used. On 1, 2 and 8 nothing changes; else memory and registers are those after the run, on 15 too.
   On refusal the list is unchanged. */
struct second_writers_reply second_writers(const struct second_panel *panel, struct second_registers *registers,
                                           unsigned char *memory, unsigned long memory_length,
                                           const unsigned char *rom, unsigned long rom_length,
                                           const unsigned char *log, unsigned long log_length,
                                           unsigned first, unsigned last,
                                           unsigned long *list, unsigned long list_length);

#endif
