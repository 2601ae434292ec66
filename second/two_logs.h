/* Two logs side by side, from reset and the same memory. No system headers, no state of its own. */
#ifndef TWO_LOGS_H
#define TWO_LOGS_H

#include "second.h"

#define SECOND_REGISTER_COUNT 17

struct second_compare_reply {
    unsigned number;
    unsigned long place;
    unsigned log;             /* 1 or 2: whose refusal 3 to 8 it is; else 0 */
    unsigned long addresses;  /* entries of memory listed, first in the list */
    unsigned long registers;  /* entries of registers listed, behind them */
    unsigned long dots;       /* that differ; this and the counts are 0 on refusal */
};

/* The register of that index in document 01's order, 0 to 16, as one number: 10 is the four display bits, graphic the
   highest; 13 is the count of pending data + 256 * older + 65,536 * newest. The state is valid. */
unsigned long second_register(const struct second_registers *registers, unsigned index);

/* 0, 1, 2, of log one or two 3 to 8, or 15 with the entries needed. An entry is three numbers: address or register
   index, log one's byte or value, log two's; list_length counts numbers. But for 1 and 2 the memories are those
   after the runs, the second a copy of the first before any. On refusal the list is unchanged. */
struct second_compare_reply second_compare(const struct second_panel *panel,
                                           unsigned char *memory_one, unsigned long memory_one_length,
                                           unsigned char *memory_two, unsigned long memory_two_length,
                                           const unsigned char *rom, unsigned long rom_length,
                                           const unsigned char *log_one, unsigned long log_one_length,
                                           const unsigned char *log_two, unsigned long log_two_length,
                                           unsigned long *list, unsigned long list_length);

#endif
