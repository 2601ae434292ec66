/* A flag for each dot row, beside the memory: which rows a refresh must paint. No system headers, no state of its
   own. Flags are 8 * L bytes, 0 clear, any other set. */
#ifndef FLAGS_H
#define FLAGS_H

#include "second.h"

unsigned long second_flags_length(const struct second_panel *panel);

/* All set, as at the start. The number: 0, 1 or 2; on refusal the flags are unchanged. */
unsigned second_flags_start(const struct second_panel *panel, unsigned char *flags, unsigned long flags_length);

/* second_access that sets the flags of the rows its stores and changes touch; others stay as they are. The flags'
   length is a fixed one too. On refusal nothing is changed. */
struct second_reply second_access_flagged(const struct second_panel *panel, struct second_registers *registers,
                                          unsigned char *memory, unsigned long memory_length,
                                          const unsigned char *rom, unsigned long rom_length,
                                          unsigned char *flags, unsigned long flags_length,
                                          unsigned char kind, unsigned char byte);

/* Paints the flagged rows and clears all flags; the frame's other rows are untouched. The number: 0, 1 or 2; on
   refusal flags and frame are unchanged. */
unsigned second_refresh(const struct second_panel *panel, const struct second_registers *registers,
                        const unsigned char *memory, unsigned long memory_length,
                        const unsigned char *rom, unsigned long rom_length,
                        unsigned char *flags, unsigned long flags_length,
                        unsigned char *frame, unsigned long frame_length);

#endif
