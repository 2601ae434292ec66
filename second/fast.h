/* The controller a third time, for speed alone: what plain C can do, to measure the proved one against. */
#ifndef FAST_H
#define FAST_H

#include "second.h"

/* Valid panel and state, full lengths, a log of even length; the caller has tested them. */
struct second_run_reply fast_run(const struct second_panel *panel, struct second_registers *registers, unsigned char *memory,
                                 const unsigned char *rom, const unsigned char *log, unsigned long log_length, unsigned long limit,
                                 unsigned char *answers, unsigned long answers_length);
void fast_frame(const struct second_panel *panel, const struct second_registers *registers, const unsigned char *memory,
                const unsigned char *rom, unsigned char *frame);

#endif
