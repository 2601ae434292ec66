/* The registers as the 25 bytes of the proved controller's boundary, and back. */
#ifndef IMAGE_H
#define IMAGE_H

#include "second.h"

enum { REGISTERS = 25 };

static inline void to_bytes(const struct second_registers *r, unsigned char *bytes)
{
    const unsigned fields[REGISTERS] = {
        r->cursor_x, r->cursor_y, r->offset, r->pointer % 256, r->pointer / 256, r->text_home % 256, r->text_home / 256,
        r->graphic_home % 256, r->graphic_home / 256, r->text_area, r->graphic_area, r->combination, r->external,
        r->graphic, r->text, r->cursor, r->blink, r->cursor_height, r->auto_mode, r->pending, r->older, r->newest,
        r->latch, r->error, r->phase == SECOND_PHASE_NORMAL ? 1 : r->phase == SECOND_PHASE_OFF ? 0 : r->phase};
    for (unsigned i = 0; i < REGISTERS; i++)
        bytes[i] = (unsigned char)fields[i];
}

static inline void from_bytes(const unsigned char *b, struct second_registers *r)
{
    r->cursor_x = b[0], r->cursor_y = b[1], r->offset = b[2], r->pointer = b[3] + 256u * b[4];
    r->text_home = b[5] + 256u * b[6], r->graphic_home = b[7] + 256u * b[8], r->text_area = b[9], r->graphic_area = b[10];
    r->combination = b[11], r->external = b[12], r->graphic = b[13], r->text = b[14], r->cursor = b[15], r->blink = b[16];
    r->cursor_height = b[17], r->auto_mode = b[18], r->pending = b[19], r->older = b[20], r->newest = b[21], r->latch = b[22];
    r->error = b[23], r->phase = b[24] == 1 ? SECOND_PHASE_NORMAL : b[24] == 0 ? SECOND_PHASE_OFF : b[24];
}

#endif
