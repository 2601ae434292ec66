/* Frames in XBM's order, the leftmost dot in the lowest bit. No system headers, no state of its own. */
#ifndef MIRROR_H
#define MIRROR_H

#include "second.h"

/* Each number its index mirrored: bit 0 for bit 7, bit 1 for bit 6 and so on. */
extern const unsigned char second_mirror[256];

/* The number: 0, 1, or 2 for a length that does not fit the panel. The frame changes its order where it stands, from
   the leftmost dot in the top bit to the lowest, or back; on refusal it is unchanged. */
unsigned second_convert_frame(const struct second_panel *panel, unsigned char *frame, unsigned long frame_length);

#endif
