/* Random valid states, more of them near the panel's edges than even chance would give. */
#ifndef STATES_H
#define STATES_H

#include "generate.h"
#include "second.h"

static inline unsigned below(struct generate_random *random, unsigned bound) { return generate_below(random, bound); }

/* Mostly a line's of the panel, or the one behind the last; of a dual panel in either half. */
static inline unsigned random_y(struct generate_random *random, const struct second_panel *panel)
{
    const unsigned half = panel->lines < 32 ? panel->lines / 2 : 16;
    unsigned first, behind;
    if (below(random, 4) == 0) return below(random, 32);
    if (panel->dual != 1) return below(random, panel->lines % 32 + 1);
    first = 16 * below(random, 2);
    behind = below(random, 4) == 0 || half == 0;
    return (first + below(random, half + behind)) % 32;
}

static inline void random_state(struct generate_random *random, const struct second_panel *panel, struct second_registers *r)
{
    r->cursor_x = below(random, 4) ? below(random, panel->columns % 128 + 1) : below(random, 128);
    r->cursor_y = random_y(random, panel);
    r->offset = below(random, 32), r->pointer = below(random, 65536), r->text_home = below(random, 65536);
    r->graphic_home = below(random, 3) ? below(random, 65536) : r->pointer;
    r->text_area = below(random, 2) ? panel->columns % 256 : below(random, 256);
    r->graphic_area = below(random, 2) ? panel->columns % 256 : below(random, 256);
    r->combination = below(random, 4), r->external = below(random, 2), r->graphic = below(random, 4) != 0;
    r->text = below(random, 4) != 0, r->cursor = below(random, 2), r->blink = below(random, 2);
    r->cursor_height = 1 + below(random, 8), r->auto_mode = below(random, 4) ? 0 : below(random, 3);
    r->pending = below(random, 3), r->older = r->pending == 2 ? below(random, 256) : 0;
    r->newest = r->pending ? below(random, 256) : 0, r->latch = below(random, 256), r->error = below(random, 2);
    r->phase = below(random, 2) ? SECOND_PHASE_NORMAL : SECOND_PHASE_OFF;
}

#endif
