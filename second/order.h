/* When the order of two neighbouring operations does not show. No system headers, no state of its own. */
#ifndef ORDER_H
#define ORDER_H

#include "second.h"

/* May two neighbours of a screen change places? Both are right operations on this valid panel. */
int second_may_change_places(const struct second_panel *panel, const unsigned char *first, const unsigned char *then);

#endif
