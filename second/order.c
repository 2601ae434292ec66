#include "order.h"

enum { TEXT = 1, RECTANGLE, DOT, GLYPH };

/* Cells or bytes of a plane, rows by columns. */
struct area {
    unsigned top, left, height, width;
};

static struct area text_cells(const unsigned char *text)
{
    struct area area;
    area.top = text[1];
    area.left = text[2];
    area.height = 1;
    area.width = text[3];
    return area;
}

/* The graphic bytes of a rectangle or of a dot. */
static struct area graphic_bytes(const struct second_panel *panel, const unsigned char *operation)
{
    struct area area;
    if (operation[0] == DOT) {
        area.top = operation[3];
        area.left = (operation[1] + 256U * operation[2]) / panel->width;
        area.height = 1;
        area.width = 1;
    } else {
        area.top = operation[1];
        area.left = operation[2];
        area.height = operation[3];
        area.width = operation[4];
    }
    return area;
}

static int share(struct area a, struct area b)
{
    return a.top < b.top + b.height && b.top < a.top + a.height && a.left < b.left + b.width
           && b.left < a.left + a.width;
}

static int graphic(unsigned number)
{
    return number == RECTANGLE || number == DOT;
}

int second_may_change_places(const struct second_panel *panel, const unsigned char *first, const unsigned char *then)
{
    if (graphic(first[0]) && graphic(then[0])) return !share(graphic_bytes(panel, first), graphic_bytes(panel, then));
    if (first[0] != then[0]) return 1;
    if (first[0] == TEXT) return !share(text_cells(first), text_cells(then));
    if (first[0] == GLYPH) return first[1] != then[1];
    return 0; /* two cursors or two combinations: the later one counts */
}
