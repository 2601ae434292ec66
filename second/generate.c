#include "generate.h"

enum { DATA_WRITE, COMMAND, DATA_READ, STATUS_READ, TICK };

unsigned long long generate_next(struct generate_random *random)
{
    unsigned long long mixed;
    random->word += 0x9E3779B97F4A7C15ULL;
    mixed = random->word;
    mixed = (mixed ^ (mixed >> 30)) * 0xBF58476D1CE4E5B9ULL;
    mixed = (mixed ^ (mixed >> 27)) * 0x94D049BB133111EBULL;
    return mixed ^ (mixed >> 31);
}

unsigned generate_below(struct generate_random *random, unsigned bound)
{
    return (unsigned)((generate_next(random) >> 32) % bound);
}

/* No call below has two drawing arguments: C leaves open which would draw first. */

/* What has been written, and the registers it leads to, so that the next pairs can aim well. */
struct writer {
    struct generate_random random;
    unsigned char *log;
    unsigned long length; /* bytes written */
    unsigned long wanted; /* bytes the log may grow to */
    unsigned columns, lines, dual;
    unsigned centre; /* most homes, glyphs and pointers lie near this address, so that areas overlap */
    unsigned offset, text_home, graphic_home, text_area, graphic_area;
};

static unsigned below(struct writer *w, unsigned bound)
{
    return generate_below(&w->random, bound);
}

static int one_in(struct writer *w, unsigned bound)
{
    return below(w, bound) == 0;
}

static unsigned address(unsigned long sum)
{
    return (unsigned)(sum % 65536UL);
}

/* A number from start - reach to start + reach, modulo 65,536. */
static unsigned around(struct writer *w, unsigned start, unsigned reach)
{
    return address(65536UL + start + below(w, 2 * reach + 1) - reach);
}

/* Pairs. */

static void pair(struct writer *w, unsigned kind, unsigned byte)
{
    if (w->length + 2 > w->wanted) return;
    w->log[w->length] = (unsigned char)kind;
    w->log[w->length + 1] = (unsigned char)byte;
    w->length += 2;
}

/* The byte of these kinds must not count, so it is seldom 0. */
static void data_read(struct writer *w) { pair(w, DATA_READ, below(w, 256)); }
static void status_read(struct writer *w) { pair(w, STATUS_READ, below(w, 256)); }
static void tick(struct writer *w) { pair(w, TICK, below(w, 256)); }

/* Seldom, with auto off: a pair that must leave the pending data alone. */
static void interlude(struct writer *w)
{
    if (!one_in(w, 20)) return;
    switch (below(w, 3)) {
    case 0: data_read(w); break;
    case 1: status_read(w); break;
    default: tick(w); break;
    }
}

static void datum(struct writer *w, unsigned byte)
{
    pair(w, DATA_WRITE, byte);
    interlude(w);
}

/* Seldom: data that the coming command does not need. */
static void stray_data(struct writer *w)
{
    unsigned count;
    if (!one_in(w, 10)) return;
    for (count = 1 + below(w, 4); count > 0; count--) datum(w, below(w, 256));
}

static void command0(struct writer *w, unsigned code)
{
    stray_data(w);
    pair(w, COMMAND, code);
}

static void command1(struct writer *w, unsigned d, unsigned code)
{
    stray_data(w);
    datum(w, d);
    pair(w, COMMAND, code);
}

static void command2(struct writer *w, unsigned d1, unsigned d2, unsigned code)
{
    stray_data(w);
    datum(w, d1);
    datum(w, d2);
    pair(w, COMMAND, code);
}

static void set_pointer(struct writer *w, unsigned place) { command2(w, place % 256, place / 256, 0x24); }

/* Addresses. */

/* The start of one of so many rows of an area. */
static unsigned row_place(struct writer *w, unsigned home, unsigned area, unsigned rows)
{
    return address(home + (unsigned long)below(w, rows) * area);
}

static unsigned text_place(struct writer *w)
{
    unsigned row = row_place(w, w->text_home, w->text_area, w->lines);
    return address(row + below(w, w->columns));
}

static unsigned graphic_place(struct writer *w)
{
    unsigned row = row_place(w, w->graphic_home, w->graphic_area, 8 * w->lines);
    return address(row + below(w, w->columns));
}

static unsigned attribute_place(struct writer *w)
{
    unsigned row = row_place(w, w->graphic_home, w->graphic_area, w->lines);
    return address(row + below(w, w->columns));
}

/* A code whose glyph lies near the centre, or one near the border of the ROM, or any. */
static unsigned text_code(struct writer *w)
{
    switch (below(w, 8)) {
    case 0: return 0x7C + below(w, 8);
    case 1: return below(w, 256);
    case 2: return below(w, 4);
    default: return (w->centre % 2048 / 8 + below(w, 6)) % 256;
    }
}

static unsigned glyph_place(struct writer *w)
{
    return 2048 * w->offset + 8 * text_code(w);
}

/* One step past a border of the graphic area: before it, after a row, after its last row. */
static unsigned border_place(struct writer *w)
{
    unsigned rows = 8 * w->lines;
    switch (below(w, 3)) {
    case 0: return address(65535UL + w->graphic_home - below(w, 3));
    case 1: return address(row_place(w, w->graphic_home, w->graphic_area, rows) + w->columns);
    default: return address(w->graphic_home + (rows - 1UL) * w->graphic_area + w->columns + below(w, 3));
    }
}

static unsigned any_place(struct writer *w)
{
    unsigned v = below(w, 8);
    switch (below(w, 16)) {
    case 0: return below(w, 65536);
    case 1: return around(w, 0, 4);
    case 2: return border_place(w);
    case 3: case 4: case 5: return text_place(w);
    case 6: case 7: return attribute_place(w);
    case 8: case 9: return glyph_place(w) + v;
    case 10: return around(w, w->centre, 40);
    default: return graphic_place(w);
    }
}

/* Registers. */

static unsigned new_home(struct writer *w, unsigned other)
{
    switch (below(w, 8)) {
    case 0: return around(w, other, 3);
    case 1: return row_place(w, other, w->graphic_area, 8 * w->lines);
    case 2: return around(w, 0, 4 + w->columns);
    case 3: return around(w, glyph_place(w), 4);
    case 4: return one_in(w, 4) ? below(w, 65536) : w->centre;
    default: return around(w, w->centre, 30);
    }
}

static unsigned new_area(struct writer *w)
{
    switch (below(w, 12)) {
    case 0: return 0;
    case 1: return 1;
    case 2: return 1 + below(w, 4);
    case 3: return below(w, w->columns + 1);
    case 4: return w->columns - 1;
    case 5: return w->columns + 1;
    case 6: return 32;
    case 7: return below(w, 256);
    default: return w->columns;
    }
}

static void set_text_home(struct writer *w)
{
    w->text_home = new_home(w, w->graphic_home);
    command2(w, w->text_home % 256, w->text_home / 256, 0x40);
}

static void set_graphic_home(struct writer *w)
{
    w->graphic_home = new_home(w, w->text_home);
    command2(w, w->graphic_home % 256, w->graphic_home / 256, 0x42);
}

static void set_text_area(struct writer *w)
{
    w->text_area = new_area(w);
    command2(w, w->text_area, below(w, 256), 0x41);
}

static void set_graphic_area(struct writer *w)
{
    w->graphic_area = new_area(w);
    command2(w, w->graphic_area, below(w, 256), 0x43);
}

static void set_offset(struct writer *w)
{
    unsigned high = 32 * below(w, 8);
    unsigned ignored = below(w, 256);
    w->offset = one_in(w, 6) ? below(w, 32) : w->centre / 2048;
    command2(w, w->offset + high, ignored, 0x22);
}

/* A Y of either half of a dual panel, or the one behind its last. */
static unsigned dual_y(struct writer *w)
{
    unsigned first = 16 * below(w, 2);
    unsigned behind = one_in(w, 4) ? 1 : 0;
    return (first + below(w, w->lines / 2 + behind)) % 32;
}

static void set_cursor(struct writer *w)
{
    unsigned x = one_in(w, 6) ? below(w, 128) : below(w, w->columns + 2) % 128;
    unsigned y = one_in(w, 6) ? below(w, 32) : w->dual ? dual_y(w) : below(w, w->lines + 2) % 32;
    unsigned x_high = 128 * below(w, 2);
    unsigned y_high = 32 * below(w, 8);
    command2(w, x + x_high, y + y_high, 0x21);
}

static void set_mode(struct writer *w)
{
    static const unsigned char low[6] = {0, 1, 3, 4, 4, 0};
    unsigned external = 8 * below(w, 2);
    command0(w, 0x80 + external + low[below(w, 6)]);
}

static void set_display(struct writer *w)
{
    command0(w, one_in(w, 2) ? 0x9C + below(w, 4) : 0x90 + below(w, 16));
}

/* Memory. */

static unsigned content(struct writer *w)
{
    switch (below(w, 8)) {
    case 0: return 0x00;
    case 1: return 0xFF;
    case 2: return text_code(w);
    default: return below(w, 256);
    }
}

/* In auto, status reads and ticks are taken among the data. */
static void auto_interlude(struct writer *w)
{
    if (one_in(w, 24)) status_read(w);
    if (one_in(w, 40)) tick(w);
}

static void leave_auto(struct writer *w)
{
    pair(w, COMMAND, 0xB2);
    if (one_in(w, 12)) command0(w, 0xB2);
}

static void auto_write(struct writer *w, unsigned place, unsigned (*choose)(struct writer *), unsigned count)
{
    set_pointer(w, place);
    command0(w, 0xB0);
    for (; count > 0; count--) {
        pair(w, DATA_WRITE, choose(w));
        auto_interlude(w);
    }
    leave_auto(w);
}

static void auto_read(struct writer *w, unsigned place, unsigned count)
{
    set_pointer(w, place);
    command0(w, 0xB1);
    for (; count > 0; count--) {
        data_read(w);
        auto_interlude(w);
    }
    leave_auto(w);
}

/* Bursts are mostly short, so that logs visit many states. */
static unsigned capped(struct writer *w, unsigned long count)
{
    unsigned long cap = one_in(w, 20) ? 1280 : 20 + below(w, 60);
    return (unsigned)(count < cap ? count : cap);
}

static void fill_text(struct writer *w)
{
    if (w->text_area > 2 * w->columns || one_in(w, 3)) {
        auto_write(w, row_place(w, w->text_home, w->text_area, w->lines), text_code, w->columns);
    } else {
        unsigned count = capped(w, (w->lines - 1UL) * w->text_area + w->columns);
        auto_write(w, w->text_home, text_code, count);
    }
}

static void fill_graphic(struct writer *w)
{
    if (w->graphic_area > 2 * w->columns || one_in(w, 3)) {
        auto_write(w, row_place(w, w->graphic_home, w->graphic_area, 8 * w->lines), content, w->columns);
    } else {
        unsigned count = capped(w, (8UL * w->lines - 1) * w->graphic_area + w->columns);
        auto_write(w, w->graphic_home, content, count);
    }
}

static void fill_glyphs(struct writer *w)
{
    unsigned count = 8 * (1 + below(w, 4));
    auto_write(w, glyph_place(w), content, count);
}

static void fill_anything(struct writer *w)
{
    unsigned count = 1 + below(w, 24);
    auto_write(w, any_place(w), content, count);
}

/* Singles often cross from FFFFH to 0000H or back. */
static unsigned singles_place(struct writer *w)
{
    return one_in(w, 4) ? around(w, 0, 2) : any_place(w);
}

static void store_singles(struct writer *w)
{
    unsigned count;
    set_pointer(w, singles_place(w));
    for (count = 1 + below(w, 5); count > 0; count--) {
        unsigned code = 0xC0 + 2 * below(w, 3);
        command1(w, content(w), code);
    }
}

static void fetch_singles(struct writer *w)
{
    unsigned count;
    if (!one_in(w, 4)) set_pointer(w, singles_place(w));
    for (count = 1 + below(w, 5); count > 0; count--) {
        command0(w, 0xC1 + 2 * below(w, 3));
        data_read(w);
    }
}

static void change_bits(struct writer *w)
{
    unsigned count;
    if (!one_in(w, 4)) set_pointer(w, any_place(w));
    for (count = 1 + below(w, 4); count > 0; count--) command0(w, 0xF0 + below(w, 16));
    if (one_in(w, 2)) {
        command0(w, 0xC5);
        data_read(w);
    }
}

/* Peek and copy. */

static void set_pointer_for_position(struct writer *w)
{
    switch (below(w, 16)) {
    case 0: set_pointer(w, any_place(w)); break;
    case 1: case 2: set_pointer(w, border_place(w)); break;
    case 3: break;
    default: set_pointer(w, graphic_place(w)); break;
    }
}

static void peek(struct writer *w)
{
    unsigned count;
    for (count = 1 + below(w, 3); count > 0; count--) {
        set_pointer_for_position(w);
        command0(w, 0xE0);
        data_read(w);
        if (!one_in(w, 3)) status_read(w);
    }
}

/* Attributes show in peeks as in the frame; half of them are listed ones. */
static unsigned attribute(struct writer *w)
{
    static const unsigned char listed[6] = {0, 5, 3, 8, 13, 11};
    unsigned high = 16 * below(w, 16);
    return high + (one_in(w, 2) ? listed[below(w, 6)] : below(w, 16));
}

static void peek_attributes(struct writer *w)
{
    unsigned line = below(w, w->lines);
    unsigned start = address(w->graphic_home + (unsigned long)line * w->graphic_area);
    unsigned count;
    auto_write(w, start, attribute, w->columns);
    command0(w, 0x84 + 8 * below(w, 2));
    command0(w, one_in(w, 6) ? 0x90 + below(w, 16) : 0x9C + below(w, 4));
    if (one_in(w, 2)) tick(w);
    for (count = 2 + below(w, 5); count > 0; count--) {
        set_pointer(w, graphic_place(w));
        command0(w, 0xE0);
        data_read(w);
    }
}

static void copy(struct writer *w)
{
    unsigned start = row_place(w, w->graphic_home, w->graphic_area, 8 * w->lines);
    if (one_in(w, 2)) set_pointer_for_position(w);
    else set_pointer(w, address(start + below(w, w->columns)));
    command0(w, 0xE8);
    if (!one_in(w, 3)) status_read(w);
    if (one_in(w, 3)) auto_read(w, around(w, start, 2), w->columns < 12 ? w->columns + 2 : 14);
}

/* A copy of most of the row that starts there, with text shown, read back. */
static void finish_copy(struct writer *w, unsigned start)
{
    static const unsigned char mode[6] = {0x80, 0x81, 0x83, 0x88, 0x89, 0x8B};
    command0(w, mode[below(w, 6)]);
    command0(w, one_in(w, 2) ? 0x94 + below(w, 4) : 0x9C + below(w, 4));
    set_pointer(w, address(start + (one_in(w, 2) ? 0 : below(w, w->columns))));
    command0(w, 0xE8);
    status_read(w);
    auto_read(w, start, w->columns < 12 ? w->columns : 12);
}

/* Both lay the line's text codes, or a glyph they show, under the graphic row that the copy stores. */

static void copy_over_text(struct writer *w)
{
    unsigned row = below(w, 8 * w->lines);
    unsigned line = row / 8;
    unsigned distance = 1 + below(w, 3);
    unsigned start = address(w->graphic_home + (unsigned long)row * w->graphic_area);
    unsigned text_start = address(65536UL + start - distance);
    w->text_home = address(65536UL + text_start - (unsigned long)line * w->text_area);
    command2(w, w->text_home % 256, w->text_home / 256, 0x40);
    auto_write(w, text_start, text_code, w->columns < 10 ? w->columns : 10);
    finish_copy(w, start);
}

static void copy_over_glyph(struct writer *w)
{
    unsigned row = below(w, 8 * w->lines);
    unsigned column = below(w, w->columns);
    unsigned line = row / 8;
    unsigned code = text_code(w);
    unsigned glyph_row = 2048 * w->offset + 8 * code + row % 8;
    unsigned start = address(65536UL + glyph_row - column);
    unsigned count;
    w->graphic_home = address(65536UL + start - (unsigned long)row * w->graphic_area);
    command2(w, w->graphic_home % 256, w->graphic_home / 256, 0x42);
    set_pointer(w, address(w->text_home + (unsigned long)line * w->text_area + column));
    for (count = 1 + below(w, 8); count > 0; count--) command1(w, code, 0xC0);
    finish_copy(w, start);
}

static void read_anything(struct writer *w)
{
    unsigned count = 1 + below(w, 32);
    auto_read(w, any_place(w), count);
}

static void set_anything(struct writer *w)
{
    switch (below(w, 5)) {
    case 0: set_text_home(w); break;
    case 1: set_graphic_home(w); break;
    case 2: set_text_area(w); break;
    case 3: set_graphic_area(w); break;
    default: set_offset(w); break;
    }
}

static void action(struct writer *w)
{
    switch (below(w, 36)) {
    case 0: case 1: set_anything(w); break;
    case 2: set_cursor(w); break;
    case 3: case 4: set_mode(w); break;
    case 5: case 6: set_display(w); break;
    case 7: command0(w, 0xA0 + below(w, 8)); break;
    case 8: case 9: fill_text(w); break;
    case 10: case 11: fill_graphic(w); break;
    case 12: fill_glyphs(w); break;
    case 13: fill_anything(w); break;
    case 14: store_singles(w); break;
    case 15: fetch_singles(w); break;
    case 16: change_bits(w); break;
    case 17: case 18: case 19: case 20: peek(w); break;
    case 21: case 22: peek_attributes(w); break;
    case 23: case 24: case 25: case 26: case 27: copy(w); break;
    case 28: copy_over_text(w); break;
    case 29: copy_over_glyph(w); break;
    case 30: read_anything(w); break;
    case 31: tick(w); break;
    case 32: status_read(w); break;
    case 33: data_read(w); break;
    case 34: command0(w, 0xB2); break;
    default: stray_data(w); break;
    }
}

/* Garbage: each ends the run where it stands. */

static int defined(unsigned code)
{
    unsigned low = code % 16;
    switch (code / 16) {
    case 0x2: return low == 1 || low == 2 || low == 4;
    case 0x4: return low <= 3;
    case 0x8: return low % 8 == 0 || low % 8 == 1 || low % 8 == 3 || low % 8 == 4;
    case 0x9: case 0xF: return 1;
    case 0xA: return low <= 7;
    case 0xB: return low <= 2;
    case 0xC: return low <= 5;
    case 0xE: return low == 0 || low == 8;
    default: return 0;
    }
}

/* Mostly one step or one bit away from a defined code. */
static unsigned undefined_code(struct writer *w)
{
    static const unsigned char last_of_class[8] = {0x22, 0x24, 0x43, 0x8C, 0xA7, 0xB2, 0xC5, 0xE8};
    for (;;) {
        unsigned code = last_of_class[below(w, 8)];
        switch (below(w, 4)) {
        case 0: code = below(w, 256); break;
        case 1: code = 0x80 + below(w, 16); break;
        case 2: code = code + 1; break;
        default: code = code ^ (1U << below(w, 8)); break;
        }
        if (!defined(code)) return code;
    }
}

static unsigned needing_code(struct writer *w)
{
    static const unsigned char codes[10] = {0x21, 0x22, 0x24, 0x40, 0x41, 0x42, 0x43, 0xC0, 0xC2, 0xC4};
    return codes[below(w, 10)];
}

/* A defined code but B2H; often one that also lacks its data, or an auto code again. */
static unsigned code_wrong_in_auto(struct writer *w)
{
    unsigned code = below(w, 256);
    switch (below(w, 4)) {
    case 0: return needing_code(w);
    case 1: return 0xB0 + below(w, 2);
    default: return defined(code) && code != 0xB2 ? code : 0x90 + below(w, 16);
    }
}

static void enter_auto(struct writer *w, unsigned code)
{
    unsigned count;
    command0(w, code);
    for (count = below(w, 4); count > 0; count--) {
        if (code == 0xB0) pair(w, DATA_WRITE, content(w));
        else data_read(w);
    }
}

/* The first command, failing peeks and copies too, must have dropped the data before it. */
static void too_few_data(struct writer *w)
{
    static const unsigned char dropping[8] = {0xE0, 0xE0, 0xE8, 0xE8, 0xB2, 0xC5, 0x9C, 0xF8};
    unsigned code = needing_code(w);
    unsigned count;
    if (one_in(w, 2)) set_pointer(w, border_place(w));
    for (count = 1 + below(w, 3); count > 0; count--) datum(w, below(w, 256));
    pair(w, COMMAND, dropping[below(w, 8)]);
    if (code < 0xC0 && one_in(w, 2)) datum(w, below(w, 256));
    pair(w, COMMAND, code);
}

static unsigned bad_kind(struct writer *w)
{
    switch (below(w, 4)) {
    case 0: return 5;
    case 1: return 0x80 + below(w, 5);
    case 2: return 8 * (1 + below(w, 31));
    default: return 5 + below(w, 251);
    }
}

static void garbage(struct writer *w)
{
    unsigned byte = below(w, 256);
    switch (below(w, 10)) {
    case 0: case 1: pair(w, bad_kind(w), byte); break;
    case 2: command0(w, undefined_code(w)); break;
    case 3:
        enter_auto(w, 0xB0 + below(w, 2));
        pair(w, COMMAND, undefined_code(w));
        break;
    case 4: case 5:
        enter_auto(w, 0xB0 + below(w, 2));
        pair(w, COMMAND, code_wrong_in_auto(w));
        break;
    case 6: case 7: too_few_data(w); break;
    case 8:
        enter_auto(w, 0xB1);
        pair(w, DATA_WRITE, byte);
        break;
    default:
        enter_auto(w, 0xB0);
        data_read(w);
        break;
    }
}

/* The whole input. */

static unsigned choose_centre(struct writer *w)
{
    unsigned offset = below(w, 32);
    switch (below(w, 4)) {
    case 0: return around(w, 0, 40);
    case 1: return 0xFC00 + 8 * below(w, 128);
    case 2: return 2048 * offset + 1024 + 8 * below(w, 8);
    default: return below(w, 65536);
    }
}

static void choose_dual_panel(struct writer *w)
{
    switch (below(w, 16)) {
    case 0:
        w->columns = one_in(w, 3) ? 1 : 80;
        w->lines = one_in(w, 3) ? 2 : 32;
        break;
    case 1:
        w->columns = 1 + below(w, 80);
        w->lines = 2 + 2 * below(w, 16);
        break;
    case 2: case 3: case 4:
        w->columns = 1 + below(w, 20);
        w->lines = 2 + 2 * below(w, 16);
        break;
    default:
        w->columns = 1 + below(w, 6);
        w->lines = 2 + 2 * below(w, 3);
        break;
    }
}

static void choose_panel(struct writer *w)
{
    switch (below(w, 16)) {
    case 0:
        w->columns = one_in(w, 3) ? 1 : 80;
        w->lines = one_in(w, 3) ? 1 : 16;
        break;
    case 1:
        w->columns = 1 + below(w, 80);
        w->lines = 1 + below(w, 16);
        break;
    case 2: case 3: case 4:
        w->columns = 1 + below(w, 20);
        w->lines = 1 + below(w, 8);
        break;
    default:
        w->columns = 1 + below(w, 6);
        w->lines = 1 + below(w, 3);
        break;
    }
}

static unsigned long choose_pairs(struct writer *w)
{
    switch (below(w, 32)) {
    case 0: return one_in(w, 3) ? 0 : below(w, 8);
    case 1: return 1500 + below(w, 6692);
    case 2: case 3: case 4: case 5: return 440 + below(w, 1061);
    default: return 60 + below(w, 381);
    }
}

static void opening(struct writer *w)
{
    set_offset(w);
    set_text_home(w);
    set_graphic_home(w);
    set_text_area(w);
    set_graphic_area(w);
    set_cursor(w);
    command0(w, 0xA0 + below(w, 8));
    set_mode(w);
    set_display(w);
    fill_text(w);
    fill_glyphs(w);
    fill_graphic(w);
}

/* The end: something shows in the frame, and memory is read back. */
static void closing(struct writer *w)
{
    if (one_in(w, 2)) set_mode(w);
    command0(w, one_in(w, 4) ? 0x90 + below(w, 16) : 0x9C + below(w, 4));
    auto_read(w, around(w, graphic_place(w), 2), 12);
    if (one_in(w, 2)) auto_read(w, around(w, text_place(w), 2), 8);
}

/* The pairs up to w->wanted, with garbage, if any, late. */
static void write_log(struct writer *w)
{
    unsigned long half = w->wanted / 2;
    unsigned long garbage_at = w->wanted;
    unsigned long closing_at = w->wanted - w->wanted / 8;
    if (w->wanted > 0 && one_in(w, 2)) garbage_at = half + below(w, (unsigned)half + 1);
    if (!one_in(w, 16)) opening(w);
    while (w->length < w->wanted) {
        if (w->length >= garbage_at) {
            garbage(w);
            garbage_at = w->wanted;
        }
        if (w->length >= closing_at) {
            closing(w);
            closing_at = w->wanted;
        }
        action(w);
    }
}

static void spoil_panel(struct writer *w, unsigned char *panel)
{
    static const unsigned char wrong[3][6] = {
        {0, 81, 81, 82, 144, 255}, {0, 17, 17, 18, 129, 255}, {0, 5, 7, 9, 16, 136}
    };
    static const unsigned char wrong_dual_lines[6] = {0, 1, 17, 31, 33, 34};
    unsigned which = below(w, 3);
    unsigned value = below(w, 6);
    panel[which] = w->dual && which == 1 ? wrong_dual_lines[value] : wrong[which][value];
}

static unsigned long make_input(unsigned long long seed, unsigned dual, unsigned char *buffer)
{
    struct writer writer;
    struct writer *w = &writer;
    w->random.word = seed;
    w->log = buffer + 3;
    w->length = 0;
    w->offset = 0;
    w->text_home = 0;
    w->graphic_home = 0;
    w->text_area = 0;
    w->graphic_area = 0;
    w->dual = dual;
    if (dual) choose_dual_panel(w);
    else choose_panel(w);
    w->centre = choose_centre(w);
    buffer[0] = (unsigned char)w->columns;
    buffer[1] = (unsigned char)w->lines;
    buffer[2] = one_in(w, 2) ? 6 : 8;

    if (one_in(w, 60)) return below(w, 3); /* a panel byte missing */
    if (one_in(w, 40)) spoil_panel(w, buffer);
    if (one_in(w, 50)) {
        /* A full log, and bytes past the limit that would be refused if they were used. */
        unsigned long past = below(w, (unsigned)GENERATE_PAST_LIMIT + 1);
        w->wanted = GENERATE_LOG_LIMIT;
        write_log(w);
        for (; w->length < GENERATE_LOG_LIMIT + past; w->length++) w->log[w->length] = (unsigned char)below(w, 256);
        return 3 + w->length;
    }
    w->wanted = 2 * choose_pairs(w);
    write_log(w);
    if (one_in(w, 40)) {
        w->log[w->length] = (unsigned char)below(w, 256);
        w->length++;
    }
    return 3 + w->length;
}

unsigned long generate_input(unsigned long long seed, unsigned char *buffer)
{
    return make_input(seed, 0, buffer);
}

unsigned long generate_dual_input(unsigned long long seed, unsigned char *buffer)
{
    return make_input(seed, 1, buffer);
}
