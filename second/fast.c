#include "fast.h"

/* Eight bytes at once: of a row, or one below another, as a glyph's. */
typedef unsigned long long word;

enum { ROW = 80, MEMORY = 65536, TOP = 0xffff, ALONE = SECOND_ATTRIBUTE };

/* The first byte is the low one; compilers make one access of this, and of the next. */
static inline word load(const unsigned char *at)
{
    return (word)at[0] | (word)at[1] << 8 | (word)at[2] << 16 | (word)at[3] << 24 | (word)at[4] << 32 | (word)at[5] << 40 |
           (word)at[6] << 48 | (word)at[7] << 56;
}

static inline void store(unsigned char *at, word w)
{
    at[0] = (unsigned char)w, at[1] = (unsigned char)(w >> 8), at[2] = (unsigned char)(w >> 16), at[3] = (unsigned char)(w >> 24);
    at[4] = (unsigned char)(w >> 32), at[5] = (unsigned char)(w >> 40), at[6] = (unsigned char)(w >> 48), at[7] = (unsigned char)(w >> 56);
}

/* Bytes of memory in a row; where they pass its end, gathered in the room lent for them. */
static inline const unsigned char *row_at(const unsigned char *memory, unsigned address, unsigned count, unsigned char *room)
{
    address &= TOP;
    if (address + count <= MEMORY)
        return memory + address;
    for (unsigned i = 0; i < count; i++)
        room[i] = memory[(address + i) & TOP];
    return room;
}

/* What each attribute does to a glyph: bits are kept, then bits are turned over. */
struct attributes {
    word keep[16], flip[16];
};

static void make_attributes(const struct second_registers *r, struct attributes *a)
{
    const word all = ~0ULL, blinking = r->phase == SECOND_PHASE_NORMAL ? all : 0;
    for (unsigned i = 0; i < 16; i++)
        a->keep[i] = i < 8 ? all : blinking, a->flip[i] = 0;
    a->keep[3] = a->keep[11] = 0;
    a->flip[5] = all, a->flip[13] = blinking;
}

/* What a text line is painted from. */
struct text {
    const unsigned char *font, *codes, *attributes; /* no attributes: 0 */
    const struct attributes *meaning;
};

/* All 256 glyphs: the memory's own, or the ROM's with the memory's upper half after them. */
static const unsigned char *font_of(const struct second_registers *r, const unsigned char *memory, const unsigned char *rom,
                                    unsigned char *room)
{
    const unsigned char *own = memory + 2048 * r->offset;
    if (r->external)
        return own;
    for (unsigned i = 0; i < 1024; i++)
        room[i] = rom[i];
    for (unsigned i = 1024; i < 2048; i++)
        room[i] = own[i];
    return room;
}

/* The eight rows of a cell: the glyph is read once for all of them, and so is its attribute. */
static inline word glyph(struct text text, unsigned column) { return load(text.font + 8 * text.codes[column]); }

static inline word attributed(struct text text, unsigned column)
{
    const unsigned attribute = text.attributes[column] & 15;
    return (glyph(text, column) & text.meaning->keep[attribute]) ^ text.meaning->flip[attribute];
}

static inline void trade(word *one, word *other, unsigned shift, word mask)
{
    const word both = (*one >> shift ^ *other) & mask;
    *one ^= both << shift, *other ^= both;
}

/* Eight columns of eight bytes become eight rows of them: halves are traded, then quarters, then bytes. */
static inline void turn(word *w, unsigned char *rows)
{
    for (unsigned i = 0; i < 4; i++)
        trade(&w[i], &w[i + 4], 32, 0xffffffff);
    for (unsigned i = 0; i < 8; i += 4)
        trade(&w[i], &w[i + 2], 16, 0xffff0000ffff), trade(&w[i + 1], &w[i + 3], 16, 0xffff0000ffff);
    for (unsigned i = 0; i < 8; i += 2)
        trade(&w[i], &w[i + 1], 8, 0xff00ff00ff00ff);
    for (unsigned i = 0; i < 8; i++)
        store(rows + ROW * i, w[i]);
}

/* The eight rows of a text line at w 8. */
static void text_rows_8(struct text text, unsigned columns, unsigned char *rows)
{
    word w[8];
    if (text.attributes)
        for (unsigned c = 0; c < columns; c += 8) {
            for (unsigned i = 0; i < 8; i++)
                w[i] = attributed(text, c + i);
            turn(w, rows + c);
        }
    else
        for (unsigned c = 0; c < columns; c += 8) {
            for (unsigned i = 0; i < 8; i++)
                w[i] = glyph(text, c + i);
            turn(w, rows + c);
        }
}

/* The same at w 6: four cells are packed into three bytes, in all eight rows at once, before they are turned. */
static void text_rows_6(struct text text, unsigned columns, unsigned char *rows)
{
    word w[ROW], cells[4];
    unsigned bytes = 0;
    for (unsigned c = 0; c < columns; c += 4, bytes += 3) {
        for (unsigned i = 0; i < 4; i++)
            cells[i] = text.attributes ? attributed(text, c + i) : glyph(text, c + i);
        w[bytes] = (cells[0] << 2 & 0xfcfcfcfcfcfcfcfc) | (cells[1] >> 4 & 0x0303030303030303);
        w[bytes + 1] = (cells[1] << 4 & 0xf0f0f0f0f0f0f0f0) | (cells[2] >> 2 & 0x0f0f0f0f0f0f0f0f);
        w[bytes + 2] = (cells[2] << 6 & 0xc0c0c0c0c0c0c0c0) | (cells[3] & 0x3f3f3f3f3f3f3f3f);
    }
    for (unsigned b = bytes; b % 8; b++)
        w[b] = 0;
    for (unsigned b = 0; b < bytes; b += 8)
        turn(w + b, rows + b);
}

/* A graphic row at w 6: eight cells become six bytes; two cells are joined, then four, whose three bytes are stored. */
static void pack(const unsigned char *cells, unsigned columns, unsigned char *to)
{
    for (unsigned c = 0; c < columns; c += 8, to += 6) {
        word w = load(cells + c);
        w = (w & 0x003f003f003f003f) << 6 | (w >> 8 & 0x003f003f003f003f);
        w = (w & 0x00000fff00000fff) << 12 | (w >> 16 & 0x00000fff00000fff);
        to[0] = (unsigned char)(w >> 16), to[1] = (unsigned char)(w >> 8), to[2] = (unsigned char)w;
        to[3] = (unsigned char)(w >> 48), to[4] = (unsigned char)(w >> 40), to[5] = (unsigned char)(w >> 32);
    }
}

/* A row of text with one of graphic, or ALONE; sixteen bytes in each step, for the compiler to take as one. */
static void mix(const unsigned char *restrict text, const unsigned char *restrict graphic, unsigned combination, unsigned length,
                unsigned char *restrict to)
{
    switch (combination) {
    case SECOND_OR:
        for (unsigned b = 0; b < length; b += 16)
            for (unsigned i = 0; i < 16; i++)
                to[b + i] = text[b + i] | graphic[b + i];
        break;
    case SECOND_EXOR:
        for (unsigned b = 0; b < length; b += 16)
            for (unsigned i = 0; i < 16; i++)
                to[b + i] = text[b + i] ^ graphic[b + i];
        break;
    case SECOND_AND:
        for (unsigned b = 0; b < length; b += 16)
            for (unsigned i = 0; i < 16; i++)
                to[b + i] = text[b + i] & graphic[b + i];
        break;
    default:
        for (unsigned b = 0; b < length; b += 16)
            for (unsigned i = 0; i < 16; i++)
                to[b + i] = text[b + i];
    }
}

/* The line that the cursor's Y stands for; L or more where it stands for none. */
static unsigned cursor_line(const struct second_panel *panel, unsigned y)
{
    const unsigned half = panel->lines / 2;
    if (!panel->dual)
        return y;
    if (y >= 16)
        return y - 16 + half;
    return y < half ? y : panel->lines;
}

/* Over the finished frame, so that no row need ask for it. */
static void paint_cursor(const struct second_panel *panel, const struct second_registers *r, unsigned length, unsigned char *frame)
{
    const unsigned line = cursor_line(panel, r->cursor_y);
    if (!r->cursor || (r->blink && r->phase == SECOND_PHASE_OFF) || r->cursor_x >= panel->columns || line >= panel->lines)
        return;
    const unsigned first = r->cursor_x * panel->width, dots = (panel->width == 6 ? 0xfc00u : 0xff00u) >> first % 8;
    unsigned char *at = frame + (8 * line + 8 - r->cursor_height) * length + first / 8;
    for (unsigned i = 0; i < r->cursor_height; i++, at += length) {
        at[0] |= (unsigned char)(dots >> 8);
        if (dots & 255)
            at[1] |= (unsigned char)dots;
    }
}

/* Everything is done in whole steps, which take more cells than a row has and paint more bytes: the next row is painted over what is
   too many, and the rows at the frame's end are painted beside it. */
void fast_frame(const struct second_panel *panel, const struct second_registers *r, const unsigned char *memory,
                const unsigned char *rom, unsigned char *frame)
{
    const unsigned columns = panel->columns, taken = (columns + 15) & ~15u, dots = columns * panel->width, length = (dots + 7) / 8;
    const unsigned char last_dots = (unsigned char)(0xff00 >> ((dots - 1) % 8 + 1));
    const unsigned combination = r->combination == SECOND_ATTRIBUTE || !r->graphic ? ALONE : r->text ? r->combination : SECOND_OR;
    unsigned char rows[8 * ROW] = {0}, packed[ROW] = {0}, beside[ROW], font_room[2048], codes_room[ROW], graphic_room[ROW];
    struct attributes attributes;
    struct text text = {font_of(r, memory, rom, font_room), 0, 0, &attributes};
    unsigned left = 8 * panel->lines * length;
    unsigned char *to = frame;
    make_attributes(r, &attributes);
    for (unsigned line = 0; line < panel->lines; line++) {
        if (r->text) {
            text.codes = row_at(memory, r->text_home + line * r->text_area, taken, codes_room);
            if (r->combination == SECOND_ATTRIBUTE && r->graphic)
                text.attributes = row_at(memory, r->graphic_home + line * r->graphic_area, taken, graphic_room);
            if (panel->width == 8)
                text_rows_8(text, columns, rows);
            else
                text_rows_6(text, columns, rows);
        }
        for (unsigned v = 0; v < 8; v++, to += length, left -= length) {
            unsigned char *const place = left >= taken ? to : beside;
            const unsigned char *graphic = 0;
            if (combination != ALONE) {
                graphic = row_at(memory, r->graphic_home + (8 * line + v) * r->graphic_area, taken, graphic_room);
                if (panel->width == 6)
                    pack(graphic, columns, packed), graphic = packed;
            }
            mix(rows + ROW * v, graphic, combination, length, place);
            if (last_dots != 255)
                place[length - 1] &= last_dots;
            if (place == beside)
                for (unsigned i = 0; i < length; i++)
                    to[i] = beside[i];
        }
    }
    paint_cursor(panel, r, length, frame);
}

/* A displayed byte, without cursor. */
static unsigned shown(const struct second_panel *panel, const struct second_registers *r, const unsigned char *memory,
                      const unsigned char *rom, unsigned row, unsigned column)
{
    const unsigned mask = panel->width == 6 ? 63 : 255, line = row / 8;
    const unsigned code = memory[(r->text_home + line * r->text_area + column) & TOP];
    const unsigned char *const font = !r->external && code < 128 ? rom : memory + 2048 * r->offset;
    const unsigned text = r->text ? font[8 * code + row % 8] : 0;
    const unsigned graphic = r->graphic ? memory[(r->graphic_home + row * r->graphic_area + column) & TOP] : 0;
    if (r->combination == SECOND_ATTRIBUTE) {
        const unsigned attribute = memory[(r->graphic_home + line * r->graphic_area + column) & TOP] & 15;
        struct attributes a;
        make_attributes(r, &a);
        return (unsigned)(r->graphic && r->text ? (text & a.keep[attribute]) ^ a.flip[attribute] : text) & mask;
    }
    if (!r->text || !r->graphic || r->combination == SECOND_OR)
        return (text | graphic) & mask;
    return (r->combination == SECOND_EXOR ? text ^ graphic : text & graphic) & mask;
}

static int position(const struct second_panel *panel, const struct second_registers *r, unsigned pointer, unsigned *row, unsigned *column)
{
    unsigned start = r->graphic_home;
    for (unsigned i = 0; i < 8 * panel->lines; i++, start += r->graphic_area)
        if (((pointer - start) & TOP) < panel->columns) {
            *row = i, *column = (pointer - start) & TOP;
            return 1;
        }
    return 0;
}

/* The byte peeked, or -1. */
static int peek(const struct second_panel *panel, const struct second_registers *r, const unsigned char *memory,
                const unsigned char *rom, unsigned pointer)
{
    unsigned row, column;
    return position(panel, r, pointer, &row, &column) ? (int)shown(panel, r, memory, rom, row, column) : -1;
}

static int copy(const struct second_panel *panel, const struct second_registers *r, unsigned char *memory, const unsigned char *rom,
                unsigned pointer)
{
    unsigned row, column;
    unsigned char bytes[ROW];
    if (panel->dual || r->combination == SECOND_ATTRIBUTE || !position(panel, r, pointer, &row, &column))
        return 0;
    for (unsigned i = column; i < panel->columns; i++)
        bytes[i] = (unsigned char)shown(panel, r, memory, rom, row, i);
    for (unsigned i = column; i < panel->columns; i++)
        memory[(pointer + i - column) & TOP] = bytes[i];
    return 1;
}

/* The bus in a run: what pairs use most, kept apart from the registers, and never lent to a function that is not inlined, so that it
   stays in the machine's registers. */
struct bus {
    const struct second_panel *panel;
    struct second_registers *r; /* the rest of the state */
    unsigned char *memory;
    const unsigned char *rom;
    const unsigned char *at, *end; /* pairs */
    unsigned char *answer, *answers_end;
    unsigned long pending; /* counts on past two */
    unsigned data;         /* the newest in the upper byte, the one before it in the lower */
    unsigned auto_mode, pointer, latch;
    unsigned status; /* its bits 5 to 7 */
    unsigned number;
};

enum { ERROR = 0x40, NORMAL = 0x80 };

/* The steps below say how many pairs they took, 0 for one refused. */
static inline unsigned long refused(struct bus *b, unsigned number)
{
    b->number = number;
    return 0;
}

static int defined(unsigned code)
{
    if (code >= 0x80 && code < 0x90)
        return 0x1b >> (code & 7) & 1;
    return code == 0x21 || code == 0x22 || code == 0x24 || (code >= 0x40 && code < 0x44) || (code >= 0x90 && code < 0xa8) ||
           (code >= 0xb0 && code < 0xb3) || (code >= 0xc0 && code < 0xc6) || code == 0xe0 || code == 0xe8 || code >= 0xf0;
}

/* With auto off. */
static inline unsigned long command(struct bus *b, unsigned code)
{
    static const unsigned char combinations[5] = {SECOND_OR, SECOND_EXOR, 0, SECOND_AND, SECOND_ATTRIBUTE};
    struct second_registers *const r = b->r;
    unsigned char *const memory = b->memory;
    const unsigned char datum = (unsigned char)(b->data >> 8);
    int peeked;
    switch (code) {
    case 0x21: if (b->pending > 1) { r->cursor_x = b->data & 127, r->cursor_y = b->data >> 8 & 31; break; } return refused(b, 6);
    case 0x22: if (b->pending > 1) { r->offset = b->data & 31; break; } return refused(b, 6);
    case 0x24: if (b->pending > 1) { b->pointer = b->data; break; } return refused(b, 6);
    case 0x40: if (b->pending > 1) { r->text_home = b->data; break; } return refused(b, 6);
    case 0x41: if (b->pending > 1) { r->text_area = b->data & 255; break; } return refused(b, 6);
    case 0x42: if (b->pending > 1) { r->graphic_home = b->data; break; } return refused(b, 6);
    case 0x43: if (b->pending > 1) { r->graphic_area = b->data & 255; break; } return refused(b, 6);
    case 0x80: case 0x81: case 0x83: case 0x84: case 0x88: case 0x89: case 0x8b: case 0x8c:
        r->external = code >> 3 & 1, r->combination = combinations[code & 7];
        break;
    case 0x90: case 0x91: case 0x92: case 0x93: case 0x94: case 0x95: case 0x96: case 0x97:
    case 0x98: case 0x99: case 0x9a: case 0x9b: case 0x9c: case 0x9d: case 0x9e: case 0x9f:
        r->graphic = code >> 3 & 1, r->text = code >> 2 & 1, r->cursor = code >> 1 & 1, r->blink = code & 1;
        break;
    case 0xa0: case 0xa1: case 0xa2: case 0xa3: case 0xa4: case 0xa5: case 0xa6: case 0xa7:
        r->cursor_height = (code & 7) + 1;
        break;
    case 0xb0: b->auto_mode = SECOND_AUTO_WRITE; break;
    case 0xb1: b->auto_mode = SECOND_AUTO_READ; break;
    case 0xb2: break;
    case 0xc0: if (b->pending > 0) { memory[b->pointer] = datum, b->pointer = (b->pointer + 1) & TOP; break; } return refused(b, 6);
    case 0xc2: if (b->pending > 0) { memory[b->pointer] = datum, b->pointer = (b->pointer - 1) & TOP; break; } return refused(b, 6);
    case 0xc4: if (b->pending > 0) { memory[b->pointer] = datum; break; } return refused(b, 6);
    case 0xc1: b->latch = memory[b->pointer], b->pointer = (b->pointer + 1) & TOP; break;
    case 0xc3: b->latch = memory[b->pointer], b->pointer = (b->pointer - 1) & TOP; break;
    case 0xc5: b->latch = memory[b->pointer]; break;
    case 0xe0:
        r->phase = b->status & NORMAL ? SECOND_PHASE_NORMAL : SECOND_PHASE_OFF;
        peeked = peek(b->panel, r, memory, b->rom, b->pointer);
        if (peeked < 0)
            b->status |= ERROR;
        else
            b->status &= ~(unsigned)ERROR, b->latch = (unsigned)peeked;
        break;
    case 0xe8:
        if (copy(b->panel, r, memory, b->rom, b->pointer))
            b->status &= ~(unsigned)ERROR;
        else
            b->status |= ERROR;
        break;
    case 0xf0: case 0xf1: case 0xf2: case 0xf3: case 0xf4: case 0xf5: case 0xf6: case 0xf7:
        memory[b->pointer] &= (unsigned char)~(1u << (code & 7));
        break;
    case 0xf8: case 0xf9: case 0xfa: case 0xfb: case 0xfc: case 0xfd: case 0xfe: case 0xff:
        memory[b->pointer] |= (unsigned char)(1u << (code & 7));
        break;
    default: return refused(b, 4);
    }
    b->pending = b->data = 0;
    return 1;
}

static inline unsigned long answer(struct bus *b, unsigned byte)
{
    if (b->answer == b->answers_end)
        return refused(b, 13);
    *b->answer++ = (unsigned char)byte;
    return 1;
}

static inline unsigned long tick(struct bus *b)
{
    b->status ^= NORMAL;
    return 1;
}

/* With auto off; the two commonest sequences, two data with 24H and a datum with C0H, at once. */
static inline unsigned long step_off(struct bus *b)
{
    const unsigned kind = b->at[0], byte = b->at[1];
    if (kind < SECOND_COMMAND) {
        const word next = b->end - b->at >= 8 ? load(b->at) : 0;
        if ((next & 0xffff00ff00ff) == 0x240100000000) {
            b->pointer = (unsigned)(next >> 8 & 0xff) | (unsigned)(next >> 16 & 0xff00), b->pending = b->data = 0;
            return 3;
        }
        if ((next & 0xffff00ff) == 0xc0010000) {
            b->memory[b->pointer] = (unsigned char)byte, b->pointer = (b->pointer + 1) & TOP, b->pending = b->data = 0;
            return 2;
        }
        b->data = b->data >> 8 | byte << 8, b->pending++;
        return 1;
    }
    if (kind < SECOND_DATA_READ)
        return command(b, byte);
    if (kind == SECOND_STATUS_READ)
        return answer(b, b->status | 3);
    if (kind == SECOND_DATA_READ)
        return answer(b, b->latch);
    return kind == SECOND_TICK ? tick(b) : refused(b, 3);
}

/* In auto, all but the data it is for: of the commands only off is taken, and the wrong kind of data is refused. */
static inline unsigned long step_in_auto(struct bus *b, unsigned status, unsigned wrong)
{
    const unsigned kind = b->at[0], byte = b->at[1];
    if (kind == SECOND_COMMAND) {
        if (byte != 0xb2)
            return refused(b, defined(byte) ? 5 : 4);
        b->auto_mode = SECOND_AUTO_OFF, b->pending = b->data = 0;
        return 1;
    }
    if (kind == SECOND_STATUS_READ)
        return answer(b, b->status | status);
    return kind == SECOND_TICK ? tick(b) : refused(b, kind == wrong ? 7 : 3);
}

/* The bytes of four data pairs, whose kinds are 0. */
static inline word joined(word pairs)
{
    pairs = (pairs >> 8 | pairs >> 16) & 0x0000ffff0000ffff;
    return (pairs | pairs >> 16) & 0xffffffff;
}

/* Stores the data before another kind, of so many pairs; how many. */
static inline unsigned long store_data(const unsigned char *at, unsigned long pairs, unsigned char *to)
{
    unsigned long n = 0;
    for (; pairs - n >= 8; n += 8) {
        const word first = load(at + 2 * n), second = load(at + 2 * n + 8);
        if ((first | second) & 0x00ff00ff00ff00ff)
            break;
        store(to + n, joined(first) | joined(second) << 32);
    }
    for (; n < pairs && at[2 * n] == SECOND_DATA_WRITE; n++)
        to[n] = at[2 * n + 1];
    return n;
}

/* In auto write; a block up to the memory's end at once. */
static inline unsigned long step_write(struct bus *b)
{
    const unsigned long pairs = (unsigned long)(b->end - b->at) / 2, room = MEMORY - b->pointer;
    if (b->at[0] != SECOND_DATA_WRITE)
        return step_in_auto(b, 8, SECOND_DATA_READ);
    const unsigned long stored = store_data(b->at, pairs < room ? pairs : room, b->memory + b->pointer);
    b->pointer = (unsigned)(b->pointer + stored) & TOP;
    return stored;
}

static inline unsigned long step_read(struct bus *b)
{
    if (b->at[0] != SECOND_DATA_READ)
        return step_in_auto(b, 4, SECOND_DATA_WRITE);
    const unsigned long taken = answer(b, b->memory[b->pointer]);
    b->pointer = (unsigned)(b->pointer + taken) & TOP;
    return taken;
}

struct second_run_reply fast_run(const struct second_panel *panel, struct second_registers *registers, unsigned char *memory,
                                 const unsigned char *rom, const unsigned char *log, unsigned long log_length, unsigned long limit,
                                 unsigned char *answers, unsigned long answers_length)
{
    struct second_registers *const r = registers;
    const unsigned long pairs = limit < log_length / 2 ? limit : log_length / 2;
    struct bus b = {panel, r, memory, rom, log, log + 2 * pairs, answers, answers + answers_length, r->pending, r->older | r->newest << 8,
                    r->auto_mode, r->pointer, r->latch, 0x20 | r->error << 6 | (r->phase == SECOND_PHASE_NORMAL ? NORMAL : 0u), 0};
    unsigned long taken = 1;
    while (taken && b.at != b.end) {
        while (b.auto_mode == SECOND_AUTO_OFF && taken && b.at != b.end)
            taken = step_off(&b), b.at += 2 * taken;
        while (b.auto_mode == SECOND_AUTO_WRITE && taken && b.at != b.end)
            taken = step_write(&b), b.at += 2 * taken;
        while (b.auto_mode == SECOND_AUTO_READ && taken && b.at != b.end)
            taken = step_read(&b), b.at += 2 * taken;
    }
    r->auto_mode = b.auto_mode, r->pointer = b.pointer, r->latch = b.latch, r->pending = b.pending < 2 ? (unsigned)b.pending : 2;
    r->older = b.data & 255, r->newest = b.data >> 8, r->error = b.status >> 6 & 1;
    r->phase = b.status & NORMAL ? SECOND_PHASE_NORMAL : SECOND_PHASE_OFF;
    const unsigned long all = (unsigned long)(b.at - log) / 2;
    const struct second_run_reply reply = {b.number, b.number ? all : 0, all, (unsigned long)(b.answer - answers), 0};
    return reply;
}
