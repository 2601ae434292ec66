#include "screens.h"

#define GLYPHS_OFFSET 0x1F

enum { TEXT = 1, RECTANGLE, DOT, GLYPH, CURSOR, COMBINATION };

unsigned long second_graphic_length(const struct second_panel *panel)
{
    return 8UL * panel->columns * panel->lines;
}

unsigned long second_text_length(const struct second_panel *panel)
{
    return (unsigned long)panel->columns * panel->lines;
}

/* The book and its contents. */

static unsigned long word_at(const unsigned char *bytes, unsigned long place)
{
    return bytes[place] + 256UL * bytes[place + 1];
}

/* Entries of offset and length begin behind n; those of identity, offset and length behind 0 and n. */
unsigned long second_entry_place(unsigned form, unsigned long index)
{
    return form == 2 ? 2 + 6 * index : 1 + 4 * index;
}

unsigned long second_book_identity(const struct second_book *book, unsigned long index)
{
    return book->form == 2 ? word_at(book->bytes, second_entry_place(2, index)) : index;
}

struct second_body second_book_body(const struct second_book *book, unsigned long index)
{
    struct second_body body;
    unsigned long place = second_entry_place(book->form, index);
    if (book->form == 2) place += 2;
    body.begin = word_at(book->bytes, place);
    body.end = body.begin + word_at(book->bytes, place + 2);
    return body;
}

/* Is the entry wrong, where the last body ended at begin? */
static int entry_wrong(const struct second_book *book, unsigned long index, unsigned long begin)
{
    struct second_body body = second_book_body(book, index);
    if (index > 0 && second_book_identity(book, index) <= second_book_identity(book, index - 1)) return 1;
    if (body.begin != begin || body.end > book->length) return 1;
    return index == book->screens - 1 && body.end < book->length;
}

unsigned second_book_open(const unsigned char *bytes, unsigned long length, struct second_book *book,
                          unsigned long *place)
{
    unsigned long index, begin;
    *place = 0;
    if (length < 1 || length > SECOND_BOOK_LIMIT) return 9;
    book->bytes = bytes;
    book->length = length;
    book->form = bytes[0] == 0 ? 2 : 1;
    if (length < book->form) return 9;
    book->screens = bytes[book->form - 1];
    if (book->screens < 1 || book->screens > SECOND_MOST_SCREENS) return 9;
    begin = second_entry_place(book->form, book->screens);
    if (length < begin) return 9;
    for (index = 0; index < book->screens; index++) {
        if (entry_wrong(book, index, begin)) {
            *place = second_entry_place(book->form, index);
            return 9;
        }
        begin = second_book_body(book, index).end;
    }
    return 0;
}

unsigned long second_find_screen(const struct second_book *book, unsigned long screen)
{
    unsigned long index;
    for (index = 0; index < book->screens; index++) {
        if (second_book_identity(book, index) == screen) return index;
    }
    return book->screens;
}

/* Operations. */

/* The bytes of an operation, without a text's codes; 0 if it is unknown. */
static unsigned long fixed_length(unsigned code)
{
    switch (code) {
    case TEXT: return 4;
    case RECTANGLE: return 6;
    case DOT: return 5;
    case GLYPH: return 10;
    case CURSOR: return 5;
    case COMBINATION: return 2;
    default: return 0;
    }
}

static unsigned long whole_length(const unsigned char *operation)
{
    return fixed_length(operation[0]) + (operation[0] == TEXT ? operation[3] : 0U);
}

static int text_in_range(const struct second_panel *panel, unsigned line, unsigned column, unsigned n)
{
    return line < panel->lines && n >= 1 && n <= 80 && column + n <= panel->columns;
}

static int rectangle_in_range(const struct second_panel *panel, unsigned top, unsigned column,
                              unsigned height, unsigned width)
{
    return height >= 1 && width >= 1 && top + height <= 8 * panel->lines && column + width <= panel->columns;
}

static int dot_in_range(const struct second_panel *panel, unsigned x, unsigned y, unsigned v)
{
    return x < panel->columns * panel->width && y < 8 * panel->lines && v <= 1;
}

static int cursor_in_range(const struct second_panel *panel, unsigned line, unsigned column,
                           unsigned height, unsigned blink)
{
    return line < panel->lines && column < panel->columns && height >= 1 && height <= 8 && blink <= 1;
}

static unsigned dot_x(const unsigned char *operation)
{
    return operation[1] + 256U * operation[2];
}

/* The operation is a known one, and its bytes, a text's codes apart, are there. Form two has no AND. */
static int in_range(const struct second_panel *panel, unsigned form, const unsigned char *operation)
{
    switch (operation[0]) {
    case TEXT: return text_in_range(panel, operation[1], operation[2], operation[3]);
    case RECTANGLE: return rectangle_in_range(panel, operation[1], operation[2], operation[3], operation[4]);
    case DOT: return dot_in_range(panel, dot_x(operation), operation[3], operation[4]);
    case GLYPH: return operation[1] >= 0x80;
    case CURSOR: return cursor_in_range(panel, operation[1], operation[2], operation[3], operation[4]);
    default: return operation[1] <= (form == 2 ? 1 : 2);
    }
}

unsigned long second_operation_length(const struct second_panel *panel, const struct second_book *book,
                                      struct second_body body, unsigned long at)
{
    const unsigned char *operation = book->bytes + at;
    unsigned long left = body.end - at;
    unsigned long fixed = fixed_length(operation[0]);
    if (fixed == 0 || fixed > left) return 0;
    if (whole_length(operation) > left) return 0;
    return in_range(panel, book->form, operation) ? whole_length(operation) : 0;
}

static unsigned long operation_pairs(const unsigned char *operation)
{
    switch (operation[0]) {
    case TEXT: return operation[3] + 5UL;
    case RECTANGLE: return operation[3] * (operation[4] + 5UL);
    case DOT: return 4;
    case GLYPH: return 13;
    case CURSOR: return 5;
    default: return 1;
    }
}

unsigned long second_first_wrong(const struct second_panel *panel, const struct second_book *book,
                                 struct second_body body)
{
    unsigned long at = body.begin;
    while (at < body.end) {
        unsigned long length = second_operation_length(panel, book, body, at);
        if (length == 0) return at;
        at += length;
    }
    return body.end;
}

/* 0, 9, 10 or 11, and its place; the body only with 0. */
static unsigned screen_number(const struct second_panel *panel, const unsigned char *bytes, unsigned long length,
                              unsigned long screen, struct second_body *body, unsigned long *place)
{
    struct second_book book;
    unsigned long index, wrong;
    if (second_book_open(bytes, length, &book, place) != 0) return 9;
    index = second_find_screen(&book, screen);
    if (index == book.screens) return 10;
    *body = second_book_body(&book, index);
    wrong = second_first_wrong(panel, &book, *body);
    if (wrong == body->end) return 0;
    *place = wrong;
    return 11;
}

/* The pairs of a right body's operations. */
static unsigned long body_pairs(const unsigned char *bytes, struct second_body body)
{
    unsigned long at, pairs = 0;
    for (at = body.begin; at < body.end; at += whole_length(bytes + at)) pairs += operation_pairs(bytes + at);
    return pairs;
}

/* The stream. */

struct stream {
    unsigned char *room;
    unsigned long pairs; /* written so far */
    int asking;          /* a status read stands before each write */
};

static void put_pair(struct stream *stream, unsigned kind, unsigned long byte)
{
    stream->room[2 * stream->pairs] = (unsigned char)kind;
    stream->room[2 * stream->pairs + 1] = (unsigned char)byte;
    stream->pairs++;
}

static void pair(struct stream *stream, unsigned kind, unsigned long byte)
{
    if (stream->asking) put_pair(stream, SECOND_STATUS_READ, 0);
    put_pair(stream, kind, byte);
}

static void command(struct stream *stream, unsigned code)
{
    pair(stream, SECOND_COMMAND, code);
}

static void command_with(struct stream *stream, unsigned long d1, unsigned long d2, unsigned code)
{
    pair(stream, SECOND_DATA_WRITE, d1);
    pair(stream, SECOND_DATA_WRITE, d2);
    command(stream, code);
}

static void command_with_address(struct stream *stream, unsigned long address, unsigned code)
{
    command_with(stream, address % 256, address / 256, code);
}

static void store_bytes(struct stream *stream, unsigned long address, const unsigned char *bytes, unsigned long count)
{
    unsigned long i;
    command_with_address(stream, address, 0x24);
    command(stream, 0xB0);
    for (i = 0; i < count; i++) pair(stream, SECOND_DATA_WRITE, bytes[i]);
    command(stream, 0xB2);
}

static void store_value(struct stream *stream, unsigned long address, unsigned value, unsigned long count)
{
    unsigned long i;
    command_with_address(stream, address, 0x24);
    command(stream, 0xB0);
    for (i = 0; i < count; i++) pair(stream, SECOND_DATA_WRITE, value);
    command(stream, 0xB2);
}

/* The graphic bytes of a dual panel may reach past 4000H. */
unsigned long second_text_home(const struct second_panel *panel)
{
    return panel->dual ? 0x8000 : 0x4000;
}

static unsigned long opening_pairs(const struct second_panel *panel)
{
    return 1057 + 9UL * panel->columns * panel->lines;
}

static void write_opening(struct stream *stream, const struct second_panel *panel)
{
    command(stream, 0xB2);
    command_with_address(stream, second_text_home(panel), 0x40);
    command_with(stream, panel->columns, 0, 0x41);
    command_with_address(stream, SECOND_GRAPHIC_HOME, 0x42);
    command_with(stream, panel->columns, 0, 0x43);
    command_with(stream, GLYPHS_OFFSET, 0, 0x22);
    command(stream, 0x80);
    command(stream, 0x9C);
    store_value(stream, SECOND_GRAPHIC_HOME, 0, second_graphic_length(panel));
    store_value(stream, second_text_home(panel), 0, second_text_length(panel));
    store_value(stream, SECOND_GLYPHS_START, 0, SECOND_GLYPHS_LENGTH);
}

static unsigned long graphic_address(const struct second_panel *panel, unsigned row, unsigned column)
{
    return SECOND_GRAPHIC_HOME + (unsigned long)row * panel->columns + column;
}

static void write_rectangle(struct stream *stream, const struct second_panel *panel, unsigned top, unsigned column,
                            unsigned height, unsigned width, unsigned value)
{
    unsigned row;
    for (row = top; row < top + height; row++) store_value(stream, graphic_address(panel, row, column), value, width);
}

static void write_dot(struct stream *stream, const struct second_panel *panel, unsigned x, unsigned y, unsigned v)
{
    unsigned bit = panel->width - 1 - x % panel->width;
    command_with_address(stream, graphic_address(panel, y, x / panel->width), 0x24);
    command(stream, (v == 0 ? 0xF0 : 0xF8) + bit);
}

/* The lower half of a dual panel counts its lines from Y 16. */
unsigned second_cursor_y(const struct second_panel *panel, unsigned line)
{
    unsigned half = panel->lines / 2;
    if (panel->dual && line >= half) return 16 + line - half;
    return line;
}

static void write_cursor(struct stream *stream, const struct second_panel *panel, unsigned line, unsigned column,
                         unsigned height, unsigned blink)
{
    command_with(stream, column, second_cursor_y(panel, line), 0x21);
    command(stream, 0xA0 + height - 1);
    command(stream, blink == 0 ? 0x9E : 0x9F);
}

static void write_combination(struct stream *stream, unsigned k)
{
    static const unsigned char code[3] = {0x80, 0x81, 0x83};
    command(stream, code[k]);
}

static void write_operation(struct stream *stream, const struct second_panel *panel, const unsigned char *operation)
{
    const unsigned char *field = operation + 1;
    switch (operation[0]) {
    case TEXT:
        store_bytes(stream, second_text_home(panel) + (unsigned long)field[0] * panel->columns + field[1],
                    field + 3, field[2]);
        break;
    case RECTANGLE:
        write_rectangle(stream, panel, field[0], field[1], field[2], field[3], field[4]);
        break;
    case DOT:
        write_dot(stream, panel, dot_x(operation), field[2], field[3]);
        break;
    case GLYPH:
        store_bytes(stream, SECOND_GLYPHS_START + 8UL * (field[0] - 0x80U), field + 1, 8);
        break;
    case CURSOR:
        write_cursor(stream, panel, field[0], field[1], field[2], field[3]);
        break;
    default:
        write_combination(stream, field[0]);
        break;
    }
}

static struct second_write_reply write_screen(const struct second_panel *panel,
                                              const unsigned char *book, unsigned long book_length,
                                              unsigned long screen, int asking,
                                              unsigned char *room, unsigned long room_length)
{
    struct second_write_reply reply;
    struct stream stream;
    struct second_body body;
    unsigned long at, needed;
    reply.number = 1;
    reply.place = 0;
    reply.pairs = 0;
    if (!second_panel_valid(panel)) return reply;
    reply.number = screen_number(panel, book, book_length, screen, &body, &reply.place);
    if (reply.number != 0) return reply;
    needed = opening_pairs(panel) + body_pairs(book, body);
    if (asking) needed *= 2;
    if (2 * needed > room_length) {
        reply.number = 12;
        reply.place = needed;
        return reply;
    }

    stream.room = room;
    stream.pairs = 0;
    stream.asking = asking;
    write_opening(&stream, panel);
    for (at = body.begin; at < body.end; at += whole_length(book + at)) write_operation(&stream, panel, book + at);
    reply.pairs = stream.pairs;
    return reply;
}

struct second_write_reply second_write(const struct second_panel *panel,
                                       const unsigned char *book, unsigned long book_length, unsigned long screen,
                                       unsigned char *room, unsigned long room_length)
{
    return write_screen(panel, book, book_length, screen, 0, room, room_length);
}

struct second_write_reply second_write_asking(const struct second_panel *panel,
                                              const unsigned char *book, unsigned long book_length,
                                              unsigned long screen,
                                              unsigned char *room, unsigned long room_length)
{
    return write_screen(panel, book, book_length, screen, 1, room, room_length);
}

/* The picture, dot by dot; nothing below knows a register or an address. */

struct picture {
    unsigned char *graphic; /* row by row, C bytes each */
    unsigned char *text;    /* line by line, C codes each */
    unsigned char *glyphs;  /* eight rows for each code 80H to FFH */
    unsigned k;             /* 0 OR, 1 EXOR, 2 AND */
    int cursor;
    unsigned cursor_line, cursor_column, cursor_height, cursor_blink;
};

static void clear(unsigned char *bytes, unsigned long length)
{
    unsigned long i;
    for (i = 0; i < length; i++) bytes[i] = 0;
}

static void draw_text(const struct second_panel *panel, struct picture *picture, unsigned line, unsigned column,
                      const unsigned char *codes, unsigned n)
{
    unsigned i;
    for (i = 0; i < n; i++) picture->text[line * panel->columns + column + i] = codes[i];
}

static void draw_rectangle(const struct second_panel *panel, struct picture *picture, unsigned top, unsigned left,
                           unsigned height, unsigned width, unsigned char value)
{
    unsigned row, column;
    for (row = top; row < top + height; row++) {
        for (column = left; column < left + width; column++) picture->graphic[row * panel->columns + column] = value;
    }
}

static void draw_dot(const struct second_panel *panel, struct picture *picture, unsigned x, unsigned y, unsigned v)
{
    unsigned char *byte = &picture->graphic[y * panel->columns + x / panel->width];
    unsigned bit = 1U << (panel->width - 1 - x % panel->width);
    *byte = (unsigned char)(v == 0 ? *byte & ~bit : *byte | bit);
}

static void draw_glyph(struct picture *picture, unsigned code, const unsigned char *rows)
{
    unsigned v;
    for (v = 0; v < 8; v++) picture->glyphs[8 * (code - 0x80) + v] = rows[v];
}

static void draw_operation(const struct second_panel *panel, struct picture *picture, const unsigned char *operation)
{
    const unsigned char *field = operation + 1;
    switch (operation[0]) {
    case TEXT:
        draw_text(panel, picture, field[0], field[1], field + 3, field[2]);
        break;
    case RECTANGLE:
        draw_rectangle(panel, picture, field[0], field[1], field[2], field[3], field[4]);
        break;
    case DOT:
        draw_dot(panel, picture, dot_x(operation), field[2], field[3]);
        break;
    case GLYPH:
        draw_glyph(picture, field[0], field + 1);
        break;
    case CURSOR:
        picture->cursor = 1;
        picture->cursor_line = field[0];
        picture->cursor_column = field[1];
        picture->cursor_height = field[2];
        picture->cursor_blink = field[3];
        break;
    default:
        picture->k = field[0];
        break;
    }
}

static int under_cursor(const struct picture *picture, unsigned normal, unsigned column, unsigned y)
{
    if (!picture->cursor) return 0;
    if (picture->cursor_blink && !normal) return 0;
    if (column != picture->cursor_column || y / 8 != picture->cursor_line) return 0;
    return 8 - y % 8 <= picture->cursor_height;
}

static unsigned picture_dot(const struct second_panel *panel, const struct picture *picture, const unsigned char *rom,
                            unsigned normal, unsigned x, unsigned y)
{
    unsigned column = x / panel->width;
    unsigned bit = panel->width - 1 - x % panel->width;
    unsigned code = picture->text[y / 8 * panel->columns + column];
    unsigned row = code < 0x80 ? rom[8 * code + y % 8] : picture->glyphs[8 * (code - 0x80) + y % 8];
    unsigned text = (row >> bit) & 1;
    unsigned graphic = ((unsigned)picture->graphic[y * panel->columns + column] >> bit) & 1;
    if (under_cursor(picture, normal, column, y)) return 1;
    if (picture->k == 0) return text | graphic;
    if (picture->k == 1) return text ^ graphic;
    return text & graphic;
}

struct second_picture_reply second_picture(const struct second_panel *panel,
                                           const unsigned char *book, unsigned long book_length, unsigned long screen,
                                           const unsigned char *rom, unsigned long rom_length, unsigned normal,
                                           unsigned char *graphic, unsigned long graphic_length,
                                           unsigned char *text, unsigned long text_length,
                                           unsigned char *glyphs, unsigned long glyphs_length,
                                           unsigned char *frame, unsigned long frame_length)
{
    struct second_picture_reply reply;
    struct picture picture;
    struct second_body body;
    unsigned long at;
    unsigned x, y;
    reply.number = 1;
    reply.place = 0;
    if (!second_panel_valid(panel)) return reply;
    reply.number = 2;
    if (rom_length != SECOND_ROM_LENGTH) return reply;
    if (graphic_length != second_graphic_length(panel)) return reply;
    if (text_length != second_text_length(panel)) return reply;
    if (glyphs_length != SECOND_GLYPHS_LENGTH) return reply;
    if (frame_length != second_frame_length(panel)) return reply;
    reply.number = screen_number(panel, book, book_length, screen, &body, &reply.place);
    if (reply.number != 0) return reply;

    picture.graphic = graphic;
    picture.text = text;
    picture.glyphs = glyphs;
    picture.k = 0;
    picture.cursor = 0;
    clear(graphic, graphic_length);
    clear(text, text_length);
    clear(glyphs, glyphs_length);
    for (at = body.begin; at < body.end; at += whole_length(book + at)) draw_operation(panel, &picture, book + at);

    clear(frame, frame_length);
    for (y = 0; y < 8 * panel->lines; y++) {
        for (x = 0; x < panel->columns * panel->width; x++) {
            unsigned char *packed = &frame[y * second_row_length(panel) + x / 8];
            if (picture_dot(panel, &picture, rom, normal, x, y)) *packed = (unsigned char)(*packed | 0x80U >> x % 8);
        }
    }
    return reply;
}
