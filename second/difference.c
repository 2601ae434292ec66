#include "difference.h"

#define GRAPHIC_ROOM 20480 /* 80 * 8 * 32 bytes, the largest graphic plane, and as many the largest frame */
#define TEXT_ROOM 2560     /* 80 * 32 codes, the largest text plane */

struct planes {
    unsigned char graphic[GRAPHIC_ROOM], text[TEXT_ROOM], glyphs[SECOND_GLYPHS_LENGTH];
};

/* The planes of a right screen's picture; its dots, with whatever ROM, are not asked for. */
static void draw_planes(const struct second_panel *panel, const struct second_book *book, unsigned long screen,
                        struct planes *planes)
{
    unsigned char rom[SECOND_ROM_LENGTH] = {0};
    unsigned char frame[GRAPHIC_ROOM];
    second_picture(panel, book->bytes, book->length, screen, rom, sizeof rom, 1,
                   planes->graphic, second_graphic_length(panel), planes->text, second_text_length(panel),
                   planes->glyphs, SECOND_GLYPHS_LENGTH, frame, second_frame_length(panel));
}

/* The last operation of that number in a right body, or 0. */
static const unsigned char *last_operation(const struct second_panel *panel, const struct second_book *book,
                                           struct second_body body, unsigned number)
{
    const unsigned char *last = 0;
    unsigned long at;
    for (at = body.begin; at < body.end; at += second_operation_length(panel, book, body, at)) {
        if (book->bytes[at] == number) last = book->bytes + at;
    }
    return last;
}

static unsigned long count_differences(const unsigned char *a, const unsigned char *b, unsigned long length)
{
    unsigned long i, count = 0;
    for (i = 0; i < length; i++) {
        if (a[i] != b[i]) count++;
    }
    return count;
}

/* The stream. */

struct stream {
    unsigned char *room;
    unsigned long pairs; /* written so far */
};

static void pair(struct stream *stream, unsigned kind, unsigned long byte)
{
    stream->room[2 * stream->pairs] = (unsigned char)kind;
    stream->room[2 * stream->pairs + 1] = (unsigned char)byte;
    stream->pairs++;
}

/* Pointer set, the new byte, C4H, for each byte that differs. */
static void write_differences(struct stream *stream, unsigned long home, const unsigned char *a,
                              const unsigned char *b, unsigned long length)
{
    unsigned long i;
    for (i = 0; i < length; i++) {
        if (a[i] == b[i]) continue;
        pair(stream, SECOND_DATA_WRITE, (home + i) % 256);
        pair(stream, SECOND_DATA_WRITE, (home + i) / 256);
        pair(stream, SECOND_COMMAND, 0x24);
        pair(stream, SECOND_DATA_WRITE, b[i]);
        pair(stream, SECOND_COMMAND, 0xC4);
    }
}

/* B's mode code; OR without an operation 6. */
static void write_mode(struct stream *stream, const unsigned char *combination)
{
    static const unsigned char code[3] = {0x80, 0x81, 0x83};
    pair(stream, SECOND_COMMAND, combination == 0 ? 0x80 : code[combination[1]]);
}

/* B's cursor as operation 5 writes it, or 9CH. */
static void write_cursor(struct stream *stream, const struct second_panel *panel, const unsigned char *cursor)
{
    if (cursor == 0) {
        pair(stream, SECOND_COMMAND, 0x9C);
        return;
    }
    pair(stream, SECOND_DATA_WRITE, cursor[2]);
    pair(stream, SECOND_DATA_WRITE, second_cursor_y(panel, cursor[1]));
    pair(stream, SECOND_COMMAND, 0x21);
    pair(stream, SECOND_COMMAND, 0xA0U + cursor[3] - 1);
    pair(stream, SECOND_COMMAND, cursor[4] == 0 ? 0x9E : 0x9F);
}

static struct second_write_reply reply_with(unsigned number, unsigned long place, unsigned long pairs)
{
    struct second_write_reply reply;
    reply.number = number;
    reply.place = place;
    reply.pairs = pairs;
    return reply;
}

/* Both screens are right. */
static struct second_write_reply write_right(const struct second_panel *panel, const struct second_book *book,
                                             unsigned long screen_a, unsigned long screen_b,
                                             unsigned char *room, unsigned long room_length)
{
    struct planes a, b;
    struct stream stream;
    struct second_body body = second_book_body(book, second_find_screen(book, screen_b));
    const unsigned char *cursor = last_operation(panel, book, body, 5);
    unsigned long graphic_length = second_graphic_length(panel), text_length = second_text_length(panel), needed;
    draw_planes(panel, book, screen_a, &a);
    draw_planes(panel, book, screen_b, &b);
    needed = count_differences(a.graphic, b.graphic, graphic_length) + count_differences(a.text, b.text, text_length)
             + count_differences(a.glyphs, b.glyphs, SECOND_GLYPHS_LENGTH);
    needed = 5 * needed + (cursor == 0 ? 2 : 6);
    if (2 * needed > room_length) return reply_with(12, needed, 0);

    stream.room = room;
    stream.pairs = 0;
    write_differences(&stream, SECOND_GRAPHIC_HOME, a.graphic, b.graphic, graphic_length);
    write_differences(&stream, second_text_home(panel), a.text, b.text, text_length);
    write_differences(&stream, SECOND_GLYPHS_START, a.glyphs, b.glyphs, SECOND_GLYPHS_LENGTH);
    write_mode(&stream, last_operation(panel, book, body, 6));
    write_cursor(&stream, panel, cursor);
    return reply_with(0, 0, stream.pairs);
}

struct second_write_reply second_write_difference(const struct second_panel *panel,
                                                  const unsigned char *book, unsigned long book_length,
                                                  unsigned long screen_a, unsigned long screen_b,
                                                  unsigned char *room, unsigned long room_length)
{
    unsigned long screens[2], place;
    struct second_book open;
    unsigned i;
    screens[0] = screen_a;
    screens[1] = screen_b;
    if (!second_panel_valid(panel)) return reply_with(1, 0, 0);
    if (second_book_open(book, book_length, &open, &place) != 0) return reply_with(9, place, 0);
    for (i = 0; i < 2; i++) {
        if (second_find_screen(&open, screens[i]) == open.screens) return reply_with(10, 0, 0);
    }
    for (i = 0; i < 2; i++) {
        struct second_body body = second_book_body(&open, second_find_screen(&open, screens[i]));
        place = second_first_wrong(panel, &open, body);
        if (place != body.end) return reply_with(11, place, 0);
    }
    return write_right(panel, &open, screen_a, screen_b, room, room_length);
}
