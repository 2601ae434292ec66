/* screen_points: what the programs cannot show of screens.c, and every range; one line per point, ok or not ok. */
#include <limits.h>
#include <stdio.h>
#include <string.h>

#include "point.h"
#include "screens.h"

#define UNTOUCHED 0xEE
#define ROOM 80000

static unsigned char book[SECOND_BOOK_LIMIT + 1];
static unsigned char room[ROOM];
static unsigned char rom[SECOND_ROM_LENGTH + 1];
static unsigned char graphic[49], text[7], glyphs[SECOND_GLYPHS_LENGTH + 1], frame[49];
static const struct second_panel panel_3_2_6 = {3, 2, 6, 0}; /* planes of 48 and 6 bytes, a frame of 48 */
static const unsigned long opening_3_2 = 1057 + 9 * 3 * 2;

static int all(const unsigned char *bytes, unsigned long length, unsigned char value)
{
    unsigned long i;
    for (i = 0; i < length; i++) {
        if (bytes[i] != value) return 0;
    }
    return 1;
}

static struct second_write_reply write_3_2_6(unsigned long length, unsigned long screen, unsigned long room_length)
{
    return second_write(&panel_3_2_6, book, length, screen, room, room_length);
}

static struct second_picture_reply draw(const struct second_panel *panel, unsigned long length, unsigned long screen,
                                        unsigned long rom_length, unsigned long graphic_length,
                                        unsigned long text_length, unsigned long glyphs_length,
                                        unsigned long frame_length)
{
    return second_picture(panel, book, length, screen, rom, rom_length, 1, graphic, graphic_length, text, text_length,
                          glyphs, glyphs_length, frame, frame_length);
}

static struct second_picture_reply draw_3_2_6(unsigned long length, unsigned long screen)
{
    return draw(&panel_3_2_6, length, screen, 1024, 48, 6, 1024, 48);
}

static void touch_nothing(void)
{
    memset(room, UNTOUCHED, sizeof room);
    memset(graphic, UNTOUCHED, sizeof graphic);
    memset(text, UNTOUCHED, sizeof text);
    memset(glyphs, UNTOUCHED, sizeof glyphs);
    memset(frame, UNTOUCHED, sizeof frame);
}

static int touched_nothing(void)
{
    return all(room, sizeof room, UNTOUCHED) && all(graphic, sizeof graphic, UNTOUCHED)
           && all(text, sizeof text, UNTOUCHED) && all(glyphs, sizeof glyphs, UNTOUCHED)
           && all(frame, sizeof frame, UNTOUCHED);
}

/* A book of one screen around a body; its length. */
static unsigned long one_screen(const unsigned char *body, unsigned length)
{
    static const unsigned char head[5] = {1, 5, 0, 0, 0};
    memcpy(book, head, 5);
    book[3] = (unsigned char)(length % 256);
    book[4] = (unsigned char)(length / 256);
    memcpy(book + 5, body, length);
    return 5UL + length;
}

/* Writer, asking writer and picture give number and place, and change nothing where they refuse. */
static int both_give(unsigned long length, unsigned long screen, unsigned number, unsigned long place)
{
    struct second_write_reply written, asked;
    struct second_picture_reply drawn;
    touch_nothing();
    written = write_3_2_6(length, screen, ROOM);
    asked = second_write_asking(&panel_3_2_6, book, length, screen, room, ROOM);
    drawn = draw_3_2_6(length, screen);
    if (written.number != number || written.place != place) return 0;
    if (asked.number != number || asked.place != place || asked.pairs != 2 * written.pairs) return 0;
    if (drawn.number != number || drawn.place != place) return 0;
    if (number == 0) return written.pairs >= opening_3_2;
    return written.pairs == 0 && touched_nothing();
}

/* The last value in range and the first out of it, for every field, on C 3, L 2, w 6. */
static void ranges(void)
{
    static const struct { const char *name; unsigned length; unsigned char body[10]; int right; } operation[] = {
        {"text, last line", 5, {1, 1, 0, 1, 0x41}, 1},
        {"text, line L", 5, {1, 2, 0, 1, 0x41}, 0},
        {"text, n 0", 5, {1, 0, 0, 0, 6}, 0},
        {"text up to column C", 7, {1, 0, 0, 3, 0x41, 0x42, 0x43}, 1},
        {"text past column C", 8, {1, 0, 0, 4, 0x41, 0x42, 0x43, 0x44}, 0},
        {"text in the last column", 5, {1, 0, 2, 1, 0x41}, 1},
        {"text from the last column on", 6, {1, 0, 2, 2, 0x41, 0x42}, 0},
        {"text at column C", 5, {1, 0, 3, 1, 0x41}, 0},
        {"text, column and n sum up to 256", 5, {1, 0, 255, 1, 0x41}, 0},
        {"rectangle of all", 6, {2, 0, 0, 16, 3, 0xFF}, 1},
        {"rectangle, last byte", 6, {2, 15, 2, 1, 1, 0xFF}, 1},
        {"rectangle, height 0", 6, {2, 0, 0, 0, 1, 0xFF}, 0},
        {"rectangle, width 0", 6, {2, 0, 0, 1, 0, 0xFF}, 0},
        {"rectangle too high", 6, {2, 0, 0, 17, 3, 0xFF}, 0},
        {"rectangle too low", 6, {2, 15, 0, 2, 1, 0xFF}, 0},
        {"rectangle too wide", 6, {2, 0, 0, 1, 4, 0xFF}, 0},
        {"rectangle too far right", 6, {2, 0, 2, 1, 2, 0xFF}, 0},
        {"rectangle, row 8L", 6, {2, 16, 0, 1, 1, 0xFF}, 0},
        {"rectangle, column C", 6, {2, 0, 3, 1, 1, 0xFF}, 0},
        {"rectangle, top and height sum up to 256", 6, {2, 250, 0, 6, 1, 0xFF}, 0},
        {"rectangle, column and width sum up to 256", 6, {2, 0, 255, 1, 1, 0xFF}, 0},
        {"dot, last x", 5, {3, 17, 0, 0, 1}, 1},
        {"dot, x C * w", 5, {3, 18, 0, 0, 1}, 0},
        {"dot, x 256", 5, {3, 0, 1, 0, 1}, 0},
        {"dot, last y", 5, {3, 0, 0, 15, 1}, 1},
        {"dot, y 8L", 5, {3, 0, 0, 16, 1}, 0},
        {"dot, v 0", 5, {3, 0, 0, 0, 0}, 1},
        {"dot, v 2", 5, {3, 0, 0, 0, 2}, 0},
        {"dot, v 255", 5, {3, 0, 0, 0, 255}, 0},
        {"glyph 80H", 10, {4, 0x80, 1, 2, 3, 4, 5, 6, 7, 8}, 1},
        {"glyph FFH", 10, {4, 0xFF, 1, 2, 3, 4, 5, 6, 7, 8}, 1},
        {"glyph 7FH", 10, {4, 0x7F, 1, 2, 3, 4, 5, 6, 7, 8}, 0},
        {"glyph 00H", 10, {4, 0x00, 1, 2, 3, 4, 5, 6, 7, 8}, 0},
        {"cursor, last line", 5, {5, 1, 0, 1, 0}, 1},
        {"cursor, line L", 5, {5, 2, 0, 1, 0}, 0},
        {"cursor, last column", 5, {5, 0, 2, 1, 0}, 1},
        {"cursor, column C", 5, {5, 0, 3, 1, 0}, 0},
        {"cursor, height 0", 5, {5, 0, 0, 0, 0}, 0},
        {"cursor, height 8", 5, {5, 0, 0, 8, 0}, 1},
        {"cursor, height 9", 5, {5, 0, 0, 9, 0}, 0},
        {"cursor, blink 1", 5, {5, 0, 0, 1, 1}, 1},
        {"cursor, blink 2", 5, {5, 0, 0, 1, 2}, 0},
        {"combination 2", 2, {6, 2}, 1},
        {"combination 3", 2, {6, 3}, 0},
        {"combination 255", 2, {6, 255}, 0},
        {"operation 0", 1, {0}, 0},
        {"operation 7", 2, {7, 0}, 0},
        {"operation 255", 5, {255, 0, 0, 1, 0}, 0}
    };
    unsigned i;
    for (i = 0; i < sizeof operation / sizeof operation[0]; i++) {
        unsigned long length = one_screen(operation[i].body, operation[i].length);
        point(operation[i].name, both_give(length, 0, operation[i].right ? 0 : 11, operation[i].right ? 0 : 5));
    }
}

/* Every beginning of every operation, as the last of its body, while more bytes of the book follow. */
static void cuts(void)
{
    static const struct { unsigned length; unsigned char bytes[10]; } operation[6] = {
        {7, {1, 0, 0, 3, 0x41, 0x42, 0x43}}, {6, {2, 0, 0, 1, 1, 0xFF}}, {5, {3, 0, 0, 0, 1}},
        {10, {4, 0x80, 1, 2, 3, 4, 5, 6, 7, 8}}, {5, {5, 0, 0, 1, 0}}, {2, {6, 1}}
    };
    unsigned code, kept;
    char name[64];
    for (code = 0; code < 6; code++) {
        int holds = 1;
        for (kept = 1; kept <= operation[code].length; kept++) {
            unsigned left = operation[code].length - kept;
            int whole = left == 0;
            memset(book, 0, 32);
            book[0] = 2;
            book[1] = 9;
            book[3] = (unsigned char)(2 + kept);
            book[5] = (unsigned char)(11 + kept);
            book[7] = (unsigned char)left;
            book[9] = 6;
            memcpy(book + 11, operation[code].bytes, operation[code].length);
            if (!both_give(11UL + operation[code].length, 0, whole ? 0 : 11, whole ? 0 : 11)) holds = 0;
        }
        sprintf(name, "operation %u cut at every byte by its body's end", code + 1);
        point(name, holds);
    }
}

/* A book of empty screens: n and as many entries of the same offset. */
static unsigned long empty_screens(unsigned n)
{
    unsigned long length = 1 + 4UL * n;
    unsigned screen;
    memset(book, 0, length);
    book[0] = (unsigned char)n;
    for (screen = 0; screen < n; screen++) {
        book[1 + 4 * screen] = (unsigned char)(length % 256);
        book[2 + 4 * screen] = (unsigned char)(length / 256);
    }
    return length;
}

static void contents(void)
{
    unsigned n, length;
    int holds = 1;
    for (n = 0; n < 256; n++) {
        int right = n >= 1 && n <= 64;
        if (!both_give(empty_screens(n), 0, right ? 0 : 9, 0)) holds = 0;
    }
    point("n 1 to 64 and no other", holds);

    holds = 1;
    for (n = 1; n <= 64; n++) {
        for (length = 0; length < 1 + 4 * n; length++) {
            empty_screens(n);
            book[1] ^= 1; /* wrong too, but place 0 stands */
            if (!both_give(length, 0, 9, 0)) holds = 0;
        }
    }
    point("a book that ends inside its contents: place 0", holds);

    holds = 1;
    for (n = 0; n < 64; n++) {
        unsigned long whole = empty_screens(64);
        book[1 + 4 * n] ^= 1;
        if (!both_give(whole, 0, 9, 1 + 4UL * n)) holds = 0;
        book[1 + 4 * n] ^= 1;
        book[2 + 4 * n] ^= 0x80;
        if (!both_give(whole, 0, 9, 1 + 4UL * n)) holds = 0;
        book[2 + 4 * n] ^= 0x80;
        book[3 + 4 * n] = 1;
        if (!both_give(whole, 0, 9, 1 + 4UL * n)) holds = 0;
        book[3 + 4 * n] = 0;
        book[4 + 4 * n] = 0xFF;
        if (!both_give(whole, 0, 9, 1 + 4UL * n)) holds = 0;
    }
    point("each of 64 entries wrong by offset or by a body past the end", holds);
    point("the last entry falls short", both_give(empty_screens(64) + 1, 0, 9, 1 + 4 * 63));

    /* Two bodies of one byte, the first entry a byte longer: the second does not begin where it ends. */
    empty_screens(2);
    book[3] = 2;
    book[5] = 10;
    book[7] = 1;
    book[9] = book[10] = 0;
    point("bodies that overlap", both_give(11, 0, 9, 5));
    book[3] = 1;
    point("an unknown operation in the first body", both_give(11, 0, 11, 9));
    point("an unknown operation in the second body", both_give(11, 1, 11, 10));
    book[9] = 6;
    point("an operation cut by its body's end, not by the book's", both_give(11, 0, 11, 9));
}

static void screen_numbers(void)
{
    unsigned long length = empty_screens(3);
    point("the last screen", both_give(length, 2, 0, 0));
    point("screen n: 10", both_give(length, 3, 10, 0));
    point("the greatest screen number: 10", both_give(length, ULONG_MAX, 10, 0));
    point("screen 256 is not taken for 0", both_give(length, 256, 10, 0));
    book[1] = 0;
    point("9 before 10", both_give(length, 3, 9, 1));
    book[0] = 2;
    point("the contents' length is that of n entries", both_give(length, 2, 9, 1));
}

static void combinations(unsigned long begin, unsigned long end)
{
    unsigned long at;
    for (at = begin; at < end; at += 2) {
        book[at] = 6;
        book[at + 1] = 1;
    }
}

/* One dot, then combinations: 5 + 2 * 16,379 bytes and the five of the contents. */
static void longest_book(void)
{
    static const unsigned char head[10] = {1, 5, 0, 0xFB, 0x7F, 3, 0, 0, 0, 1};
    struct second_write_reply reply;
    memcpy(book, head, sizeof head);
    combinations(sizeof head, SECOND_BOOK_LIMIT);
    reply = write_3_2_6(SECOND_BOOK_LIMIT, 0, ROOM);
    point("a book of 32,768 bytes", reply.number == 0 && reply.pairs == opening_3_2 + 4 + 16379);
    point("and its picture", draw_3_2_6(SECOND_BOOK_LIMIT, 0).number == 0);
    book[SECOND_BOOK_LIMIT - 1] = 3;
    point("11 at its last operation", both_give(SECOND_BOOK_LIMIT, 0, 11, SECOND_BOOK_LIMIT - 2));
    book[3] = 0xFC;
    combinations(5, SECOND_BOOK_LIMIT + 1);
    point("a book of 32,769 bytes, else right: place 0", both_give(SECOND_BOOK_LIMIT + 1, 0, 9, 0));
}

static void no_room(void)
{
    static const unsigned char body[10] = {5, 1, 2, 3, 0, 6, 9, 0, 0, 0};
    unsigned long length = one_screen(body, 5), pairs = opening_3_2 + 5, room_length;
    struct second_write_reply reply;
    int holds = 1;
    touch_nothing();
    for (room_length = 0; room_length < 2 * pairs; room_length++) {
        reply = write_3_2_6(length, 0, room_length);
        if (reply.number != 12 || reply.place != pairs || reply.pairs != 0) holds = 0;
    }
    point("12 for every shorter room, its place the pairs needed", holds && touched_nothing());
    reply = write_3_2_6(length, 0, 2 * pairs);
    point("a room of exactly twice the pairs", reply.number == 0 && reply.place == 0 && reply.pairs == pairs);
    point("the room's rest is unchanged",
          room[2 * pairs - 1] == 0x9E && all(room + 2 * pairs, ROOM - 2 * pairs, UNTOUCHED));
    length = one_screen(body, 7);
    point("11 before 12", write_3_2_6(length, 0, 0).number == 11 && write_3_2_6(length, 0, 0).place == 10);
    point("10 before 12", write_3_2_6(length, 1, 0).number == 10 && write_3_2_6(length, 1, 0).place == 0);
    point("9 before 12", write_3_2_6(0, 0, 0).number == 9 && write_3_2_6(0, 0, 0).place == 0);
}

/* The second writer's stream is the first one's, a status read before each pair. */
static void asking(void)
{
    static const unsigned char body[10] = {5, 1, 2, 3, 0, 6, 9, 0, 0, 0};
    static unsigned char plain[2 * 2000];
    unsigned long length = one_screen(body, 5), pairs = opening_3_2 + 5, room_length, i;
    struct second_write_reply reply;
    int holds = 1;
    second_write(&panel_3_2_6, book, length, 0, plain, sizeof plain);
    touch_nothing();
    for (room_length = 0; room_length < 4 * pairs; room_length++) {
        reply = second_write_asking(&panel_3_2_6, book, length, 0, room, room_length);
        if (reply.number != 12 || reply.place != 2 * pairs || reply.pairs != 0) holds = 0;
    }
    point("asking: 12 for every shorter room, its place twice the pairs", holds && touched_nothing());
    reply = second_write_asking(&panel_3_2_6, book, length, 0, room, 4 * pairs);
    holds = reply.number == 0 && reply.place == 0 && reply.pairs == 2 * pairs;
    for (i = 0; i < pairs; i++) {
        if (room[4 * i] != 3 || room[4 * i + 1] != 0) holds = 0;
        if (room[4 * i + 2] != plain[2 * i] || room[4 * i + 3] != plain[2 * i + 1]) holds = 0;
    }
    point("asking: a status read, byte 00H, before each pair", holds && all(room + 4 * pairs, ROOM - 4 * pairs, UNTOUCHED));
    length = one_screen(body, 7);
    reply = second_write_asking(&panel_3_2_6, book, length, 0, room, 0);
    point("asking: 11 before 12", reply.number == 11 && reply.place == 10);
}

static void panels(void)
{
    static const struct second_panel bad[10] = {
        {0, 2, 6, 0}, {81, 2, 6, 0}, {3, 0, 6, 0}, {3, 17, 6, 0}, {3, 2, 0, 0}, {3, 2, 7, 0},
        {3, 0, 6, 1}, {3, 3, 6, 1}, {3, 34, 6, 1}, {3, 2, 6, 2}
    };
    unsigned i;
    int holds = 1;
    touch_nothing();
    for (i = 0; i < 10; i++) {
        struct second_write_reply written = second_write(&bad[i], book, 0, 9, room, 0);
        struct second_write_reply asked = second_write_asking(&bad[i], book, 0, 9, room, 0);
        struct second_picture_reply drawn = draw(&bad[i], 0, 9, 0, 0, 0, 0, 0);
        if (written.number != 1 || written.place != 0 || written.pairs != 0) holds = 0;
        if (asked.number != 1 || asked.place != 0 || asked.pairs != 0) holds = 0;
        if (drawn.number != 1 || drawn.place != 0) holds = 0;
    }
    point("1 before all others", holds && touched_nothing());
}

static void fixed_lengths(void)
{
    struct second_picture_reply reply[10];
    unsigned i;
    int holds = 1;
    touch_nothing();
    for (i = 0; i < 2; i++) {
        unsigned long by = 2 * i; /* one short, then one over */
        reply[5 * i] = draw(&panel_3_2_6, 0, 9, 1023 + by, 48, 6, 1024, 48);
        reply[5 * i + 1] = draw(&panel_3_2_6, 0, 9, 1024, 47 + by, 6, 1024, 48);
        reply[5 * i + 2] = draw(&panel_3_2_6, 0, 9, 1024, 48, 5 + by, 1024, 48);
        reply[5 * i + 3] = draw(&panel_3_2_6, 0, 9, 1024, 48, 6, 1023 + by, 48);
        reply[5 * i + 4] = draw(&panel_3_2_6, 0, 9, 1024, 48, 6, 1024, 47 + by);
    }
    for (i = 0; i < 10; i++) {
        if (reply[i].number != 2 || reply[i].place != 0) holds = 0;
    }
    point("2 for the ROM, each plane and the frame, before 9", holds && touched_nothing());
}

/* Planes and frame to the byte: the dot at (17, 15), glyph 81H and its text at line 1, column 0. */
static void planes(void)
{
    static const unsigned char body[20] = {3, 17, 0, 15, 1, 4, 0x81, 1, 2, 4, 8, 16, 32, 64, 0xFF, 1, 1, 0, 1, 0x81};
    unsigned long length = one_screen(body, 20);
    unsigned i;
    int holds;
    for (i = 0; i < 1024; i++) rom[i] = 0;
    touch_nothing();
    holds = draw_3_2_6(length, 0).number == 0;
    holds = holds && all(graphic, 47, 0) && graphic[47] == 1 && graphic[48] == UNTOUCHED;
    holds = holds && all(text, 3, 0) && text[3] == 0x81 && text[4] == 0 && text[5] == 0 && text[6] == UNTOUCHED;
    holds = holds && all(glyphs, 8, 0) && memcmp(glyphs + 8, body + 7, 8) == 0 && all(glyphs + 16, 1008, 0)
            && glyphs[1024] == UNTOUCHED;
    point("planes: the picture's bytes, whatever they held", holds);

    /* 18 dots a row in three bytes: column 0 in the top six bits, x 17 at 40H of the third, six spare bits 0. */
    holds = all(frame, 24, 0) && frame[24] == 0x04 && frame[27] == 0x08 && frame[30] == 0x10 && frame[33] == 0x20
            && frame[36] == 0x40 && frame[39] == 0x80 && frame[42] == 0x00 && frame[45] == 0xFC;
    for (i = 8; i < 16; i++) {
        if (frame[3 * i + 1] != 0 || frame[3 * i + 2] != (i == 15 ? 0x40 : 0)) holds = 0;
    }
    point("frame: packed dots, spare bits 0", holds && frame[48] == UNTOUCHED);
}

int main(void)
{
    ranges();
    cuts();
    contents();
    screen_numbers();
    longest_book();
    no_room();
    asking();
    panels();
    fixed_lengths();
    planes();
    return 0;
}
