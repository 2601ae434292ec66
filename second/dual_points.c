/* dual_points: panels in two halves, which no program's input has; one line per point, ok or not ok. */
#include <limits.h>
#include <string.h>

#include "generate.h"
#include "point.h"
#include "screens.h"
#include "second.h"

#define UNTOUCHED 0xEE

static unsigned char memory[SECOND_MEMORY_LENGTH], before_memory[SECOND_MEMORY_LENGTH];
static unsigned char rom[SECOND_ROM_LENGTH];
static unsigned char frame[20480 + 1], other_frame[20480]; /* 8 * 32 * 80, the largest frame, and a byte */
static struct second_registers registers;
static struct second_panel panel;

static void start(unsigned columns, unsigned lines, unsigned width)
{
    panel.columns = columns;
    panel.lines = lines;
    panel.width = width;
    panel.dual = 1;
    second_reset(&registers);
    memset(memory, 0, sizeof memory);
    memset(rom, 0, sizeof rom);
}

static struct second_reply take(unsigned kind, unsigned byte)
{
    return second_access(&panel, &registers, memory, sizeof memory, rom, sizeof rom,
                         (unsigned char)kind, (unsigned char)byte);
}

static void paint(void)
{
    second_frame(&panel, &registers, memory, sizeof memory, rom, sizeof rom, frame, second_frame_length(&panel));
}

/* The line whose lowest dot row alone is set on a panel of one column, L if none is, L + 1 if more. */
static unsigned cursor_shown(void)
{
    unsigned row, line = panel.lines;
    paint();
    for (row = 0; row < 8 * panel.lines; row++) {
        if (frame[row] == 0) continue;
        if (frame[row] != 0xFF || row % 8 != 7 || line != panel.lines) return panel.lines + 1;
        line = row / 8;
    }
    return line;
}

static void cursor_by_hand(void)
{
    static const struct { unsigned lines, y, shown; } cursor[] = {
        {8, 0, 0}, {8, 3, 3}, {8, 4, 8}, {8, 7, 8}, {8, 15, 8}, {8, 16, 4}, {8, 19, 7}, {8, 20, 8}, {8, 31, 8},
        {2, 0, 0}, {2, 1, 2}, {2, 15, 2}, {2, 16, 1}, {2, 17, 2}, {2, 31, 2},
        {30, 14, 14}, {30, 15, 30}, {30, 16, 15}, {30, 30, 29}, {30, 31, 30},
        {32, 15, 15}, {32, 16, 16}, {32, 31, 31}
    };
    unsigned i;
    char name[64];
    for (i = 0; i < sizeof cursor / sizeof cursor[0]; i++) {
        start(1, cursor[i].lines, 8);
        registers.cursor = 1;
        registers.cursor_y = cursor[i].y;
        sprintf(name, "L %u, cursor Y %u", cursor[i].lines, cursor[i].y);
        point(name, cursor_shown() == cursor[i].shown);
    }
}

/* Line l of the upper half has Y l, line l of the lower half Y 16 + l - L/2; other Y show none. */
static void every_cursor(void)
{
    unsigned lines, y, line, wrong = 0;
    for (lines = 2; lines <= 32; lines += 2) {
        for (y = 0; y < 32; y++) {
            unsigned expected = lines;
            start(1, lines, 8);
            registers.cursor = 1;
            registers.cursor_y = y;
            for (line = 0; line < lines; line++) {
                if (y == (line < lines / 2 ? line : 16 + line - lines / 2)) expected = line;
            }
            if (cursor_shown() != expected) wrong++;
        }
    }
    point("every L and Y", wrong == 0);

    start(2, 4, 6);
    registers.cursor = 1;
    registers.cursor_height = 8;
    registers.cursor_x = 1;
    registers.cursor_y = 17;
    paint();
    point("X 1, Y 17 of L 4: the last cell, dots 6 to 11", frame[2 * 23] == 0 && frame[2 * 23 + 1] == 0
          && frame[2 * 24] == 0x03 && frame[2 * 24 + 1] == 0xF0 && frame[2 * 31] == 0x03 && frame[2 * 31 + 1] == 0xF0);
    registers.cursor_x = 2;
    paint();
    point("X C: none", frame[2 * 31] == 0 && frame[2 * 31 + 1] == 0);
    registers.cursor_x = 1;
    registers.blink = 1;
    registers.phase = SECOND_PHASE_OFF;
    paint();
    point("blinking, in phase off: none", frame[2 * 31] == 0 && frame[2 * 31 + 1] == 0);
}

/* L 4, C 1, text area 3 and graphic area 2: line 2 is the lower half's first. */
static void formulas(void)
{
    start(1, 4, 8);
    registers.text = registers.graphic = 1;
    registers.text_home = 0x1000;
    registers.text_area = 3;
    registers.graphic_home = 0x2000;
    registers.graphic_area = 2;
    rom[8 * 0x41 + 5] = 0x18;
    memory[0x1006] = 0x41;
    memory[0x2000 + 2 * 21] = 0x81;
    paint();
    point("text and graphic go on line by line", frame[21] == 0x99 && frame[20] == 0 && frame[13] == 0 && frame[5] == 0);
    memory[0x2004] = 5;
    registers.combination = SECOND_ATTRIBUTE;
    paint();
    point("so do attributes", frame[21] == 0xE7 && frame[16] == 0xFF && frame[23] == 0xFF && frame[15] == 0
          && frame[24] == 0);
    registers.pointer = 0x2000 + 2 * 21;
    take(SECOND_COMMAND, 0xE0);
    point("peek stays", registers.latch == 0xE7 && registers.error == 0);

    start(1, 32, 8);
    registers.graphic = 1;
    registers.graphic_home = 0xFFFF;
    registers.graphic_area = 1;
    registers.pointer = 254;
    memory[254] = 0x5A;
    take(SECOND_COMMAND, 0xE0);
    paint();
    point("row 255 is found and shown", registers.latch == 0x5A && registers.error == 0 && frame[255] == 0x5A);
    registers.pointer = 255;
    take(SECOND_COMMAND, 0xE0);
    point("there is no row 256", registers.latch == 0x5A && registers.error == 1);
}

static void copies(void)
{
    unsigned mode, pending, error, found, wrong = 0;
    for (mode = 0; mode < 8; mode++) {
        for (pending = 0; pending < 3; pending++) {
            for (error = 0; error < 2; error++) {
                for (found = 0; found < 2; found++) {
                    struct second_registers expected;
                    struct second_reply reply;
                    start(3, 4, 8);
                    memset(memory, 0x77, sizeof memory);
                    memcpy(before_memory, memory, sizeof memory);
                    registers.combination = mode % 4;
                    registers.external = mode / 4;
                    registers.text = 1;
                    registers.graphic_area = 3;
                    registers.pointer = found ? 20 : 40000;
                    registers.latch = 9;
                    registers.error = error;
                    expected = registers;
                    expected.error = 1;
                    registers.pending = pending;
                    registers.newest = pending > 0 ? 1 : 0;
                    registers.older = pending > 1 ? 2 : 0;
                    reply = take(SECOND_COMMAND, 0xE8);
                    if (reply.number != 0 || reply.place != 0 || reply.read != 0) wrong++;
                    if (memcmp(&registers, &expected, sizeof registers) != 0) wrong++;
                    if (memcmp(memory, before_memory, sizeof memory) != 0) wrong++;
                }
            }
        }
    }
    point("copy is accepted, sets error, drops the data and does nothing else", wrong == 0);
    registers.auto_mode = SECOND_AUTO_WRITE;
    point("in auto it is 5 as before", take(SECOND_COMMAND, 0xE8).number == 5);
    registers.auto_mode = SECOND_AUTO_OFF;
    registers.pointer = 20;
    take(SECOND_COMMAND, 0xE0);
    point("a peek clears the error again", registers.error == 0);
}

/* All that a run or frame refuses by 1, and the frame's length. */
static void refusals(void)
{
    static const unsigned char log[2] = {4, 0};
    static const struct { unsigned lines, dual; } bad[] = {{0, 1}, {1, 1}, {3, 1}, {31, 1}, {33, 1}, {34, 1}, {17, 0}, {32, 0}, {2, 2}};
    unsigned i, lines;
    int holds = 1;
    start(1, 2, 8);
    for (i = 0; i < sizeof bad / sizeof bad[0]; i++) {
        struct second_run_reply run;
        panel.lines = bad[i].lines;
        panel.dual = bad[i].dual;
        run = second_run(&panel, &registers, memory, 1, rom, 1, log, 1, 1, NULL, 0, NULL, 0);
        if (run.number != 1 || run.place != 0 || run.taken != 0) holds = 0;
        if (second_frame(&panel, &registers, memory, 1, rom, 1, frame, 0) != 1) holds = 0;
        if (take(SECOND_TICK, 0).number != 1) holds = 0;
    }
    point("1 for the marker with a wrong L, and for a marker of its own kind", holds);
    holds = 1;
    for (lines = 2; lines <= 32; lines += 2) {
        unsigned long length = 80UL * 8 * lines;
        start(80, lines, 8);
        memset(frame, UNTOUCHED, sizeof frame);
        if (second_frame_length(&panel) != length) holds = 0;
        if (second_frame(&panel, &registers, memory, sizeof memory, rom, sizeof rom, frame, length - 1) != 2) holds = 0;
        if (second_frame(&panel, &registers, memory, sizeof memory, rom, sizeof rom, frame, length + 1) != 2) holds = 0;
        if (frame[0] != UNTOUCHED) holds = 0;
        if (second_frame(&panel, &registers, memory, sizeof memory, rom, sizeof rom, frame, length) != 0) holds = 0;
        if (frame[length - 1] != 0 || frame[length] != UNTOUCHED) holds = 0;
    }
    point("frames of up to 256 rows", holds);
}

/* Without cursor each half is a single panel whose homes stand as many lines and rows further on. */
static int half_agrees(unsigned half)
{
    struct second_panel single = panel;
    struct second_registers shifted = registers;
    unsigned long length;
    unsigned line = half * panel.lines / 2;
    unsigned row = registers.combination == SECOND_ATTRIBUTE ? line : 8 * line;
    single.dual = 0;
    single.lines = panel.lines / 2;
    shifted.text_home = (registers.text_home + line * registers.text_area) % 65536;
    shifted.graphic_home = (registers.graphic_home + row * registers.graphic_area) % 65536;
    length = second_frame_length(&single);
    second_frame(&single, &shifted, memory, sizeof memory, rom, sizeof rom, other_frame, length);
    return memcmp(frame + half * length, other_frame, length) == 0;
}

static void halves(void)
{
    struct generate_random random = {8};
    unsigned turn, i, wrong = 0;
    for (turn = 0; turn < 200; turn++) {
        unsigned columns = 1 + generate_below(&random, turn % 10 == 0 ? 80 : 8);
        unsigned lines = 2 + 2 * generate_below(&random, 16);
        start(columns, lines, turn % 2 ? 6 : 8);
        for (i = 0; i < sizeof memory; i++) memory[i] = (unsigned char)generate_below(&random, 256);
        for (i = 0; i < sizeof rom; i++) rom[i] = (unsigned char)generate_below(&random, 256);
        registers.combination = generate_below(&random, 4);
        registers.external = generate_below(&random, 2);
        registers.text = generate_below(&random, 4) != 0;
        registers.graphic = generate_below(&random, 4) != 0;
        registers.phase = generate_below(&random, 2);
        registers.offset = generate_below(&random, 32);
        registers.text_home = generate_below(&random, 65536);
        registers.graphic_home = generate_below(&random, 65536);
        registers.text_area = generate_below(&random, 256);
        registers.graphic_area = generate_below(&random, 256);
        paint();
        if (!half_agrees(0) || !half_agrees(1)) wrong++;
    }
    point("each half, without cursor, as a single panel further on", wrong == 0);
}

/* Screens. */

static unsigned char room[2 * 40000];
static unsigned char book[64];

static struct second_write_reply write_body(const unsigned char *body, unsigned length)
{
    static const unsigned char head[5] = {1, 5, 0, 0, 0};
    memcpy(book, head, 5);
    book[3] = (unsigned char)length;
    memcpy(book + 5, body, length);
    memset(room, UNTOUCHED, sizeof room);
    return second_write(&panel, book, 5UL + length, 0, room, sizeof room);
}

/* Are the pairs from a place on these? */
static int pairs_are(unsigned long place, const unsigned char *expected, unsigned long bytes)
{
    return memcmp(room + 2 * place, expected, bytes) == 0;
}

static void opening(void)
{
    static const unsigned char first[] = {1, 0xB2, 0, 0x00, 0, 0x80, 1, 0x40, 0, 1, 0, 0, 1, 0x41, 0, 0, 0, 0, 1, 0x42,
                                          0, 1, 0, 0, 1, 0x43, 0, 0x1F, 0, 0, 1, 0x22, 1, 0x80, 1, 0x9C,
                                          0, 0, 0, 0, 1, 0x24, 1, 0xB0, 0, 0};
    static const unsigned char text[] = {1, 0xB2, 0, 0x00, 0, 0x80, 1, 0x24, 1, 0xB0, 0, 0, 0, 0, 1, 0xB2,
                                         0, 0x00, 0, 0xFC, 1, 0x24, 1, 0xB0, 0, 0};
    struct second_write_reply reply;
    start(1, 2, 8);
    reply = write_body(rom, 0);
    point("C 1, L 2: 1,075 pairs", reply.number == 0 && reply.pairs == 1075 && room[2 * 1075] == UNTOUCHED);
    point("text home 8000H, sixteen graphic bytes", pairs_are(0, first, sizeof first));
    point("two codes cleared at 8000H", pairs_are(38, text, sizeof text));
    start(80, 32, 8);
    reply = write_body(rom, 0);
    point("C 80, L 32: 24,097 pairs", reply.number == 0 && reply.pairs == 24097);
    reply = second_write(&panel, book, 5, 0, room, 2 * 24097 - 1);
    point("12 for a room a byte short", reply.number == 12 && reply.place == 24097);
}

static void written_operations(void)
{
    static const unsigned char cursor[] = {5, 3, 2, 4, 1}, upper[] = {5, 1, 2, 4, 1}, text[] = {1, 3, 1, 2, 0x41, 0x42};
    static const unsigned char last[] = {2, 255, 79, 1, 1, 0x99}, dot[] = {3, 0x7F, 0x02, 255, 1};
    static const unsigned char cursor_pairs[] = {0, 2, 0, 17, 1, 0x21, 1, 0xA3, 1, 0x9F};
    static const unsigned char upper_pairs[] = {0, 2, 0, 1, 1, 0x21, 1, 0xA3, 1, 0x9F};
    static const unsigned char text_pairs[] = {0, 0x0A, 0, 0x80, 1, 0x24, 1, 0xB0, 0, 0x41, 0, 0x42, 1, 0xB2};
    static const unsigned char last_pairs[] = {0, 0xFF, 0, 0x4F, 1, 0x24, 1, 0xB0, 0, 0x99, 1, 0xB2};
    static const unsigned char dot_pairs[] = {0, 0xFF, 0, 0x4F, 1, 0x24, 1, 0xF8};
    unsigned long opening_3_4 = 1057 + 9 * 3 * 4;
    start(3, 4, 8);
    write_body(cursor, sizeof cursor);
    point("a cursor in line 3 of L 4: Y 17", pairs_are(opening_3_4, cursor_pairs, sizeof cursor_pairs));
    write_body(upper, sizeof upper);
    point("a cursor in line 1 of L 4: Y 1", pairs_are(opening_3_4, upper_pairs, sizeof upper_pairs));
    write_body(text, sizeof text);
    point("text in line 3: 8000H + 3 * 3 + 1", pairs_are(opening_3_4, text_pairs, sizeof text_pairs));
    start(80, 32, 8);
    write_body(last, sizeof last);
    point("the last graphic byte: 4FFFH", pairs_are(24097, last_pairs, sizeof last_pairs));
    write_body(dot, sizeof dot);
    point("the last dot: 4FFFH, bit 0", pairs_are(24097, dot_pairs, sizeof dot_pairs));
}

static void every_written_cursor(void)
{
    unsigned lines, line, wrong = 0;
    for (lines = 2; lines <= 32; lines += 2) {
        for (line = 0; line <= lines; line++) {
            unsigned char body[5] = {5, 0, 0, 1, 0};
            struct second_write_reply reply;
            unsigned long at = 1057UL + 9 * lines;
            body[1] = (unsigned char)line;
            start(1, lines, 6);
            reply = write_body(body, 5);
            if (line == lines) {
                if (reply.number != 11 || reply.place != 5) wrong++;
            } else if (reply.number != 0 || room[2 * at + 3] != (line < lines / 2 ? line : line + 16 - lines / 2)) {
                wrong++;
            }
        }
    }
    point("the Y of every line of every L, line L refused by 11", wrong == 0);
}

static unsigned number_of(const unsigned char *body, unsigned length)
{
    return write_body(body, length).number;
}

static void ranges(void)
{
    static const unsigned char all[] = {2, 1, 0, 255, 1, 0xFF}, past[] = {2, 2, 0, 255, 1, 0xFF};
    static const unsigned char last_row[] = {2, 15, 0, 1, 1, 0xFF}, past_row[] = {2, 16, 0, 1, 1, 0xFF};
    static const unsigned char last_y[] = {3, 0, 0, 15, 1}, past_y[] = {3, 0, 0, 16, 1};
    static const unsigned char last_line[] = {1, 1, 0, 1, 0x41}, past_line[] = {1, 2, 0, 1, 0x41};
    start(1, 32, 8);
    point("rows 1 to 255 of 256, not one more", number_of(all, 6) == 0 && number_of(past, 6) == 11);
    start(1, 2, 8);
    point("L 2: rectangles up to row 15", number_of(last_row, 6) == 0 && number_of(past_row, 6) == 11);
    point("L 2: dots up to row 15", number_of(last_y, 5) == 0 && number_of(past_y, 5) == 11);
    point("L 2: text up to line 1", number_of(last_line, 5) == 0 && number_of(past_line, 5) == 11);
}

static void picture(void)
{
    static const unsigned char body[] = {5, 2, 1, 2, 1};
    static unsigned char graphic[64], text[8], glyphs[1024];
    unsigned normal;
    unsigned char expected;
    for (normal = 0; normal < 2; normal++) {
        struct second_picture_reply reply;
        start(2, 4, 8);
        write_body(body, sizeof body);
        memset(frame, UNTOUCHED, sizeof frame);
        reply = second_picture(&panel, book, 10, 0, rom, sizeof rom, normal, graphic, 64, text, 8, glyphs, 1024, frame, 64);
        expected = normal ? 0xFF : 0;
        point(normal ? "a picture's cursor in the lower half" : "and in phase off",
              reply.number == 0 && frame[2 * 22 + 1] == expected && frame[2 * 23 + 1] == expected
              && frame[2 * 21 + 1] == 0 && frame[2 * 23] == 0 && frame[2 * 7 + 1] == 0);
    }
    point("2 for a plane of a single panel's length",
          second_picture(&panel, book, 10, 0, rom, sizeof rom, 1, graphic, 32, text, 4, glyphs, 1024, frame, 32).number == 2);
}

int main(void)
{
    cursor_by_hand();
    every_cursor();
    formulas();
    copies();
    refusals();
    halves();
    opening();
    written_operations();
    every_written_cursor();
    ranges();
    picture();
    return 0;
}
