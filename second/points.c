/* points: what no log from reset can show of second.c; one line per point, ok or not ok. */
#include <limits.h>
#include <stdio.h>
#include <string.h>

#include "point.h"
#include "second.h"

static unsigned char memory[SECOND_MEMORY_LENGTH + 1], before_memory[SECOND_MEMORY_LENGTH + 1];
static unsigned char rom[SECOND_ROM_LENGTH + 1];
static const struct second_panel panel_1_1_8 = {1, 1, 8, 0};

static int same(const struct second_registers *a, const struct second_registers *b)
{
    return memcmp(a, b, sizeof *a) == 0; /* all fields are unsigned: no padding */
}

static struct second_reply take(struct second_registers *registers, unsigned kind, unsigned byte)
{
    return second_access(&panel_1_1_8, registers, memory, SECOND_MEMORY_LENGTH, rom, SECOND_ROM_LENGTH,
                         (unsigned char)kind, (unsigned char)byte);
}

static void reset_state(void)
{
    struct second_registers registers;
    struct second_registers expected = {0, 0, 0, 0, 0, 0, 0, 0, SECOND_OR, 0, 0, 0, 0, 0, 1,
                                        SECOND_AUTO_OFF, 0, 0, 0, 0, 0, SECOND_PHASE_NORMAL};
    memset(&registers, 0xA5, sizeof registers);
    second_reset(&registers);
    point("the reset state", same(&registers, &expected));
    point("the reset state is valid", second_state_valid(&registers));
}

static void valid_panels(void)
{
    struct second_panel panel;
    unsigned long valid[2] = {0, 0}, wrong = 0;
    for (panel.columns = 0; panel.columns < 300; panel.columns++) {
        for (panel.lines = 0; panel.lines < 300; panel.lines++) {
            for (panel.width = 0; panel.width < 20; panel.width++) {
                int expected = panel.columns >= 1 && panel.columns <= 80 && (panel.width == 6 || panel.width == 8);
                for (panel.dual = 0; panel.dual < 2; panel.dual++) {
                    int lines = panel.dual ? panel.lines >= 2 && panel.lines <= 32 && panel.lines % 2 == 0
                                           : panel.lines >= 1 && panel.lines <= 16;
                    if (second_panel_valid(&panel) != (expected && lines)) wrong++;
                    if (second_panel_valid(&panel)) valid[panel.dual]++;
                }
                panel.dual = 2;
                if (second_panel_valid(&panel)) wrong++;
            }
        }
    }
    point("valid panels", wrong == 0 && valid[0] == 80UL * 16 * 2 && valid[1] == 80UL * 16 * 2);
    panel.columns = 257;
    panel.lines = 2;
    panel.width = 8;
    panel.dual = 0;
    point("C 257 is not taken for 1", !second_panel_valid(&panel));
    panel.columns = 1;
    panel.dual = UINT_MAX;
    point("a marker but 0 and 1 is not valid", !second_panel_valid(&panel));
}

/* Sets one field of a reset state, found by its place in the record. */
static int valid_with(unsigned place, unsigned value)
{
    struct second_registers registers;
    second_reset(&registers);
    registers.pending = 2; /* so that both places of data may be anything */
    memcpy((char *)&registers + place * sizeof(unsigned), &value, sizeof value);
    return second_state_valid(&registers);
}

static void valid_states(void)
{
    static const struct { const char *name; unsigned least, most; } range[22] = {
        {"cursor X", 0, 127}, {"cursor Y", 0, 31}, {"offset", 0, 31}, {"pointer", 0, 65535},
        {"text home", 0, 65535}, {"graphic home", 0, 65535}, {"text area", 0, 255}, {"graphic area", 0, 255},
        {"combination", 0, 3}, {"external", 0, 1}, {"graphic bit", 0, 1}, {"text bit", 0, 1}, {"cursor bit", 0, 1},
        {"blink bit", 0, 1}, {"cursor height", 1, 8}, {"auto", 0, 2}, {"pending", 0, 2}, {"newest datum", 0, 255},
        {"older datum", 0, 255}, {"latch", 0, 255}, {"error", 0, 1}, {"phase", 0, 1}
    };
    unsigned place, value;
    char name[64];
    struct second_registers registers;
    for (place = 0; place < 22; place++) {
        int holds = 1;
        for (value = 0; value < 70000; value++) {
            if (valid_with(place, value) != (value >= range[place].least && value <= range[place].most)) holds = 0;
        }
        if (valid_with(place, UINT_MAX) || valid_with(place, 1U << (sizeof(unsigned) * CHAR_BIT - 1))) holds = 0;
        sprintf(name, "range of %s", range[place].name);
        point(name, holds);
    }
    second_reset(&registers);
    registers.newest = 1;
    point("none pending, newest not 0: not valid", !second_state_valid(&registers));
    registers.pending = 1;
    point("one pending, newest not 0: valid", second_state_valid(&registers));
    registers.older = 1;
    point("one pending, older not 0: not valid", !second_state_valid(&registers));
    registers.pending = 2;
    point("two pending, both not 0: valid", second_state_valid(&registers));
}

static void defined_codes(void)
{
    static const unsigned char two[] = {0x21, 0x22, 0x24, 0x40, 0x41, 0x42, 0x43};
    static const unsigned char one[] = {0xC0, 0xC2, 0xC4};
    static const unsigned char none[] = {
        0x80, 0x81, 0x83, 0x84, 0x88, 0x89, 0x8B, 0x8C,
        0x90, 0x91, 0x92, 0x93, 0x94, 0x95, 0x96, 0x97, 0x98, 0x99, 0x9A, 0x9B, 0x9C, 0x9D, 0x9E, 0x9F,
        0xA0, 0xA1, 0xA2, 0xA3, 0xA4, 0xA5, 0xA6, 0xA7, 0xB0, 0xB1, 0xB2, 0xC1, 0xC3, 0xC5, 0xE0, 0xE8,
        0xF0, 0xF1, 0xF2, 0xF3, 0xF4, 0xF5, 0xF6, 0xF7, 0xF8, 0xF9, 0xFA, 0xFB, 0xFC, 0xFD, 0xFE, 0xFF
    };
    int needed[256];
    unsigned code, pending, mode, wrong = 0;
    memset(needed, -1, sizeof needed);
    for (code = 0; code < sizeof two; code++) needed[two[code]] = 2;
    for (code = 0; code < sizeof one; code++) needed[one[code]] = 1;
    for (code = 0; code < sizeof none; code++) needed[none[code]] = 0;
    for (mode = SECOND_AUTO_OFF; mode <= SECOND_AUTO_READ; mode++) {
        for (pending = 0; pending <= 2; pending++) {
            for (code = 0; code < 256; code++) {
                struct second_registers registers, before;
                struct second_reply reply;
                unsigned expected = 0;
                if (needed[code] < 0) expected = 4;
                else if (mode != SECOND_AUTO_OFF && code != 0xB2) expected = 5;
                else if (pending < (unsigned)needed[code]) expected = 6;
                second_reset(&registers);
                registers.auto_mode = mode;
                registers.pending = pending;
                if (pending > 0) registers.newest = 0x12;
                if (pending > 1) registers.older = 0x34;
                before = registers;
                memcpy(before_memory, memory, sizeof memory);
                reply = take(&registers, SECOND_COMMAND, code);
                if (reply.number != expected || reply.place != 0 || reply.read != 0) wrong++;
                if (expected != 0 && !same(&registers, &before)) wrong++;
                if (expected != 0 && memcmp(before_memory, memory, sizeof memory) != 0) wrong++;
                if (expected == 0 && (registers.pending | registers.newest | registers.older) != 0) wrong++;
                if (!second_state_valid(&registers)) wrong++;
            }
        }
    }
    point("the defined codes are 66", sizeof two + sizeof one + sizeof none == 66);
    point("every code in every auto mode with 0, 1 and 2 pending", wrong == 0);
    memset(memory, 0, sizeof memory);
}

static void pending_data(void)
{
    struct second_registers registers;
    second_reset(&registers);
    take(&registers, SECOND_DATA_WRITE, 0x11);
    point("one datum stands as newest", registers.pending == 1 && registers.newest == 0x11 && registers.older == 0);
    point("one datum, 24H: 6", take(&registers, SECOND_COMMAND, 0x24).number == 6);
    point("the datum is still pending", registers.pending == 1 && registers.newest == 0x11 && registers.older == 0);
    take(&registers, SECOND_DATA_WRITE, 0x22);
    take(&registers, SECOND_DATA_WRITE, 0x33);
    point("the last two of three", registers.pending == 2 && registers.newest == 0x33 && registers.older == 0x22);
    registers.auto_mode = SECOND_AUTO_WRITE;
    take(&registers, SECOND_DATA_WRITE, 0x44);
    registers.auto_mode = SECOND_AUTO_READ;
    point("auto write stored, auto read answers 0 at the next", take(&registers, SECOND_DATA_READ, 0).read == 0);
    point("pending data survive both", registers.pending == 2 && registers.newest == 0x33 && registers.older == 0x22);
    point("the pointer moved by two", registers.pointer == 2 && memory[0] == 0x44);
    take(&registers, SECOND_COMMAND, 0xB2);
    point("B2H drops them", registers.pending == 0 && registers.newest == 0 && registers.older == 0);
    memory[0] = 0;
}

static void fixed_lengths(void)
{
    static const unsigned char log[3] = {SECOND_COMMAND, 0x94, SECOND_STATUS_READ};
    const struct second_panel bad = {0, 1, 8, 0};
    struct second_registers registers, before, invalid;
    unsigned char answers[2], frame[9];
    struct second_reply reply;
    struct second_run_reply run;
    unsigned long off;
    int holds = 1;
    second_reset(&registers);
    before = registers;
    invalid = registers;
    invalid.cursor_height = 0;
    for (off = 0; off <= 2; off += 2) {
        reply = second_access(&panel_1_1_8, &registers, memory, SECOND_MEMORY_LENGTH - 1 + off, rom, SECOND_ROM_LENGTH, 9, 0);
        if (reply.number != 2 || reply.place != 0 || reply.read != 0) holds = 0;
        reply = second_access(&panel_1_1_8, &registers, memory, SECOND_MEMORY_LENGTH, rom, SECOND_ROM_LENGTH - 1 + off, 9, 0);
        if (reply.number != 2 || reply.place != 0 || reply.read != 0) holds = 0;
    }
    point("access: 2 for each length, before 3", holds && same(&registers, &before));
    holds = second_access(&bad, &registers, memory, 0, rom, 0, 9, 0).number == 1
            && second_access(&panel_1_1_8, &invalid, memory, 0, rom, 0, 9, 0).number == 1;
    point("access: 1 before 2", holds);

    run = second_run_stopping(&panel_1_1_8, &registers, memory, SECOND_MEMORY_LENGTH + 1, rom, SECOND_ROM_LENGTH, log, 3, 9, answers, 2);
    holds = run.number == 2 && run.place == 0 && run.taken == 0 && run.answers == 0;
    run = second_run_stopping(&panel_1_1_8, &registers, memory, SECOND_MEMORY_LENGTH, rom, SECOND_ROM_LENGTH - 1, log, 3, 9, answers, 2);
    holds = holds && run.number == 2 && run.place == 0 && run.taken == 0 && run.answers == 0;
    point("run: 2 before 8", holds && same(&registers, &before));
    run = second_run_stopping(&bad, &registers, memory, 0, rom, 0, log, 3, 9, answers, 2);
    point("run: 1 before 2", run.number == 1 && run.place == 0);
    run = second_run_stopping(&panel_1_1_8, &registers, memory, SECOND_MEMORY_LENGTH, rom, SECOND_ROM_LENGTH, log, 3, 0, answers, 2);
    point("run: 8 even where the limit is 0", run.number == 8 && run.place == 1 && run.taken == 0 && same(&registers, &before));

    memset(frame, 0xEE, sizeof frame);
    holds = second_frame(&panel_1_1_8, &registers, memory, SECOND_MEMORY_LENGTH, rom, SECOND_ROM_LENGTH, frame, 7) == 2
            && second_frame(&panel_1_1_8, &registers, memory, SECOND_MEMORY_LENGTH, rom, SECOND_ROM_LENGTH, frame, 9) == 2
            && second_frame(&panel_1_1_8, &registers, memory, SECOND_MEMORY_LENGTH - 1, rom, SECOND_ROM_LENGTH, frame, 8) == 2
            && second_frame(&panel_1_1_8, &registers, memory, SECOND_MEMORY_LENGTH, rom, SECOND_ROM_LENGTH + 1, frame, 8) == 2
            && second_frame(&bad, &registers, memory, 0, rom, 0, frame, 0) == 1
            && second_frame(&panel_1_1_8, &invalid, memory, 0, rom, 0, frame, 0) == 1
            && frame[0] == 0xEE && frame[8] == 0xEE;
    point("frame: 1, then 2, buffer unchanged", holds);
}

static struct second_run_reply run_from(struct second_registers *registers, const unsigned char *log, unsigned long length,
                                        unsigned long limit, unsigned char *answers, unsigned long room)
{
    return second_run_stopping(&panel_1_1_8, registers, memory, SECOND_MEMORY_LENGTH, rom, SECOND_ROM_LENGTH,
                               log, length, limit, answers, room);
}

static void no_room(void)
{
    /* auto read, data read, status read, data read */
    static const unsigned char log[8] = {1, 0xB1, 2, 0, 3, 0, 2, 0};
    static const unsigned char refused[6] = {1, 0xB0, 2, 0, 9, 0};
    struct second_registers registers;
    struct second_run_reply run;
    unsigned char answers[4];

    memory[0] = 0x5A;
    second_reset(&registers);
    run = run_from(&registers, log, 8, 4, answers, 0);
    point("13: data read, no room, pointer unmoved",
          run.number == 13 && run.place == 1 && run.taken == 1 && run.answers == 0 && registers.pointer == 0
          && registers.auto_mode == SECOND_AUTO_READ);
    second_reset(&registers);
    memset(answers, 0xEE, sizeof answers);
    run = run_from(&registers, log, 8, 4, answers, 1);
    point("13: status read, no room",
          run.number == 13 && run.place == 2 && run.taken == 2 && run.answers == 1 && registers.pointer == 1
          && answers[0] == 0x5A && answers[1] == 0xEE);
    second_reset(&registers);
    memset(answers, 0xEE, sizeof answers);
    run = run_from(&registers, log, 8, 3, answers, 2);
    point("no 13 where the limit comes first, rest of answers unchanged",
          run.number == 0 && run.place == 0 && run.taken == 3 && run.answers == 2 && answers[1] == 0xA4 && answers[2] == 0xEE);
    second_reset(&registers);
    run = run_from(&registers, refused, 6, 3, answers, 0);
    point("7 before 13", run.number == 7 && run.place == 1);
    memory[0] = 0;
}

static void limits(void)
{
    static const unsigned char log[6] = {4, 0, 4, 0, 4, 0};
    struct second_registers registers;
    struct second_run_reply run;
    second_reset(&registers);
    run = run_from(&registers, log, 6, 0, NULL, 0);
    point("limit 0 takes no pair", run.number == 0 && run.taken == 0 && registers.phase == SECOND_PHASE_NORMAL);
    run = run_from(&registers, log, 6, 1, NULL, 0);
    point("limit 1 takes one pair", run.number == 0 && run.taken == 1 && registers.phase == SECOND_PHASE_OFF);
    run = run_from(&registers, log, 6, ULONG_MAX, NULL, 0);
    point("the greatest limit takes all pairs", run.number == 0 && run.taken == 3 && registers.phase == SECOND_PHASE_NORMAL);
    run = run_from(&registers, NULL, 0, 5, NULL, 0);
    point("an empty log is accepted", run.number == 0 && run.taken == 0);
}

static void single_access(void)
{
    struct second_registers registers, before;
    struct second_reply reply;
    unsigned kind, wrong = 0;
    second_reset(&registers);
    before = registers;
    for (kind = 5; kind < 256; kind++) {
        reply = take(&registers, kind, 0xB2);
        if (reply.number != 3 || reply.place != 0 || reply.read != 0 || !same(&registers, &before)) wrong++;
    }
    point("every kind above 4: 3", wrong == 0);
    registers.auto_mode = SECOND_AUTO_READ;
    before = registers;
    reply = take(&registers, SECOND_DATA_WRITE, 0x77);
    point("7: data write in auto read changes nothing", reply.number == 7 && same(&registers, &before) && memory[0] == 0);
    registers.auto_mode = SECOND_AUTO_WRITE;
    before = registers;
    reply = take(&registers, SECOND_DATA_READ, 0);
    point("7: data read in auto write changes nothing", reply.number == 7 && reply.read == 0 && same(&registers, &before));
    reply = take(&registers, SECOND_STATUS_READ, 0);
    point("a status read changes nothing", reply.number == 0 && reply.read == 0xA8 && same(&registers, &before));
}

static void frame_packing(void)
{
    const struct second_panel panel = {3, 2, 6, 0};
    struct second_registers registers;
    unsigned char frame[48];
    unsigned place;
    int holds = 1;
    second_reset(&registers);
    registers.graphic = 1;
    memset(memory, 0xFF, SECOND_MEMORY_LENGTH);
    memset(frame, 0xEE, sizeof frame);
    holds = second_frame_length(&panel) == 48
            && second_frame(&panel, &registers, memory, SECOND_MEMORY_LENGTH, rom, SECOND_ROM_LENGTH, frame, 48) == 0;
    for (place = 0; place < 48; place++) {
        if (frame[place] != (place % 3 == 2 ? 0xC0 : 0xFF)) holds = 0;
    }
    point("18 dots a row: two full bytes, two dots, six spare bits 0", holds);
    memset(memory, 0, SECOND_MEMORY_LENGTH);
    memory[0] = 0x20;
    memory[1] = 0x01;
    second_frame(&panel, &registers, memory, SECOND_MEMORY_LENGTH, rom, SECOND_ROM_LENGTH, frame, 48);
    point("dots 0 and 11 at 80H and 10H", frame[0] == 0x80 && frame[1] == 0x10 && frame[2] == 0);
    memset(memory, 0, SECOND_MEMORY_LENGTH);
}

/* How each of the sixteen codes shows in phase normal, and whether it goes dark in phase off. */
static void attribute_codes(void)
{
    enum { NORMAL, REVERSE, INHIBIT };
    static const struct { int shows, blinks; } table[16] = {
        {NORMAL, 0}, {NORMAL, 0}, {NORMAL, 0}, {INHIBIT, 0}, {NORMAL, 0}, {REVERSE, 0}, {NORMAL, 0}, {NORMAL, 0},
        {NORMAL, 1}, {NORMAL, 1}, {NORMAL, 1}, {INHIBIT, 1}, {NORMAL, 1}, {REVERSE, 1}, {NORMAL, 1}, {NORMAL, 1}
    };
    struct second_panel panel = {1, 1, 8, 0};
    struct second_registers registers;
    unsigned attribute, row, wrong = 0;
    second_reset(&registers);
    registers.combination = SECOND_ATTRIBUTE;
    registers.external = 1; /* the glyph of code 0 stands at 0800H */
    registers.offset = 1;
    registers.text_home = 0x100;
    registers.graphic = registers.text = 1;
    for (attribute = 0; attribute < 256; attribute++) {
        for (row = 0; row < 256; row++) {
            memory[0] = (unsigned char)attribute;
            memory[0x800] = (unsigned char)row;
            for (panel.width = 6; panel.width <= 8; panel.width += 2) {
                unsigned bits = panel.width == 6 ? 0x3F : 0xFF;
                unsigned expected = row & bits;
                if (table[attribute % 16].shows == REVERSE) expected = bits - expected;
                if (table[attribute % 16].shows == INHIBIT) expected = 0;
                registers.phase = SECOND_PHASE_NORMAL;
                if (second_displayed(&panel, &registers, memory, rom, 0, 0).displayed != expected) wrong++;
                if (table[attribute % 16].blinks) expected = 0;
                registers.phase = SECOND_PHASE_OFF;
                if (second_displayed(&panel, &registers, memory, rom, 0, 0).displayed != expected) wrong++;
            }
        }
    }
    point("every attribute byte on every glyph row, both widths and phases", wrong == 0);
    memory[0] = memory[0x800] = 0;
}

int main(void)
{
    reset_state();
    valid_panels();
    valid_states();
    defined_codes();
    pending_data();
    fixed_lengths();
    no_room();
    limits();
    single_access();
    frame_packing();
    attribute_codes();
    return 0;
}
