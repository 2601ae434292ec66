#include "flags.h"

#define MOST_ROWS 256
#define MOST_STORES 80

unsigned long second_flags_length(const struct second_panel *panel)
{
    return 8UL * panel->lines;
}

unsigned second_flags_start(const struct second_panel *panel, unsigned char *flags, unsigned long flags_length)
{
    unsigned long row;
    if (!second_panel_valid(panel)) return 1;
    if (flags_length != second_flags_length(panel)) return 2;
    for (row = 0; row < flags_length; row++) flags[row] = 1;
    return 0;
}

/* home + number * area + column, modulo 65,536. */
static unsigned address_of(unsigned home, unsigned number, unsigned area, unsigned column)
{
    return (unsigned)((home + (unsigned long)number * area + column) % 65536UL);
}

/* Is the address a text, glyph or graphic byte of this cell's row, or in attribute mode its attribute byte? */
static int cell_reads(const struct second_registers *registers, const unsigned char *memory, unsigned address,
                      unsigned row, unsigned column)
{
    unsigned line = row / 8;
    unsigned text = address_of(registers->text_home, line, registers->text_area, column);
    unsigned code = memory[text];
    int from_memory = registers->external || code >= 0x80;
    unsigned graphic_number = registers->combination == SECOND_ATTRIBUTE ? line : row;
    if (address == text) return 1;
    if (from_memory && address == 2048 * registers->offset + 8 * code + row % 8) return 1;
    return address == address_of(registers->graphic_home, graphic_number, registers->graphic_area, column);
}

/* Adds the rows for which the address is such a byte, with the text codes as memory has them. */
static void mark_rows(const struct second_panel *panel, const struct second_registers *registers,
                      const unsigned char *memory, unsigned address, unsigned char *marked)
{
    unsigned row, column;
    for (row = 0; row < 8 * panel->lines; row++) {
        for (column = 0; column < panel->columns; column++) {
            if (cell_reads(registers, memory, address, row, column)) marked[row] = 1;
        }
    }
}

/* The addresses an accepted pair stores at, whether or not it alters the byte there; how many. */
static unsigned stored_addresses(const struct second_panel *panel, const struct second_registers *registers,
                                 unsigned kind, unsigned byte, unsigned *addresses)
{
    unsigned row, column, count = 0;
    addresses[0] = registers->pointer;
    if (kind == SECOND_DATA_WRITE) return registers->auto_mode == SECOND_AUTO_WRITE;
    if (kind != SECOND_COMMAND) return 0;
    if (byte == 0xC0 || byte == 0xC2 || byte == 0xC4 || byte >= 0xF0) return 1;
    if (byte != 0xE8) return 0;
    if (panel->dual || registers->combination == SECOND_ATTRIBUTE) return 0;
    if (!second_position(panel, registers, &row, &column)) return 0;
    for (; column < panel->columns; column++) {
        addresses[count] = address_of(registers->graphic_home, row, registers->graphic_area, column);
        count++;
    }
    return count;
}

/* Home, area, offset, combination, external flag, display bits, cursor position or height, or phase. */
static int alters_all(const struct second_registers *before, const struct second_registers *after)
{
    return before->text_home != after->text_home || before->graphic_home != after->graphic_home
           || before->text_area != after->text_area || before->graphic_area != after->graphic_area
           || before->offset != after->offset || before->combination != after->combination
           || before->external != after->external || before->graphic != after->graphic
           || before->text != after->text || before->cursor != after->cursor || before->blink != after->blink
           || before->cursor_x != after->cursor_x || before->cursor_y != after->cursor_y
           || before->cursor_height != after->cursor_height || before->phase != after->phase;
}

struct second_reply second_access_flagged(const struct second_panel *panel, struct second_registers *registers,
                                          unsigned char *memory, unsigned long memory_length,
                                          const unsigned char *rom, unsigned long rom_length,
                                          unsigned char *flags, unsigned long flags_length,
                                          unsigned char kind, unsigned char byte)
{
    struct second_reply reply = {0, 0, 0};
    struct second_registers before = *registers;
    unsigned char marked[MOST_ROWS] = {0};
    unsigned addresses[MOST_STORES];
    unsigned count, i, row;
    int all;
    reply.number = second_lent_number(panel, registers, memory_length, rom_length);
    if (reply.number != 0) return reply;
    reply.number = 2;
    if (flags_length != second_flags_length(panel)) return reply;

    /* A row reads its glyph byte by the text code before the store and by that after it. */
    count = stored_addresses(panel, &before, kind, byte, addresses);
    for (i = 0; i < count; i++) mark_rows(panel, &before, memory, addresses[i], marked);
    reply = second_access(panel, registers, memory, memory_length, rom, rom_length, kind, byte);
    if (reply.number != 0) return reply;
    for (i = 0; i < count; i++) mark_rows(panel, &before, memory, addresses[i], marked);
    all = alters_all(&before, registers);
    for (row = 0; row < flags_length; row++) {
        if (all || marked[row]) flags[row] = 1;
    }
    return reply;
}

unsigned second_refresh(const struct second_panel *panel, const struct second_registers *registers,
                        const unsigned char *memory, unsigned long memory_length,
                        const unsigned char *rom, unsigned long rom_length,
                        unsigned char *flags, unsigned long flags_length,
                        unsigned char *frame, unsigned long frame_length)
{
    unsigned row;
    unsigned number = second_lent_number(panel, registers, memory_length, rom_length);
    if (number != 0) return number;
    if (flags_length != second_flags_length(panel)) return 2;
    if (frame_length != second_frame_length(panel)) return 2;
    for (row = 0; row < flags_length; row++) {
        if (!flags[row]) continue;
        second_paint_row(panel, registers, memory, rom, row, frame + row * second_row_length(panel));
        flags[row] = 0;
    }
    return 0;
}
