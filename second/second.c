#include "second.h"

enum { UNDEFINED = -1 };

void second_reset(struct second_registers *registers)
{
    registers->cursor_x = 0;
    registers->cursor_y = 0;
    registers->offset = 0;
    registers->pointer = 0;
    registers->text_home = 0;
    registers->graphic_home = 0;
    registers->text_area = 0;
    registers->graphic_area = 0;
    registers->combination = SECOND_OR;
    registers->external = 0;
    registers->graphic = 0;
    registers->text = 0;
    registers->cursor = 0;
    registers->blink = 0;
    registers->cursor_height = 1;
    registers->auto_mode = SECOND_AUTO_OFF;
    registers->pending = 0;
    registers->newest = 0;
    registers->older = 0;
    registers->latch = 0;
    registers->error = 0;
    registers->phase = SECOND_PHASE_NORMAL;
}

int second_panel_valid(const struct second_panel *panel)
{
    if (panel->columns < 1 || panel->columns > 80) return 0;
    if (panel->width != 6 && panel->width != 8) return 0;
    if (panel->dual > 1) return 0;
    if (panel->dual) return panel->lines >= 2 && panel->lines <= 32 && panel->lines % 2 == 0;
    return panel->lines >= 1 && panel->lines <= 16;
}

int second_state_valid(const struct second_registers *registers)
{
    if (registers->cursor_x > 127) return 0;
    if (registers->cursor_y > 31) return 0;
    if (registers->offset > 31) return 0;
    if (registers->pointer > 0xFFFF) return 0;
    if (registers->text_home > 0xFFFF) return 0;
    if (registers->graphic_home > 0xFFFF) return 0;
    if (registers->text_area > 0xFF) return 0;
    if (registers->graphic_area > 0xFF) return 0;
    if (registers->combination > SECOND_ATTRIBUTE) return 0;
    if (registers->external > 1) return 0;
    if (registers->graphic > 1) return 0;
    if (registers->text > 1) return 0;
    if (registers->cursor > 1) return 0;
    if (registers->blink > 1) return 0;
    if (registers->cursor_height < 1 || registers->cursor_height > 8) return 0;
    if (registers->auto_mode > SECOND_AUTO_READ) return 0;
    if (registers->pending > 2) return 0;
    if (registers->newest > 0xFF) return 0;
    if (registers->older > 0xFF) return 0;
    if (registers->pending < 1 && registers->newest != 0) return 0;
    if (registers->pending < 2 && registers->older != 0) return 0;
    if (registers->latch > 0xFF) return 0;
    if (registers->error > 1) return 0;
    if (registers->phase > SECOND_PHASE_OFF) return 0;
    return 1;
}

unsigned long second_row_length(const struct second_panel *panel)
{
    return (panel->columns * panel->width + 7) / 8;
}

unsigned long second_frame_length(const struct second_panel *panel)
{
    return 8 * panel->lines * second_row_length(panel);
}

/* home + number * area + column, modulo 65,536. */
static unsigned address_of(unsigned home, unsigned number, unsigned area, unsigned column)
{
    unsigned long sum = home;
    sum += (unsigned long)number * area;
    sum += column;
    return (unsigned)(sum % 65536UL);
}

static unsigned low_bits(const struct second_panel *panel)
{
    return panel->width == 6 ? 0x3F : 0xFF;
}

static unsigned glyph_row(const struct second_registers *registers, const unsigned char *memory,
                          const unsigned char *rom, unsigned code, unsigned v)
{
    if (!registers->external && code < 0x80) return rom[8 * code + v];
    return memory[2048UL * registers->offset + 8 * code + v];
}

/* text and the reply have 0 above the low bits. Bit 3 blinks, whatever the low three bits show. */
static unsigned attributed(const struct second_panel *panel, const struct second_registers *registers,
                           unsigned attribute, unsigned text)
{
    if (attribute % 16 >= 8 && registers->phase == SECOND_PHASE_OFF) return 0;
    switch (attribute % 8) {
    case 3:
        return 0;
    case 5:
        return ~text & low_bits(panel);
    default:
        return text;
    }
}

/* The low bits of the text row, after attribute; 0 where text is off. */
static unsigned text_layer(const struct second_panel *panel, const struct second_registers *registers,
                           const unsigned char *memory, const unsigned char *rom, unsigned row, unsigned column)
{
    unsigned line = row / 8;
    unsigned v = row % 8;
    unsigned code = memory[address_of(registers->text_home, line, registers->text_area, column)];
    unsigned text = glyph_row(registers, memory, rom, code, v) & low_bits(panel);
    if (!registers->text) return 0;
    if (registers->combination == SECOND_ATTRIBUTE && registers->graphic) {
        unsigned attribute = memory[address_of(registers->graphic_home, line, registers->graphic_area, column)];
        return attributed(panel, registers, attribute, text);
    }
    return text;
}

/* The low bits of the graphic byte; 0 where graphic is off or in attribute mode. */
static unsigned graphic_layer(const struct second_panel *panel, const struct second_registers *registers,
                              const unsigned char *memory, unsigned row, unsigned column)
{
    if (!registers->graphic || registers->combination == SECOND_ATTRIBUTE) return 0;
    return memory[address_of(registers->graphic_home, row, registers->graphic_area, column)] & low_bits(panel);
}

static unsigned combined(const struct second_registers *registers, unsigned text, unsigned graphic)
{
    if (!registers->text && !registers->graphic) return 0;
    if (registers->combination == SECOND_ATTRIBUTE) return text; /* which is 0 with graphic only */
    if (!registers->graphic) return text;
    if (!registers->text) return graphic;
    if (registers->combination == SECOND_OR) return text | graphic;
    if (registers->combination == SECOND_EXOR) return text ^ graphic;
    return text & graphic;
}

struct second_layers second_displayed(const struct second_panel *panel, const struct second_registers *registers,
                                      const unsigned char *memory, const unsigned char *rom,
                                      unsigned row, unsigned column)
{
    struct second_layers layers;
    unsigned text = text_layer(panel, registers, memory, rom, row, column);
    unsigned graphic = graphic_layer(panel, registers, memory, row, column);
    layers.text = (unsigned char)text;
    layers.graphic = (unsigned char)graphic;
    layers.displayed = (unsigned char)combined(registers, text, graphic);
    return layers;
}

/* Does cursor Y stand for this line of the panel? Some Y stand for none. */
static int y_shows_line(const struct second_panel *panel, unsigned y, unsigned line)
{
    unsigned half = panel->lines / 2;
    if (!panel->dual) return y == line;
    if (line < half) return y == line;
    return y == 16 + line - half;
}

int second_cursor_covers(const struct second_panel *panel, const struct second_registers *registers,
                         unsigned row, unsigned column)
{
    if (!registers->cursor) return 0;
    if (registers->blink && registers->phase == SECOND_PHASE_OFF) return 0;
    if (column != registers->cursor_x) return 0;
    if (!y_shows_line(panel, registers->cursor_y, row / 8)) return 0;
    return row % 8 >= 8 - registers->cursor_height;
}

int second_dot(const struct second_panel *panel, const struct second_registers *registers,
               const unsigned char *memory, const unsigned char *rom, unsigned x, unsigned row)
{
    unsigned column = x / panel->width;
    unsigned bit = panel->width - 1 - x % panel->width;
    if (second_cursor_covers(panel, registers, row, column)) return 1;
    return (second_displayed(panel, registers, memory, rom, row, column).displayed >> bit) & 1;
}

int second_position(const struct second_panel *panel, const struct second_registers *registers,
                    unsigned *row, unsigned *column)
{
    unsigned r, c;
    for (r = 0; r < 8 * panel->lines; r++) {
        for (c = 0; c < panel->columns; c++) {
            if (address_of(registers->graphic_home, r, registers->graphic_area, c) == registers->pointer) {
                *row = r;
                *column = c;
                return 1;
            }
        }
    }
    return 0;
}

unsigned second_lent_number(const struct second_panel *panel, const struct second_registers *registers,
                            unsigned long memory_length, unsigned long rom_length)
{
    if (!second_panel_valid(panel)) return 1;
    if (!second_state_valid(registers)) return 1;
    if (memory_length != SECOND_MEMORY_LENGTH) return 2;
    if (rom_length != SECOND_ROM_LENGTH) return 2;
    return 0;
}

struct second_layers_reply second_show_layers(const struct second_panel *panel,
                                              const struct second_registers *registers,
                                              const unsigned char *memory, unsigned long memory_length,
                                              const unsigned char *rom, unsigned long rom_length,
                                              unsigned row, unsigned column)
{
    struct second_layers_reply reply = {0, {0, 0, 0}};
    reply.number = second_lent_number(panel, registers, memory_length, rom_length);
    if (reply.number != 0) return reply;
    if (row >= 8 * panel->lines || column >= panel->columns) return reply;
    reply.layers = second_displayed(panel, registers, memory, rom, row, column);
    return reply;
}

void second_paint_row(const struct second_panel *panel, const struct second_registers *registers,
                      const unsigned char *memory, const unsigned char *rom, unsigned row, unsigned char *stretch)
{
    unsigned place, bit;
    for (place = 0; place < second_row_length(panel); place++) {
        unsigned packed = 0;
        for (bit = 0; bit < 8; bit++) {
            unsigned x = 8 * place + bit;
            if (x >= panel->columns * panel->width) continue; /* a spare bit stays 0 */
            if (second_dot(panel, registers, memory, rom, x, row)) packed |= 0x80U >> bit;
        }
        stretch[place] = (unsigned char)packed;
    }
}

unsigned second_frame(const struct second_panel *panel, const struct second_registers *registers,
                      const unsigned char *memory, unsigned long memory_length,
                      const unsigned char *rom, unsigned long rom_length,
                      unsigned char *frame, unsigned long frame_length)
{
    unsigned row;
    unsigned number = second_lent_number(panel, registers, memory_length, rom_length);
    if (number != 0) return number;
    if (frame_length != second_frame_length(panel)) return 2;
    for (row = 0; row < 8 * panel->lines; row++) {
        second_paint_row(panel, registers, memory, rom, row, frame + row * second_row_length(panel));
    }
    return 0;
}

/* The data a code asks for, or UNDEFINED. */
static int data_needed(unsigned code)
{
    if (code == 0x21 || code == 0x22 || code == 0x24) return 2;
    if (code >= 0x40 && code <= 0x43) return 2;
    if (code >= 0x80 && code <= 0x8F) {
        unsigned low = code % 8;
        if (low == 0 || low == 1 || low == 3 || low == 4) return 0;
        return UNDEFINED;
    }
    if (code >= 0x90 && code <= 0x9F) return 0;
    if (code >= 0xA0 && code <= 0xA7) return 0;
    if (code >= 0xB0 && code <= 0xB2) return 0;
    if (code == 0xC0 || code == 0xC2 || code == 0xC4) return 1;
    if (code == 0xC1 || code == 0xC3 || code == 0xC5) return 0;
    if (code == 0xE0 || code == 0xE8) return 0;
    if (code >= 0xF0) return 0;
    return UNDEFINED;
}

/* The number a pair gets: 0, 3, 4, 5, 6 or 7. */
static unsigned pair_number(const struct second_registers *registers, unsigned kind, unsigned byte)
{
    if (kind > SECOND_TICK) return 3;
    if (kind == SECOND_COMMAND) {
        int needed = data_needed(byte);
        if (needed == UNDEFINED) return 4;
        if (registers->auto_mode != SECOND_AUTO_OFF && byte != 0xB2) return 5;
        if (registers->pending < (unsigned)needed) return 6;
    }
    if (kind == SECOND_DATA_WRITE && registers->auto_mode == SECOND_AUTO_READ) return 7;
    if (kind == SECOND_DATA_READ && registers->auto_mode == SECOND_AUTO_WRITE) return 7;
    return 0;
}

static void pointer_up(struct second_registers *registers)
{
    registers->pointer = registers->pointer == 0xFFFF ? 0 : registers->pointer + 1;
}

static void pointer_down(struct second_registers *registers)
{
    registers->pointer = registers->pointer == 0 ? 0xFFFF : registers->pointer - 1;
}

static void peek(const struct second_panel *panel, struct second_registers *registers,
                 const unsigned char *memory, const unsigned char *rom)
{
    unsigned row, column;
    if (!second_position(panel, registers, &row, &column)) {
        registers->error = 1;
        return;
    }
    registers->latch = second_displayed(panel, registers, memory, rom, row, column).displayed;
    registers->error = 0;
}

static void copy(const struct second_panel *panel, struct second_registers *registers,
                 unsigned char *memory, const unsigned char *rom)
{
    unsigned char gathered[80];
    unsigned row, column, c;
    if (panel->dual || registers->combination == SECOND_ATTRIBUTE
        || !second_position(panel, registers, &row, &column)) {
        registers->error = 1;
        return;
    }
    /* A stored byte may be a text code or glyph row of the same dot row, so all are gathered first. */
    for (c = column; c < panel->columns; c++) {
        gathered[c] = second_displayed(panel, registers, memory, rom, row, c).displayed;
    }
    for (c = column; c < panel->columns; c++) {
        memory[address_of(registers->graphic_home, row, registers->graphic_area, c)] = gathered[c];
    }
    registers->error = 0;
}

/* An accepted command: its effect, then no data pending. */
static void command(const struct second_panel *panel, struct second_registers *registers,
                    unsigned char *memory, const unsigned char *rom, unsigned code)
{
    unsigned d1 = registers->older;
    unsigned d2 = registers->newest;
    unsigned char *at = &memory[registers->pointer];

    if (code == 0x21) {
        registers->cursor_x = d1 % 128;
        registers->cursor_y = d2 % 32;
    } else if (code == 0x22) {
        registers->offset = d1 % 32;
    } else if (code == 0x24) {
        registers->pointer = d1 + 256 * d2;
    } else if (code == 0x40) {
        registers->text_home = d1 + 256 * d2;
    } else if (code == 0x41) {
        registers->text_area = d1;
    } else if (code == 0x42) {
        registers->graphic_home = d1 + 256 * d2;
    } else if (code == 0x43) {
        registers->graphic_area = d1;
    } else if (code >= 0x80 && code <= 0x8F) {
        registers->external = (code >> 3) & 1;
        if (code % 8 == 0) registers->combination = SECOND_OR;
        if (code % 8 == 1) registers->combination = SECOND_EXOR;
        if (code % 8 == 3) registers->combination = SECOND_AND;
        if (code % 8 == 4) registers->combination = SECOND_ATTRIBUTE;
    } else if (code >= 0x90 && code <= 0x9F) {
        registers->graphic = (code >> 3) & 1;
        registers->text = (code >> 2) & 1;
        registers->cursor = (code >> 1) & 1;
        registers->blink = code & 1;
    } else if (code >= 0xA0 && code <= 0xA7) {
        registers->cursor_height = code - 0xA0 + 1;
    } else if (code == 0xB0) {
        registers->auto_mode = SECOND_AUTO_WRITE;
    } else if (code == 0xB1) {
        registers->auto_mode = SECOND_AUTO_READ;
    } else if (code == 0xB2) {
        registers->auto_mode = SECOND_AUTO_OFF;
    } else if (code == 0xC0) {
        *at = (unsigned char)d2;
        pointer_up(registers);
    } else if (code == 0xC1) {
        registers->latch = *at;
        pointer_up(registers);
    } else if (code == 0xC2) {
        *at = (unsigned char)d2;
        pointer_down(registers);
    } else if (code == 0xC3) {
        registers->latch = *at;
        pointer_down(registers);
    } else if (code == 0xC4) {
        *at = (unsigned char)d2;
    } else if (code == 0xC5) {
        registers->latch = *at;
    } else if (code == 0xE0) {
        peek(panel, registers, memory, rom);
    } else if (code == 0xE8) {
        copy(panel, registers, memory, rom);
    } else if (code >= 0xF0 && code <= 0xF7) {
        *at = (unsigned char)(*at & ~(1U << (code % 8)));
    } else if (code >= 0xF8) {
        *at = (unsigned char)(*at | (1U << (code % 8)));
    }

    registers->pending = 0;
    registers->newest = 0;
    registers->older = 0;
}

static void data_write(struct second_registers *registers, unsigned char *memory, unsigned char byte)
{
    if (registers->auto_mode == SECOND_AUTO_WRITE) {
        memory[registers->pointer] = byte;
        pointer_up(registers);
        return;
    }
    registers->older = registers->newest;
    registers->newest = byte;
    if (registers->pending < 2) registers->pending++;
}

static unsigned char data_read(struct second_registers *registers, const unsigned char *memory)
{
    if (registers->auto_mode == SECOND_AUTO_READ) {
        unsigned char byte = memory[registers->pointer];
        pointer_up(registers);
        return byte;
    }
    return (unsigned char)registers->latch;
}

static unsigned char status(const struct second_registers *registers)
{
    unsigned bits = 0x20;
    if (registers->auto_mode == SECOND_AUTO_OFF) bits |= 0x03;
    if (registers->auto_mode == SECOND_AUTO_READ) bits |= 0x04;
    if (registers->auto_mode == SECOND_AUTO_WRITE) bits |= 0x08;
    if (registers->error) bits |= 0x40;
    if (registers->phase == SECOND_PHASE_NORMAL) bits |= 0x80;
    return (unsigned char)bits;
}

static void tick(struct second_registers *registers)
{
    registers->phase = registers->phase == SECOND_PHASE_NORMAL ? SECOND_PHASE_OFF : SECOND_PHASE_NORMAL;
}

/* An accepted pair; the byte read, or 0. */
static unsigned char take_pair(const struct second_panel *panel, struct second_registers *registers,
                               unsigned char *memory, const unsigned char *rom,
                               unsigned char kind, unsigned char byte)
{
    if (kind == SECOND_DATA_READ) return data_read(registers, memory);
    if (kind == SECOND_STATUS_READ) return status(registers);
    if (kind == SECOND_DATA_WRITE) data_write(registers, memory, byte);
    if (kind == SECOND_COMMAND) command(panel, registers, memory, rom, byte);
    if (kind == SECOND_TICK) tick(registers);
    return 0;
}

struct second_reply second_access(const struct second_panel *panel, struct second_registers *registers,
                                  unsigned char *memory, unsigned long memory_length,
                                  const unsigned char *rom, unsigned long rom_length,
                                  unsigned char kind, unsigned char byte)
{
    struct second_reply reply;
    reply.place = 0;
    reply.read = 0;
    reply.number = second_lent_number(panel, registers, memory_length, rom_length);
    if (reply.number != 0) return reply;
    reply.number = pair_number(registers, kind, byte);
    if (reply.number != 0) return reply;
    reply.read = take_pair(panel, registers, memory, rom, kind, byte);
    return reply;
}

/* A run before its first pair: number 0, 1, 2 or 8. */
static struct second_run_reply run_start(const struct second_panel *panel, const struct second_registers *registers,
                                         unsigned long memory_length, unsigned long rom_length,
                                         unsigned long log_length)
{
    struct second_run_reply reply = {0, 0, 0, 0, 0};
    reply.number = second_lent_number(panel, registers, memory_length, rom_length);
    if (reply.number == 0 && log_length % 2 != 0) {
        reply.number = 8;
        reply.place = log_length / 2;
    }
    return reply;
}

/* The next pair of a run, taken if it can be: its number, 0, 3 to 7 or 13. All but 0 change nothing. */
static unsigned run_pair(const struct second_panel *panel, struct second_registers *registers,
                         unsigned char *memory, const unsigned char *rom, const unsigned char *pair,
                         unsigned char *answers, unsigned long answers_length, struct second_run_reply *reply)
{
    unsigned char kind = pair[0];
    unsigned char byte = pair[1];
    int reads = kind == SECOND_DATA_READ || kind == SECOND_STATUS_READ;
    unsigned number = pair_number(registers, kind, byte);
    unsigned char read;
    if (number != 0) return number;
    if (reads && reply->answers == answers_length) return 13;
    read = take_pair(panel, registers, memory, rom, kind, byte);
    if (reads) {
        answers[reply->answers] = read;
        reply->answers++;
    }
    return 0;
}

static struct second_run_reply stopped(struct second_run_reply reply, unsigned number)
{
    reply.number = number;
    reply.place = reply.taken;
    return reply;
}

struct second_run_reply second_run(const struct second_panel *panel, struct second_registers *registers,
                                   unsigned char *memory, unsigned long memory_length,
                                   const unsigned char *rom, unsigned long rom_length,
                                   const unsigned char *log, unsigned long log_length, unsigned long limit,
                                   unsigned char *answers, unsigned long answers_length,
                                   unsigned long *list, unsigned long list_length)
{
    struct second_run_reply reply = run_start(panel, registers, memory_length, rom_length, log_length);
    if (reply.number != 0) return reply;
    while (reply.taken < limit && reply.taken < log_length / 2) {
        unsigned number = run_pair(panel, registers, memory, rom, log + 2 * reply.taken,
                                   answers, answers_length, &reply);
        if (number == 13) return stopped(reply, 13);
        if (number != 0) {
            if (reply.skipped == list_length / 2) return stopped(reply, 16);
            list[2 * reply.skipped] = number;
            list[2 * reply.skipped + 1] = reply.taken;
            reply.skipped++;
        }
        reply.taken++;
    }
    return reply;
}

struct second_run_reply second_run_stopping(const struct second_panel *panel, struct second_registers *registers,
                                            unsigned char *memory, unsigned long memory_length,
                                            const unsigned char *rom, unsigned long rom_length,
                                            const unsigned char *log, unsigned long log_length, unsigned long limit,
                                            unsigned char *answers, unsigned long answers_length)
{
    struct second_run_reply reply = run_start(panel, registers, memory_length, rom_length, log_length);
    if (reply.number != 0) return reply;
    while (reply.taken < limit && reply.taken < log_length / 2) {
        unsigned number = run_pair(panel, registers, memory, rom, log + 2 * reply.taken,
                                   answers, answers_length, &reply);
        if (number != 0) return stopped(reply, number);
        reply.taken++;
    }
    return reply;
}
