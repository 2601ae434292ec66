/* The header's names and numbers, tried on the proved controller: status 0 where each stands for what it says, else the number of the
   line that does not hold. */
#include "bintarumpe.h"

static unsigned char memory[T6963C_MEMORY_SIZE];
static unsigned char rom[T6963C_ROM_SIZE];
static unsigned char r[T6963C_REGISTERS_SIZE];
static unsigned char frame[T6963C_FRAME_SIZE_MAX];

#define HOLDS(condition) do { if (!(condition)) return __LINE__; } while (0)

static unsigned access(unsigned kind, unsigned byte)
{
    return t6963c_access(2, 1, T6963C_WIDTH_6, T6963C_SINGLE, r, sizeof r, memory, sizeof memory, rom, sizeof rom,
                         (unsigned char)kind, (unsigned char)byte);
}

static unsigned command(unsigned code, unsigned d1, unsigned d2)
{
    access(T6963C_DATA_WRITE, d1);
    access(T6963C_DATA_WRITE, d2);
    return access(T6963C_COMMAND, code);
}

static int tried(void)
{
    static const unsigned char odd[3] = {0, 0, 0}, reads[6] = {3, 0, 3, 0, 3, 0};
    static const unsigned char torn[8] = {5, 0, 3, 0, 1, 0x24, 3, 0};
    unsigned long counts[T6963C_COUNTS_SIZE], skips[4];
    unsigned char answers[2];
    HOLDS(t6963c_reset(r, sizeof r) == T6963C_DONE);
    HOLDS(t6963c_reset(r, sizeof r - 1) == T6963C_LENGTH);
    HOLDS(r[T6963C_CURSOR_HEIGHT] == 1 && r[T6963C_PHASE] == 1 && r[T6963C_AUTO] == 0);
    HOLDS(command(0x21, 5, 6) == T6963C_DONE && r[T6963C_CURSOR_X] == 5 && r[T6963C_CURSOR_Y] == 6);
    HOLDS(command(0x22, 7, 0) == T6963C_DONE && r[T6963C_OFFSET] == 7);
    HOLDS(command(0x24, 0x12, 0x34) == T6963C_DONE && r[T6963C_POINTER] == 0x12 && r[T6963C_POINTER + 1] == 0x34);
    HOLDS(command(0x40, 0x56, 0x78) == T6963C_DONE && r[T6963C_TEXT_HOME] == 0x56 && r[T6963C_TEXT_HOME + 1] == 0x78);
    HOLDS(command(0x42, 0x9A, 0xBC) == T6963C_DONE && r[T6963C_GRAPHIC_HOME] == 0x9A && r[T6963C_GRAPHIC_HOME + 1] == 0xBC);
    HOLDS(command(0x41, 8, 0) == T6963C_DONE && r[T6963C_TEXT_AREA] == 8);
    HOLDS(command(0x43, 9, 0) == T6963C_DONE && r[T6963C_GRAPHIC_AREA] == 9);
    HOLDS(command(0x8B, 0, 0) == T6963C_DONE && r[T6963C_COMBINATION] == 2 && r[T6963C_EXTERNAL] == 1);
    HOLDS(command(0x84, 0, 0) == T6963C_DONE && r[T6963C_COMBINATION] == 3 && r[T6963C_EXTERNAL] == 0);
    HOLDS(command(0x98, 0, 0) == T6963C_DONE && r[T6963C_GRAPHIC_ON] == 1 && r[T6963C_TEXT_ON] == 0 && r[T6963C_CURSOR_ON] == 0);
    HOLDS(command(0x94, 0, 0) == T6963C_DONE && r[T6963C_GRAPHIC_ON] == 0 && r[T6963C_TEXT_ON] == 1 && r[T6963C_BLINK_ON] == 0);
    HOLDS(command(0x92, 0, 0) == T6963C_DONE && r[T6963C_CURSOR_ON] == 1 && r[T6963C_TEXT_ON] == 0 && r[T6963C_BLINK_ON] == 0);
    HOLDS(command(0x91, 0, 0) == T6963C_DONE && r[T6963C_CURSOR_ON] == 0 && r[T6963C_BLINK_ON] == 1);
    HOLDS(command(0xA4, 0, 0) == T6963C_DONE && r[T6963C_CURSOR_HEIGHT] == 5);
    memory[0x3412] = 0x5A;
    HOLDS(command(0xC5, 0, 0) == T6963C_DONE && r[T6963C_LATCH] == 0x5A && access(T6963C_DATA_READ, 0) == 0x5A00);
    HOLDS(command(0xE0, 0, 0) == T6963C_DONE && r[T6963C_ERROR] == 1);
    HOLDS(access(T6963C_DATA_WRITE, 1) == T6963C_DONE && r[T6963C_PENDING] == 1 && r[T6963C_NEWEST] == 1 && r[T6963C_OLDER] == 0);
    HOLDS(access(T6963C_DATA_WRITE, 2) == T6963C_DONE && r[T6963C_PENDING] == 2 && r[T6963C_NEWEST] == 2 && r[T6963C_OLDER] == 1);
    HOLDS(access(T6963C_TICK, 0) == T6963C_DONE && r[T6963C_PHASE] == 0);
    HOLDS(access(T6963C_STATUS_READ, 0) == 0x6300);
    HOLDS(access(5, 0) == T6963C_KIND && access(T6963C_COMMAND, 0x82) == T6963C_CODE);
    HOLDS(access(T6963C_COMMAND, 0xB0) == T6963C_DONE && r[T6963C_AUTO] == 1);
    HOLDS(access(T6963C_COMMAND, 0x94) == T6963C_IN_AUTO && access(T6963C_DATA_READ, 0) == T6963C_AGAINST_AUTO);
    HOLDS(access(T6963C_COMMAND, 0xB2) == T6963C_DONE && access(T6963C_COMMAND, 0xB1) == T6963C_DONE && r[T6963C_AUTO] == 2);
    HOLDS(access(T6963C_COMMAND, 0xB2) == T6963C_DONE && access(T6963C_COMMAND, 0x24) == T6963C_FEW_DATA);
    HOLDS(t6963c_run_stopping(2, 1, 6, 0, r, sizeof r, memory, sizeof memory, rom, sizeof rom, odd, sizeof odd, 9, answers, 2, counts,
                     T6963C_STOPPING_COUNTS_SIZE) == T6963C_ODD_LOG && counts[T6963C_PLACE] == 1);
    HOLDS(t6963c_run_stopping(2, 1, 6, 0, r, sizeof r, memory, sizeof memory, rom, sizeof rom, reads, sizeof reads, 9, answers, 2, counts,
                     T6963C_STOPPING_COUNTS_SIZE) == T6963C_NO_ANSWER_ROOM);
    HOLDS(counts[T6963C_PLACE] == 2 && counts[T6963C_TAKEN] == 2 && counts[T6963C_ANSWERS] == 2 && answers[1] == 0x63);
    HOLDS(t6963c_run(2, 1, 6, 0, r, sizeof r, memory, sizeof memory, rom, sizeof rom, torn, sizeof torn, 9, answers, 2, skips, 4, counts,
                     T6963C_COUNTS_SIZE) == T6963C_DONE && counts[T6963C_PLACE] == 0 && counts[T6963C_TAKEN] == 4);
    HOLDS(counts[T6963C_ANSWERS] == 2 && counts[T6963C_SKIPPED] == 2 && skips[0] == T6963C_KIND && skips[1] == 0);
    HOLDS(skips[2] == T6963C_FEW_DATA && skips[3] == 2);
    HOLDS(t6963c_run(2, 1, 6, 0, r, sizeof r, memory, sizeof memory, rom, sizeof rom, torn, sizeof torn, 9, answers, 2, skips, 3, counts,
                     T6963C_COUNTS_SIZE) == T6963C_NO_LIST_ROOM && counts[T6963C_PLACE] == 2 && counts[T6963C_TAKEN] == 2);
    HOLDS(counts[T6963C_ANSWERS] == 1 && counts[T6963C_SKIPPED] == 1);
    HOLDS(T6963C_FRAME_SIZE(2, 1, 6) == 16 && T6963C_FRAME_SIZE(T6963C_COLUMNS_MAX, T6963C_DUAL_LINES_MAX, 8) == T6963C_FRAME_SIZE_MAX);
    /* row 2 of code 65 at its place in the ROM, the low six bits, the highest of them leftmost */
    t6963c_reset(r, sizeof r);
    rom[8 * 65 + 2] = 0xE1;
    memory[0] = 65;
    command(0x94, 0, 0);
    HOLDS(t6963c_paint(2, 1, 6, 0, r, sizeof r, memory, sizeof memory, rom, sizeof rom, frame, 16) == T6963C_DONE);
    HOLDS(frame[2 * T6963C_ROW_SIZE(2, 6)] == 0x84 && frame[2 * T6963C_ROW_SIZE(2, 6) + 1] == 0);
    HOLDS(t6963c_layers(2, 1, 6, 0, r, sizeof r, memory, sizeof memory, rom, sizeof rom, 2, 0) == 0x21002100u);
    HOLDS(t6963c_layers(2, 1, 7, 0, r, sizeof r, memory, sizeof memory, rom, sizeof rom, 2, 0) == T6963C_NOT_VALID);
    HOLDS(t6963c_paint(2, 1, 6, 0, r, sizeof r, memory, sizeof memory, rom, sizeof rom, frame, 15) == T6963C_LENGTH);
    HOLDS(t6963c_paint(81, 1, 6, 0, r, sizeof r, memory, sizeof memory, rom, sizeof rom, frame, 15) == T6963C_NOT_VALID);
    return 0;
}

static unsigned paint(unsigned long lines, unsigned marker, unsigned long length)
{
    return t6963c_paint(1, lines, T6963C_WIDTH_8, (unsigned char)marker, r, sizeof r, memory, sizeof memory, rom, sizeof rom, frame,
                        length);
}

/* The marker: lines by kind, Y by halves, the largest frame, copy and peek. */
static int halves(void)
{
    static const unsigned char seen[] = {0, 1, 0, 0, 1, 0x43, 0, 0, 0, 0, 1, 0x24, 1, 0xE0, 3, 0, 1, 0xE8, 3, 0};
    unsigned long counts[T6963C_STOPPING_COUNTS_SIZE];
    unsigned char answers[2];
    t6963c_reset(r, sizeof r);
    HOLDS(paint(T6963C_LINES_MAX, T6963C_SINGLE, 128) == T6963C_DONE && paint(17, T6963C_SINGLE, 136) == T6963C_NOT_VALID);
    HOLDS(paint(1, T6963C_SINGLE, 8) == T6963C_DONE && paint(1, T6963C_DUAL, 8) == T6963C_NOT_VALID);
    HOLDS(paint(2, T6963C_DUAL, 16) == T6963C_DONE && paint(0, T6963C_DUAL, 0) == T6963C_NOT_VALID);
    HOLDS(paint(T6963C_DUAL_LINES_MAX, T6963C_DUAL, 256) == T6963C_DONE && paint(31, T6963C_DUAL, 248) == T6963C_NOT_VALID);
    HOLDS(paint(34, T6963C_DUAL, 272) == T6963C_NOT_VALID && paint(2, 2, 16) == T6963C_NOT_VALID && paint(2, 255, 16) == T6963C_NOT_VALID);
    HOLDS(t6963c_paint(T6963C_COLUMNS_MAX, T6963C_DUAL_LINES_MAX, T6963C_WIDTH_8, T6963C_DUAL, r, sizeof r, memory, sizeof memory, rom,
                       sizeof rom, frame, T6963C_FRAME_SIZE_MAX) == T6963C_DONE);
    r[T6963C_CURSOR_ON] = 1;
    r[T6963C_CURSOR_Y] = 17;
    HOLDS(paint(8, T6963C_DUAL, 64) == T6963C_DONE && frame[8 * 5 + 7] == 0xFF);
    r[T6963C_CURSOR_Y] = 4;
    HOLDS(paint(8, T6963C_DUAL, 64) == T6963C_DONE && frame[8 * 4 + 7] == 0);
    HOLDS(paint(8, T6963C_SINGLE, 64) == T6963C_DONE && frame[8 * 4 + 7] == 0xFF);
    t6963c_reset(r, sizeof r);
    HOLDS(t6963c_run_stopping(1, 2, 8, T6963C_DUAL, r, sizeof r, memory, sizeof memory, rom, sizeof rom, seen, sizeof seen, 99, answers, 2, counts,
                     T6963C_STOPPING_COUNTS_SIZE) == T6963C_DONE && answers[0] == 0xA3 && answers[1] == 0xE3);
    return 0;
}

static unsigned long set(const unsigned char *rows, unsigned long count)
{
    unsigned long i, n = 0;
    for (i = 0; i < count; i++)
        n += rows[i] != 0;
    return n;
}

static unsigned follow(unsigned char kind, unsigned char byte, unsigned char *rows, unsigned long rows_length)
{
    return t6963c_follow(1, 2, 8, T6963C_SINGLE, r, sizeof r, memory, sizeof memory, rom, sizeof rom, kind, byte, rows, rows_length);
}

static int viewed(void)
{
    static const unsigned char log[] = {0, 9, 1, 0xC4, 4, 0, 2, 0, 1, 0xFF, 1, 0x47, 3, 0};
    unsigned char rows[17], answers[2], painted[16];
    unsigned long counts[T6963C_COUNTS_SIZE], skips[4], i;
    t6963c_reset(r, sizeof r);
    r[T6963C_TEXT_HOME + 1] = 0x40;
    r[T6963C_TEXT_AREA] = r[T6963C_GRAPHIC_AREA] = 1;
    r[T6963C_TEXT_ON] = r[T6963C_GRAPHIC_ON] = 1;
    for (i = 0; i < 17; i++)
        rows[i] = 1;
    HOLDS(t6963c_refresh(1, 2, 8, T6963C_SINGLE, r, sizeof r, memory, sizeof memory, rom, sizeof rom, frame, 16, rows, 17) ==
          T6963C_LENGTH && set(rows, 17) == 17);
    HOLDS(t6963c_refresh(1, 2, 8, T6963C_SINGLE, r, sizeof r, memory, sizeof memory, rom, sizeof rom, frame, 16, rows, 16) ==
          T6963C_DONE && set(rows, 16) == 0 && rows[16] == 1);
    HOLDS(follow(0, 0x55, rows, 17) == T6963C_LENGTH && r[T6963C_PENDING] == 0);
    HOLDS(follow(0, 0x55, rows, 16) == T6963C_DONE && r[T6963C_PENDING] == 1 && set(rows, 16) == 0);
    r[T6963C_POINTER] = 5;
    HOLDS(follow(1, 0xC0, rows, 16) == T6963C_DONE && r[T6963C_POINTER] == 6 && set(rows, 16) == 1 && rows[5] == 1);
    HOLDS(follow(1, 0xC0, rows, 16) == T6963C_FEW_DATA && set(rows, 16) == 1);
    r[T6963C_POINTER + 1] = 0x40, r[T6963C_POINTER] = 1;
    HOLDS(t6963c_follow_run(1, 2, 8, T6963C_SINGLE, r, sizeof r, memory, sizeof memory, rom, sizeof rom, log, 4, 2, answers, 2, skips, 4, counts,
                            T6963C_COUNTS_SIZE, rows, 16) == T6963C_DONE && counts[T6963C_TAKEN] == 2 && set(rows, 16) == 9 && rows[8] == 1);
    HOLDS(t6963c_follow_run(1, 2, 8, T6963C_SINGLE, r, sizeof r, memory, sizeof memory, rom, sizeof rom, log, sizeof log, 99, answers, 2, skips, 4,
                            counts, T6963C_COUNTS_SIZE, rows, 16) == T6963C_DONE && counts[T6963C_TAKEN] == 7 && counts[T6963C_ANSWERS] == 2 &&
          counts[T6963C_SKIPPED] == 1 && skips[1] == 5 && set(rows, 16) == 16);
    HOLDS(t6963c_refresh(1, 2, 8, T6963C_SINGLE, r, sizeof r, memory, sizeof memory, rom, sizeof rom, frame, 16, rows, 16) == T6963C_DONE);
    HOLDS(t6963c_paint(1, 2, 8, T6963C_SINGLE, r, sizeof r, memory, sizeof memory, rom, sizeof rom, painted, 16) == T6963C_DONE);
    for (i = 0; i < 16; i++)
        HOLDS(frame[i] == painted[i] && rows[i] == 0);
    return 0;
}

static unsigned writers(unsigned short first, unsigned short last, const unsigned char *log, unsigned long length, unsigned long *entries,
                        unsigned long room, unsigned long *counts, unsigned long counts_length)
{
    return t6963c_writers(1, 2, 8, T6963C_SINGLE, r, sizeof r, memory, sizeof memory, rom, sizeof rom, log, length, first, last, entries, room,
                          counts, counts_length);
}

static int wrote(void)
{
    /* pointer 4FFFH, B0H, two data, B2H, an undefined code, F9H, a read */
    static const unsigned char log[] = {0, 0xFF, 0, 0x4F, 1, 0x24, 1, 0xB0, 0, 5, 0, 6, 1, 0xB2, 1, 0x47, 1, 0xF9, 2, 0};
    unsigned long entries[12], counts[T6963C_WRITERS_COUNTS_SIZE];
    t6963c_reset(r, sizeof r);
    memory[0x4FFF] = 1, memory[0x5000] = 2, memory[0x5001] = 0x80;
    HOLDS(writers(0x5000, 0x57FF, log, sizeof log, entries, 12, counts, 3) == T6963C_LENGTH && memory[0x5000] == 2);
    HOLDS(writers(0x5000, 0x57FF, log, 3, entries, 12, counts, T6963C_WRITERS_COUNTS_SIZE) == T6963C_ODD_LOG && counts[T6963C_PLACE] == 1);
    HOLDS(writers(0x5000, 0x57FF, log, sizeof log, entries, 12, counts, T6963C_WRITERS_COUNTS_SIZE) == T6963C_DONE);
    HOLDS(counts[T6963C_PLACE] == 0 && counts[T6963C_ENTRIES] == 2 && memory[0x4FFF] == 5 && r[T6963C_POINTER] == 1);
    HOLDS(entries[0] == 5 && entries[1] == 0x5000 && entries[2] == 2 && entries[3] == 6);
    HOLDS(entries[4] == 8 && entries[5] == 0x5001 && entries[6] == 0x80 && entries[7] == 0x82);
    t6963c_reset(r, sizeof r);
    HOLDS(writers(0x57FF, 0x4FFF, log, sizeof log, entries, 3, counts, T6963C_WRITERS_COUNTS_SIZE) == T6963C_NO_ENTRY_ROOM);
    HOLDS(counts[T6963C_PLACE] == 1 && counts[T6963C_ENTRIES] == 0);
    return 0;
}

int main(void)
{
    int line = tried();
    line = line ? line : halves();
    line = line ? line : viewed();
    return line ? line : wrote();
}
