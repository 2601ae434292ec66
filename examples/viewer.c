/* viewer LOG [ROM]: follows a recorded log pair by pair and prints each dot row that comes to look otherwise, as `pair N row R` and its
   dots, `#` for one that is on. Only flagged rows are painted. The log is C, L, w and pairs of a kind and a byte; refused pairs are passed
   over. Without a ROM characters are blank. Status: 0, 1 no panel, 2 trouble. */
#include <stdio.h>
#include <string.h>

#include "bintarumpe.h"

#define LOG_MAX 1048576UL
#define ROWS_MAX (8 * T6963C_DUAL_LINES_MAX)

static unsigned char memory[T6963C_MEMORY_SIZE];
static unsigned char rom[T6963C_ROM_SIZE];
static unsigned char registers[T6963C_REGISTERS_SIZE];
static unsigned char input[3 + LOG_MAX];
static unsigned char frame[T6963C_FRAME_SIZE_MAX];
static unsigned char shown[T6963C_FRAME_SIZE_MAX];
static unsigned char flags[ROWS_MAX];

/* How many bytes of the file there are, at most `most`; or -1. */
static long load(const char *name, unsigned char *bytes, unsigned long most)
{
    FILE *file = fopen(name, "rb");
    unsigned long count;
    int wrong;
    if (!file)
        return -1;
    count = fread(bytes, 1, most, file);
    wrong = ferror(file);
    return fclose(file) || wrong ? -1 : (long)count;
}

static void print_row(unsigned long pair, unsigned long row, const unsigned char *bytes, unsigned long dots)
{
    unsigned long x;
    printf("pair %lu row %lu ", pair, row);
    for (x = 0; x < dots; x++)
        putchar(bytes[x / 8] >> (7 - x % 8) & 1 ? '#' : '.');
    putchar('\n');
}

int main(int count, char **words)
{
    unsigned long columns, lines, width, rows, size, pair, row;
    long length;
    if (count < 2 || count > 3) {
        fprintf(stderr, "usage: viewer LOG [ROM]\n");
        return 2;
    }
    length = load(words[1], input, sizeof input);
    if (length < 0 || (count == 3 && load(words[2], rom, sizeof rom) != (long)sizeof rom)) {
        fprintf(stderr, "viewer: a file cannot be read\n");
        return 2;
    }
    columns = input[0], lines = input[1], width = input[2];
    t6963c_reset(registers, sizeof registers);
    rows = 8 * lines, size = T6963C_ROW_SIZE(columns, width);
    memset(flags, 1, sizeof flags);
    if (rows > ROWS_MAX || t6963c_refresh(columns, lines, width, T6963C_SINGLE, registers, sizeof registers, memory, sizeof memory, rom,
                                          sizeof rom, frame, rows * size, flags, rows) != T6963C_DONE) {
        fprintf(stderr, "viewer: not a panel\n");
        return 1;
    }
    for (pair = 0; 4 + 2 * pair < (unsigned long)length; pair++) {
        t6963c_follow(columns, lines, width, T6963C_SINGLE, registers, sizeof registers, memory, sizeof memory, rom, sizeof rom,
                      input[3 + 2 * pair], input[4 + 2 * pair], flags, rows);
        t6963c_refresh(columns, lines, width, T6963C_SINGLE, registers, sizeof registers, memory, sizeof memory, rom, sizeof rom, frame,
                       rows * size, flags, rows);
        for (row = 0; row < rows; row++)
            if (memcmp(frame + row * size, shown + row * size, size)) {
                print_row(pair, row, frame + row * size, columns * width);
                memcpy(shown + row * size, frame + row * size, size);
            }
    }
    return 0;
}
