/* show LOG [ROM]: acts on a recorded log by way of the C boundary and prints the answers, then the picture, `#` for a dot that is on.
   The log is C, L, w and pairs of a kind and a byte. Without a ROM characters are blank. Status: 0, 1 refused, 2 trouble. It is C, and it
   is C++ too. */
#include <stdio.h>

#include "bintarumpe.h"

#define LOG_MAX 1048576UL

static unsigned char memory[T6963C_MEMORY_SIZE];
static unsigned char rom[T6963C_ROM_SIZE];
static unsigned char registers[T6963C_REGISTERS_SIZE];
static unsigned char input[3 + LOG_MAX];
static unsigned char answers[LOG_MAX / 2];
static unsigned char frame[T6963C_FRAME_SIZE_MAX];

/* How many bytes of the file there are, at most `most`; or -1. */
static long load(const char *name, unsigned char *bytes, unsigned long most)
{
    FILE *file = fopen(name, "rb");
    long count = -1;
    if (file != NULL) {
        count = (long)fread(bytes, 1, most, file);
        if (ferror(file)) count = -1;
        fclose(file);
    }
    if (count < 0) fprintf(stderr, "show: '%s' can't be read\n", name);
    return count;
}

int main(int argc, char **argv)
{
    unsigned long columns, lines, width, answer, row, x, row_size;
    unsigned long counts[T6963C_STOPPING_COUNTS_SIZE];
    unsigned char number;
    long length;

    if (argc != 2 && argc != 3) {
        fprintf(stderr, "usage: show LOG [ROM]\n");
        return 2;
    }
    length = load(argv[1], input, sizeof input);
    if (length < 0) return 2;
    if (argc == 3 && load(argv[2], rom, sizeof rom) != T6963C_ROM_SIZE) return 2;
    if (length < 3) length = 3;
    columns = input[0];
    lines = input[1];
    width = input[2];

    t6963c_reset(registers, sizeof registers);
    number = t6963c_run_stopping(columns, lines, width, T6963C_SINGLE, registers, sizeof registers, memory, sizeof memory,
                                 rom, sizeof rom, input + 3, (unsigned long)length - 3, LOG_MAX, answers, sizeof answers,
                                 counts, T6963C_STOPPING_COUNTS_SIZE);
    if (number == T6963C_NOT_VALID || number == T6963C_ODD_LOG) {
        fprintf(stderr, "show: refused: %d\n", number);
        return 1;
    }
    for (answer = 0; answer < counts[T6963C_ANSWERS]; answer++) printf("%02X\n", answers[answer]);
    if (t6963c_paint(columns, lines, width, T6963C_SINGLE, registers, sizeof registers, memory, sizeof memory, rom, sizeof rom,
                     frame, T6963C_FRAME_SIZE(columns, lines, width)) != T6963C_DONE) {
        return 2;
    }
    row_size = T6963C_ROW_SIZE(columns, width);
    for (row = 0; row < 8 * lines; row++) {
        for (x = 0; x < columns * width; x++) putchar((frame[row * row_size + x / 8] >> (7 - x % 8)) & 1 ? '#' : '.');
        putchar('\n');
    }
    if (number != T6963C_DONE) fprintf(stderr, "show: refused: %d, pair %lu\n", number, counts[T6963C_PLACE]);
    if (fflush(stdout) != 0) return 2;
    return number != T6963C_DONE;
}
