/* The layers program: C, L, w, row, column, log in; the log program's first line, then text, graphic and what comes of them out. Column
   255 asks for every row of the frame. With an argument the panel is in two halves. */
#include <stdio.h>

#include "second.h"

#define HEAD_BYTES 5
#define LOG_LIMIT 16384
#define ANSWER_ROOM 8192
#define WHOLE 255

static unsigned char memory[SECOND_MEMORY_LENGTH], rom[SECOND_ROM_LENGTH];
static struct second_panel panel;
static struct second_registers registers;

static void print_cell(unsigned row, unsigned column, unsigned layer)
{
    const struct second_layers cell = second_show_layers(&panel, &registers, memory, SECOND_MEMORY_LENGTH, rom,
                                                         SECOND_ROM_LENGTH, row, column).layers;
    const unsigned byte = layer == 0 ? cell.text : layer == 1 ? cell.graphic : cell.displayed;
    unsigned bit;
    for (bit = panel.width; bit > 0; bit--) putchar((byte >> (bit - 1)) & 1 ? '#' : '.');
}

int main(int argc, char **argv)
{
    static const char *const names[] = {"text", "graphic", "shown"};
    static unsigned char input[HEAD_BYTES + LOG_LIMIT], answers[ANSWER_ROOM]; /* zero: a missing byte counts as 0 */
    struct second_run_reply reply;
    unsigned code, v, layer, row, column;
    const size_t length = fread(input, 1, sizeof input, stdin);
    const unsigned long log_length = length > HEAD_BYTES ? (unsigned long)(length - HEAD_BYTES) : 0;

    panel.columns = input[0];
    panel.lines = input[1];
    panel.width = input[2];
    panel.dual = argc > 1;
    (void)argv;
    for (code = 0; code < 128; code++) {
        for (v = 0; v < 8; v++) rom[8 * code + v] = (unsigned char)((code + v) % 256);
    }
    second_reset(&registers);
    reply = second_run_stopping(&panel, &registers, memory, SECOND_MEMORY_LENGTH, rom, SECOND_ROM_LENGTH, input + HEAD_BYTES, log_length,
                       log_length / 2, answers, ANSWER_ROOM);
    printf("pairs %lu answers %lu refusal %u place %lu\n", reply.taken, reply.answers, reply.number, reply.place);
    for (layer = 0; layer < 3 && reply.number != 1 && reply.number != 8; layer++) {
        if (input[4] != WHOLE) {
            printf("%s ", names[layer]);
            print_cell(input[3], input[4], layer);
            putchar('\n');
            continue;
        }
        printf("%s\n", names[layer]);
        for (row = 0; row < 8 * panel.lines; row++) {
            for (column = 0; column < panel.columns; column++) print_cell(row, column, layer);
            putchar('\n');
        }
    }
    if (ferror(stdin) || fflush(stdout) != 0 || ferror(stdout)) {
        fputs("layers: standard input cannot be read, or standard output not written\n", stderr);
        return 1;
    }
    return 0;
}
