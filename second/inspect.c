/* inspect [dual]: C, L, w, the log's length (three bytes, low byte first), a recorded log and its answers in; its refusal, or what is
   named, out. The controller starts from reset, memory zero. With an argument the panel is in two halves. */
#include <stdio.h>

#include "asking.h"

#define HEAD 6UL

static unsigned char input[3145734], memory[SECOND_MEMORY_LENGTH], rom[SECOND_ROM_LENGTH];

static void print_named(const char *word, unsigned named, unsigned long which)
{
    if (named) printf("%s %lu\n", word, which);
    else printf("%s none\n", word);
}

int main(int argc, char **argv)
{
    struct second_panel panel;
    struct second_registers registers;
    struct second_check_reply reply;
    unsigned long length = fread(input, 1, sizeof input, stdin), bytes = input[3] + 256UL * input[4] + 65536UL * input[5];
    unsigned code, v;
    panel.columns = input[0];
    panel.lines = input[1];
    panel.width = input[2];
    panel.dual = argc > 1;
    (void)argv;
    length = length < HEAD ? 0 : length - HEAD;
    if (bytes > length) bytes = length;
    for (code = 0; code < 128; code++) {
        for (v = 0; v < 8; v++) rom[8 * code + v] = (unsigned char)((code + v) % 256);
    }
    second_reset(&registers);
    reply = second_check_log(&panel, &registers, memory, SECOND_MEMORY_LENGTH, rom, SECOND_ROM_LENGTH, input + HEAD, bytes,
                             input + HEAD + bytes, length - bytes);
    printf("refusal %u place %lu\n", reply.number, reply.place);
    if (reply.number == 0) {
        print_named("unasked", reply.unasked_named, reply.unasked);
        print_named("wrong", reply.differing_named, reply.differing);
        puts(reply.unasked_named || reply.differing_named ? "fails" : "passes");
    }
    return 0;
}
