/* two_logs: C, L, w, the length of log one (two bytes, low byte first), log one and log two in; what differs out. */
#include <stdio.h>

#include "two_logs.h"

#define HEAD 5
#define LIMIT 16384
#define PHASE 16
#define LIST_ROOM (3UL * (SECOND_MEMORY_LENGTH + SECOND_REGISTER_COUNT))

static unsigned long at_most(unsigned long n, unsigned long most)
{
    return n < most ? n : most;
}

/* The program counts phase normal as 1, as the bytes for C do; here it is 0. */
static unsigned long printed(unsigned long which, unsigned long value)
{
    return which == PHASE ? 1 - value : value;
}

int main(int argc, char **argv)
{
    static const char *const names[SECOND_REGISTER_COUNT] = {
        "cursor-x", "cursor-y", "offset", "pointer", "text-home", "graphic-home", "text-area", "graphic-area",
        "combination", "external", "display", "cursor-height", "auto", "pending", "latch", "error", "phase"
    };
    static unsigned char input[HEAD + 65535 + LIMIT]; /* zero: a missing byte counts as 0 */
    static unsigned char one[SECOND_MEMORY_LENGTH], two[SECOND_MEMORY_LENGTH], rom[SECOND_ROM_LENGTH];
    static unsigned long list[LIST_ROOM];
    struct second_panel panel;
    struct second_compare_reply reply;
    unsigned code, v;
    unsigned long length, first, behind, entry;
    (void)argv;

    length = (unsigned long)fread(input, 1, sizeof input, stdin);
    if (ferror(stdin)) {
        fputs("two_logs: standard input cannot be read\n", stderr);
        return 1;
    }
    length = length > HEAD ? length - HEAD : 0;
    panel.columns = input[0];
    panel.lines = input[1];
    panel.width = input[2];
    panel.dual = argc > 1;
    for (code = 0; code < 128; code++) {
        for (v = 0; v < 8; v++) rom[8 * code + v] = (unsigned char)((code + v) % 256);
    }
    first = at_most(input[3] + 256UL * input[4], length);
    behind = length - first;
    reply = second_compare(&panel, one, sizeof one, two, sizeof two, rom, sizeof rom, input + HEAD, at_most(first, LIMIT),
                           input + HEAD + first, at_most(behind, LIMIT), list, LIST_ROOM);
    printf("refusal %u place %lu log %u\n", reply.number, reply.place, reply.log);
    if (reply.number == 0) {
        for (entry = 0; entry < reply.addresses; entry++) {
            printf("memory %04lX %02lX %02lX\n", list[3 * entry], list[3 * entry + 1], list[3 * entry + 2]);
        }
        for (; entry < reply.addresses + reply.registers; entry++) {
            unsigned long which = list[3 * entry];
            printf("%s %lu %lu\n", names[which], printed(which, list[3 * entry + 1]), printed(which, list[3 * entry + 2]));
        }
        printf("dots %lu\n", reply.dots);
    }
    if (fflush(stdout) != 0 || ferror(stdout)) {
        fputs("two_logs: standard output cannot be written\n", stderr);
        return 1;
    }
    return 0;
}
