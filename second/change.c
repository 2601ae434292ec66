/* change [dual]: C, L, w, the keys of screens A and B (low byte first) and a book on standard input; the pairs of the short
   stream from A to B on standard output, or its refusal on standard error. */
#include <stdio.h>
#include <string.h>

#include "difference.h"

#define HEAD 7UL
#define MOST 120326UL /* 24,064 bytes of the planes, five pairs each, and six */

static unsigned char input[HEAD + SECOND_BOOK_LIMIT + 1], room[2 * MOST];

static unsigned long word(const unsigned char *at)
{
    return at[0] + 256UL * at[1];
}

int main(int argc, char **argv)
{
    struct second_panel panel;
    struct second_write_reply reply;
    unsigned long length = fread(input, 1, sizeof input, stdin);
    panel.columns = input[0];
    panel.lines = input[1];
    panel.width = input[2];
    panel.dual = argc == 2 && strcmp(argv[1], "dual") == 0;
    length = length < HEAD ? 0 : length - HEAD;
    reply = second_write_difference(&panel, input + HEAD, length, word(input + 3), word(input + 5), room, sizeof room);
    if (reply.number != 0) fprintf(stderr, "refusal %u place %lu\n", reply.number, reply.place);
    else fwrite(room, 1, 2 * reply.pairs, stdout);
    return 0;
}
