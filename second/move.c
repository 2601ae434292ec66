/* move: a direction (0 down, else up), C, L, w and a book in; the book in the other form out, or its refusal on standard error. With an
   argument the panel is in two halves. */
#include <stdio.h>

#include "moves.h"
#include "screens.h"

#define HEAD 4

int main(int argc, char **argv)
{
    /* Zero: a missing byte counts as 0. One byte past the limit shows that a book is too long. */
    static unsigned char input[HEAD + SECOND_BOOK_LIMIT + 1], output[SECOND_BOOK_LIMIT];
    struct second_panel panel;
    struct second_move_reply reply;
    unsigned long book_length = 0;
    size_t length = fread(input, 1, sizeof input, stdin);

    if (ferror(stdin)) {
        fputs("move: standard input cannot be read\n", stderr);
        return 1;
    }
    if (length > HEAD) book_length = (unsigned long)(length - HEAD);
    panel.columns = input[1];
    panel.lines = input[2];
    panel.width = input[3];
    panel.dual = argc > 1;
    (void)argv;
    if (input[0] == 0) reply = second_move_down(input + HEAD, book_length, output, sizeof output);
    else reply = second_move_up(&panel, input + HEAD, book_length, output, sizeof output);
    if (reply.number != 0) {
        fprintf(stderr, "refusal %u place %lu\n", reply.number, reply.place);
        return 0;
    }
    if (fwrite(output, 1, reply.length, stdout) != reply.length || fflush(stdout) != 0) {
        fputs("move: standard output cannot be written\n", stderr);
        return 1;
    }
    return 0;
}
