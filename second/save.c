/* save: C, L, w and a book in; the saved book out, and on standard error the bytes kept and dropped of each screen, or the refusal. With an
   argument the panel is in two halves. */
#include <stdio.h>

#include "saving.h"

#define HEAD 3

int main(int argc, char **argv)
{
    /* Zero: a missing byte counts as 0. One byte past the limit shows that a book is too long. */
    static unsigned char input[HEAD + SECOND_BOOK_LIMIT + 1], output[SECOND_BOOK_LIMIT];
    struct second_panel panel;
    struct second_book book;
    struct second_save_reply reply;
    unsigned long book_length = 0, place, index;
    size_t length = fread(input, 1, sizeof input, stdin);

    if (ferror(stdin)) {
        fputs("save: standard input cannot be read\n", stderr);
        return 1;
    }
    if (length > HEAD) book_length = (unsigned long)(length - HEAD);
    panel.columns = input[0];
    panel.lines = input[1];
    panel.width = input[2];
    panel.dual = argc > 1;
    (void)argv;
    reply = second_save_book(&panel, input + HEAD, book_length, output, sizeof output);
    if (reply.number != 0) {
        fprintf(stderr, "refusal %u place %lu\n", reply.number, reply.place);
        return 0;
    }
    if (fwrite(output, 1, reply.length, stdout) != reply.length || fflush(stdout) != 0) {
        fputs("save: standard output cannot be written\n", stderr);
        return 1;
    }
    second_book_open(input + HEAD, book_length, &book, &place);
    for (index = 0; index < reply.screens; index++) {
        fprintf(stderr, "screen %lu kept %lu dropped %lu\n", second_book_identity(&book, index), reply.kept[index],
                reply.dropped[index]);
    }
    return 0;
}
