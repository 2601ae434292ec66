/* write: C, L, w, a screen's number and a book in; the log program's input that shows the screen out. With an argument the panel is
   in two halves. Compiled with ASKING it is write_asking, whose stream has a status read before each pair. */
#include <stdio.h>
#include <stdlib.h>

#include "screens.h"

#ifdef ASKING
#define second_write second_write_asking
#endif

#define HEAD 4

int main(int argc, char **argv)
{
    /* Zero: a missing byte counts as 0. One byte past the limit shows that a book is too long. */
    static unsigned char input[HEAD + SECOND_BOOK_LIMIT + 1];
    struct second_panel panel;
    struct second_write_reply reply;
    unsigned char *room;
    unsigned long book_length = 0, room_length;
    size_t length = fread(input, 1, sizeof input, stdin);

    if (ferror(stdin)) {
        fputs("write: standard input cannot be read\n", stderr);
        return 1;
    }
    if (length > HEAD) book_length = (unsigned long)(length - HEAD);
    panel.columns = input[0];
    panel.lines = input[1];
    panel.width = input[2];
    panel.dual = argc > 1;
    (void)argv;

    /* No stream is empty: without room a screen is refused by 12, and its place says what room it needs. */
    reply = second_write(&panel, input + HEAD, book_length, input[3], NULL, 0);
    if (reply.number != 12) {
        fprintf(stderr, "refusal %u place %lu\n", reply.number, reply.place);
        return 0;
    }
    room_length = 2 * reply.place;
    room = malloc(room_length);
    if (room == NULL) {
        fprintf(stderr, "write: no memory for a stream of %lu bytes\n", room_length);
        return 1;
    }
    second_write(&panel, input + HEAD, book_length, input[3], room, room_length);
    if (fwrite(input, 1, 3, stdout) != 3 || fwrite(room, 1, room_length, stdout) != room_length
        || fflush(stdout) != 0) {
        fputs("write: standard output cannot be written\n", stderr);
        free(room);
        return 1;
    }
    free(room);
    return 0;
}
