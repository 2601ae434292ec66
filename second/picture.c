/* picture: C, L, w, a screen's number, the phase and a book in; number, place and the screen's dots out. With an argument the panel is
   in two halves. */
#include <stdio.h>

#include "dots.h"
#include "screens.h"

#define HEAD 5
#define GRAPHIC_ROOM 20480 /* 80 * 8 * 32 bytes, the largest graphic plane */
#define TEXT_ROOM 2560     /* 80 * 32 codes, the largest text plane */
#define FRAME_ROOM 20480   /* 8 * 32 * 80 bytes, the largest frame */

int main(int argc, char **argv)
{
    /* Zero: a missing byte counts as 0. One byte past the limit shows that a book is too long. */
    static unsigned char input[HEAD + SECOND_BOOK_LIMIT + 1];
    static unsigned char rom[SECOND_ROM_LENGTH];
    static unsigned char graphic[GRAPHIC_ROOM], text[TEXT_ROOM], glyphs[SECOND_GLYPHS_LENGTH];
    static unsigned char frame[FRAME_ROOM];
    struct second_panel panel;
    struct second_picture_reply reply;
    unsigned code, v;
    unsigned long book_length = 0;
    size_t length = fread(input, 1, sizeof input, stdin);

    if (ferror(stdin)) {
        fputs("picture: standard input cannot be read\n", stderr);
        return 1;
    }
    if (length > HEAD) book_length = (unsigned long)(length - HEAD);
    panel.columns = input[0];
    panel.lines = input[1];
    panel.width = input[2];
    panel.dual = argc > 1;
    (void)argv;
    for (code = 0; code < 128; code++) {
        for (v = 0; v < 8; v++) rom[8 * code + v] = (unsigned char)((code + v) % 256);
    }

    reply = second_picture(&panel, input + HEAD, book_length, input[3], rom, SECOND_ROM_LENGTH, input[4],
                           graphic, second_graphic_length(&panel), text, second_text_length(&panel),
                           glyphs, SECOND_GLYPHS_LENGTH, frame, second_frame_length(&panel));
    printf("refusal %u place %lu\n", reply.number, reply.place);
    if (reply.number == 0) print_dots(&panel, frame);
    if (fflush(stdout) != 0 || ferror(stdout)) {
        fputs("picture: standard output cannot be written\n", stderr);
        return 1;
    }
    return 0;
}
