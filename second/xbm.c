/* xbm: the log program's input in, its last frame as XBM out; after refusals 1 and 8 that program's first line. */
#include <stdio.h>

#include "log_input.h"
#include "mirror.h"
#include "second.h"

#define BYTES_A_LINE 12

/* The frame is in XBM's order. */
static void print_xbm(void)
{
    unsigned long length = second_frame_length(&after.panel), place;
    printf("#define frame_width %u\n", after.panel.columns * after.panel.width);
    printf("#define frame_height %u\n", 8 * after.panel.lines);
    printf("static unsigned char frame_bits[] = {\n");
    for (place = 0; place < length; place++) {
        if (place % BYTES_A_LINE == 0) printf("   ");
        printf("0x%02x", after.frame[place]);
        if (place == length - 1) printf(" };\n");
        else if (place % BYTES_A_LINE == BYTES_A_LINE - 1) printf(",\n");
        else printf(", ");
    }
}

int main(int count, char **words)
{
    (void)words;
    if (!run_input(count > 1)) {
        fputs("xbm: standard input cannot be read\n", stderr);
        return 1;
    }
    if (frame_stands()) {
        second_convert_frame(&after.panel, after.frame, second_frame_length(&after.panel));
        print_xbm();
    } else {
        print_first_line();
    }
    if (fflush(stdout) != 0 || ferror(stdout)) {
        fputs("xbm: standard output cannot be written\n", stderr);
        return 1;
    }
    return 0;
}
