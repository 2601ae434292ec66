/* lift: write's input with a book of form two in; the proved program's out, every identity and the one asked for 256 higher. Their order is
   the same, so that a screen gets the same answer, and no screen's number asks for it. An identity that can't rise keeps all as they are. */
#include <stdio.h>

#include "screens.h"

#define HEAD 4

int main(void)
{
    static unsigned char input[HEAD + SECOND_BOOK_LIMIT + 1];
    size_t length = fread(input, 1, sizeof input, stdin), at, end = HEAD + 2;
    unsigned char high = 1;
    if (ferror(stdin)) return 1;
    /* A book too short for its contents has none to lift. */
    if (length < HEAD + 2 || input[HEAD] != 0) high = 0;
    else if (input[HEAD + 1] <= SECOND_MOST_SCREENS && HEAD + 2 + 6 * (size_t)input[HEAD + 1] <= length) {
        end = HEAD + 2 + 6 * (size_t)input[HEAD + 1];
    }
    for (at = HEAD + 2; at < end; at += 6) {
        if (input[at + 1] == 255) high = 0;
    }
    for (at = HEAD + 2; at < end; at += 6) input[at + 1] = (unsigned char)(input[at + 1] + high);
    if (length < HEAD) return fwrite(input, 1, length, stdout) != length || fflush(stdout) != 0;
    if (fwrite(input, 1, HEAD, stdout) != HEAD || fwrite(&high, 1, 1, stdout) != 1
        || fwrite(input + HEAD, 1, length - HEAD, stdout) != length - HEAD || fflush(stdout) != 0) return 1;
    return 0;
}
