/* tear SEED: C, L, w and a book in; the same out with a byte in four hundred behind the contents changed, at least one. */
#include <stdio.h>
#include <stdlib.h>

#include "screens.h"

#define HEAD 3

int main(int argc, char **argv)
{
    static unsigned char input[HEAD + SECOND_BOOK_LIMIT + 1];
    size_t length = fread(input, 1, sizeof input, stdin), from = HEAD, changes;
    unsigned long long word = 1 + (argc == 2 ? strtoull(argv[1], NULL, 10) : 0);
    if (ferror(stdin)) return 1;
    if (length > HEAD + 1) {
        if (input[HEAD] == 0) from = HEAD + 2 + 6 * (size_t)input[HEAD + 1];
        else from = HEAD + 1 + 4 * (size_t)input[HEAD];
    }
    if (from < length) {
        for (changes = 1 + (length - from) / 400; changes > 0; changes--) {
            word = word * 6364136223846793005ULL + 1442695040888963407ULL;
            input[from + (size_t)(word >> 33) % (length - from)] = (unsigned char)(word >> 56);
        }
    }
    return fwrite(input, 1, length, stdout) != length || fflush(stdout) != 0;
}
