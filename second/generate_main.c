/* generate [dual] [log|write|normal|off|write-two|normal-two|off-two] SEED: the input of that seed for a program, on standard output. */
#include <errno.h>
#include <stdio.h>
#include <stdlib.h>
#include <string.h>

#include "generate.h"
#include "generate_book.h"

static int usage(void)
{
    fputs("usage: generate [dual] [log|write|normal|off|write-two|normal-two|off-two] SEED\n"
          "  (a number from 0 to 18446744073709551615): an input for log, for write, or for picture in phase normal or\n"
          "  off, with -two of a book in form two; for log if none is named; with dual for a panel in two halves, of\n"
          "  which the program must be told\n", stderr);
    return 2;
}

/* The input for write becomes that for picture: the phase stands after a screen's number. */
static unsigned long insert_phase(unsigned char *buffer, unsigned long length, unsigned char phase)
{
    if (length < GENERATE_BOOK_HEAD) return length;
    memmove(buffer + GENERATE_BOOK_HEAD + 1, buffer + GENERATE_BOOK_HEAD, length - GENERATE_BOOK_HEAD);
    buffer[GENERATE_BOOK_HEAD] = phase;
    return length + 1;
}

int main(int argc, char **argv)
{
    static unsigned char buffer[GENERATE_BOOK_ROOM + 1]; /* the phase too; a log needs less */
    const char *kind = "log", *number;
    unsigned long (*make_log)(unsigned long long seed, unsigned char *buffer) = generate_input;
    unsigned long long seed;
    unsigned long length;
    unsigned dual = 0;
    char *end;
    if (argc > 1 && strcmp(argv[1], "dual") == 0) {
        make_log = generate_dual_input;
        dual = 1;
        argc--;
        argv++;
    }
    if (argc != 2 && argc != 3) return usage();
    if (argc == 3) kind = argv[1];
    number = argv[argc - 1];
    if (number[0] < '0' || number[0] > '9') return usage();
    errno = 0;
    seed = strtoull(number, &end, 10);
    if (errno != 0 || *end != '\0') {
        fprintf(stderr, "generate: %s is no seed from 0 to 18446744073709551615\n", number);
        return 2;
    }
    if (strcmp(kind, "log") == 0) {
        length = make_log(seed, buffer);
    } else {
        const char *two = strstr(kind, "-two");
        unsigned form = two != NULL && strcmp(two, "-two") == 0 ? 2 : 1;
        size_t name = form == 2 ? (size_t)(two - kind) : strlen(kind);
        length = generate_book_for(seed, dual, form, buffer).length;
        if (name == 6 && strncmp(kind, "normal", 6) == 0) length = insert_phase(buffer, length, 1);
        else if (name == 3 && strncmp(kind, "off", 3) == 0) length = insert_phase(buffer, length, 0);
        else if (name != 5 || strncmp(kind, "write", 5) != 0) return usage();
    }
    if (fwrite(buffer, 1, length, stdout) != length || fflush(stdout) != 0) {
        fputs("generate: standard output cannot be written\n", stderr);
        return 1;
    }
    return 0;
}
