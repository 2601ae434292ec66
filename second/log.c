/* The log program of document 01: raw bytes in, first line, answers and frame out. */
#include <stdio.h>

#include "dots.h"
#include "log_input.h"
#include "second.h"

int main(void)
{
    unsigned long answer;
    if (!run_input(0)) {
        fputs("log: standard input cannot be read\n", stderr);
        return 1;
    }
    print_first_line();
    if (frame_stands()) {
        for (answer = 0; answer < after.reply.answers; answer++) printf("%02X\n", after.answers[answer]);
        print_dots(&after.panel, after.frame);
    }
    if (fflush(stdout) != 0 || ferror(stdout)) {
        fputs("log: standard output cannot be written\n", stderr);
        return 1;
    }
    return 0;
}
