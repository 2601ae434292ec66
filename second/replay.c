/* The replay program: a character ROM and a log of any length in; answers, the run's line and the frame out. With an argument the panel
   is in two halves. */
#include <stdio.h>
#include <stdlib.h>

#include "dots.h"
#include "second.h"

#define PANEL_BYTES 3UL
#define FRAME_ROOM 20480 /* 8 * 32 * 80, the largest frame */

/* All of standard input behind what was read, with its length; NULL where it can't be read or held. */
static unsigned char *rest(unsigned long *length)
{
    unsigned long room = 65536;
    unsigned char *bytes = malloc(room);

    *length = 0;
    while (bytes != NULL) {
        *length += (unsigned long)fread(bytes + *length, 1, room - *length, stdin);
        if (*length < room) return ferror(stdin) ? NULL : bytes;
        room *= 2;
        bytes = realloc(bytes, room);
    }
    return NULL;
}

int main(int argc, char **argv)
{
    static unsigned char memory[SECOND_MEMORY_LENGTH];
    static unsigned char rom[SECOND_ROM_LENGTH];
    static unsigned char frame[FRAME_ROOM];
    struct second_panel panel;
    struct second_registers registers;
    struct second_run_reply reply;
    unsigned char *input, *answers;
    unsigned long *list;
    unsigned long length, log_length, answer, entry;

    if (fread(rom, 1, sizeof rom, stdin) != sizeof rom || (input = rest(&length)) == NULL) {
        fputs("replay: standard input cannot be read\n", stderr);
        return 1;
    }
    log_length = length > PANEL_BYTES ? length - PANEL_BYTES : 0;
    answers = malloc(log_length / 2 + 1);
    list = malloc((log_length + 1) * sizeof *list);
    if (answers == NULL || list == NULL) {
        fputs("replay: no memory for the answers and the list\n", stderr);
        return 1;
    }
    panel.columns = length > 0 ? input[0] : 0;
    panel.lines = length > 1 ? input[1] : 0;
    panel.width = length > 2 ? input[2] : 0;
    panel.dual = argc == 2 || argc == 4; /* `dual`, `keep going`, or both */
    (void)argv;
    second_reset(&registers);

    reply = argc > 2 ? second_run(&panel, &registers, memory, SECOND_MEMORY_LENGTH, rom, SECOND_ROM_LENGTH,
                                  input + PANEL_BYTES, log_length, log_length / 2, answers, log_length / 2, list, log_length)
                     : second_run_stopping(&panel, &registers, memory, SECOND_MEMORY_LENGTH, rom, SECOND_ROM_LENGTH,
                                           input + PANEL_BYTES, log_length, log_length / 2, answers, log_length / 2);
    for (answer = 0; answer < reply.answers; answer++) printf("%02X\n", answers[answer]);
    for (entry = 0; argc > 2 && entry < reply.skipped; entry++) printf("refusal %lu place %lu\n", list[2 * entry], list[2 * entry + 1]);
    printf("pairs %lu answers %lu refusal %u place %lu\n", reply.taken, reply.answers, reply.number, reply.place);
    if (reply.number != 1 && reply.number != 8) {
        second_frame(&panel, &registers, memory, SECOND_MEMORY_LENGTH, rom, SECOND_ROM_LENGTH,
                     frame, second_frame_length(&panel));
        print_dots(&panel, frame);
    }
    if (fflush(stdout) != 0 || ferror(stdout)) {
        fputs("replay: standard output cannot be written\n", stderr);
        return 1;
    }
    return 0;
}
