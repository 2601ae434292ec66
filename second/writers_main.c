/* writers: C, L, w, a first and a last address (two bytes each, low byte first) and a log of any length in; every store
   between them out. With an argument the panel is in two halves. */
#include <stdio.h>
#include <stdlib.h>

#include "writers.h"

#define HEAD 7UL

/* All of standard input, zero behind its length as far as the head; NULL where it can't be read or held. */
static unsigned char *whole_input(unsigned long *length)
{
    unsigned long room = 65536;
    unsigned char *bytes = calloc(room, 1);

    *length = 0;
    while (bytes != NULL) {
        *length += (unsigned long)fread(bytes + *length, 1, room - *length, stdin);
        if (*length < room) return ferror(stdin) ? NULL : bytes;
        room *= 2;
        bytes = realloc(bytes, room);
    }
    return NULL;
}

/* From reset and memory zero. */
static struct second_writers_reply writers(const struct second_panel *panel, const unsigned char *input,
                                           unsigned long log_length, unsigned long *list, unsigned long list_length)
{
    static unsigned char memory[SECOND_MEMORY_LENGTH], rom[SECOND_ROM_LENGTH];
    struct second_registers registers;
    unsigned long address;
    unsigned code, v;

    for (address = 0; address < SECOND_MEMORY_LENGTH; address++) memory[address] = 0;
    for (code = 0; code < 128; code++) {
        for (v = 0; v < 8; v++) rom[8 * code + v] = (unsigned char)((code + v) % 256);
    }
    second_reset(&registers);
    return second_writers(panel, &registers, memory, sizeof memory, rom, sizeof rom, input + HEAD, log_length,
                          input[3] + 256U * input[4], input[5] + 256U * input[6], list, list_length);
}

int main(int argc, char **argv)
{
    struct second_panel panel;
    struct second_writers_reply reply;
    unsigned char *input;
    unsigned long *list = NULL;
    unsigned long length, log_length, entry;
    (void)argv;

    input = whole_input(&length);
    if (input == NULL) {
        fputs("writers: standard input cannot be read\n", stderr);
        return 1;
    }
    log_length = length > HEAD ? length - HEAD : 0;
    panel.columns = input[0];
    panel.lines = input[1];
    panel.width = input[2];
    panel.dual = argc > 1;
    reply = writers(&panel, input, log_length, NULL, 0);
    if (reply.number == 15) { /* then it is lent what it needs */
        const unsigned long needed = SECOND_STORE_NUMBERS * reply.place;
        list = malloc(needed * sizeof *list);
        if (list == NULL) {
            fputs("writers: no memory for the list\n", stderr);
            free(input);
            return 1;
        }
        reply = writers(&panel, input, log_length, list, needed);
    }
    printf("refusal %u place %lu\n", reply.number, reply.place);
    for (entry = 0; entry < reply.stores; entry++) {
        const unsigned long *store = list + SECOND_STORE_NUMBERS * entry;
        printf("pair %lu address %04lX before %02lX after %02lX\n", store[0], store[1], store[2], store[3]);
    }
    printf("stores %lu\n", reply.stores);
    free(list);
    free(input);
    if (fflush(stdout) != 0 || ferror(stdout)) {
        fputs("writers: standard output cannot be written\n", stderr);
        return 1;
    }
    return 0;
}
