/* The list program: a character ROM and a log of any length in; a line for each pair out: place, kind, byte, number and words. With an
   argument the panel is in two halves. */
#include <stdio.h>

#include "second.h"

/* What a defined code sets or does, in words; `taken` where it was not refused, the registers those after it. */
static void print_command(unsigned code, const struct second_registers *registers, int taken)
{
    static const char *const combinations[] = {"OR", "EXOR", NULL, "AND", "attribute", NULL, NULL, NULL};
    static const char *const moves[] = {"+1", "+1", "-1", "-1", "stays", "stays"};
    const char *comma = "";

    if (code == 0x21) {
        printf("cursor");
        if (taken) printf(" = %u, %u", registers->cursor_x, registers->cursor_y);
    } else if (code == 0x22) {
        printf("offset");
        if (taken) printf(" = %u", registers->offset);
    } else if (code == 0x24) {
        printf("pointer");
        if (taken) printf(" = %04XH", registers->pointer);
    } else if (code == 0x40 || code == 0x42) {
        printf("%s home", code == 0x40 ? "text" : "graphic");
        if (taken) printf(" = %04XH", code == 0x40 ? registers->text_home : registers->graphic_home);
    } else if (code == 0x41 || code == 0x43) {
        printf("%s area", code == 0x41 ? "text" : "graphic");
        if (taken) printf(" = %u", code == 0x41 ? registers->text_area : registers->graphic_area);
    } else if (code >= 0x80 && code <= 0x8F && combinations[code & 7] != NULL) {
        printf("mode: %s%s", combinations[code & 7], code & 8 ? ", external" : "");
    } else if (code >= 0x90 && code <= 0x9F) {
        printf("display: ");
        if (code & 4) printf("text"), comma = ", ";
        if (code & 8) printf("%sgraphic", comma), comma = ", ";
        if (code & 2) printf("%scursor", comma), comma = ", ";
        if (code & 1) printf("%sblink", comma);
        if ((code & 15) == 0) printf("off");
    } else if (code >= 0xA0 && code <= 0xA7) {
        printf("cursor height %u", (code & 7) + 1);
    } else if (code >= 0xB0 && code <= 0xB2) {
        printf("auto %s", code == 0xB0 ? "write" : code == 0xB1 ? "read" : "off");
    } else if (code >= 0xC0 && code <= 0xC5) {
        printf("%s, pointer %s", code & 1 ? "load" : "store", moves[code & 7]);
    } else if (code == 0xE0 || code == 0xE8) {
        printf("%s", code == 0xE0 ? "peek" : "copy");
    } else if (code >= 0xF0) {
        printf("%s bit %u", code & 8 ? "set" : "reset", code & 7);
    } else {
        printf("undefined");
    }
}

int main(int argc, char **argv)
{
    static unsigned char memory[SECOND_MEMORY_LENGTH];
    static unsigned char rom[SECOND_ROM_LENGTH];
    struct second_panel panel;
    struct second_registers registers;
    unsigned char head[3] = {0, 0, 0};
    unsigned char pair[2];
    unsigned long place = 0;

    if (fread(rom, 1, sizeof rom, stdin) != sizeof rom) {
        fputs("list: standard input cannot be read\n", stderr);
        return 1;
    }
    (void)!fread(head, 1, sizeof head, stdin);
    panel.columns = head[0];
    panel.lines = head[1];
    panel.width = head[2];
    panel.dual = argc > 1;
    (void)argv;
    second_reset(&registers);
    while (second_panel_valid(&panel) && fread(pair, 1, 2, stdin) == 2) {
        struct second_reply reply = second_access(&panel, &registers, memory, SECOND_MEMORY_LENGTH, rom, SECOND_ROM_LENGTH,
                                                  pair[0], pair[1]);
        int taken = reply.number == 0;

        printf("%lu %u %02X %u ", place++, pair[0], pair[1], reply.number);
        switch (pair[0]) {
        case SECOND_DATA_WRITE: printf("data %02X", pair[1]); break;
        case SECOND_COMMAND:
            printf("command %02X ", pair[1]);
            print_command(pair[1], &registers, taken);
            break;
        case SECOND_DATA_READ: printf("data read"); break;
        case SECOND_STATUS_READ: printf("status"); break;
        case SECOND_TICK: printf("tick"); break;
        default: printf("kind %u", pair[0]);
        }
        if (taken && (pair[0] == SECOND_DATA_READ || pair[0] == SECOND_STATUS_READ)) printf(" -> %02X", reply.read);
        putchar('\n');
    }
    if (ferror(stdin) || fflush(stdout) != 0 || ferror(stdout)) {
        fputs("list: standard input or output failed\n", stderr);
        return 1;
    }
    return 0;
}
