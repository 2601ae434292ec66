/* The log program's input, read and run, and its first line; shared by log.c and xbm.c. */
#ifndef LOG_INPUT_H
#define LOG_INPUT_H

#include <stdio.h>

#include "second.h"

#define PANEL_BYTES 3
#define LOG_LIMIT 16384
#define ANSWER_ROOM 8192
#define FRAME_ROOM 20480 /* 8 * 32 * 80, the largest frame */

/* A machine at reset with memory zero, after all of the input's log up to its end or first refusal. */
static struct {
    struct second_panel panel;
    struct second_run_reply reply;
    unsigned char answers[ANSWER_ROOM];
    unsigned char frame[FRAME_ROOM]; /* painted but for refusals 1 and 8 */
} after;

static int frame_stands(void)
{
    return after.reply.number != 1 && after.reply.number != 8;
}

/* 1, or 0 if standard input cannot be read. The input itself knows single scan only. */
static int run_input(unsigned dual)
{
    static unsigned char input[PANEL_BYTES + LOG_LIMIT]; /* zero: a missing panel byte counts as 0 */
    static unsigned char memory[SECOND_MEMORY_LENGTH];
    static unsigned char rom[SECOND_ROM_LENGTH];
    struct second_registers registers;
    unsigned code, v;
    unsigned long log_length = 0;
    size_t length = fread(input, 1, sizeof input, stdin);
    if (ferror(stdin)) return 0;
    if (length > PANEL_BYTES) log_length = (unsigned long)(length - PANEL_BYTES);
    after.panel.columns = input[0];
    after.panel.lines = input[1];
    after.panel.width = input[2];
    after.panel.dual = dual;
    for (code = 0; code < 128; code++) {
        for (v = 0; v < 8; v++) rom[8 * code + v] = (unsigned char)((code + v) % 256);
    }
    second_reset(&registers);
    after.reply = second_run_stopping(&after.panel, &registers, memory, SECOND_MEMORY_LENGTH, rom, SECOND_ROM_LENGTH,
                             input + PANEL_BYTES, log_length, log_length / 2, after.answers, ANSWER_ROOM);
    if (frame_stands()) {
        second_frame(&after.panel, &registers, memory, SECOND_MEMORY_LENGTH, rom, SECOND_ROM_LENGTH,
                     after.frame, second_frame_length(&after.panel));
    }
    return 1;
}

static void print_first_line(void)
{
    printf("pairs %lu answers %lu refusal %u place %lu\n",
           after.reply.taken, after.reply.answers, after.reply.number, after.reply.place);
}

#endif
