/* fast.c beside second.c: logs and frames from random states and memories, on dual panels half of the time, everything compared; one
   line per kind, ok or not ok. */
#include <stdio.h>
#include <string.h>

#include "fast.h"
#include "generate.h"
#include "second.h"
#include "states.h"

enum { PAIRS = 140000, ANSWERS = 300, FRAME = 8 * 32 * 80, GUARD = 64 };

/* One side's buffers. */
struct side {
    struct second_registers registers;
    unsigned char memory[SECOND_MEMORY_LENGTH], answers[ANSWERS], frame[FRAME + GUARD];
    struct second_run_reply reply;
};

static struct side second, fast;
static struct second_panel panel;
static struct generate_random generator;
static unsigned char rom[SECOND_ROM_LENGTH], pairs[2 * PAIRS];
static unsigned long length; /* of the log in pairs */

static void fill(unsigned char *bytes, unsigned long count)
{
    for (unsigned long i = 0; i < count; i++)
        bytes[i] = (unsigned char)generate_next(&generator);
}

/* Both sides get the same random state and buffers. */
static void begin(void)
{
    memset(&second, 0, sizeof second);
    random_state(&generator, &panel, &second.registers);
    fill(second.memory, sizeof second.memory), fill(second.answers, ANSWERS), fill(second.frame, sizeof second.frame);
    fast = second;
}

static int same_frames(void)
{
    const unsigned long bytes = second_frame_length(&panel);
    second_frame(&panel, &second.registers, second.memory, SECOND_MEMORY_LENGTH, rom, SECOND_ROM_LENGTH, second.frame, bytes);
    fast_frame(&panel, &fast.registers, fast.memory, rom, fast.frame);
    return memcmp(&second, &fast, sizeof second) == 0;
}

/* The log in two parts, the second where the first stopped by number; the frame after them. */
static int same_runs(void)
{
    const unsigned long room = below(&generator, 3) ? ANSWERS : below(&generator, ANSWERS + 1);
    unsigned long at = 0, given = 0, limit = below(&generator, (unsigned)length + 2);
    begin();
    for (unsigned part = 0; part < 2; part++, limit = ~0UL) {
        second.reply = second_run_stopping(&panel, &second.registers, second.memory, SECOND_MEMORY_LENGTH, rom, SECOND_ROM_LENGTH, pairs + 2 * at,
                                  2 * (length - at), limit, second.answers + given, room - given);
        fast.reply = fast_run(&panel, &fast.registers, fast.memory, rom, pairs + 2 * at, 2 * (length - at), limit, fast.answers + given,
                              room - given);
        if (second.reply.number != fast.reply.number || second.reply.place != fast.reply.place ||
            second.reply.taken != fast.reply.taken || second.reply.answers != fast.reply.answers)
            return 0;
        fast.reply = second.reply; /* spare bytes in it may differ */
        if (memcmp(&second, &fast, sizeof second) != 0)
            return 0;
        if (second.reply.number)
            break;
        at += second.reply.taken, given += second.reply.answers;
    }
    return same_frames();
}

static void random_lines(void)
{
    panel.dual = below(&generator, 2);
    panel.lines = (1 + panel.dual) * (1 + below(&generator, 16));
}

static void random_panel(void)
{
    panel.columns = 1 + below(&generator, 80), panel.width = below(&generator, 2) ? 6 : 8;
    random_lines();
}

static void put(unsigned kind, unsigned byte)
{
    pairs[2 * length] = (unsigned char)kind, pairs[2 * length + 1] = (unsigned char)byte, length++;
}

/* A log of the generator's. */
static int general(unsigned seed)
{
    static unsigned char input[GENERATE_ROOM];
    unsigned long bytes;
    random_panel();
    bytes = panel.dual ? generate_dual_input(seed, input) : generate_input(seed, input);
    length = bytes > 3 ? (bytes - 3) / 2 : 0;
    memcpy(pairs, input + 3, 2 * length);
    return same_runs();
}

/* Every code, after none to two data, in auto write and in auto read. */
static int codes(unsigned seed)
{
    const unsigned before = seed / 256;
    random_panel();
    length = 0;
    put(SECOND_COMMAND, 0xb2);
    for (unsigned i = 0; i < before && before < 3; i++)
        put(SECOND_DATA_WRITE, below(&generator, 256));
    if (before > 2)
        put(SECOND_COMMAND, before == 3 ? 0xb0 : 0xb1);
    put(SECOND_COMMAND, seed % 256);
    return same_runs();
}

/* Short logs of few codes, in which every sequence of them comes, and every one is cut somewhere by the limit. */
static int sequences(unsigned seed)
{
    static const unsigned char common[] = {0x24, 0x24, 0x24, 0xc0, 0xc0, 0xc0, 0xb0, 0xb1, 0xb2, 0xb2, 0xc1, 0xe0, 0xe8, 0x40};
    random_panel();
    for (length = 0; length < seed % 60;)
        if (below(&generator, 5) < 3)
            put(below(&generator, 8) ? SECOND_DATA_WRITE : below(&generator, 6), below(&generator, 256));
        else
            put(SECOND_COMMAND, common[below(&generator, sizeof common)]);
    return same_runs();
}

/* A block of so many data from near the pointer's wrap, in some another kind among them, and more after it. */
static int block(unsigned long data)
{
    const unsigned long other = below(&generator, 2) ? below(&generator, (unsigned)data + 1) : data;
    random_panel();
    length = 0;
    put(SECOND_COMMAND, 0xb2), put(SECOND_DATA_WRITE, below(&generator, 256)), put(SECOND_DATA_WRITE, 0xff), put(SECOND_COMMAND, 0x24);
    put(SECOND_COMMAND, 0xb0);
    for (unsigned long i = 0; i < data; i++) {
        if (i == other)
            put(below(&generator, 6), 0xb2);
        put(SECOND_DATA_WRITE, below(&generator, 256));
    }
    put(SECOND_COMMAND, 0xb2), put(SECOND_COMMAND, 0xb1);
    for (unsigned i = 0; i < 20; i++)
        put(SECOND_DATA_READ, 0);
    return same_runs();
}

static int short_block(unsigned seed) { return block(seed % 300); }

static int long_block(unsigned seed) { return block(65500 + seed * 700UL); }

/* Every number of columns at both widths. */
static int frame(unsigned seed)
{
    panel.columns = 1 + seed % 80, panel.width = seed / 80 % 2 ? 6 : 8;
    random_lines();
    begin();
    return same_frames();
}

static int holds(const char *what, int (*test)(unsigned seed), unsigned count)
{
    for (unsigned seed = 0; seed < count; seed++)
        if (!test(seed)) {
            printf("not ok fast, %s: number %u differs\n", what, seed);
            return 0;
        }
    printf("ok fast, %s: %u\n", what, count);
    return 1;
}

int main(void)
{
    generator.word = 1;
    fill(rom, sizeof rom);
    int good = holds("logs", general, 400);
    good &= holds("codes", codes, 5 * 256);
    good &= holds("sequences", sequences, 3000);
    good &= holds("blocks", short_block, 900);
    good &= holds("blocks longer than the memory", long_block, 100);
    good &= holds("frames", frame, 1600);
    return !good;
}
