/* The proved row flags against the second program's slow definition, in one process: random logs followed pair by pair from random states
   and memories, on dual panels half of the time, refused pairs included; registers, memory and flags compared after each pair, and now and
   then both sides refreshed, their frames compared with each other and with one painted afresh. Then the same log, with blocks of data put
   into it, as one proved run with flags, beside the second program's accesses. `compare_flags SEED PAIRS` goes on until it has compared that
   many pairs. */
#include "../include/bintarumpe.h"
#include "flags.h"
#include "generate.h"
#include "image.h"
#include "second.h"
#include "states.h"

int printf(const char *format, ...);
unsigned long long strtoull(const char *text, char **end, int base);
void *memcpy(void *to, const void *from, unsigned long count);
void *memset(void *to, int byte, unsigned long count);
int memcmp(const void *one, const void *other, unsigned long count);

enum { FRAME = 8 * 32 * 80, ROWS = 8 * 32, LOG = 600, RUN = 200000 };

/* One side's buffers. */
struct side {
    unsigned char memory[SECOND_MEMORY_LENGTH];
    unsigned char registers[REGISTERS];
    unsigned char flags[ROWS + 1];
    unsigned char frame[FRAME];
};

static struct side proved, second;
static struct second_panel panel;
static unsigned char rom[SECOND_ROM_LENGTH], afresh[FRAME], input[GENERATE_ROOM];
static unsigned long frame_length, flags_length;

static unsigned follow_second(unsigned char kind, unsigned char byte)
{
    struct second_registers r;
    struct second_reply reply;
    from_bytes(second.registers, &r);
    reply = second_access_flagged(&panel, &r, second.memory, sizeof second.memory, rom, sizeof rom, second.flags, flags_length, kind, byte);
    to_bytes(&r, second.registers);
    return reply.number | (unsigned)reply.read << 8;
}

/* Both sides, a pair; 0 where they differ. */
static int follow(unsigned char kind, unsigned char byte)
{
    const unsigned one = t6963c_follow(panel.columns, panel.lines, panel.width, (unsigned char)panel.dual, proved.registers, REGISTERS,
                                       proved.memory, sizeof proved.memory, rom, sizeof rom, kind, byte, proved.flags, flags_length);
    const unsigned other = follow_second(kind, byte);
    return one == other && !memcmp(proved.registers, second.registers, REGISTERS) && !memcmp(proved.flags, second.flags, flags_length) &&
           !memcmp(proved.memory, second.memory, sizeof second.memory);
}

/* Both sides refreshed, and a frame painted afresh. */
static int refresh(void)
{
    struct second_registers r;
    from_bytes(second.registers, &r);
    const unsigned one = t6963c_refresh(panel.columns, panel.lines, panel.width, (unsigned char)panel.dual, proved.registers, REGISTERS,
                                        proved.memory, sizeof proved.memory, rom, sizeof rom, proved.frame, frame_length, proved.flags,
                                        flags_length);
    const unsigned other = second_refresh(&panel, &r, second.memory, sizeof second.memory, rom, sizeof rom, second.flags, flags_length,
                                          second.frame, frame_length);
    if (one != other || memcmp(proved.frame, second.frame, frame_length) || memcmp(proved.flags, second.flags, flags_length))
        return 0;
    return one || (second_frame(&panel, &r, second.memory, sizeof second.memory, rom, sizeof rom, afresh, frame_length) == 0 &&
                   !memcmp(afresh, proved.frame, frame_length));
}

static unsigned char log_bytes[2 * RUN], answers[RUN], other_answers[RUN];
static unsigned long skips[2 * RUN], other_skips[2 * RUN];

/* The log, with a block of data in auto write now and then: at most 300, or on a small panel more than a memory. */
static unsigned long lengthen(struct generate_random *random, unsigned long length)
{
    unsigned long count = 0;
    for (unsigned long i = 0; i < length && count + 80000 < RUN; i++) {
        log_bytes[2 * count] = input[3 + 2 * i], log_bytes[2 * count + 1] = input[4 + 2 * i], count++;
        if (below(random, 24))
            continue;
        const unsigned long data = panel.columns * panel.lines > 40 || below(random, 100) ? 1 + below(random, 300) : 65537 + below(random, 9000);
        log_bytes[2 * count] = 1, log_bytes[2 * count + 1] = 0xb0, count++;
        for (unsigned long k = 0; k < data; k++, count++)
            log_bytes[2 * count] = 0, log_bytes[2 * count + 1] = (unsigned char)generate_next(random);
        if (below(random, 3))
            log_bytes[2 * count] = 1, log_bytes[2 * count + 1] = 0xb2, count++;
    }
    return count;
}

/* The whole log as one proved run, and pair by pair by the second program; 0 where they differ. */
static int run(unsigned long count, unsigned long room)
{
    unsigned long counts[4] = {0, 0, 0, 0}, taken = 0, given = 0, listed = 0, place = 0;
    unsigned number = 0;
    for (; taken < count; taken++) {
        const unsigned kind = log_bytes[2 * taken];
        unsigned char before[REGISTERS];
        memcpy(before, second.registers, REGISTERS);
        const unsigned reply = follow_second((unsigned char)kind, log_bytes[2 * taken + 1]);
        if (reply % 256 == 1 || reply % 256 == 2) {
            number = reply % 256;
            break;
        }
        if (reply % 256)
            other_skips[2 * listed] = reply % 256, other_skips[2 * listed + 1] = taken, listed++;
        else if (kind == 2 || kind == 3) {
            if (given == room) {
                memcpy(second.registers, before, REGISTERS), number = 13, place = taken; /* a read flags no row */
                break;
            }
            other_answers[given++] = (unsigned char)(reply >> 8);
        }
    }
    const unsigned one = t6963c_follow_run(panel.columns, panel.lines, panel.width, (unsigned char)panel.dual, proved.registers, REGISTERS,
                                           proved.memory, sizeof proved.memory, rom, sizeof rom, log_bytes, 2 * count, count, answers, room,
                                           skips, 2 * RUN, counts, 4, proved.flags, flags_length);
    return one == number && counts[0] == place && counts[1] == taken && counts[2] == given && counts[3] == listed &&
           !memcmp(answers, other_answers, given) && !memcmp(skips, other_skips, 2 * listed * sizeof *skips) &&
           !memcmp(proved.registers, second.registers, REGISTERS) && !memcmp(proved.flags, second.flags, flags_length) &&
           !memcmp(proved.memory, second.memory, sizeof second.memory);
}

static void make(unsigned long long seed, unsigned long *length)
{
    struct generate_random random = {seed ^ 0xf1a6ULL};
    struct second_registers r;
    unsigned long all;
    panel.dual = below(&random, 2);
    all = panel.dual ? generate_dual_input(seed, input) : generate_input(seed, input);
    panel.columns = input[0], panel.lines = input[1], panel.width = input[2];
    *length = all > 3 ? (all - 3) / 2 : 0;
    if (*length > LOG)
        *length = LOG;
    for (unsigned long i = 0; i < SECOND_MEMORY_LENGTH; i += 8) {
        const unsigned long long word = generate_next(&random);
        memcpy(second.memory + i, &word, 8);
    }
    for (unsigned long i = 0; i < SECOND_ROM_LENGTH; i++)
        rom[i] = (unsigned char)generate_next(&random);
    random_state(&random, &panel, &r);
    /* often with a glyph, a text or a graphic byte at the pointer */
    switch (below(&random, 4)) {
    case 0: r.pointer = (2048 * r.offset + below(&random, 2048)) % 65536; break;
    case 1: r.pointer = (r.text_home + below(&random, 200)) % 65536; break;
    case 2: r.pointer = (r.graphic_home + below(&random, 200)) % 65536; break;
    default: break;
    }
    to_bytes(&r, second.registers);
    flags_length = 8UL * panel.lines + (below(&random, 30) == 0);
    if (flags_length > ROWS + 1)
        flags_length = ROWS;
    frame_length = 8UL * panel.lines * ((panel.columns * panel.width + 7UL) / 8);
    if (frame_length > FRAME)
        frame_length = FRAME;
    memset(second.flags, 1, sizeof second.flags);
    memset(second.frame, 0x5a, sizeof second.frame);
    proved = second;
}

/* The last line, as the other comparisons have it: a log is one. */
static int told(unsigned long long passed, unsigned failed)
{
    printf("%llu passed, %u failed\n", passed, failed);
    return failed != 0;
}

int main(int count, char **words)
{
    unsigned long long seed = count > 1 ? strtoull(words[1], 0, 10) : 1;
    const unsigned long long wanted = count > 2 ? strtoull(words[2], 0, 10) : 20000;
    unsigned long long pairs = 0, refreshes = 0, runs = 0, ran = 0;
    for (; pairs < wanted; seed++) {
        unsigned long length;
        struct generate_random random = {seed};
        make(seed, &length);
        for (unsigned long i = 0; i < length; i++, pairs++) {
            if (!follow(input[3 + 2 * i], input[4 + 2 * i])) {
                printf("seed %llu pair %lu: they differ\n", seed, i);
                return told(runs, 1);
            }
            if (below(&random, 8) == 0) {
                refreshes++;
                if (!refresh()) {
                    printf("seed %llu pair %lu: the frames or flags differ\n", seed, i);
                    return told(runs, 1);
                }
            }
        }
        make(seed, &length);
        if (below(&random, 4))
            memset(second.flags, 0, sizeof second.flags), proved = second;
        length = lengthen(&random, length);
        if (length && !run(length, below(&random, 8) ? RUN : below(&random, 20))) {
            printf("seed %llu: the runs differ\n", seed);
            return told(runs, 1);
        }
        runs++, ran += length;
    }
    printf("%llu pairs followed, %llu refreshes, %llu runs of %llu pairs, no difference\n", pairs, refreshes, runs, ran);
    return told(runs, 0);
}
