/* torn_logs SEEDS: random logs with many refused pairs, on both kinds of panel, run on with skipping in two parts, and
   one access after the other; one line per property, ok or not ok. */
#include <stdio.h>
#include <stdlib.h>
#include <string.h>

#include "generate.h"
#include "point.h"
#include "second.h"

#define UNTOUCHED 0xEEEEUL
#define ANSWERS 8192

static unsigned char input[GENERATE_ROOM];
static unsigned char rom[SECOND_ROM_LENGTH];
static unsigned char memory[SECOND_MEMORY_LENGTH], other[SECOND_MEMORY_LENGTH], saved[SECOND_MEMORY_LENGTH];
static unsigned char answers[ANSWERS], other_answers[ANSWERS];
static unsigned long list[2 * ANSWERS + 1], other_list[2 * ANSWERS + 1];
static struct second_panel panel;

static struct {
    unsigned long logs, numbers[17], skipped[8], dual;
    int parts_agree, nothing_changed;
} seen;

/* What a run is to do, pair by pair and word for word. */
static struct second_run_reply step_through(struct second_registers *registers, const unsigned char *log,
                                            unsigned long pairs, unsigned long answer_room, unsigned long list_room)
{
    struct second_run_reply reply = {0, 0, 0, 0, 0};
    for (; reply.taken < pairs; reply.taken++) {
        unsigned char kind = log[2 * reply.taken], byte = log[2 * reply.taken + 1];
        struct second_registers before = *registers;
        struct second_reply step;
        memcpy(saved, memory, sizeof memory);
        step = second_access(&panel, registers, memory, sizeof memory, rom, sizeof rom, kind, byte);
        if (step.number != 0) {
            if (memcmp(&before, registers, sizeof before) != 0 || memcmp(saved, memory, sizeof memory) != 0) {
                seen.nothing_changed = 0;
            }
            if (reply.skipped + 1 > list_room / 2) {
                reply.number = 16;
                reply.place = reply.taken;
                return reply;
            }
            list[2 * reply.skipped] = step.number;
            list[2 * reply.skipped + 1] = reply.taken;
            reply.skipped++;
            seen.skipped[step.number]++;
        } else if (kind == SECOND_DATA_READ || kind == SECOND_STATUS_READ) {
            if (reply.answers == answer_room) {
                *registers = before; /* a read changes no memory */
                reply.number = 13;
                reply.place = reply.taken;
                return reply;
            }
            answers[reply.answers++] = step.read;
        }
    }
    return reply;
}

/* Two runs, the second over the rest of log, answers and list; counts and places from the whole log's start. */
static struct second_run_reply run_in_parts(struct second_registers *registers, const unsigned char *log,
                                            unsigned long pairs, unsigned long first,
                                            unsigned long answer_room, unsigned long list_room)
{
    struct second_run_reply one, two;
    unsigned long i;
    one = second_run(&panel, registers, other, sizeof other, rom, sizeof rom, log, 2 * pairs, first,
                     other_answers, answer_room, other_list, list_room);
    if (one.number != 0) return one;
    two = second_run(&panel, registers, other, sizeof other, rom, sizeof rom, log + 2 * one.taken,
                     2 * (pairs - one.taken), pairs, other_answers + one.answers, answer_room - one.answers,
                     other_list + 2 * one.skipped, list_room - 2 * one.skipped);
    for (i = 0; i < two.skipped; i++) other_list[2 * (one.skipped + i) + 1] += one.taken;
    if (two.number != 0) two.place += one.taken;
    two.taken += one.taken;
    two.answers += one.answers;
    two.skipped += one.skipped;
    return two;
}

/* A byte in thirty is another one. */
static void tear(struct generate_random *random, unsigned char *log, unsigned long length)
{
    unsigned long i;
    for (i = 0; i < length; i++) {
        if (generate_below(random, 30) != 0) continue;
        log[i] = (unsigned char)(i % 2 == 0 ? generate_below(random, 7) : generate_below(random, 256));
    }
}

static void choose_panel(struct generate_random *random)
{
    panel.columns = input[0];
    panel.lines = input[1];
    panel.width = input[2];
    panel.dual = generate_below(random, 4) == 0;
    if (panel.dual) panel.lines = 2 * panel.lines;
}

static void torn_log(unsigned long long seed)
{
    struct generate_random random;
    struct second_registers registers, in_parts;
    struct second_run_reply whole, parts;
    unsigned long length = generate_input(seed, input), pairs, first, answer_room = ANSWERS, list_room = 2 * ANSWERS + 1;
    unsigned long i;
    random.word = ~seed;
    choose_panel(&random);
    if (length < 3 || !second_panel_valid(&panel)) return;
    pairs = (length - 3) / 2;
    if (pairs > 3000) pairs = 3000;
    seen.logs++;
    if (panel.dual) seen.dual++;
    tear(&random, input + 3, 2 * pairs);
    first = generate_below(&random, (unsigned)pairs + 1);
    if (generate_below(&random, 4) == 0) answer_room = generate_below(&random, 30);
    if (generate_below(&random, 4) == 0) list_room = generate_below(&random, 30);

    memset(memory, 0, sizeof memory);
    memset(other, 0, sizeof other);
    memset(answers, 0xEE, sizeof answers);
    memset(other_answers, 0xEE, sizeof other_answers);
    for (i = 0; i < 2 * ANSWERS + 1; i++) list[i] = other_list[i] = UNTOUCHED;
    second_reset(&registers);
    second_reset(&in_parts);
    whole = step_through(&registers, input + 3, pairs, answer_room, list_room);
    parts = run_in_parts(&in_parts, input + 3, pairs, first, answer_room, list_room);
    seen.numbers[whole.number]++;
    if (whole.number != parts.number || whole.place != parts.place || whole.taken != parts.taken
        || whole.answers != parts.answers || whole.skipped != parts.skipped
        || memcmp(&registers, &in_parts, sizeof registers) != 0 || memcmp(memory, other, sizeof memory) != 0
        || memcmp(answers, other_answers, sizeof answers) != 0 || memcmp(list, other_list, sizeof list) != 0) {
        if (seen.parts_agree) printf("# seed %llu\n", seed);
        seen.parts_agree = 0;
    }
}

int main(int argc, char **argv)
{
    unsigned long long seed, seeds = argc == 2 ? strtoull(argv[1], NULL, 10) : 300;
    unsigned code, v, number;
    int all = 1;
    for (code = 0; code < 128; code++) {
        for (v = 0; v < 8; v++) rom[8 * code + v] = (unsigned char)(code + v);
    }
    seen.parts_agree = seen.nothing_changed = 1;
    for (seed = 1; seed <= seeds; seed++) torn_log(seed);
    for (number = 3; number <= 7; number++) {
        if (seen.skipped[number] <= seeds / 4) all = 0;
    }
    printf("# %lu logs, to the end %lu, ended by 13 %lu, by 16 %lu; skipped by 3 to 7: %lu %lu %lu %lu %lu\n",
           seen.logs, seen.numbers[0], seen.numbers[13], seen.numbers[16], seen.skipped[3], seen.skipped[4],
           seen.skipped[5], seen.skipped[6], seen.skipped[7]);
    point("a skipping run in two parts, single accesses one after the other", seen.parts_agree);
    point("a skipped pair changes no register and no memory", seen.nothing_changed);
    point("each of 3 to 7 is skipped often", all);
    point("runs to the end, ended by 13, ended by 16",
          seen.numbers[0] > seeds / 4 && seen.numbers[13] > seeds / 20 && seen.numbers[16] > seeds / 20);
    point("dual panels too", seen.dual > seeds / 10);
    return 0;
}
