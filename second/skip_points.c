/* skip_points: the run that goes on after a refusal, and its list; one line per point, ok or not ok. */
#include <limits.h>
#include <string.h>

#include "point.h"
#include "second.h"

#define UNTOUCHED 0xEEEEUL
#define ROOM 16

static unsigned char memory[SECOND_MEMORY_LENGTH], before_memory[SECOND_MEMORY_LENGTH];
static unsigned char rom[SECOND_ROM_LENGTH];
static const struct second_panel panel = {1, 1, 8, 0};
static struct second_registers registers;
static unsigned char answers[4];
static unsigned long list[ROOM];

/* Six refused pairs among fourteen. */
static const unsigned char log_14[28] = {
    1, 0x94,          /* text on */
    5, 0x00,          /* 1: number 3 */
    1, 0x82,          /* 2: number 4 */
    0, 0x11, 1, 0x24, /* 4: number 6, the datum still pending */
    0, 0x22, 1, 0x24, /* pointer 2211H */
    1, 0xB1,
    1, 0x94,          /* 8: number 5 */
    0, 0x33,          /* 9: number 7 */
    2, 0x00,          /* 5AH */
    1, 0xA8,          /* 11: number 4 */
    1, 0xB2,
    3, 0x00           /* A3H */
};
static const unsigned long listed[12] = {3, 1, 4, 2, 6, 4, 5, 8, 7, 9, 4, 11};

static void start(void)
{
    unsigned i;
    memset(memory, 0, sizeof memory);
    memory[0x2211] = 0x5A;
    memcpy(before_memory, memory, sizeof memory);
    second_reset(&registers);
    memset(answers, 0xEE, sizeof answers);
    for (i = 0; i < ROOM; i++) list[i] = UNTOUCHED;
}

static struct second_run_reply run(const unsigned char *log, unsigned long length, unsigned long limit,
                                   unsigned long answers_length, unsigned long list_length)
{
    return second_run(&panel, &registers, memory, sizeof memory, rom, sizeof rom, log, length, limit,
                      answers, answers_length, list, list_length);
}

/* The list holds so many of the expected numbers and nothing else. */
static int lists(unsigned long numbers)
{
    unsigned long i;
    for (i = 0; i < ROOM; i++) {
        if (list[i] != (i < numbers ? listed[i] : UNTOUCHED)) return 0;
    }
    return 1;
}

static int replies(struct second_run_reply reply, unsigned number, unsigned long place, unsigned long taken,
                   unsigned long answered, unsigned long skipped)
{
    return reply.number == number && reply.place == place && reply.taken == taken && reply.answers == answered
           && reply.skipped == skipped;
}

static void whole_log(void)
{
    struct second_run_reply reply;
    start();
    reply = run(log_14, 28, ULONG_MAX, 2, 12);
    point("fourteen pairs, six of them skipped", replies(reply, 0, 0, 14, 2, 6));
    point("numbers and places in order, the rest unchanged", lists(12));
    point("answers of the pairs between", answers[0] == 0x5A && answers[1] == 0xA3 && answers[2] == 0xEE);
    point("the state is that of the other eight", registers.pointer == 0x2212 && registers.text == 1
          && registers.auto_mode == SECOND_AUTO_OFF && registers.pending == 0
          && memcmp(memory, before_memory, sizeof memory) == 0);
    start();
    reply = second_run_stopping(&panel, &registers, memory, sizeof memory, rom, sizeof rom, log_14, 28, ULONG_MAX, answers, 2);
    point("the stopping run ends at the first", replies(reply, 3, 1, 1, 0, 0));
}

/* A list of k numbers has room for k div 2 entries. */
static void full_lists(void)
{
    unsigned long room;
    char name[64];
    for (room = 0; room < 12; room++) {
        unsigned long entries = room / 2, place = listed[2 * entries + 1];
        struct second_run_reply reply;
        int holds;
        start();
        reply = run(log_14, 28, ULONG_MAX, 2, room);
        holds = replies(reply, 16, place, place, place > 10 ? 1 : 0, entries) && lists(2 * entries);
        start();
        reply = run(log_14, 28, place, 2, room);
        holds = holds && replies(reply, 0, 0, place, place > 10 ? 1 : 0, entries) && lists(2 * entries);
        sprintf(name, "16 with room for %lu numbers, unless the limit comes first", room);
        point(name, holds);
    }
    start();
    point("an odd number more is not touched", replies(run(log_14, 28, ULONG_MAX, 2, 13), 0, 0, 14, 2, 6) && lists(12));
}

static void no_answer_room(void)
{
    static const unsigned char refused_read[6] = {1, 0xB0, 2, 0, 3, 0};
    struct second_run_reply reply;
    start();
    reply = run(log_14, 28, ULONG_MAX, 0, 12);
    point("13 stops it, five skipped before", replies(reply, 13, 10, 10, 0, 5) && lists(10)
          && registers.pointer == 0x2211 && registers.auto_mode == SECOND_AUTO_READ);
    start();
    reply = run(log_14, 28, ULONG_MAX, 1, 12);
    point("13 at the status read", replies(reply, 13, 13, 13, 1, 6) && lists(12));
    start();
    reply = run(log_14, 28, ULONG_MAX, 0, 8);
    point("16 at an earlier pair than 13", replies(reply, 16, 9, 9, 0, 4));
    start();
    reply = run(refused_read, 6, ULONG_MAX, 0, 2);
    point("a refused read is skipped, 13 is for the next", replies(reply, 13, 2, 2, 0, 1) && list[0] == 7 && list[1] == 1);
}

static void first_numbers(void)
{
    const struct second_panel bad = {0, 1, 8, 0};
    struct second_registers invalid, before;
    struct second_run_reply reply;
    int holds;
    start();
    before = registers;
    invalid = registers;
    invalid.cursor_height = 0;
    reply = second_run(&bad, &registers, memory, 0, rom, 0, log_14, 27, 9, answers, 4, list, ROOM);
    holds = replies(reply, 1, 0, 0, 0, 0);
    reply = second_run(&panel, &invalid, memory, 0, rom, 0, log_14, 27, 9, answers, 4, list, ROOM);
    point("1 before 2", holds && replies(reply, 1, 0, 0, 0, 0));
    reply = second_run(&panel, &registers, memory, sizeof memory + 1, rom, sizeof rom, log_14, 27, 9, answers, 4, list, ROOM);
    holds = replies(reply, 2, 0, 0, 0, 0);
    reply = second_run(&panel, &registers, memory, sizeof memory, rom, sizeof rom - 1, log_14, 27, 9, answers, 4, list, ROOM);
    point("2 before 8", holds && replies(reply, 2, 0, 0, 0, 0));
    point("8 before any pair", replies(run(log_14, 27, 0, 4, 0), 8, 13, 0, 0, 0));
    point("nothing is listed, nothing changes", lists(0) && memcmp(&registers, &before, sizeof before) == 0);
    point("limit 0, no list", replies(run(log_14, 28, 0, 0, 0), 0, 0, 0, 0, 0) && lists(0));
    point("an empty log", replies(second_run(&panel, &registers, memory, sizeof memory, rom, sizeof rom, NULL, 0, 5, NULL, 0, NULL, 0),
                                  0, 0, 0, 0, 0));
}

static struct second_reply single(struct second_registers *alone, unsigned char kind, unsigned char byte)
{
    return second_access(&panel, alone, memory, sizeof memory, rom, sizeof rom, kind, byte);
}

/* Every kind up to 5 with every byte, in every auto mode with 0, 1 and 2 pending: as the single access has it. */
static void every_pair(void)
{
    unsigned kind, byte, mode, wrong = 0;
    for (mode = 0; mode < 9; mode++) {
        for (kind = 0; kind < 6; kind++) {
            for (byte = 0; byte < 256; byte++) {
                struct second_registers alone;
                struct second_reply access;
                struct second_run_reply reply;
                unsigned char log[2];
                log[0] = (unsigned char)kind;
                log[1] = (unsigned char)byte;
                second_reset(&registers);
                registers.auto_mode = mode / 3;
                registers.pending = mode % 3;
                registers.newest = mode % 3 > 0 ? 0x12 : 0;
                registers.older = mode % 3 > 1 ? 0x34 : 0;
                alone = registers;
                list[0] = list[1] = UNTOUCHED;
                reply = run(log, 2, 1, 1, 2);
                access = single(&alone, log[0], log[1]);
                if (memcmp(&registers, &alone, sizeof alone) != 0) wrong++;
                if (reply.number != 0 || reply.place != 0 || reply.taken != 1) wrong++;
                if (reply.skipped != (access.number != 0)) wrong++;
                if (access.number != 0 && (list[0] != access.number || list[1] != 0)) wrong++;
                if (access.number == 0 && list[0] != UNTOUCHED) wrong++;
            }
        }
    }
    point("every pair is taken or listed by its number", wrong == 0);
}

int main(void)
{
    whole_log();
    full_lists();
    no_answer_room();
    first_numbers();
    start();
    every_pair();
    return 0;
}
