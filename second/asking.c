#include "asking.h"

/* Commands, data writes and auto read's data reads; other reads and ticks need nothing. */
static int needs_asking(unsigned kind, unsigned auto_mode)
{
    if (kind == SECOND_COMMAND || kind == SECOND_DATA_WRITE) return 1;
    return kind == SECOND_DATA_READ && auto_mode == SECOND_AUTO_READ;
}

static int is_ready(unsigned answer, unsigned auto_mode)
{
    if (auto_mode == SECOND_AUTO_WRITE) return (answer & 0x08) != 0;
    if (auto_mode == SECOND_AUTO_READ) return (answer & 0x04) != 0;
    return (answer & 0x03) == 0x03;
}

static void name_first(unsigned *named, unsigned long *name, unsigned long which)
{
    if (*named) return;
    *named = 1;
    *name = which;
}

static struct second_check_reply refused(unsigned number, unsigned long place)
{
    struct second_check_reply reply = {0, 0, 0, 0, 0, 0};
    reply.number = number;
    reply.place = place;
    return reply;
}

struct second_check_reply second_check_log(const struct second_panel *panel, const struct second_registers *registers,
                                           unsigned char *memory, unsigned long memory_length,
                                           const unsigned char *rom, unsigned long rom_length,
                                           const unsigned char *log, unsigned long log_length,
                                           const unsigned char *recorded, unsigned long recorded_length)
{
    struct second_check_reply reply = {0, 0, 0, 0, 0, 0};
    struct second_registers running = *registers;
    struct second_run_reply run;
    unsigned long pair, answers = 0;
    int asked = 0; /* a ready answer since the last access that needs one */
    unsigned char own = 0;

    /* A run of no pair: 1, 2 and 8. */
    run = second_run_stopping(panel, &running, memory, memory_length, rom, rom_length, log, log_length, 0, &own, 1);
    if (run.number != 0) return refused(run.number, run.place);

    for (pair = 0; pair < log_length / 2; pair++) {
        unsigned kind = log[2 * pair];
        unsigned auto_mode = running.auto_mode;
        run = second_run_stopping(panel, &running, memory, memory_length, rom, rom_length,
                                  log + 2 * pair, 2, 1, &own, 1);
        if (run.number != 0) return refused(run.number, pair);
        if (needs_asking(kind, auto_mode)) {
            if (!asked) name_first(&reply.unasked_named, &reply.unasked, pair);
            asked = 0;
        }
        if (run.answers == 0) continue;
        if (answers < recorded_length) {
            if (kind == SECOND_STATUS_READ && is_ready(recorded[answers], auto_mode)) asked = 1;
            if (recorded[answers] != own) name_first(&reply.differing_named, &reply.differing, answers);
        }
        answers++;
    }
    if (answers != recorded_length) return refused(14, 0);
    return reply;
}
