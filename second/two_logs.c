#include "two_logs.h"

/* Pairs run at a time; their answers are dropped. */
#define CHUNK 64

unsigned long second_register(const struct second_registers *registers, unsigned index)
{
    switch (index) {
    case 0: return registers->cursor_x;
    case 1: return registers->cursor_y;
    case 2: return registers->offset;
    case 3: return registers->pointer;
    case 4: return registers->text_home;
    case 5: return registers->graphic_home;
    case 6: return registers->text_area;
    case 7: return registers->graphic_area;
    case 8: return registers->combination;
    case 9: return registers->external;
    case 10: return 8 * registers->graphic + 4 * registers->text + 2 * registers->cursor + registers->blink;
    case 11: return registers->cursor_height;
    case 12: return registers->auto_mode;
    case 13: return registers->pending + 256UL * registers->older + 65536UL * registers->newest;
    case 14: return registers->latch;
    case 15: return registers->error;
    default: return registers->phase;
    }
}

/* All of a log by the stopping run, in parts: no part reads more than there is room for, so 13 never comes. */
static struct second_run_reply run_all(const struct second_panel *panel, struct second_registers *registers,
                                       unsigned char *memory, const unsigned char *rom,
                                       const unsigned char *log, unsigned long log_length)
{
    unsigned char dropped[CHUNK];
    unsigned long taken = 0;
    for (;;) {
        struct second_run_reply part = second_run_stopping(panel, registers, memory, SECOND_MEMORY_LENGTH,
                                                           rom, SECOND_ROM_LENGTH, log + 2 * taken,
                                                           log_length - 2 * taken, CHUNK, dropped, CHUNK);
        if (part.number != 0) {
            part.place += taken;
            return part;
        }
        taken += part.taken;
        if (part.taken < CHUNK) return part;
    }
}

static unsigned long differing_dots(const struct second_panel *panel, const unsigned char *rom,
                                    const struct second_registers *one, const unsigned char *memory_one,
                                    const struct second_registers *two, const unsigned char *memory_two)
{
    unsigned long dots = 0;
    unsigned row, x;
    for (row = 0; row < 8 * panel->lines; row++) {
        for (x = 0; x < panel->columns * panel->width; x++) {
            if (second_dot(panel, one, memory_one, rom, x, row) != second_dot(panel, two, memory_two, rom, x, row)) {
                dots++;
            }
        }
    }
    return dots;
}

static void put_entry(unsigned long *list, unsigned long entry, unsigned long which, unsigned long one,
                      unsigned long two)
{
    list[3 * entry] = which;
    list[3 * entry + 1] = one;
    list[3 * entry + 2] = two;
}

/* Memory that differs, ascending, then registers in their order; only counted where list is 0. */
static void find_entries(const struct second_registers *one, const unsigned char *memory_one,
                         const struct second_registers *two, const unsigned char *memory_two,
                         unsigned long *list, struct second_compare_reply *reply)
{
    unsigned long address;
    unsigned index;
    reply->addresses = 0;
    reply->registers = 0;
    for (address = 0; address < SECOND_MEMORY_LENGTH; address++) {
        if (memory_one[address] == memory_two[address]) continue;
        if (list) put_entry(list, reply->addresses, address, memory_one[address], memory_two[address]);
        reply->addresses++;
    }
    for (index = 0; index < SECOND_REGISTER_COUNT; index++) {
        unsigned long value_one = second_register(one, index);
        unsigned long value_two = second_register(two, index);
        if (value_one == value_two) continue;
        if (list) put_entry(list, reply->addresses + reply->registers, index, value_one, value_two);
        reply->registers++;
    }
}

static struct second_compare_reply refused(unsigned number, unsigned long place, unsigned log)
{
    struct second_compare_reply reply = {0, 0, 0, 0, 0, 0};
    reply.number = number;
    reply.place = place;
    reply.log = log;
    return reply;
}

struct second_compare_reply second_compare(const struct second_panel *panel,
                                           unsigned char *memory_one, unsigned long memory_one_length,
                                           unsigned char *memory_two, unsigned long memory_two_length,
                                           const unsigned char *rom, unsigned long rom_length,
                                           const unsigned char *log_one, unsigned long log_one_length,
                                           const unsigned char *log_two, unsigned long log_two_length,
                                           unsigned long *list, unsigned long list_length)
{
    struct second_compare_reply reply = {0, 0, 0, 0, 0, 0};
    struct second_registers one, two;
    struct second_run_reply run;
    unsigned long address, needed;
    if (!second_panel_valid(panel)) return refused(1, 0, 0);
    if (memory_one_length != SECOND_MEMORY_LENGTH) return refused(2, 0, 0);
    if (memory_two_length != SECOND_MEMORY_LENGTH) return refused(2, 0, 0);
    if (rom_length != SECOND_ROM_LENGTH) return refused(2, 0, 0);

    for (address = 0; address < SECOND_MEMORY_LENGTH; address++) memory_two[address] = memory_one[address];
    second_reset(&one);
    second_reset(&two);
    run = run_all(panel, &one, memory_one, rom, log_one, log_one_length);
    if (run.number != 0) return refused(run.number, run.place, 1);
    run = run_all(panel, &two, memory_two, rom, log_two, log_two_length);
    if (run.number != 0) return refused(run.number, run.place, 2);

    find_entries(&one, memory_one, &two, memory_two, 0, &reply);
    needed = reply.addresses + reply.registers;
    if (needed > list_length / 3) return refused(15, needed, 0);
    find_entries(&one, memory_one, &two, memory_two, list, &reply);
    reply.dots = differing_dots(panel, rom, &one, memory_one, &two, memory_two);
    return reply;
}
