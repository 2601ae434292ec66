#include "writers.h"

#define MOST_STORES 80 /* of one pair: a copy of a whole row */

struct store {
    unsigned address;
    unsigned char before, after;
};

/* What one pair stores, in order. */
struct stores {
    unsigned count;
    struct store store[MOST_STORES];
};

/* Of one pair no two stores have the same address, so the byte before each is the byte before the pair. */
static void add(struct stores *stores, const unsigned char *memory, unsigned address, unsigned after)
{
    struct store *store = &stores->store[stores->count];
    store->address = address;
    store->before = memory[address];
    store->after = (unsigned char)after;
    stores->count++;
}

/* A copy on a panel in two halves, in attribute mode or without a position stores nothing. Else the row's graphic bytes
   from the position on become what memory as it is before the copy displays there. */
static void copy_stores(const struct second_panel *panel, const struct second_registers *registers,
                        const unsigned char *memory, const unsigned char *rom, struct stores *stores)
{
    unsigned row, column;
    if (panel->dual) return;
    if (registers->combination == SECOND_ATTRIBUTE) return;
    if (!second_position(panel, registers, &row, &column)) return;
    for (; column < panel->columns; column++) {
        unsigned long address = registers->graphic_home + (unsigned long)row * registers->graphic_area + column;
        add(stores, memory, (unsigned)(address % SECOND_MEMORY_LENGTH),
            second_displayed(panel, registers, memory, rom, row, column).displayed);
    }
}

/* What a pair stores if it is accepted, by registers and memory before it: a data write in auto write, C0H, C2H, C4H,
   F0H to FFH and E8H store, and nothing else does. */
static void pair_stores(const struct second_panel *panel, const struct second_registers *registers,
                        const unsigned char *memory, const unsigned char *rom,
                        unsigned char kind, unsigned char byte, struct stores *stores)
{
    const unsigned pointer = registers->pointer;
    const unsigned bit = 1U << (byte % 8);
    stores->count = 0;
    if (kind == SECOND_DATA_WRITE && registers->auto_mode == SECOND_AUTO_WRITE) {
        add(stores, memory, pointer, byte);
    }
    if (kind != SECOND_COMMAND) return;
    if (byte == 0xC0 || byte == 0xC2 || byte == 0xC4) add(stores, memory, pointer, registers->newest);
    if (byte >= 0xF0 && byte <= 0xF7) add(stores, memory, pointer, memory[pointer] & ~bit);
    if (byte >= 0xF8) add(stores, memory, pointer, memory[pointer] | bit);
    if (byte == 0xE8) copy_stores(panel, registers, memory, rom, stores);
}

/* Walked from first upwards until last has been marked. */
static void mark_stretch(unsigned char *marked, unsigned first, unsigned last)
{
    unsigned long i;
    unsigned address = (unsigned)(first % SECOND_MEMORY_LENGTH);
    const unsigned end = (unsigned)(last % SECOND_MEMORY_LENGTH);
    for (i = 0; i < SECOND_MEMORY_LENGTH; i++) marked[i] = 0;
    for (;;) {
        marked[address] = 1;
        if (address == end) return;
        address = address == 0xFFFF ? 0 : address + 1;
    }
}

/* Every pair of the log in its order; its stores at marked addresses are listed, or only counted where list is 0. */
static unsigned long walk(const struct second_panel *panel, struct second_registers *registers,
                          unsigned char *memory, const unsigned char *rom,
                          const unsigned char *log, unsigned long pairs,
                          const unsigned char *marked, unsigned long *list)
{
    struct stores stores;
    unsigned long pair, entries = 0;
    unsigned i;
    for (pair = 0; pair < pairs; pair++) {
        const unsigned char kind = log[2 * pair], byte = log[2 * pair + 1];
        pair_stores(panel, registers, memory, rom, kind, byte, &stores);
        if (second_access(panel, registers, memory, SECOND_MEMORY_LENGTH, rom, SECOND_ROM_LENGTH, kind, byte).number != 0) {
            continue; /* refused: skipped, and nothing was stored */
        }
        for (i = 0; i < stores.count; i++) {
            if (!marked[stores.store[i].address]) continue;
            if (list) {
                list[SECOND_STORE_NUMBERS * entries] = pair;
                list[SECOND_STORE_NUMBERS * entries + 1] = stores.store[i].address;
                list[SECOND_STORE_NUMBERS * entries + 2] = stores.store[i].before;
                list[SECOND_STORE_NUMBERS * entries + 3] = stores.store[i].after;
            }
            entries++;
        }
    }
    return entries;
}

struct second_writers_reply second_writers(const struct second_panel *panel, struct second_registers *registers,
                                           unsigned char *memory, unsigned long memory_length,
                                           const unsigned char *rom, unsigned long rom_length,
                                           const unsigned char *log, unsigned long log_length,
                                           unsigned first, unsigned last,
                                           unsigned long *list, unsigned long list_length)
{
    struct second_writers_reply reply = {0, 0, 0};
    unsigned char marked[SECOND_MEMORY_LENGTH], tried_memory[SECOND_MEMORY_LENGTH];
    struct second_registers tried;
    unsigned long address, needed;

    /* A run of no pairs is refused exactly as the whole one is before its first pair. */
    struct second_run_reply run = second_run(panel, registers, memory, memory_length, rom, rom_length, log, log_length,
                                             0, 0, 0, 0, 0);
    if (run.number != 0) {
        reply.number = run.number;
        reply.place = run.place;
        return reply;
    }

    /* Once on a copy, to know how long the list gets; then where it is to be run. */
    mark_stretch(marked, first, last);
    tried = *registers;
    for (address = 0; address < SECOND_MEMORY_LENGTH; address++) tried_memory[address] = memory[address];
    needed = walk(panel, &tried, tried_memory, rom, log, log_length / 2, marked, 0);
    if (needed > list_length / SECOND_STORE_NUMBERS) {
        walk(panel, registers, memory, rom, log, log_length / 2, marked, 0);
        reply.number = 15;
        reply.place = needed;
        return reply;
    }
    /* Nothing needed: the list may not even be there. */
    reply.stores = walk(panel, registers, memory, rom, log, log_length / 2, marked, needed == 0 ? 0 : list);
    return reply;
}
