/* survey SEEDS: what the generator's inputs 1 to SEEDS reach; one line per property, ok or not ok. */
#include <stdio.h>
#include <stdlib.h>
#include <string.h>

#include "generate.h"
#include "second.h"

static unsigned char input[GENERATE_ROOM], again[GENERATE_ROOM];
static unsigned char rom[SECOND_ROM_LENGTH];
static unsigned char memory[SECOND_MEMORY_LENGTH], other[SECOND_MEMORY_LENGTH];
static unsigned char answers[8192], other_answers[8192];

static struct {
    unsigned long codes[256], numbers[14], widths[9], attributes[2][16];
    unsigned long peeks_found, peeks_lost, peeks_first_matters;
    unsigned long copies_found, copies_lost, copies_in_attribute, copies_gather_matters;
    unsigned long auto_writes, auto_reads, latch_reads, statuses, ticks;
    unsigned long missing, past_limit, empty, large, far;
    /* on dual panels; a copy with a place, so that nothing but the marker makes it invalid */
    unsigned long dual_peeks, dual_copies, dual_wrong, dual_large, cursors[2];
    int repeats, parts_agree;
} seen;

static void property(const char *name, int holds)
{
    printf("%s %s\n", holds ? "ok" : "not ok", name);
}

/* Does a later position of the pointer show another byte than the first? */
static int first_matters(const struct second_panel *panel, const struct second_registers *registers)
{
    unsigned row, column, r, c;
    unsigned char first;
    if (!second_position(panel, registers, &row, &column)) return 0;
    first = second_displayed(panel, registers, memory, rom, row, column).displayed;
    for (r = 0; r < 8 * panel->lines; r++) {
        for (c = 0; c < panel->columns; c++) {
            unsigned long place = registers->graphic_home + (unsigned long)r * registers->graphic_area + c;
            if (place % 65536 != registers->pointer) continue;
            if (second_displayed(panel, registers, memory, rom, r, c).displayed != first) return 1;
        }
    }
    return 0;
}

/* Would a copy that stores byte by byte leave other bytes? memory is that before the copy. */
static int gather_matters(const struct second_panel *panel, const struct second_registers *registers)
{
    unsigned row, column, c;
    if (!second_position(panel, registers, &row, &column)) return 0;
    memcpy(other, memory, sizeof memory);
    for (c = column; c < panel->columns; c++) {
        unsigned long place = registers->graphic_home + (unsigned long)row * registers->graphic_area + c;
        unsigned char byte = second_displayed(panel, registers, other, rom, row, c).displayed;
        if (byte != second_displayed(panel, registers, memory, rom, row, c).displayed) return 1;
        other[place % 65536] = byte;
    }
    return 0;
}

static void count_pair(const struct second_panel *panel, const struct second_registers *before,
                       unsigned kind, unsigned byte)
{
    unsigned row, column;
    if (kind == SECOND_STATUS_READ) seen.statuses++;
    if (kind == SECOND_TICK) seen.ticks++;
    if (kind == SECOND_DATA_WRITE && before->auto_mode == SECOND_AUTO_WRITE) seen.auto_writes++;
    if (kind == SECOND_DATA_READ && before->auto_mode == SECOND_AUTO_READ) seen.auto_reads++;
    if (kind == SECOND_DATA_READ && before->auto_mode == SECOND_AUTO_OFF) seen.latch_reads++;
    if (kind != SECOND_COMMAND || before->auto_mode != SECOND_AUTO_OFF) return;
    if (byte == 0xE0) {
        if (second_position(panel, before, &row, &column)) seen.peeks_found++;
        else seen.peeks_lost++;
        if (first_matters(panel, before)) seen.peeks_first_matters++;
    }
    if (byte == 0xE8) {
        if (before->combination == SECOND_ATTRIBUTE) seen.copies_in_attribute++;
        else if (second_position(panel, before, &row, &column)) seen.copies_found++;
        else seen.copies_lost++;
        if (before->combination != SECOND_ATTRIBUTE && gather_matters(panel, before)) seen.copies_gather_matters++;
    }
}

static void count_attributes(const struct second_panel *panel, const struct second_registers *registers)
{
    unsigned line, column;
    if (registers->combination != SECOND_ATTRIBUTE || !registers->text || !registers->graphic) return;
    for (line = 0; line < panel->lines; line++) {
        for (column = 0; column < panel->columns; column++) {
            unsigned long place = registers->graphic_home + (unsigned long)line * registers->graphic_area + column;
            seen.attributes[registers->phase][memory[place % 65536] % 16]++;
        }
    }
}

/* One access after the other, as a run would take them. */
static struct second_run_reply step_through(const struct second_panel *panel, struct second_registers *registers,
                                            const unsigned char *log, unsigned long length)
{
    struct second_run_reply reply = {0, 0, 0, 0, 0};
    for (; reply.taken < length / 2; reply.taken++) {
        unsigned char kind = log[2 * reply.taken];
        unsigned char byte = log[2 * reply.taken + 1];
        struct second_reply step;
        count_pair(panel, registers, kind, byte);
        step = second_access(panel, registers, memory, sizeof memory, rom, sizeof rom, kind, byte);
        if (step.number != 0) {
            reply.number = step.number;
            reply.place = reply.taken;
            break;
        }
        if (kind == SECOND_COMMAND) seen.codes[byte]++;
        if (kind == SECOND_DATA_READ || kind == SECOND_STATUS_READ) answers[reply.answers++] = step.read;
    }
    return reply;
}

/* Two runs, the second over the rest of log and answers; its counts and place from the whole log's start. */
static struct second_run_reply run_in_parts(const struct second_panel *panel, struct second_registers *registers,
                                            const unsigned char *log, unsigned long length, unsigned long first)
{
    struct second_run_reply one, two;
    one = second_run_stopping(panel, registers, other, sizeof other, rom, sizeof rom, log, length, first,
                              other_answers, sizeof other_answers);
    if (one.number != 0) return one;
    two = second_run_stopping(panel, registers, other, sizeof other, rom, sizeof rom, log + 2 * one.taken,
                              length - 2 * one.taken, length, other_answers + one.answers,
                              sizeof other_answers - one.answers);
    if (two.number != 0) two.place += one.taken;
    two.taken += one.taken;
    two.answers += one.answers;
    return two;
}

static int same_registers(const struct second_registers *a, const struct second_registers *b)
{
    return memcmp(a, b, sizeof *a) == 0; /* all fields are unsigned: no padding */
}

static void survey(unsigned long long seed)
{
    struct second_panel panel = {0, 0, 0, 0};
    struct second_registers registers, in_parts;
    struct second_run_reply whole, parts;
    struct generate_random random;
    unsigned long length = generate_input(seed, input), log_length, first;

    if (generate_input(seed, again) != length || memcmp(input, again, length) != 0) seen.repeats = 0;
    if (length < 3) {
        seen.missing++;
        return;
    }
    log_length = length - 3;
    if (log_length > GENERATE_LOG_LIMIT) {
        seen.past_limit++;
        log_length = GENERATE_LOG_LIMIT;
    }
    if (log_length == 0) seen.empty++;
    panel.columns = input[0];
    panel.lines = input[1];
    panel.width = input[2];
    second_reset(&registers);
    second_reset(&in_parts);
    if (!second_panel_valid(&panel)) {
        seen.numbers[1]++;
        return;
    }
    if (log_length % 2 != 0) {
        seen.numbers[8]++;
        return;
    }
    seen.widths[panel.width]++;
    if (panel.columns == 80 && panel.lines == 16) seen.large++;

    memset(memory, 0, sizeof memory);
    whole = step_through(&panel, &registers, input + 3, log_length);
    count_attributes(&panel, &registers);
    seen.numbers[whole.number]++;
    if (whole.taken >= 50) seen.far++;

    random.word = seed;
    first = generate_below(&random, (unsigned)(log_length / 2 + 1));
    memset(other, 0, sizeof other);
    parts = run_in_parts(&panel, &in_parts, input + 3, log_length, first);
    if (parts.number != whole.number || parts.place != whole.place || parts.taken != whole.taken
        || parts.answers != whole.answers || memcmp(answers, other_answers, whole.answers) != 0
        || memcmp(memory, other, sizeof memory) != 0 || !same_registers(&registers, &in_parts)) {
        seen.parts_agree = 0;
    }
}

/* A log for a dual panel: its peeks that find a place, its copies, and the half that shows the cursor in the end. */
static void survey_dual(unsigned long long seed)
{
    struct second_panel panel = {0, 0, 0, 1};
    struct second_registers registers;
    unsigned long length = generate_dual_input(seed, input), at;
    unsigned line, row, column;

    if (length < 3) return;
    panel.columns = input[0];
    panel.lines = input[1];
    panel.width = input[2];
    second_reset(&registers);
    memset(memory, 0, sizeof memory);
    if (!second_panel_valid(&panel)) {
        seen.dual_wrong++;
        return;
    }
    if (panel.columns == 80 && panel.lines == 32) seen.dual_large++;
    for (at = 3; at + 1 < length; at += 2) {
        int placed = second_position(&panel, &registers, &row, &column) && registers.combination != SECOND_ATTRIBUTE;
        if (second_access(&panel, &registers, memory, sizeof memory, rom, sizeof rom, input[at], input[at + 1]).number != 0) break;
        if (input[at] != SECOND_COMMAND) continue;
        if (input[at + 1] == 0xE0 && !registers.error) seen.dual_peeks++;
        if (input[at + 1] == 0xE8 && placed) seen.dual_copies++;
    }
    if (registers.cursor_x >= panel.columns) return;
    for (line = 0; line < panel.lines; line++) {
        if (second_cursor_covers(&panel, &registers, 8 * line + 7, registers.cursor_x)) seen.cursors[line < panel.lines / 2 ? 0 : 1]++;
    }
}

int main(int argc, char **argv)
{
    unsigned long long seed, seeds = argc == 2 ? strtoull(argv[1], NULL, 10) : 300;
    unsigned code, accepted = 0, v, attribute, attributes = 0;
    char name[64];

    for (code = 0; code < 128; code++) {
        for (v = 0; v < 8; v++) rom[8 * code + v] = (unsigned char)(code + v);
    }
    seen.repeats = 1;
    seen.parts_agree = 1;
    for (seed = 1; seed <= seeds; seed++) {
        survey(seed);
        survey_dual(seed);
    }

    for (code = 0; code < 256; code++) {
        if (seen.codes[code] > 0) accepted++;
    }
    for (attribute = 0; attribute < 16; attribute++) {
        if (seen.attributes[0][attribute] > 0 && seen.attributes[1][attribute] > 0) attributes++;
    }
    printf("# %llu seeds: %lu of 50 pairs or more, %lu without refusal\n", seeds, seen.far, seen.numbers[0]);
    printf("# peeks found %lu lost %lu, first position matters %lu\n",
           seen.peeks_found, seen.peeks_lost, seen.peeks_first_matters);
    printf("# copies found %lu lost %lu in attribute mode %lu, gathering matters %lu\n",
           seen.copies_found, seen.copies_lost, seen.copies_in_attribute, seen.copies_gather_matters);
    printf("# dual panels: cursors in the upper half %lu, in the lower %lu, peeks found %lu, copies with a place %lu\n",
           seen.cursors[0], seen.cursors[1], seen.dual_peeks, seen.dual_copies);
    property("same seed, same bytes", seen.repeats);
    property("single accesses and a run in two parts agree", seen.parts_agree);
    property("all 66 defined codes are accepted", accepted == 66);
    for (code = 1; code <= 8; code++) {
        if (code == 2) continue;
        sprintf(name, "refusal %u occurs", code);
        property(name, seen.numbers[code] > 0);
    }
    property("a third of the logs has no refusal", 3 * seen.numbers[0] > seeds);
    property("three in four logs run 50 pairs or more", 4 * seen.far > 3 * seeds);
    property("both widths", seen.widths[6] > seeds / 4 && seen.widths[8] > seeds / 4);
    property("the full panel", seen.large > 0);
    property("peeks with and without position", seen.peeks_found > seeds && seen.peeks_lost > seeds / 4);
    property("peeks where the first of several positions matters", seen.peeks_first_matters > seeds / 4);
    property("copies with and without position, and in attribute mode",
             seen.copies_found > seeds && seen.copies_lost > seeds / 10 && seen.copies_in_attribute > seeds / 4);
    property("copies where gathering first matters", seen.copies_gather_matters > seeds / 10);
    property("every attribute code in both phases of a frame", attributes == 16);
    property("auto writes, auto reads, latch reads, status reads, ticks",
             seen.auto_writes > seeds && seen.auto_reads > seeds && seen.latch_reads > seeds
             && seen.statuses > seeds && seen.ticks > seeds);
    property("missing panel bytes, empty logs, bytes past the limit",
             seen.missing > 0 && seen.empty > 0 && seen.past_limit > 0);
    property("dual panels: cursors in both halves, peeks and copies with a place",
             seen.cursors[0] > seeds / 30 && seen.cursors[1] > seeds / 30 && seen.dual_peeks > seeds && seen.dual_copies > seeds / 4);
    property("dual panels: the full one, and ones that are not valid", seen.dual_large > 0 && seen.dual_wrong > 0);
    return 0;
}
