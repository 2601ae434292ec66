/* two_logs_points SEEDS: two logs compared, by hand and at random; one line per point, ok or not ok. */
#include <stdlib.h>
#include <string.h>

#include "generate.h"
#include "point.h"
#include "two_logs.h"

#define UNTOUCHED 0xEEEEUL
#define LIST_ROOM (3UL * 70000)

static unsigned char one[SECOND_MEMORY_LENGTH + 1], two[SECOND_MEMORY_LENGTH + 1], start_memory[SECOND_MEMORY_LENGTH];
static unsigned char rom[SECOND_ROM_LENGTH + 1];
static unsigned long list[LIST_ROOM];
static struct second_panel panel = {1, 1, 8, 0};

static void start(void)
{
    unsigned long i;
    memset(one, 0, sizeof one);
    memset(two, 0xEE, sizeof two);
    one[0] = 0x5A;
    memcpy(start_memory, one, sizeof start_memory);
    for (i = 0; i < 300; i++) list[i] = UNTOUCHED;
}

static struct second_compare_reply compare(const unsigned char *log_one, unsigned long length_one,
                                           const unsigned char *log_two, unsigned long length_two,
                                           unsigned long list_length)
{
    return second_compare(&panel, one, SECOND_MEMORY_LENGTH, two, SECOND_MEMORY_LENGTH, rom, SECOND_ROM_LENGTH,
                          log_one, length_one, log_two, length_two, list, list_length);
}

static int replies(struct second_compare_reply reply, unsigned number, unsigned long place, unsigned log,
                   unsigned long addresses, unsigned long registers, unsigned long dots)
{
    return reply.number == number && reply.place == place && reply.log == log && reply.addresses == addresses
           && reply.registers == registers && reply.dots == dots;
}

static int lists(const unsigned long *expected, unsigned long numbers)
{
    unsigned long i;
    for (i = 0; i < 300; i++) {
        if (list[i] != (i < numbers ? expected[i] : UNTOUCHED)) return 0;
    }
    return 1;
}

/* Every register differs: auto read in log one, and in log two all the others moved from reset. */
static void every_register(void)
{
    static const unsigned char log_one[2] = {1, 0xB1};
    static const unsigned char log_two[] = {
        0, 5, 0, 3, 1, 0x21, 0, 2, 0, 0, 1, 0x22, 0, 0x10, 0, 0x20, 1, 0x40, 0, 0x30, 0, 0x40, 1, 0x42,
        0, 7, 0, 0, 1, 0x41, 0, 9, 0, 0, 1, 0x43, 1, 0x8C, 1, 0x9F, 1, 0xA3,
        1, 0xC5,                   /* latch 5AH, from address 0 */
        1, 0xE8,                   /* a copy in attribute mode: error */
        0, 5, 0, 6, 1, 0x24,       /* pointer 0605H */
        4, 0, 0, 0x11, 0, 0x22     /* phase off, two data pending */
    };
    static const unsigned long expected[51] = {
        0, 0, 5, 1, 0, 3, 2, 0, 2, 3, 0, 0x0605, 4, 0, 0x2010, 5, 0, 0x4030, 6, 0, 7, 7, 0, 9, 8, 0, 3, 9, 0, 1,
        10, 0, 15, 11, 1, 4, 12, 2, 0, 13, 0, 2 + 256 * 0x11 + 65536 * 0x22, 14, 0, 0x5A, 15, 0, 1, 16, 0, 1
    };
    unsigned long room;
    int holds = 1;
    start();
    point("all seventeen registers, in order",
          replies(compare(log_one, 2, log_two, sizeof log_two, 51), 0, 0, 0, 0, 17, 0) && lists(expected, 51));
    for (room = 0; room < 51; room++) {
        start();
        if (!replies(compare(log_one, 2, log_two, sizeof log_two, room), 15, 17, 0, 0, 0, 0)) holds = 0;
        if (!lists(expected, 0)) holds = 0;
    }
    point("15 for every shorter list, its place the entries needed, nothing listed", holds);
    start();
    point("two numbers more are not touched",
          replies(compare(log_one, 2, log_two, sizeof log_two, 53), 0, 0, 0, 0, 17, 0) && lists(expected, 51));
}

static void single_registers(void)
{
    static const unsigned char data_1[2] = {0, 0x33}, display[4][2] = {{1, 0x98}, {1, 0x94}, {1, 0x92}, {1, 0x91}};
    static const unsigned long value[4] = {8, 4, 2, 1};
    static const unsigned long shown[4] = {8 * 4, 0, 8, 0}; /* 5AH in every row, an empty glyph, a row of cursor */
    unsigned long expected[3] = {13, 1 + 65536 * 0x33, 0};
    unsigned i;
    int holds = 1;
    start();
    point("one datum pending is the newest", replies(compare(data_1, 2, data_1, 0, 9), 0, 0, 0, 0, 1, 0) && lists(expected, 3));
    for (i = 0; i < 4; i++) {
        start();
        expected[0] = 10;
        expected[1] = value[i];
        if (!replies(compare(display[i], 2, data_1, 0, 9), 0, 0, 0, 0, 1, shown[i])) holds = 0;
        if (!lists(expected, 3)) holds = 0;
    }
    point("display bits: graphic 8, text 4, cursor 2, blink 1", holds);
}

/* Bytes at FFFFH, 0, 1 and 2 of both; they differ at FFFFH and 1. */
static void memory_entries(void)
{
    static const unsigned char log_one[] = {0, 0xFF, 0, 0xFF, 1, 0x24, 1, 0xB0, 0, 1, 0, 2, 0, 3, 0, 4, 1, 0xB2};
    static const unsigned char log_two[] = {0, 2, 0, 0, 1, 0x24, 0, 4, 1, 0xC2, 0, 7, 1, 0xC2, 0, 2, 1, 0xC2, 0, 9, 1, 0xC0,
                                            0, 3, 0, 0, 1, 0x24};
    static const unsigned long expected[6] = {1, 3, 7, 0xFFFF, 1, 9};
    static const unsigned char more[] = {1, 0x94};
    unsigned char log_three[sizeof log_two + 2];
    static const unsigned long with_register[9] = {1, 3, 7, 0xFFFF, 1, 9, 10, 0, 4};
    start();
    point("memory ascending with both bytes",
          replies(compare(log_one, sizeof log_one, log_two, sizeof log_two, 6), 0, 0, 0, 2, 0, 0) && lists(expected, 6));
    point("both memories as their runs leave them", one[0xFFFF] == 1 && one[0] == 2 && one[1] == 3 && one[2] == 4
          && two[0xFFFF] == 9 && two[0] == 2 && two[1] == 7 && two[2] == 4);
    memcpy(log_three, log_two, sizeof log_two);
    memcpy(log_three + sizeof log_two, more, 2);
    start();
    point("registers behind them",
          replies(compare(log_one, sizeof log_one, log_three, sizeof log_three, 9), 0, 0, 0, 2, 1, 0)
          && lists(with_register, 9));
    start();
    point("15 with three entries and room for two",
          replies(compare(log_one, sizeof log_one, log_three, sizeof log_three, 8), 15, 3, 0, 0, 0, 0) && lists(expected, 0));
    point("the runs stand after 15", one[0xFFFF] == 1 && two[0xFFFF] == 9);
}

static void alike(void)
{
    /* 0010H gets 77H at once, or by bits and after another byte; the pointer ends alike. */
    static const unsigned char log_one[] = {0, 0x10, 0, 0, 1, 0x24, 0, 0x77, 1, 0xC4};
    static const unsigned char log_two[] = {0, 0x10, 0, 0, 1, 0x24, 0, 0x7F, 1, 0xC4, 3, 0, 2, 0, 1, 0xF3};
    start();
    point("other logs, the same end: nothing is listed",
          replies(compare(log_one, sizeof log_one, log_two, sizeof log_two, 0), 0, 0, 0, 0, 0, 0) && lists(NULL, 0));
    start();
    point("two empty logs", replies(compare(log_one, 0, log_two, 0, 0), 0, 0, 0, 0, 0, 0));
    point("the second memory is a copy of the first", memcmp(one, two, SECOND_MEMORY_LENGTH) == 0 && two[0] == 0x5A);
}

/* C 2, L 1, w 6: a cursor of three rows in column 1 against graphic bytes 3FH, FFH and 21H in rows 5, 6 and 7 there. */
static void dots(void)
{
    static const unsigned char log_one[] = {0, 1, 0, 0, 1, 0x21, 1, 0xA2, 1, 0x92};
    static const unsigned char log_two[] = {0, 2, 0, 0, 1, 0x43, 0, 11, 0, 0, 1, 0x24, 0, 0x3F, 1, 0xC0, 1, 0xC1,
                                            0, 0xFF, 1, 0xC0, 1, 0xC1, 0, 0x21, 1, 0xC0, 1, 0x98};
    struct second_compare_reply reply;
    panel.columns = 2;
    panel.width = 6;
    start();
    one[0] = 0;
    reply = compare(log_one, sizeof log_one, log_two, sizeof log_two, LIST_ROOM);
    point("four dots differ", reply.number == 0 && reply.dots == 4 && reply.addresses == 3);
    panel.columns = 1;
    panel.width = 8;
}

/* What a run refuses, in either log. */
static void refusals(void)
{
    static const struct { unsigned number; unsigned long place, length; unsigned char log[8]; } bad[] = {
        {3, 1, 6, {4, 0, 5, 0, 4, 0}}, {4, 1, 6, {4, 0, 1, 0x82, 4, 0}}, {5, 2, 8, {4, 0, 1, 0xB0, 1, 0x94, 4, 0}},
        {6, 1, 6, {4, 0, 1, 0x24, 4, 0}}, {7, 2, 8, {4, 0, 1, 0xB1, 0, 9, 4, 0}}, {8, 2, 5, {9, 0, 9, 0, 9, 0}}
    };
    static const unsigned char good[] = {0, 0x77, 1, 0xC0, 2, 0, 3, 0};
    const struct second_panel not_valid = {0, 1, 8, 0};
    unsigned i;
    int of_one = 1, of_two = 1, both = 1, memories = 1;
    for (i = 0; i < 6; i++) {
        start();
        if (!replies(compare(bad[i].log, bad[i].length, good, sizeof good, 300), bad[i].number, bad[i].place, 1, 0, 0, 0)) of_one = 0;
        if (!lists(NULL, 0)) of_one = 0;
        if (one[0] != 0x5A || two[0] != 0x5A || memcmp(one, two, SECOND_MEMORY_LENGTH) != 0) memories = 0;
        start();
        if (!replies(compare(good, sizeof good, bad[i].log, bad[i].length, 300), bad[i].number, bad[i].place, 2, 0, 0, 0)) of_two = 0;
        if (!lists(NULL, 0)) of_two = 0;
        if (one[0] != 0x77 || two[0] != 0x5A) memories = 0;
        start();
        if (!replies(compare(bad[i].log, bad[i].length, bad[5 - i].log, bad[5 - i].length, 0), bad[i].number, bad[i].place, 1, 0, 0, 0)) both = 0;
    }
    point("3 to 8 of log one", of_one);
    point("3 to 8 of log two", of_two);
    point("log one's before log two's, also before its 8 and before 15", both);
    point("the memories: log two does not run after a refused log one", memories);

    start();
    both = 1;
    for (i = 0; i < 2; i++) {
        unsigned long off = 2 * i;
        if (!replies(second_compare(&panel, one, 65535 + off, two, 65536, rom, 1024, bad[5].log, 5, good, 5, list, 0), 2, 0, 0, 0, 0, 0)) both = 0;
        if (!replies(second_compare(&panel, one, 65536, two, 65535 + off, rom, 1024, bad[5].log, 5, good, 5, list, 0), 2, 0, 0, 0, 0, 0)) both = 0;
        if (!replies(second_compare(&panel, one, 65536, two, 65536, rom, 1023 + off, bad[5].log, 5, good, 5, list, 0), 2, 0, 0, 0, 0, 0)) both = 0;
    }
    if (!replies(second_compare(&not_valid, one, 0, two, 0, rom, 0, bad[5].log, 5, good, 5, list, 0), 1, 0, 0, 0, 0, 0)) both = 0;
    point("1, then 2 for each length, before 8; of neither log", both);
    point("no copy is made then", one[0] == 0x5A && two[0] == 0xEE && two[65535] == 0xEE);
}

/* At random: a log and a changed one, run one access after the other. */

static unsigned char input[GENERATE_ROOM], changed[GENERATE_ROOM];
static unsigned char slow_one[SECOND_MEMORY_LENGTH], slow_two[SECOND_MEMORY_LENGTH];
static unsigned char frame_one[20480], frame_two[20480];
static unsigned long slow_list[LIST_ROOM];

static struct second_run_reply step_through(struct second_registers *registers, unsigned char *memory,
                                            const unsigned char *log, unsigned long pairs)
{
    struct second_run_reply reply = {0};
    second_reset(registers);
    for (; reply.taken < pairs && reply.number == 0; reply.taken++) {
        reply.place = reply.taken;
        reply.number = second_access(&panel, registers, memory, SECOND_MEMORY_LENGTH, rom, SECOND_ROM_LENGTH,
                                     log[2 * reply.taken], log[2 * reply.taken + 1]).number;
    }
    return reply;
}

static unsigned long entry(unsigned long entries, unsigned long which, unsigned long a, unsigned long b)
{
    if (a == b) return entries;
    slow_list[3 * entries] = which;
    slow_list[3 * entries + 1] = a;
    slow_list[3 * entries + 2] = b;
    return entries + 1;
}

static unsigned long display_bits(const struct second_registers *r)
{
    return (r->graphic << 3) + (r->text << 2) + (r->cursor << 1) + r->blink;
}

static unsigned long pending_data(const struct second_registers *r)
{
    return r->pending + ((unsigned long)r->older << 8) + ((unsigned long)r->newest << 16);
}

/* The list word for word; the entries in it. */
static unsigned long slow_entries(const struct second_registers *a, const struct second_registers *b)
{
    unsigned long n = 0, address;
    for (address = 0; address < 65536; address++) n = entry(n, address, slow_one[address], slow_two[address]);
    n = entry(n, 0, a->cursor_x, b->cursor_x);
    n = entry(n, 1, a->cursor_y, b->cursor_y);
    n = entry(n, 2, a->offset, b->offset);
    n = entry(n, 3, a->pointer, b->pointer);
    n = entry(n, 4, a->text_home, b->text_home);
    n = entry(n, 5, a->graphic_home, b->graphic_home);
    n = entry(n, 6, a->text_area, b->text_area);
    n = entry(n, 7, a->graphic_area, b->graphic_area);
    n = entry(n, 8, a->combination, b->combination);
    n = entry(n, 9, a->external, b->external);
    n = entry(n, 10, display_bits(a), display_bits(b));
    n = entry(n, 11, a->cursor_height, b->cursor_height);
    n = entry(n, 12, a->auto_mode, b->auto_mode);
    n = entry(n, 13, pending_data(a), pending_data(b));
    n = entry(n, 14, a->latch, b->latch);
    n = entry(n, 15, a->error, b->error);
    return entry(n, 16, a->phase, b->phase);
}

static unsigned long slow_dots(const struct second_registers *a, const struct second_registers *b)
{
    unsigned long length = second_frame_length(&panel), i, dots = 0;
    second_frame(&panel, a, slow_one, SECOND_MEMORY_LENGTH, rom, SECOND_ROM_LENGTH, frame_one, length);
    second_frame(&panel, b, slow_two, SECOND_MEMORY_LENGTH, rom, SECOND_ROM_LENGTH, frame_two, length);
    for (i = 0; i < length; i++) {
        unsigned bits = frame_one[i] ^ frame_two[i];
        for (; bits != 0; bits /= 2) dots += bits % 2;
    }
    return dots;
}

static struct {
    unsigned long logs, empty, differ, of_one, of_two, scarce, dots, dual;
} seen;

/* The changed log: all of it, or its end cut, or one pair refused, or a few data others. */
static unsigned long change(struct generate_random *random, unsigned long pairs)
{
    unsigned long i;
    memcpy(changed, input + 3, 2 * pairs);
    switch (generate_below(random, 6)) {
    case 0: return pairs;
    case 1: return generate_below(random, (unsigned)pairs + 1);
    case 2:
        if (pairs > 0) changed[2 * generate_below(random, (unsigned)pairs)] = 9;
        return pairs;
    default:
        for (i = 0; i < pairs; i++) {
            if (changed[2 * i] == 0 && generate_below(random, 40) == 0) changed[2 * i + 1] = (unsigned char)generate_below(random, 256);
        }
        return pairs;
    }
}

static int agree(unsigned long long seed)
{
    struct generate_random random;
    struct second_registers a, b;
    struct second_run_reply run;
    struct second_compare_reply reply;
    unsigned long length = generate_input(seed, input), pairs, changed_pairs, entries, i, room = LIST_ROOM;
    random.word = ~seed;
    panel.columns = input[0];
    panel.lines = input[1];
    panel.width = input[2];
    panel.dual = generate_below(&random, 4) == 0;
    if (panel.dual) panel.lines *= 2;
    if (length < 3 || !second_panel_valid(&panel)) return 1;
    pairs = (length - 3) / 2;
    changed_pairs = change(&random, pairs);
    seen.logs++;
    if (panel.dual) seen.dual++;
    for (i = 0; i < 65536; i++) one[i] = slow_one[i] = slow_two[i] = (unsigned char)generate_below(&random, 256);
    if (generate_below(&random, 8) == 0) room = generate_below(&random, 60);
    for (i = 0; i < LIST_ROOM; i++) list[i] = UNTOUCHED;

    reply = compare(input + 3, 2 * pairs, changed, 2 * changed_pairs, room);
    run = step_through(&a, slow_one, input + 3, pairs);
    if (run.number != 0) {
        seen.of_one++;
        return replies(reply, run.number, run.place, 1, 0, 0, 0) && lists(NULL, 0)
               && memcmp(one, slow_one, 65536) == 0 && memcmp(two, slow_two, 65536) == 0;
    }
    run = step_through(&b, slow_two, changed, changed_pairs);
    if (memcmp(one, slow_one, 65536) != 0 || memcmp(two, slow_two, 65536) != 0) return 0;
    if (run.number != 0) {
        seen.of_two++;
        return replies(reply, run.number, run.place, 2, 0, 0, 0) && lists(NULL, 0);
    }
    entries = slow_entries(&a, &b);
    if (3 * entries > room) {
        seen.scarce++;
        return replies(reply, 15, entries, 0, 0, 0, 0) && lists(NULL, 0);
    }
    if (entries == 0) seen.empty++;
    else seen.differ++;
    if (reply.dots > 0) seen.dots++;
    if (entries == 0 && reply.dots != 0) return 0;
    return reply.number == 0 && reply.place == 0 && reply.log == 0 && reply.addresses + reply.registers == entries
           && reply.dots == slow_dots(&a, &b) && memcmp(list, slow_list, 3 * entries * sizeof list[0]) == 0
           && list[3 * entries] == UNTOUCHED;
}

static void at_random(unsigned long long seeds)
{
    unsigned long long seed;
    int holds = 1;
    unsigned i;
    for (i = 0; i < sizeof rom; i++) rom[i] = (unsigned char)(i / 8 + i % 8);
    for (seed = 1; seed <= seeds; seed++) {
        if (!agree(seed)) {
            if (holds) printf("# seed %llu\n", seed);
            holds = 0;
        }
    }
    printf("# %lu logs: agree %lu, differ %lu, in dots %lu; refused one %lu, two %lu, by 15 %lu; dual %lu\n", seen.logs,
           seen.empty, seen.differ, seen.dots, seen.of_one, seen.of_two, seen.scarce, seen.dual);
    point("random logs compared as word for word", holds);
    point("random logs: agreeing, differing, refused, too long a list, dual panels",
          seen.empty > seeds / 20 && seen.differ > seeds / 8 && seen.dots > seeds / 20 && seen.of_one > seeds / 20
          && seen.of_two > 0 && seen.scarce > 0 && seen.dual > seeds / 10);
}

int main(int argc, char **argv)
{
    every_register();
    single_registers();
    memory_entries();
    alike();
    dots();
    refusals();
    at_random(argc == 2 ? strtoull(argv[1], NULL, 10) : 200);
    return 0;
}
