/* asking_points SEEDS: recorded logs checked, by hand and at random; one line per point, ok or not ok. */
#include <stdlib.h>
#include <string.h>

#include "asking.h"
#include "generate.h"
#include "point.h"

static unsigned char memory[SECOND_MEMORY_LENGTH + 1], other[SECOND_MEMORY_LENGTH];
static unsigned char rom[SECOND_ROM_LENGTH + 1];
static struct second_panel panel = {1, 1, 8, 0};
static struct second_registers registers;

enum { NONE = -1 };

static int replies(struct second_check_reply reply, unsigned number, unsigned long place, long unasked, long differing)
{
    if (reply.number != number || reply.place != place) return 0;
    if (reply.unasked_named != (unasked != NONE) || reply.differing_named != (differing != NONE)) return 0;
    if (reply.unasked != (unasked == NONE ? 0 : (unsigned long)unasked)) return 0;
    return reply.differing == (differing == NONE ? 0 : (unsigned long)differing);
}

static struct second_check_reply check(const unsigned char *log, unsigned long length,
                                       const unsigned char *recorded, unsigned long answers)
{
    return second_check_log(&panel, &registers, memory, SECOND_MEMORY_LENGTH, rom, SECOND_ROM_LENGTH,
                            log, length, recorded, answers);
}

static void start(void)
{
    memset(memory, 0, sizeof memory);
    second_reset(&registers);
}

/* From reset, auto off, phase normal: the status is A3H. */
static void by_hand(void)
{
    static const struct {
        const char *name;
        unsigned long length, answers;
        unsigned char log[16], recorded[4];
        long unasked, differing;
    } example[] = {
        {"no pairs: passes", 0, 0, {0}, {0}, NONE, NONE},
        {"a command at the start", 2, 0, {1, 0x94}, {0}, 0, NONE},
        {"a data write at the start", 2, 0, {0, 0x94}, {0}, 0, NONE},
        {"a status read, then a command: passes", 4, 1, {3, 0, 1, 0x94}, {0xA3}, NONE, NONE},
        {"one status read serves one access", 6, 1, {3, 0, 1, 0x94, 1, 0x98}, {0xA3}, 2, NONE},
        {"a datum and its command", 6, 1, {3, 0, 0, 0x94, 1, 0xC0}, {0xA3}, 2, NONE},
        {"asked each time: passes", 8, 2, {3, 0, 0, 0x94, 3, 0, 1, 0xC0}, {0xA3, 0xA3}, NONE, NONE},
        {"the first of two unasked", 8, 0, {4, 0, 1, 0x94, 1, 0x98, 1, 0x94}, {0}, 1, NONE},
        {"asked after the access is too late", 4, 1, {1, 0x94, 3, 0}, {0xA3}, 0, NONE},
        {"reads of the latch and ticks need nothing: passes", 6, 2, {2, 0, 4, 0, 3, 0}, {0, 0x23}, NONE, NONE},
        {"nor do they use up a ready answer: passes", 8, 2, {3, 0, 2, 0, 4, 0, 1, 0x94}, {0xA3, 0}, NONE, NONE},
        {"bit 0 clear is not ready", 4, 1, {3, 0, 1, 0x94}, {0xA2}, 1, 0},
        {"bit 1 clear is not ready", 4, 1, {3, 0, 1, 0x94}, {0xA1}, 1, 0},
        {"bits 2 and 3 do not count with auto off", 4, 1, {3, 0, 1, 0x94}, {0xAC}, 1, 0},
        {"bits 0 and 1 alone are ready", 4, 1, {3, 0, 1, 0x94}, {0x03}, NONE, 0},
        {"ready, then not: it was preceded by a ready one", 6, 2, {3, 0, 3, 0, 1, 0x94}, {0xA3, 0xA0}, NONE, 1},
        {"not ready, then ready", 6, 2, {3, 0, 3, 0, 1, 0x94}, {0xA0, 0xA3}, NONE, 0},
        {"a latch read's answer is no status", 4, 1, {2, 0, 1, 0x94}, {0xA3}, 1, 0},
        {"the first answer that differs, of two", 8, 4, {3, 0, 2, 0, 3, 0, 2, 0}, {0xA3, 0, 0xA2, 1}, NONE, 2},
        {"auto write asks for bit 3: passes", 12, 3, {3, 0, 1, 0xB0, 3, 0, 0, 9, 3, 0, 1, 0xB2}, {0xA3, 0xA8, 0xA8}, NONE, NONE},
        {"auto write: bits 0, 1 and 2 do not count", 8, 2, {3, 0, 1, 0xB0, 3, 0, 0, 9}, {0xA3, 0xA7}, 3, 1},
        {"auto write: bit 3 alone", 8, 2, {3, 0, 1, 0xB0, 3, 0, 0, 9}, {0xA3, 0x08}, NONE, 1},
        {"auto write: data after data", 10, 2, {3, 0, 1, 0xB0, 3, 0, 0, 9, 0, 8}, {0xA3, 0xA8}, 4, NONE},
        {"auto read asks for bit 2: passes", 12, 4, {3, 0, 1, 0xB1, 3, 0, 2, 0, 3, 0, 1, 0xB2}, {0xA3, 0xA4, 0, 0xA4}, NONE, NONE},
        {"auto read: bits 0, 1 and 3 do not count", 8, 3, {3, 0, 1, 0xB1, 3, 0, 2, 0}, {0xA3, 0xAB, 0}, 3, 1},
        {"auto read: a data read unasked", 6, 2, {3, 0, 1, 0xB1, 2, 0}, {0xA3, 0}, 2, NONE},
        {"auto read: data read after data read", 10, 4, {3, 0, 1, 0xB1, 3, 0, 2, 0, 2, 0}, {0xA3, 0xA4, 0, 0}, 4, NONE},
        {"auto read: its data reads use up the answer", 10, 3, {3, 0, 1, 0xB1, 3, 0, 2, 0, 1, 0xB2}, {0xA3, 0xA4, 0}, 4, NONE},
        {"both are named", 8, 2, {1, 0x94, 2, 0, 2, 0, 1, 0x94}, {0, 7}, 0, 1}
    };
    unsigned i;
    for (i = 0; i < sizeof example / sizeof example[0]; i++) {
        start();
        point(example[i].name, replies(check(example[i].log, example[i].length, example[i].recorded, example[i].answers),
                                       0, 0, example[i].unasked, example[i].differing));
    }
}

static void given_state(void)
{
    static const unsigned char log[] = {3, 0, 0, 0x77, 3, 0, 1, 0xB2, 3, 0, 1, 0xC5, 2, 0};
    static const unsigned char recorded[] = {0x68, 0x68, 0x63, 0x5A};
    struct second_registers before;
    start();
    memory[0x1235] = 0x5A;
    registers.auto_mode = SECOND_AUTO_WRITE;
    registers.pointer = 0x1234;
    registers.error = 1;
    registers.phase = SECOND_PHASE_OFF;
    before = registers;
    point("from a state in auto write, error set, phase off: passes", replies(check(log, sizeof log, recorded, 4), 0, 0, NONE, NONE));
    point("the state stays, memory is that after the run",
          memcmp(&registers, &before, sizeof before) == 0 && memory[0x1234] == 0x77 && memory[0x1235] == 0x5A);
}

/* Each log stores 77H at 0000H first, then is refused. */
static void refusals(void)
{
    static const struct { unsigned number; unsigned char bad[4]; unsigned long bytes, place; } log[] = {
        {3, {5, 0}, 2, 2}, {4, {1, 0x82}, 2, 2}, {5, {1, 0xB0, 1, 0x94}, 4, 3}, {6, {1, 0x24}, 2, 2}, {7, {1, 0xB1, 0, 1}, 4, 3}
    };
    static const unsigned char none[4] = {9, 9, 9, 9}, statuses[] = {1, 0x94, 3, 0, 0, 0x77, 1, 0xC4, 3, 0};
    static const struct second_panel bad_panel = {1, 3, 8, 1};
    struct second_registers bad_state;
    unsigned i;
    int holds = 1, stored = 1;
    for (i = 0; i < 5; i++) {
        unsigned char bytes[16] = {0, 0x77, 1, 0xC0};
        start();
        memcpy(bytes + 4, log[i].bad, log[i].bytes);
        if (!replies(check(bytes, 4 + log[i].bytes, none, 0), log[i].number, log[i].place, NONE, NONE)) holds = 0;
        if (!replies(check(bytes, 4 + log[i].bytes, none, 4), log[i].number, log[i].place, NONE, NONE)) holds = 0;
        if (memory[0] != 0x77) stored = 0;
    }
    point("3 to 7, before 14, nothing named", holds);
    point("memory is that after the pairs before", stored);

    holds = 1;
    for (i = 0; i < 4; i++) {
        start();
        if (i != 2 && !replies(check(statuses, sizeof statuses, none, i), 14, 0, NONE, NONE)) holds = 0;
        if (i != 2 && memory[0] != 0x77) holds = 0;
    }
    point("14 for fewer and for more answers than reads, nothing named; memory is that after the run", holds);
    start();
    point("as many answers as reads", replies(check(statuses, sizeof statuses, none, 2), 0, 0, 0, 0));
    start();
    point("8 before any pair", replies(check(statuses, 9, none, 0), 8, 4, NONE, NONE) && memory[0] == 0);
    point("8 for one byte", replies(check(statuses, 1, none, 0), 8, 0, NONE, NONE));

    bad_state = registers;
    bad_state.latch = 256;
    holds = replies(second_check_log(&bad_panel, &registers, memory, 0, rom, 0, statuses, 9, none, 0), 1, 0, NONE, NONE)
            && replies(second_check_log(&panel, &bad_state, memory, 0, rom, 0, statuses, 9, none, 0), 1, 0, NONE, NONE);
    point("1 for panel or state, before 2", holds);
    holds = 1;
    for (i = 0; i < 2; i++) {
        if (!replies(second_check_log(&panel, &registers, memory, 65535 + 2 * i, rom, 1024, statuses, 9, none, 0), 2, 0, NONE, NONE)) holds = 0;
        if (!replies(second_check_log(&panel, &registers, memory, 65536, rom, 1023 + 2 * i, statuses, 9, none, 0), 2, 0, NONE, NONE)) holds = 0;
    }
    point("2 for memory or ROM, before 8", holds && memory[0] == 0);
}

/* At random: a log with status reads put in, its answers recorded and some of them spoilt. */

#define PAIRS 30000UL
static unsigned char input[GENERATE_ROOM], log_bytes[2 * PAIRS], answers[PAIRS];
static unsigned modes[PAIRS];           /* auto before each pair */
static unsigned long answer_of[PAIRS];  /* the index of a read's answer */

static struct {
    unsigned long logs, passed, unasked, differing, refused, counts;
} seen;

/* A status read before all pairs of kinds 0 to 2 but one in so many. B2H comes first, whatever auto is. */
static unsigned long put_in_status_reads(struct generate_random *random, unsigned long pairs, unsigned forget)
{
    static const unsigned char auto_off[4] = {3, 0, 1, 0xB2};
    unsigned long i, put = 2;
    memcpy(log_bytes, auto_off, sizeof auto_off);
    for (i = 0; i < pairs; i++) {
        unsigned kind = input[3 + 2 * i];
        if (kind <= 2 && generate_below(random, forget) != 0) {
            log_bytes[2 * put] = 3;
            log_bytes[2 * put + 1] = (unsigned char)generate_below(random, 256);
            put++;
        }
        memcpy(log_bytes + 2 * put, input + 3 + 2 * i, 2);
        put++;
    }
    return put;
}

/* The log run one access after the other: the number of its first refused pair, or 0, and the answers. */
static unsigned record(unsigned long pairs, unsigned long *place, unsigned long *count)
{
    struct second_registers running = registers;
    unsigned long i;
    *count = 0;
    for (i = 0; i < pairs; i++) {
        unsigned char kind = log_bytes[2 * i];
        struct second_reply reply;
        modes[i] = running.auto_mode;
        reply = second_access(&panel, &running, other, sizeof other, rom, SECOND_ROM_LENGTH, kind, log_bytes[2 * i + 1]);
        *place = i;
        if (reply.number != 0) return reply.number;
        if (kind == 2 || kind == 3) {
            answer_of[i] = *count;
            answers[(*count)++] = reply.read;
        }
    }
    *place = 0;
    return 0;
}

static int such_access(unsigned long i)
{
    unsigned kind = log_bytes[2 * i];
    return kind == 0 || kind == 1 || (kind == 2 && modes[i] == SECOND_AUTO_READ);
}

/* Was a status read answered ready since the last such access or the log's start? */
static int preceded(unsigned long i)
{
    while (i > 0) {
        unsigned answer;
        i--;
        if (such_access(i)) return 0;
        if (log_bytes[2 * i] != 3) continue;
        answer = answers[answer_of[i]];
        if (modes[i] == SECOND_AUTO_OFF && answer % 4 == 3) return 1;
        if (modes[i] == SECOND_AUTO_WRITE && answer / 8 % 2 == 1) return 1;
        if (modes[i] == SECOND_AUTO_READ && answer / 4 % 2 == 1) return 1;
    }
    return 0;
}

static int agree(unsigned long long seed)
{
    struct generate_random random;
    unsigned long length = generate_input(seed, input), pairs, place, count, i, spoilt = PAIRS;
    long unasked = NONE, differing = NONE;
    unsigned number;
    unsigned char spoilt_from = 0;
    struct second_check_reply reply;
    random.word = ~seed;
    panel.columns = input[0];
    panel.lines = input[1];
    panel.width = input[2];
    if (length < 3 || !second_panel_valid(&panel)) return 1;
    pairs = (length - 3) / 2;
    if (pairs > 3000) pairs = 3000;
    pairs = put_in_status_reads(&random, pairs, generate_below(&random, 2) ? 100 : 1000000);
    start();
    registers.auto_mode = generate_below(&random, 3);
    registers.phase = generate_below(&random, 2);
    for (i = 0; i < sizeof other; i++) memory[i] = other[i] = (unsigned char)generate_below(&random, 256);
    number = record(pairs, &place, &count);
    if (count > 0 && generate_below(&random, 2) == 0) {
        spoilt = generate_below(&random, (unsigned)count);
        spoilt_from = answers[spoilt];
        answers[spoilt] = (unsigned char)(answers[spoilt] ^ (1U << generate_below(&random, 8)));
        differing = (long)spoilt;
    }
    for (i = 0; i < pairs && number == 0 && unasked == NONE; i++) {
        if (such_access(i) && !preceded(i)) unasked = (long)i;
    }
    if (number == 0 && generate_below(&random, 20) == 0) {
        number = 14;
        place = 0;
        count += generate_below(&random, 2) && count > 0 ? -1UL : 1UL;
    }
    if (number != 0) unasked = differing = NONE;
    reply = check(log_bytes, 2 * pairs, answers, count);
    seen.logs++;
    if (number == 14) seen.counts++;
    else if (number != 0) seen.refused++;
    else if (unasked == NONE && differing == NONE) seen.passed++;
    if (unasked != NONE) seen.unasked++;
    if (differing != NONE) seen.differing++;
    if (spoilt < PAIRS) answers[spoilt] = spoilt_from;
    return replies(reply, number, place, unasked, differing) && memcmp(memory, other, sizeof other) == 0;
}

static void at_random(unsigned long long seeds)
{
    unsigned long long seed;
    int holds = 1;
    unsigned i;
    for (i = 0; i < sizeof rom; i++) rom[i] = (unsigned char)(i / 8 + i % 8);
    for (seed = 1; seed <= seeds; seed++) {
        if (!agree(seed)) {
            if (holds) printf("# seed %llu\n", seed);
            holds = 0;
        }
    }
    printf("# %lu logs: passed %lu, unasked %lu, differing %lu, refused %lu, by 14 %lu\n", seen.logs, seen.passed,
           seen.unasked, seen.differing, seen.refused, seen.counts);
    point("random logs named as word for word", holds);
    point("random logs that pass, with either named, refused, and by 14",
          seen.passed > seeds / 20 && seen.unasked > seeds / 20 && seen.differing > seeds / 20 && seen.refused > seeds / 20
          && seen.counts > 0);
}

int main(int argc, char **argv)
{
    by_hand();
    given_state();
    refusals();
    at_random(argc == 2 ? strtoull(argv[1], NULL, 10) : 200);
    return 0;
}
