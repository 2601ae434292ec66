/* The proved controller against the second one, in one process: random logs, from random valid and invalid states and memories, on dual
   panels half of the time, by the run that stops and by the ordinary one with lists of 0 to 5 entries, in two parts, everything compared
   after each. `compare SEED PAIRS` goes on until it has compared that many
   pairs. Every fiftieth seed is tried once more with a long block of data in its log; these pairs are counted beside, and not among the
   wanted ones. */
#include "../include/bintarumpe.h"
#include "generate.h"
#include "image.h"
#include "second.h"
#include "states.h"

int printf(const char *format, ...);
unsigned long long strtoull(const char *text, char **end, int base);
void *memcpy(void *to, const void *from, unsigned long count);
int memcmp(const void *one, const void *other, unsigned long count);

/* BLOCK: the pairs of the longest block and of what leads to it. */
enum { ANSWERS = 300, COUNTS = 5, LIST = 11, FRAME = 8 * 32 * 80, LOG = 1200, BLOCK = 2 * 65536 + 200, EVERY = 50 };

/* One side's buffers. */
struct side {
    unsigned char memory[SECOND_MEMORY_LENGTH];
    unsigned char answers[ANSWERS];
    unsigned char frame[FRAME + 1];
    unsigned char registers[REGISTERS];
    unsigned long list[LIST];
    unsigned number;
    unsigned long place, taken, given, listed;
    unsigned painted;
    /* number, text, graphic and shown of a cell row, the number lowest */
    unsigned layers;
};

/* What both sides are given. */
struct trial {
    struct second_panel panel;
    unsigned char registers[REGISTERS];
    unsigned char memory[SECOND_MEMORY_LENGTH];
    unsigned char rom[SECOND_ROM_LENGTH];
    unsigned char log[LOG + 2 * BLOCK];
    unsigned long log_length, limit, answers_length, frame_length, memory_length, rom_length, counts_length, list_length;
    int skips;
};

static struct trial trial;
static struct side proved, second;

/* A cell row of the panel that changes with the run; 0 and 0 where there is no panel. */
static unsigned long row_of(const struct side *s)
{
    return trial.panel.lines ? (7 * s->taken + s->given + trial.memory[1]) % (8 * trial.panel.lines) : 0;
}

static unsigned long column_of(const struct side *s)
{
    return trial.panel.columns ? (3 * s->taken + trial.memory[0]) % trial.panel.columns : 0;
}

/* The proved side, through its boundary. */
static void run_proved(struct side *s, unsigned long from, unsigned long limit)
{
    unsigned long counts[COUNTS] = {0};
    const unsigned long before = s->given, listed = s->listed;
    if (trial.skips)
        s->number = t6963c_run(trial.panel.columns, trial.panel.lines, trial.panel.width, (unsigned char)trial.panel.dual, s->registers,
                               REGISTERS, s->memory, trial.memory_length, trial.rom, trial.rom_length, trial.log + from,
                               trial.log_length - from, limit, s->answers + before, trial.answers_length - before, s->list + 2 * listed,
                               trial.list_length - 2 * listed, counts, trial.counts_length);
    else
        s->number = t6963c_run_stopping(trial.panel.columns, trial.panel.lines, trial.panel.width, (unsigned char)trial.panel.dual,
                                        s->registers, REGISTERS, s->memory, trial.memory_length, trial.rom, trial.rom_length,
                                        trial.log + from, trial.log_length - from, limit, s->answers + before,
                                        trial.answers_length - before, counts, trial.counts_length);
    s->place = counts[0], s->taken = counts[1], s->given = before + counts[2], s->listed = listed + counts[3];
    s->painted = t6963c_paint(trial.panel.columns, trial.panel.lines, trial.panel.width, (unsigned char)trial.panel.dual, s->registers,
                              REGISTERS, s->memory, trial.memory_length, trial.rom, trial.rom_length, s->frame, trial.frame_length);
    s->layers = t6963c_layers(trial.panel.columns, trial.panel.lines, trial.panel.width, (unsigned char)trial.panel.dual, s->registers,
                              REGISTERS, s->memory, trial.memory_length, trial.rom, trial.rom_length, row_of(s), column_of(s));
}

static void run_second(struct side *s, unsigned long from, unsigned long limit)
{
    struct second_registers r;
    struct second_layers_reply seen;
    const unsigned long before = s->given, listed = s->listed;
    from_bytes(s->registers, &r);
    /* Counts of another length are refused like any other fixed length: by 2, where panel and state are valid. */
    if (trial.counts_length != (trial.skips ? 4 : 3)) {
        s->number = second_run_stopping(&trial.panel, &r, s->memory, trial.memory_length, trial.rom, trial.rom_length, trial.log, 0, 0,
                                        s->answers, 0).number == 1 ? 1 : 2;
        s->place = s->taken = 0;
    } else {
        const struct second_run_reply reply =
            trial.skips
                ? second_run(&trial.panel, &r, s->memory, trial.memory_length, trial.rom, trial.rom_length, trial.log + from,
                             trial.log_length - from, limit, s->answers + before, trial.answers_length - before, s->list + 2 * listed,
                             trial.list_length - 2 * listed)
                : second_run_stopping(&trial.panel, &r, s->memory, trial.memory_length, trial.rom, trial.rom_length, trial.log + from,
                                      trial.log_length - from, limit, s->answers + before, trial.answers_length - before);
        s->number = reply.number, s->place = reply.place, s->taken = reply.taken, s->given = before + reply.answers;
        s->listed = listed + reply.skipped;
    }
    to_bytes(&r, s->registers);
    s->painted = second_frame(&trial.panel, &r, s->memory, trial.memory_length, trial.rom, trial.rom_length, s->frame,
                              trial.frame_length);
    seen = second_show_layers(&trial.panel, &r, s->memory, trial.memory_length, trial.rom, trial.rom_length, (unsigned)row_of(s),
                              (unsigned)column_of(s));
    s->layers = seen.number | (unsigned)seen.layers.text << 8 | (unsigned)seen.layers.graphic << 16 |
                (unsigned)seen.layers.displayed << 24;
}

static int same(void)
{
    return proved.number == second.number && proved.place == second.place && proved.taken == second.taken &&
           proved.given == second.given && proved.listed == second.listed &&
           memcmp(proved.list, second.list, sizeof proved.list) == 0 && proved.painted == second.painted && proved.layers == second.layers &&
           memcmp(proved.registers, second.registers, REGISTERS) == 0 &&
           memcmp(proved.memory, second.memory, SECOND_MEMORY_LENGTH) == 0 &&
           memcmp(proved.answers, second.answers, ANSWERS) == 0 && memcmp(proved.frame, second.frame, FRAME + 1) == 0;
}

static void begin(struct side *s)
{
    memcpy(s->memory, trial.memory, SECOND_MEMORY_LENGTH);
    memcpy(s->registers, trial.registers, REGISTERS);
    for (unsigned i = 0; i < ANSWERS; i++)
        s->answers[i] = (unsigned char)(i * 7);
    for (unsigned i = 0; i <= FRAME; i++)
        s->frame[i] = (unsigned char)(i * 5);
    for (unsigned i = 0; i < LIST; i++)
        s->list[i] = 1000 + i;
    s->given = s->listed = 0;
}

/* Both parts of the log; the second only where the first stopped by number. Pairs taken, or -1 where they differ. */
static long compare(void)
{
    long pairs;
    begin(&proved), begin(&second);
    run_proved(&proved, 0, trial.limit), run_second(&second, 0, trial.limit);
    if (!same())
        return -1;
    pairs = (long)proved.taken;
    if (proved.number == 0 && 2 * proved.taken < trial.log_length) {
        const unsigned long from = 2 * proved.taken;
        run_proved(&proved, from, ~0UL), run_second(&second, from, ~0UL);
        if (!same())
            return -1;
        pairs += (long)proved.taken;
    }
    return pairs + 1;
}

/* A valid state but for one field in twenty. */
static void make_state(struct generate_random *random)
{
    struct second_registers r;
    random_state(random, &trial.panel, &r);
    to_bytes(&r, trial.registers);
    if (below(random, 20) == 0)
        trial.registers[below(random, REGISTERS)] = (unsigned char)below(random, 256);
}

/* In one of thirty, lines at an edge of what the marker lets through, a marker that is none, or the other kind's. */
static void spoil_panel(struct generate_random *random)
{
    static const unsigned char edges[] = {0, 1, 2, 15, 16, 17, 18, 31, 32, 33, 34};
    if (below(random, 30))
        return;
    switch (below(random, 3)) {
    case 0: trial.panel.lines = edges[below(random, sizeof edges)]; break;
    case 1: trial.panel.dual = below(random, 2) ? 2 + below(random, 254) : 2; break;
    default: trial.panel.dual = 1 - trial.panel.dual; break;
    }
}

static void make(unsigned long long seed)
{
    static unsigned char input[GENERATE_ROOM];
    struct generate_random random = {seed ^ 0x5eedULL};
    unsigned long length;
    trial.panel.dual = below(&random, 2);
    length = trial.panel.dual ? generate_dual_input(seed, input) : generate_input(seed, input);
    trial.panel.columns = length > 0 ? input[0] : 0, trial.panel.lines = length > 1 ? input[1] : 0;
    trial.panel.width = length > 2 ? input[2] : 0;
    spoil_panel(&random);
    trial.log_length = length > 3 ? length - 3 : 0;
    if (trial.log_length > LOG)
        trial.log_length = LOG - below(&random, 2);
    memcpy(trial.log, input + 3, trial.log_length);
    for (unsigned long i = 0; i < SECOND_MEMORY_LENGTH; i += 8) {
        const unsigned long long word = generate_next(&random);
        memcpy(trial.memory + i, &word, 8);
    }
    for (unsigned long i = 0; i < SECOND_ROM_LENGTH; i++)
        trial.rom[i] = (unsigned char)generate_next(&random);
    make_state(&random);
    trial.limit = below(&random, (unsigned)(trial.log_length / 2 + 2));
    trial.answers_length = below(&random, 3) ? ANSWERS : below(&random, ANSWERS + 1);
    trial.frame_length = 8UL * trial.panel.lines * ((trial.panel.columns * trial.panel.width + 7UL) / 8);
    if (trial.frame_length > FRAME || below(&random, 40) == 0)
        trial.frame_length = below(&random, FRAME);
    trial.memory_length = below(&random, 40) ? SECOND_MEMORY_LENGTH : SECOND_MEMORY_LENGTH - 1;
    trial.rom_length = below(&random, 40) ? SECOND_ROM_LENGTH : SECOND_ROM_LENGTH - 1;
    trial.skips = (int)below(&random, 2);
    trial.list_length = below(&random, LIST + 1);
    trial.counts_length = 3 + trial.skips;
    if (below(&random, 40) == 0)
        trial.counts_length += below(&random, 2) ? 1 : -1UL;
    if (trial.counts_length != 3UL + trial.skips && below(&random, 2))
        trial.registers[17] = 0; /* no cursor height: 1 comes before 2 */
}

/* The block that a long log has; none where another pair stands among its data. */
struct block {
    unsigned long begin, pairs;
    unsigned pointer;
};

static void put(unsigned char *log, unsigned long pair, unsigned kind, unsigned byte)
{
    log[2 * pair] = (unsigned char)kind, log[2 * pair + 1] = (unsigned char)byte;
}

/* A block of data put into the made log: longer than the memory, over the pointer's wrap, or both. One in three begins the log, in a
   state of auto write with data pending; the others are led to by commands. One in four has a pair of another kind among its data. */
static struct block lengthen(unsigned long long seed)
{
    static struct trial made;
    struct generate_random random = {seed ^ 0xb10cULL};
    const unsigned before = 1 + below(&random, 300);
    const int first = below(&random, 3) == 0, ended = below(&random, 4) != 0, broken = below(&random, 4) == 0;
    struct block block = {0, 0, 65536 - before};
    unsigned long at = first ? 0 : below(&random, (unsigned)(trial.log_length / 4 + 1)), from = at;
    switch (below(&random, 4)) {
    case 0: block.pairs = 65537 + below(&random, 9000); break;
    case 1: block.pairs = 65535 + below(&random, 3); break;
    case 2: block.pairs = 2 * 65536 + below(&random, 100); break;
    default: block.pairs = before - 1 + below(&random, 60); break;
    }
    made = trial;
    if (first) {
        struct second_registers r;
        from_bytes(trial.registers, &r);
        r.auto_mode = SECOND_AUTO_WRITE, r.pointer = block.pointer;
        to_bytes(&r, trial.registers);
    } else {
        put(trial.log, at++, 1, 0xb2), put(trial.log, at++, 0, block.pointer % 256), put(trial.log, at++, 0, block.pointer / 256);
        put(trial.log, at++, 1, 0x24), put(trial.log, at++, 1, 0xb0);
    }
    block.begin = at;
    for (unsigned long i = 0; i < block.pairs; i++)
        put(trial.log, at++, 0, (unsigned)(generate_next(&random) >> 56));
    if (broken && block.pairs > 0) {
        static const unsigned char kinds[4] = {3, 4, 2, 5};
        trial.log[2 * (block.begin + below(&random, (unsigned)block.pairs))] = kinds[below(&random, 4)];
        block.pairs = 0;
    }
    if (ended)
        put(trial.log, at++, 1, 0xb2);
    memcpy(trial.log + 2 * at, made.log + 2 * from, made.log_length - 2 * from);
    trial.log_length += 2 * (at - from);
    trial.limit = below(&random, 2) ? trial.log_length : below(&random, (unsigned)(trial.log_length / 2 + 2));
    return block;
}

/* What the seeds reached by the ordinary run: pairs, pairs listed, and lists that were full. */
static struct {
    unsigned long long pairs, listed, full;
} skipping;

static void count_skipping(long taken)
{
    if (!trial.skips)
        return;
    skipping.pairs += (unsigned long long)taken;
    skipping.listed += second.listed;
    skipping.full += second.number == 16;
}

/* What the seeds reached on dual panels: pairs, and frames with a cursor in the upper and in the lower half. */
static struct {
    unsigned long long pairs, cursors[2];
} halves;

static void count_halves(long taken)
{
    struct second_registers r;
    if (trial.panel.dual != 1 || second.painted)
        return;
    halves.pairs += (unsigned long long)taken;
    from_bytes(second.registers, &r);
    for (unsigned line = 0; line < trial.panel.lines && r.cursor_x < trial.panel.columns; line++)
        if (second_cursor_covers(&trial.panel, &r, 8 * line + 7, r.cursor_x))
            halves.cursors[2 * line >= trial.panel.lines]++;
}

/* Pairs taken out, many at once and then fewer, while the two still differ; a long log is not taken apart to the last pair. */
static void shrink(unsigned long long seed)
{
    static struct trial kept;
    for (unsigned long many = trial.log_length / 2; many > trial.log_length / 8192; many /= 2)
        for (unsigned long i = trial.log_length / 2; i >= many; i -= many) {
            kept = trial;
            memcpy(trial.log + 2 * (i - many), kept.log + 2 * i, kept.log_length - 2 * i);
            trial.log_length -= 2 * many;
            if (compare() >= 0)
                trial = kept;
        }
    (void)compare();
    printf("differs at seed %llu: %s, list %lu, panel %u %u %u, marker %u, limit %lu, answers %lu, log", seed,
           trial.skips ? "run" : "run_stopping", trial.list_length, trial.panel.columns, trial.panel.lines,
           trial.panel.width, trial.panel.dual, trial.limit, trial.answers_length);
    for (unsigned long i = 0; i < trial.log_length && i < LOG; i++)
        printf(" %02X", trial.log[i]);
    if (trial.log_length > LOG)
        printf(" .., %lu bytes", trial.log_length);
    printf("\n  registers");
    for (unsigned i = 0; i < REGISTERS; i++)
        printf(" %02X", trial.registers[i]);
    printf("\n  proved: number %u place %lu taken %lu given %lu; second: number %u place %lu taken %lu given %lu\n", proved.number,
           proved.place, proved.taken, proved.given, second.number, second.place, second.taken, second.given);
}

int main(int count, char **words)
{
    unsigned long long seed = count > 1 ? strtoull(words[1], 0, 10) : 1;
    const unsigned long long wanted = count > 2 ? strtoull(words[2], 0, 10) : 100000;
    unsigned long long pairs = 0, passed = 0, failed = 0, more = 0, longer = 0, wrapped = 0;
    const unsigned long long first = seed;
    for (; pairs < wanted && failed < 3; seed++)
        for (int again = 0; again <= (seed % EVERY == 0); again++) {
            struct block block = {0, 0, 0};
            make(seed);
            if (again)
                block = lengthen(seed);
            const long taken = compare();
            if (taken < 0) {
                failed++;
                shrink(seed);
                continue;
            }
            passed++;
            count_halves(taken);
            count_skipping(taken);
            *(again ? &more : &pairs) += (unsigned long long)taken;
            if (again && (unsigned long)taken > block.begin + block.pairs) {
                longer += block.pairs > 65536;
                wrapped += block.pointer + block.pairs > 65536;
            }
        }
    printf("seeds %llu to %llu, %llu pairs; long logs: %llu pairs, %llu blocks of more than 65,536 bytes, %llu over the wrap\n", first,
           seed - 1, pairs, more, longer, wrapped);
    printf("dual panels: %llu pairs, %llu frames with the cursor in the upper half, %llu in the lower\n", halves.pairs, halves.cursors[0],
           halves.cursors[1]);
    printf("ordinary runs: %llu pairs, %llu of them skipped, %llu lists full\n", skipping.pairs, skipping.listed, skipping.full);
    printf("%llu passed, %llu failed\n", passed, failed);
    return failed != 0;
}
