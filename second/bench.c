/* How quick the proved controller is beside the second one and beside C written for speed, in one process.
   Medians of rounds; each round times the three one after the other on the same input. */
#include "../include/bintarumpe.h"
#include "fast.h"
#include "generate.h"
#include "image.h"
#include "second.h"

int printf(const char *format, ...);
int clock_gettime(int clock, long *time);
void *memcpy(void *to, const void *from, unsigned long count);
int memcmp(const void *one, const void *other, unsigned long count);

enum { ROUNDS = 15, LOG = 400000, FRAME = 8 * 32 * 80 };

static unsigned char memory[SECOND_MEMORY_LENGTH], start[SECOND_MEMORY_LENGTH], rom[SECOND_ROM_LENGTH];
static unsigned char log_bytes[LOG], answers[LOG], frame[FRAME], other[FRAME], rows[8 * 32];
static unsigned long entries[2 * LOG];

static double now(void)
{
    long time[2];
    clock_gettime(1, time);
    return (double)time[0] + (double)time[1] / 1e9;
}

static double median(double *values)
{
    for (unsigned i = 1; i < ROUNDS; i++)
        for (unsigned j = i; j > 0 && values[j] < values[j - 1]; j--) {
            const double kept = values[j];
            values[j] = values[j - 1], values[j - 1] = kept;
        }
    return values[ROUNDS / 2];
}

static void report(const char *what, double units, double *proved, double *second, double *fast)
{
    const double p = units / median(proved), s = units / median(second), f = units / median(fast);
    printf("%-38s %12.0f/s   second %12.0f/s (%.2f)   fast C %12.0f/s (%.3f)\n", what, p, s, p / s, f, p / f);
}

static unsigned long put(unsigned long at, unsigned kind, unsigned byte)
{
    log_bytes[at] = (unsigned char)kind, log_bytes[at + 1] = (unsigned char)byte;
    return at + 2;
}

/* A log of one kind of work, over and over. */
static unsigned long make(unsigned work)
{
    unsigned long at = 0;
    unsigned n = 0;
    while (at + 700 < LOG) {
        n++;
        if (work == 0) { /* blocks: pointer set, B0H, bytes, B2H */
            at = put(at, 0, n & 255), at = put(at, 0, n >> 8 & 255), at = put(at, 1, 0x24), at = put(at, 1, 0xb0);
            for (unsigned i = 0; i < 240; i++)
                at = put(at, 0, i & 255);
            at = put(at, 1, 0xb2);
        } else if (work == 1) { /* single stores: pointer set, datum, C0H */
            at = put(at, 0, n & 255), at = put(at, 0, n >> 8 & 255), at = put(at, 1, 0x24), at = put(at, 0, n & 255), at = put(at, 1, 0xc0);
        } else { /* a driver that asks first, with reads, bits, modes and ticks */
            at = put(at, 3, 0), at = put(at, 0, n & 255), at = put(at, 3, 0), at = put(at, 0, n & 63), at = put(at, 3, 0);
            at = put(at, 1, 0x24), at = put(at, 1, 0xf8 + n % 8), at = put(at, 1, 0xc1), at = put(at, 2, 0);
            at = put(at, 1, n & 1 ? 0x80 : 0x81), at = put(at, 1, 0x9c + n % 4), at = put(at, 4, 0), at = put(at, 1, 0xa0 + n % 8);
        }
    }
    return at;
}

static int runs(void)
{
    static const char *const works[][2] = {{"run, blocks in auto write", "ordinary run, blocks"},
                                           {"run, single stores", "ordinary run, single stores"},
                                           {"run, asking, reads, bits, modes", "ordinary run, asking, reads, bits"}};
    const struct second_panel panel = {30, 8, 8, 0};
    for (unsigned each = 0; each < 6; each++) {
        const unsigned work = each / 2, ordinary = each % 2;
        const unsigned long length = make(work);
        double times[3][ROUNDS];
        for (unsigned round = 0; round < ROUNDS; round++) {
            struct second_registers r, q;
            unsigned char b[REGISTERS], c[REGISTERS];
            unsigned long counts[4], list[16];
            second_reset(&r), q = r, to_bytes(&r, b);
            double before = now();
            const unsigned number =
                ordinary ? t6963c_run(panel.columns, panel.lines, panel.width, 0, b, REGISTERS, memory, SECOND_MEMORY_LENGTH, rom,
                                      SECOND_ROM_LENGTH, log_bytes, length, length, answers, LOG, list, 16, counts, 4)
                         : t6963c_run_stopping(panel.columns, panel.lines, panel.width, 0, b, REGISTERS, memory, SECOND_MEMORY_LENGTH, rom,
                                               SECOND_ROM_LENGTH, log_bytes, length, length, answers, LOG, counts, 3);
            times[0][round] = now() - before, before = now();
            const struct second_run_reply reply = second_run_stopping(&panel, &r, memory, SECOND_MEMORY_LENGTH, rom, SECOND_ROM_LENGTH,
                                                                      log_bytes, length, length, answers, LOG);
            times[1][round] = now() - before, before = now();
            const struct second_run_reply quick = fast_run(&panel, &q, memory, rom, log_bytes, length, length, answers, LOG);
            times[2][round] = now() - before;
            to_bytes(&q, c);
            if (number || reply.number || quick.number || counts[1] != quick.taken || memcmp(b, c, REGISTERS)) {
                printf("the runs differ\n");
                return 1;
            }
        }
        report(works[work][ordinary], (double)length / 2, times[0], times[1], times[2]);
    }
    return 0;
}

static int paints(void)
{
    static const struct second_panel panels[] = {{16, 8, 8, 0}, {40, 16, 6, 0}, {80, 16, 8, 0}, {80, 32, 8, 1}};
    static const char *const modes[] = {"text", "both layers", "attribute"};
    for (unsigned which = 0; which < sizeof panels / sizeof panels[0]; which++)
        for (unsigned mode = 0; mode < 3; mode++) {
            const struct second_panel *p = &panels[which];
            const unsigned long length = 8UL * p->lines * ((p->columns * p->width + 7) / 8);
            const unsigned times_each = which == 0 ? 40 : 8;
            double times[3][ROUNDS];
            struct second_registers r;
            unsigned char b[REGISTERS];
            second_reset(&r);
            r.text = 1, r.graphic = mode > 0, r.combination = mode == 2 ? SECOND_ATTRIBUTE : SECOND_EXOR, r.text_home = 0x4000;
            r.text_area = r.graphic_area = p->columns, r.offset = 2, r.cursor = 1, r.cursor_x = 3, r.cursor_y = 2, r.cursor_height = 2;
            to_bytes(&r, b);
            for (unsigned round = 0; round < ROUNDS; round++) {
                double before = now();
                for (unsigned i = 0; i < times_each; i++)
                    if (t6963c_paint(p->columns, p->lines, p->width, (unsigned char)p->dual, b, REGISTERS, start, SECOND_MEMORY_LENGTH, rom,
                                     SECOND_ROM_LENGTH, frame, length))
                        return 1;
                times[0][round] = now() - before, before = now();
                for (unsigned i = 0; i < times_each; i++)
                    second_frame(p, &r, start, SECOND_MEMORY_LENGTH, rom, SECOND_ROM_LENGTH, other, length);
                times[1][round] = now() - before, before = now();
                for (unsigned i = 0; i < times_each; i++)
                    fast_frame(p, &r, start, rom, other);
                times[2][round] = now() - before;
                if (memcmp(frame, other, length)) {
                    printf("the frames differ\n");
                    return 1;
                }
            }
            char what[64] = "frame ";
            unsigned at = 6;
            const unsigned numbers[3] = {p->columns, p->lines, p->width};
            for (unsigned i = 0; i < 3; i++) {
                what[at++] = (char)('0' + numbers[i] / 10), what[at++] = (char)('0' + numbers[i] % 10), what[at++] = i < 2 ? 'x' : ',';
            }
            what[at++] = ' ';
            for (const char *text = modes[mode]; *text; text++)
                what[at++] = *text;
            what[at] = 0;
            report(what, times_each, times[0], times[1], times[2]);
        }
    return 0;
}

/* A state with text, graphic and a glyph bank apart from each other. */
static void viewed(const struct second_panel *panel, unsigned pointer, unsigned auto_mode, unsigned char *bytes)
{
    struct second_registers r;
    second_reset(&r);
    r.text = 1, r.graphic = 1, r.combination = SECOND_EXOR, r.text_home = 0x4000, r.text_area = r.graphic_area = panel->columns;
    r.offset = 31, r.external = 1, r.pointer = pointer, r.auto_mode = auto_mode;
    to_bytes(&r, bytes);
}

/* The run with flags beside the ordinary one: blocks of data alone, then with their pointer, B0H and B2H. */
static int flagged_runs(void)
{
    static const struct second_panel panels[] = {{30, 8, 8, 0}, {80, 16, 8, 0}};
    static const char *const works[] = {"a block of 240 data, 30x8", "a block of 1,280 data, 80x16", "blocks of 240 and their commands, 30x8"};
    for (unsigned which = 0; which < 3; which++) {
        const struct second_panel *p = &panels[which == 1];
        const unsigned long data = which == 1 ? 1280 : 240, length = which == 2 ? make(0) : 2 * data;
        const unsigned times_each = which == 2 ? 1 : 100;
        double times[2][ROUNDS];
        for (unsigned long i = 0; which < 2 && i < data; i++)
            put(2 * i, 0, (unsigned)i & 255);
        for (unsigned round = 0; round < ROUNDS; round++)
            for (unsigned flagged = 0; flagged < 2; flagged++) {
                unsigned char b[REGISTERS];
                unsigned long counts[4], list[16];
                viewed(p, 0x4000, which < 2 ? 1 : 0, b);
                for (unsigned i = 0; i < sizeof rows; i++)
                    rows[i] = 0;
                const double before = now();
                for (unsigned i = 0; i < times_each; i++)
                    if (flagged ? t6963c_follow_run(p->columns, p->lines, p->width, 0, b, REGISTERS, memory, SECOND_MEMORY_LENGTH, rom,
                                                    SECOND_ROM_LENGTH, log_bytes, length, length, answers, LOG, list, 16, counts, 4, rows,
                                                    8UL * p->lines)
                                : t6963c_run(p->columns, p->lines, p->width, 0, b, REGISTERS, memory, SECOND_MEMORY_LENGTH, rom,
                                             SECOND_ROM_LENGTH, log_bytes, length, length, answers, LOG, list, 16, counts, 4))
                        return 1;
                times[flagged][round] = now() - before;
            }
        const double plain = median(times[0]), kept = median(times[1]), units = (double)times_each * (double)length / 2;
        printf("%-40s plain %12.0f pairs/s   with flags %12.0f pairs/s: %.2f of its time\n", works[which], units / plain, units / kept,
               kept / plain);
    }
    return 0;
}

/* One byte stored in auto write, followed and refreshed, beside a frame painted afresh. */
static int refreshes(void)
{
    static const struct second_panel p = {80, 16, 8, 0};
    static const char *const works[] = {"a graphic byte stored", "a text byte stored", "a byte of no row stored"};
    static const unsigned pointers[] = {40 * 80 + 7, 0x4000 + 5 * 80 + 3, 0x6000};
    const unsigned long length = 8UL * p.lines * p.columns;
    for (unsigned which = 0; which < 3; which++) {
        double times[2][ROUNDS];
        for (unsigned round = 0; round < ROUNDS; round++) {
            unsigned char b[REGISTERS], kept[REGISTERS];
            viewed(&p, pointers[which], 1, kept);
            for (unsigned i = 0; i < sizeof rows; i++)
                rows[i] = 1;
            double before = now();
            for (unsigned i = 0; i < 20; i++)
                if (t6963c_paint(p.columns, p.lines, p.width, 0, kept, REGISTERS, memory, SECOND_MEMORY_LENGTH, rom, SECOND_ROM_LENGTH, frame,
                                 length))
                    return 1;
            times[0][round] = now() - before;
            t6963c_refresh(p.columns, p.lines, p.width, 0, kept, REGISTERS, memory, SECOND_MEMORY_LENGTH, rom, SECOND_ROM_LENGTH, frame, length,
                           rows, 8UL * p.lines);
            before = now();
            for (unsigned i = 0; i < 20; i++) {
                memcpy(b, kept, REGISTERS);
                if (t6963c_follow(p.columns, p.lines, p.width, 0, b, REGISTERS, memory, SECOND_MEMORY_LENGTH, rom, SECOND_ROM_LENGTH, 0,
                                  (unsigned char)(i * 37), rows, 8UL * p.lines) ||
                    t6963c_refresh(p.columns, p.lines, p.width, 0, b, REGISTERS, memory, SECOND_MEMORY_LENGTH, rom, SECOND_ROM_LENGTH, frame,
                                   length, rows, 8UL * p.lines))
                    return 1;
            }
            times[1][round] = now() - before;
            t6963c_paint(p.columns, p.lines, p.width, 0, b, REGISTERS, memory, SECOND_MEMORY_LENGTH, rom, SECOND_ROM_LENGTH, other, length);
            if (memcmp(frame, other, length)) {
                printf("the refreshed frame differs\n");
                return 1;
            }
        }
        printf("%-40s followed and refreshed, 80x16: %.3f of the time of a frame\n", works[which], median(times[1]) / median(times[0]));
    }
    return 0;
}

/* The stores into a bank listed, beside the ordinary run: bank 2, which few pairs write to; and the blocks with bank 0, where each of their
   bytes is listed. */
static int listed_runs(void)
{
    static const struct {
        const char *name;
        unsigned work;
        unsigned short first, last;
    } works[] = {{"blocks, bank 2", 0, 0x1000, 0x17ff},
                 {"single stores, bank 2", 1, 0x1000, 0x17ff},
                 {"asking, reads, bits, modes, bank 2", 2, 0x1000, 0x17ff},
                 {"blocks, bank 0, every byte listed", 0, 0, 0x07ff}};
    const struct second_panel panel = {30, 8, 8, 0};
    for (unsigned which = 0; which < 4; which++) {
        const unsigned long length = make(works[which].work);
        double times[2][ROUNDS];
        unsigned long found = 0;
        for (unsigned round = 0; round < ROUNDS; round++)
            for (unsigned listing = 0; listing < 2; listing++) {
                struct second_registers r;
                unsigned char b[REGISTERS];
                unsigned long counts[4], list[16];
                second_reset(&r), to_bytes(&r, b);
                const double before = now();
                const unsigned number =
                    listing ? t6963c_writers(panel.columns, panel.lines, panel.width, 0, b, REGISTERS, memory, SECOND_MEMORY_LENGTH, rom,
                                             SECOND_ROM_LENGTH, log_bytes, length, works[which].first, works[which].last, entries, 2 * LOG,
                                             counts, 2)
                            : t6963c_run(panel.columns, panel.lines, panel.width, 0, b, REGISTERS, memory, SECOND_MEMORY_LENGTH, rom,
                                         SECOND_ROM_LENGTH, log_bytes, length, length, answers, LOG, list, 16, counts, 4);
                times[listing][round] = now() - before;
                found = counts[1];
                if (number) {
                    printf("the list is refused\n");
                    return 1;
                }
            }
        const double plain = median(times[0]), listed = median(times[1]), pairs = (double)length / 2;
        printf("who wrote there, %-36s plain %12.0f pairs/s   listed %12.0f pairs/s: %.2f of its time, %lu entries\n", works[which].name,
               pairs / plain, pairs / listed, listed / plain, found);
    }
    return 0;
}

int main(void)
{
    struct generate_random random = {7};
    for (unsigned long i = 0; i < SECOND_MEMORY_LENGTH; i++)
        start[i] = (unsigned char)generate_next(&random);
    for (unsigned long i = 0; i < SECOND_ROM_LENGTH; i++)
        rom[i] = (unsigned char)generate_next(&random);
    memcpy(memory, start, SECOND_MEMORY_LENGTH);
    printf("pairs or frames a second; in brackets the proved one as a multiple of the other\n");
    return runs() || paints() || flagged_runs() || refreshes() || listed_runs();
}
