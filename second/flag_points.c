/* flag_points SEEDS: which rows changed, by hand and at random; one line per point, ok or not ok. */
#include <stdlib.h>
#include <string.h>

#include "flags.h"
#include "generate.h"
#include "point.h"

#define UNTOUCHED 0xEE

static unsigned char memory[SECOND_MEMORY_LENGTH + 1];
static unsigned char rom[SECOND_ROM_LENGTH + 1];
static unsigned char flags[256 + 1], frame[20480 + 1], fresh[20480], saved[20480];
static struct second_panel panel;
static struct second_registers registers;

/* C 2, L 2, w 8: text at 1000H, two codes a line, graphic at 2000H, two bytes a row, glyphs from 0800H. */
static void start(void)
{
    panel.columns = 2;
    panel.lines = 2;
    panel.width = 8;
    panel.dual = 0;
    memset(memory, 0, sizeof memory);
    second_reset(&registers);
    registers.text_home = 0x1000;
    registers.text_area = 2;
    registers.graphic_home = 0x2000;
    registers.graphic_area = 2;
    registers.offset = 1;
    memset(flags, 0, sizeof flags);
}

static struct second_reply take(unsigned kind, unsigned byte)
{
    return second_access_flagged(&panel, &registers, memory, SECOND_MEMORY_LENGTH, rom, SECOND_ROM_LENGTH,
                                 flags, second_flags_length(&panel), (unsigned char)kind, (unsigned char)byte);
}

/* The flagged rows, bit r for row r of 16; then none is. */
static unsigned flagged(void)
{
    unsigned row, rows = 0;
    for (row = 0; row < 16; row++) {
        if (flags[row]) rows |= 1U << row;
    }
    memset(flags, 0, sizeof flags);
    return rows;
}

static unsigned store(unsigned address, unsigned byte)
{
    registers.pointer = address;
    take(SECOND_DATA_WRITE, byte);
    take(SECOND_COMMAND, 0xC4);
    return flagged();
}

#define UPPER 0x00FFU /* rows 0 to 7 */
#define LOWER 0xFF00U /* rows 8 to 15 */
#define ALL 0xFFFFU

static void stores(void)
{
    unsigned layers, wrong = 0;
    start();
    point("the first text code: its line's eight rows", store(0x1000, 1) == UPPER);
    point("the last text code", store(0x1003, 1) == LOWER);
    point("past the last text code: none", store(0x1004, 1) == 0);
    point("before the first: none", store(0x0FFF, 1) == 0);
    point("the first graphic byte: its row", store(0x2000, 1) == 0x0001);
    point("a graphic byte of row 5", store(0x200B, 1) == 0x0020);
    point("the last graphic byte", store(0x201F, 1) == 0x8000);
    point("past the last graphic byte: none", store(0x2020, 1) == 0);
    store(0x1000, 0x41);
    store(0x1002, 0x80);
    point("a glyph row of code 80H, shown in line 1", store(0x0C03, 1) == 0x0800);
    point("a glyph row of code 81H, shown nowhere", store(0x0C0B, 1) == 0);
    point("a glyph of code 41H, which comes from the ROM: none", store(0x0A08, 1) == 0);
    registers.external = 1;
    point("external: a glyph row of code 41H", store(0x0A08, 1) == 0x0001);
    store(0x1003, 0);
    point("external: a glyph row of code 00H, in both lines", store(0x0802, 1) == 0x0404);
    registers.external = 0;
    for (layers = 0; layers < 4; layers++) {
        registers.text = layers % 2;
        registers.graphic = layers / 2;
        if (store(0x1003, 1) != LOWER || store(0x200B, 1) != 0x0020 || store(0x0C03, 1) != 0x0800) wrong++;
    }
    point("layers on or off", wrong == 0);
    point("the byte already there flags too", store(0x200B, 1) == 0x0020);
    registers.pointer = 0x200B;
    take(SECOND_COMMAND, 0xF8);
    point("a bit already set flags too", flagged() == 0x0020);
    take(SECOND_COMMAND, 0xF7);
    point("a bit already reset flags too", flagged() == 0x0020 && memory[0x200B] == 1);
}

static void areas(void)
{
    start();
    registers.combination = SECOND_ATTRIBUTE;
    point("attribute mode: the attribute byte of line 0", store(0x2001, 5) == UPPER);
    point("attribute mode: the attribute byte of line 1", store(0x2003, 5) == LOWER);
    point("attribute mode: what would be a graphic byte of row 2: none", store(0x2004, 5) == 0);
    point("attribute mode: a text code", store(0x1001, 0x80) == UPPER);
    point("attribute mode: a glyph row", store(0x0C07, 5) == 0x0080);
    start();
    registers.graphic_area = 0;
    registers.text_area = 0;
    point("graphic area 0: every row", store(0x2001, 1) == ALL);
    point("text area 0: every row", store(0x1001, 1) == ALL);
    start();
    registers.graphic_area = 1;
    point("graphic area 1: two rows share a byte", store(0x2004, 1) == 0x0018);
    start();
    registers.graphic_home = 0xFFFF;
    point("addresses run on past FFFFH", store(0x0000, 1) == 0x0001 && store(0x0001, 1) == 0x0002);
    start();
    registers.text_home = 0x2002;
    point("a byte that is text of line 0 and graphic of row 1, of line 1 and row 2",
          store(0x2002, 1) == UPPER && store(0x2004, 1) == LOWER + 0x0004);
}

/* A text code that is its own glyph byte, before the store or after. */
static void before_and_after(void)
{
    start();
    registers.text_home = 0x0C00; /* where the glyph of code 80H begins */
    registers.graphic_home = 0x4000;
    memory[0x0C02] = 0x80; /* line 1, column 0 shows code 80H: row 8 reads 0C00H, row 10 its own code */
    point("a text byte of line 0 is a glyph byte of row 8 too", store(0x0C00, 7) == UPPER + 0x0100);
    point("the code 80H goes: its line, and no other", store(0x0C02, 0x41) == LOWER);
    point("then row 8 reads that glyph no more", store(0x0C00, 7) == UPPER);
    point("the code comes", store(0x0C02, 0x80) == LOWER);
    point("row 8 reads it again", store(0x0C00, 7) == UPPER + 0x0100);
}

/* The ways to store: each at 200AH, row 5, and what they do not store. */
static void ways(void)
{
    static const unsigned char code[3] = {0xC0, 0xC2, 0xC4}, loads[3] = {0xC1, 0xC3, 0xC5};
    unsigned i, wrong = 0;
    start();
    for (i = 0; i < 3; i++) {
        registers.pointer = 0x200A;
        take(SECOND_DATA_WRITE, 9);
        if (flagged() != 0) wrong++;
        take(SECOND_COMMAND, code[i]);
        if (flagged() != 0x0020) wrong++;
        registers.pointer = 0x200A;
        take(SECOND_COMMAND, loads[i]);
        if (flagged() != 0) wrong++;
    }
    for (i = 0xF0; i <= 0xFF; i++) {
        registers.pointer = 0x200A;
        take(SECOND_COMMAND, i);
        if (flagged() != 0x0020) wrong++;
    }
    take(SECOND_COMMAND, 0xB0);
    if (flagged() != 0) wrong++;
    registers.pointer = 0x2009;
    take(SECOND_DATA_WRITE, 1);
    if (flagged() != 0x0010) wrong++;
    take(SECOND_DATA_WRITE, 1);
    if (flagged() != 0x0020) wrong++;
    take(SECOND_COMMAND, 0xB2);
    take(SECOND_COMMAND, 0xB1);
    take(SECOND_DATA_READ, 0);
    take(SECOND_STATUS_READ, 0);
    take(SECOND_COMMAND, 0xB2);
    take(SECOND_DATA_READ, 0);
    take(SECOND_DATA_WRITE, 0);
    take(SECOND_DATA_WRITE, 0);
    take(SECOND_COMMAND, 0x24);
    take(SECOND_COMMAND, 0xE0);
    point("stores by every command, none by loads, reads, auto, pointer and peek", wrong == 0 && flagged() == 0);
}

static void copies(void)
{
    start();
    registers.text = 1;
    registers.pointer = 0x200A;
    take(SECOND_COMMAND, 0xE8);
    point("a copy flags its row", flagged() == 0x0020 && registers.error == 0);
    registers.pointer = 0x2040;
    take(SECOND_COMMAND, 0xE8);
    point("without a position none", flagged() == 0 && registers.error == 1);
    registers.combination = SECOND_ATTRIBUTE;
    registers.pointer = 0x200A;
    take(SECOND_COMMAND, 0xE8);
    point("in attribute mode none", flagged() == 0);
    registers.combination = SECOND_OR;
    registers.text_home = 0x200B; /* column 1 of row 5 is the first text code */
    take(SECOND_COMMAND, 0xE8);
    point("a copy over text flags the text's line too", flagged() == (UPPER | 0x0020));
    registers.pointer = 0x200B;
    registers.text_home = 0x200A;
    take(SECOND_COMMAND, 0xE8);
    point("a copy from column 1 on stores one byte", flagged() == UPPER);
    registers.text_home = 0x2009; /* 200AH is a text code, which a copy from column 1 on does not store */
    registers.text_area = 64;
    take(SECOND_COMMAND, 0xE8);
    point("and not the one before", flagged() == 0x0020);
    start();
    panel.dual = 1;
    registers.pointer = 0x200A;
    take(SECOND_COMMAND, 0xE8);
    point("on a dual panel none", flagged() == 0 && registers.error == 1);
}

static unsigned two_data(unsigned d1, unsigned d2, unsigned code)
{
    take(SECOND_DATA_WRITE, d1);
    take(SECOND_DATA_WRITE, d2);
    take(SECOND_COMMAND, code);
    return flagged();
}

static unsigned command(unsigned code)
{
    take(SECOND_COMMAND, code);
    return flagged();
}

/* Each change flags all rows; the same again none. */
static void changes(void)
{
    static const struct { const char *name; unsigned d1, d2, code; } change[] = {
        {"cursor X", 1, 0, 0x21}, {"cursor Y", 1, 1, 0x21}, {"offset", 2, 0, 0x22}, {"text home, low", 1, 0x10, 0x40},
        {"text home, high", 1, 0x11, 0x40}, {"text area", 3, 0, 0x41}, {"graphic home", 0, 0x21, 0x42}, {"graphic area", 3, 0, 0x43}
    };
    static const unsigned char code[] = {0x81, 0x83, 0x84, 0x8C, 0x80, 0x98, 0x9C, 0x9E, 0x9F, 0x90, 0xA7, 0xA0};
    unsigned i, wrong = 0;
    char name[64];
    start();
    for (i = 0; i < sizeof change / sizeof change[0]; i++) {
        sprintf(name, "%s altered, then set to the same", change[i].name);
        point(name, two_data(change[i].d1, change[i].d2, change[i].code) == ALL
                    && two_data(change[i].d1, change[i].d2, change[i].code) == 0);
    }
    point("the bits of a cursor or offset that do not count alter nothing",
          two_data(0x81, 0xE1, 0x21) == 0 && two_data(0xE2, 9, 0x22) == 0 && two_data(3, 9, 0x41) == 0 && two_data(3, 9, 0x43) == 0);
    for (i = 0; i < sizeof code; i++) {
        if (command(code[i]) != ALL || command(code[i]) != 0) wrong++;
    }
    point("combination, external flag, display bits, height altered, then the same", wrong == 0);
    take(SECOND_TICK, 0);
    point("every tick flags all rows", flagged() == ALL && take(SECOND_TICK, 0).number == 0 && flagged() == ALL);
}

static void refusals(void)
{
    static const struct second_panel bad = {0, 1, 8, 0};
    struct second_registers invalid, before;
    struct second_reply reply;
    unsigned i;
    int holds;
    start();
    before = registers;
    holds = take(5, 0).number == 3 && take(SECOND_COMMAND, 0x82).number == 4 && take(SECOND_COMMAND, 0xC4).number == 6;
    registers.auto_mode = SECOND_AUTO_READ;
    registers.pointer = 0x2000;
    holds = holds && take(SECOND_DATA_WRITE, 1).number == 7 && take(SECOND_COMMAND, 0xF0).number == 5;
    point("refused pairs flag none", holds && flagged() == 0 && memory[0x2000] == 0);
    registers = invalid = before;
    invalid.text = 2;
    memset(flags, UNTOUCHED, sizeof flags);
    memset(frame, UNTOUCHED, sizeof frame);
    reply = second_access_flagged(&bad, &registers, memory, 0, rom, 0, flags, 0, 5, 0);
    holds = reply.number == 1 && reply.place == 0 && reply.read == 0;
    reply = second_access_flagged(&panel, &invalid, memory, 0, rom, 0, flags, 0, 5, 0);
    holds = holds && reply.number == 1 && second_refresh(&bad, &registers, memory, 0, rom, 0, flags, 0, frame, 0) == 1
            && second_refresh(&panel, &invalid, memory, 0, rom, 0, flags, 0, frame, 0) == 1
            && second_flags_start(&bad, flags, 0) == 1;
    point("1 before 2", holds);
    holds = 1;
    for (i = 0; i <= 2; i += 2) {
        if (second_access_flagged(&panel, &registers, memory, 65535 + i, rom, 1024, flags, 16, 5, 0).number != 2) holds = 0;
        if (second_access_flagged(&panel, &registers, memory, 65536, rom, 1023 + i, flags, 16, 5, 0).number != 2) holds = 0;
        if (second_access_flagged(&panel, &registers, memory, 65536, rom, 1024, flags, 15 + i, 5, 0).number != 2) holds = 0;
        if (second_refresh(&panel, &registers, memory, 65535 + i, rom, 1024, flags, 16, frame, 32) != 2) holds = 0;
        if (second_refresh(&panel, &registers, memory, 65536, rom, 1023 + i, flags, 16, frame, 32) != 2) holds = 0;
        if (second_refresh(&panel, &registers, memory, 65536, rom, 1024, flags, 15 + i, frame, 32) != 2) holds = 0;
        if (second_refresh(&panel, &registers, memory, 65536, rom, 1024, flags, 16, frame, 31 + i) != 2) holds = 0;
        if (second_flags_start(&panel, flags, 15 + i) != 2) holds = 0;
    }
    for (i = 0; i < 17; i++) {
        if (flags[i] != UNTOUCHED) holds = 0;
    }
    point("2 for memory, ROM, flags and frame, before 3; nothing changes", holds && frame[0] == UNTOUCHED
          && memcmp(&registers, &before, sizeof before) == 0);
}

static void refreshes(void)
{
    unsigned i;
    int holds;
    start();
    memset(flags, 0, sizeof flags);
    holds = second_flags_start(&panel, flags, 16) == 0;
    for (i = 0; i < 17; i++) {
        if (flags[i] != (i < 16)) holds = 0;
    }
    point("all are set at the start", holds);
    registers.graphic = 1;
    memset(memory + 0x2000, 0x81, 32);
    memset(frame, UNTOUCHED, sizeof frame);
    memset(flags, 0, sizeof flags);
    flags[0] = 1;
    flags[9] = 200;
    holds = second_refresh(&panel, &registers, memory, 65536, rom, 1024, flags, 16, frame, 32) == 0;
    for (i = 0; i < 33; i++) {
        if (frame[i] != (i / 2 == 0 || i / 2 == 9 ? 0x81 : UNTOUCHED)) holds = 0;
    }
    point("a refresh paints the flagged rows only, whatever sets a flag", holds);
    point("and clears the flags", flagged() == 0);
}

/* At random. */

static struct {
    unsigned long logs, stores, refreshes, few, none, dual, refused;
} seen;

static unsigned char reads[SECOND_MEMORY_LENGTH]; /* marks the addresses a row reads */

/* The addresses of a row's text, glyph and graphic or attribute bytes. */
static void mark_addresses(const struct second_registers *r, unsigned row, unsigned char mark)
{
    unsigned long c, line = row / 8;
    for (c = 0; c < panel.columns; c++) {
        unsigned long text = (r->text_home + line * r->text_area + c) % 65536;
        unsigned long glyph = 2048UL * r->offset + 8UL * memory[text] + row % 8;
        reads[text] = mark;
        if (r->external || memory[text] >= 0x80) reads[glyph] = mark;
        if (r->combination == SECOND_ATTRIBUTE) reads[(r->graphic_home + line * r->graphic_area + c) % 65536] = mark;
        else reads[(r->graphic_home + (unsigned long)row * r->graphic_area + c) % 65536] = mark;
    }
}

/* Adds the rows that read one of the addresses, by the text codes memory has now. */
static void add_rows(const struct second_registers *r, const unsigned long *addresses, unsigned count, unsigned char *expected)
{
    unsigned row, i;
    for (row = 0; row < 8 * panel.lines; row++) {
        mark_addresses(r, row, 1);
        for (i = 0; i < count; i++) {
            if (reads[addresses[i]]) expected[row] = 1;
        }
        mark_addresses(r, row, 0);
    }
}

/* Where an accepted pair stores: at the pointer, or for a copy from the pointer up to its row's last column. */
static unsigned found_stores(unsigned kind, unsigned byte, unsigned long *addresses)
{
    unsigned row, column, count = 0;
    int at_pointer = byte >= 0xF0 || byte == 0xC0 || byte == 0xC2 || byte == 0xC4;
    if (kind == SECOND_COMMAND && byte == 0xE8) {
        if (panel.dual || registers.combination == SECOND_ATTRIBUTE) return 0;
        if (!second_position(&panel, &registers, &row, &column)) return 0;
        for (; column + count < panel.columns; count++) addresses[count] = (registers.pointer + count) % 65536UL;
        return count;
    }
    addresses[0] = registers.pointer;
    if (kind == SECOND_COMMAND) return at_pointer ? 1 : 0;
    return kind == SECOND_DATA_WRITE && registers.auto_mode == SECOND_AUTO_WRITE;
}

static int all_alters(struct second_registers a, struct second_registers b)
{
    /* All that may differ without a flag is made alike. */
    b.pointer = a.pointer;
    b.auto_mode = a.auto_mode;
    b.pending = a.pending;
    b.newest = a.newest;
    b.older = a.older;
    b.latch = a.latch;
    b.error = a.error;
    return memcmp(&a, &b, sizeof a) != 0;
}

static int refresh_agrees(void)
{
    unsigned long row_length = second_row_length(&panel), length = second_frame_length(&panel);
    unsigned row, painted = 0;
    unsigned char before[256];
    memcpy(before, flags, sizeof before);
    memcpy(saved, frame, length);
    second_refresh(&panel, &registers, memory, SECOND_MEMORY_LENGTH, rom, SECOND_ROM_LENGTH, flags, 8 * panel.lines, frame, length);
    second_frame(&panel, &registers, memory, SECOND_MEMORY_LENGTH, rom, SECOND_ROM_LENGTH, fresh, length);
    for (row = 0; row < 8 * panel.lines; row++) {
        if (flags[row]) return 0;
        if (before[row]) painted++;
        else if (memcmp(saved + row * row_length, frame + row * row_length, row_length) != 0) return 0;
    }
    seen.refreshes++;
    if (painted == 0) seen.none++;
    else if (painted < 8 * panel.lines) seen.few++;
    return memcmp(frame, fresh, length) == 0;
}

static unsigned char input[GENERATE_ROOM];

static int agree(unsigned long long seed)
{
    struct generate_random random;
    unsigned long length = generate_input(seed, input), pairs, i;
    unsigned char expected[256], before_flags[256];
    random.word = ~seed;
    panel.columns = input[0];
    panel.lines = input[1];
    panel.width = input[2];
    panel.dual = generate_below(&random, 4) == 0;
    if (panel.dual) panel.lines *= 2;
    if (length < 3 || !second_panel_valid(&panel) || panel.columns * panel.lines > 100) return 1;
    pairs = (length - 3) / 2;
    if (pairs > 1500) pairs = 1500;
    seen.logs++;
    if (panel.dual) seen.dual++;
    for (i = 0; i < 65536; i++) memory[i] = (unsigned char)generate_below(&random, 256);
    for (i = 0; i < 1024; i++) rom[i] = (unsigned char)generate_below(&random, 256);
    second_reset(&registers);
    second_flags_start(&panel, flags, 8 * panel.lines);
    memset(frame, UNTOUCHED, sizeof frame);

    for (i = 0; i < pairs; i++) {
        unsigned char kind = input[3 + 2 * i], byte = input[4 + 2 * i];
        struct second_registers before = registers;
        unsigned long addresses[80];
        unsigned count = found_stores(kind, byte, addresses), row;
        memcpy(before_flags, flags, sizeof before_flags);
        memcpy(expected, flags, sizeof expected);
        add_rows(&before, addresses, count, expected);
        if (take(kind, byte).number != 0) {
            seen.refused++;
            if (memcmp(before_flags, flags, sizeof before_flags) != 0) return 0;
            continue; /* the next pairs follow as in a skipping run */
        }
        add_rows(&before, addresses, count, expected);
        seen.stores += count;
        for (row = 0; row < 8 * panel.lines; row++) {
            if ((flags[row] != 0) != (expected[row] || all_alters(before, registers))) return 0;
        }
        if (generate_below(&random, 8) == 0 && !refresh_agrees()) return 0;
    }
    return 1;
}

static void at_random(unsigned long long seeds)
{
    unsigned long long seed;
    int holds = 1;
    for (seed = 1; seed <= seeds; seed++) {
        if (!agree(seed)) {
            if (holds) printf("# seed %llu\n", seed);
            holds = 0;
        }
    }
    printf("# %lu logs: %lu bytes stored, %lu refreshes, of some rows %lu, of none %lu; dual %lu, refused pairs %lu\n",
           seen.logs, seen.stores, seen.refreshes, seen.few, seen.none, seen.dual, seen.refused);
    point("random logs: flags by the slow definition, each refresh equals a frame painted afresh", holds);
    point("refreshes of some rows and of none, dual panels, refused pairs",
          seen.few > 4 * seeds && seen.none > 4 * seeds && seen.stores > 40 * seeds && seen.dual > seeds / 10
          && seen.refused > seeds);
}

int main(int argc, char **argv)
{
    stores();
    areas();
    before_and_after();
    ways();
    copies();
    changes();
    refusals();
    refreshes();
    at_random(argc == 2 ? strtoull(argv[1], NULL, 10) : 100);
    return 0;
}
