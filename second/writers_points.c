/* writers_points SEEDS: the list of stores into a stretch, by hand and at random; one line per point, ok or not ok, and
   last how many of each. */
#include <stdlib.h>
#include <string.h>

#include "generate.h"
#include "point.h"
#include "states.h"
#include "writers.h"

#define UNTOUCHED 0xEEEEUL
#define ROOM 400UL

static unsigned long passed, failed;

static void check(const char *name, int holds)
{
    point(name, holds);
    if (holds) passed++;
    else failed++;
}

static unsigned char memory[SECOND_MEMORY_LENGTH], other[SECOND_MEMORY_LENGTH], start_memory[SECOND_MEMORY_LENGTH];
static unsigned char rom[SECOND_ROM_LENGTH];
static struct second_registers registers;
static struct second_panel panel = {1, 1, 8, 0};
static unsigned long list[ROOM];

static void untouch(void)
{
    unsigned long i;
    for (i = 0; i < ROOM; i++) list[i] = UNTOUCHED;
}

static void start(void)
{
    memset(memory, 0, sizeof memory);
    second_reset(&registers);
    untouch();
}

static int replies(struct second_writers_reply reply, unsigned number, unsigned long place, unsigned long stores)
{
    return reply.number == number && reply.place == place && reply.stores == stores;
}

/* The list holds these numbers and nothing else. */
static int lists(const unsigned long *expected, unsigned long numbers)
{
    unsigned long i;
    for (i = 0; i < ROOM; i++) {
        if (list[i] != (i < numbers ? expected[i] : UNTOUCHED)) return 0;
    }
    return 1;
}

/* What the run that skips leaves of a state, in `other`; nothing of it is refused. */
static int plain_run(struct second_registers *after, const unsigned char *log, unsigned long length)
{
    static unsigned char answers[200];
    static unsigned long skipped[400];
    const struct second_run_reply reply = second_run(&panel, after, other, sizeof other, rom, sizeof rom, log, length,
                                                     length / 2, answers, sizeof answers, skipped, 400);
    return reply.number == 0 && reply.taken == length / 2;
}

static struct second_writers_reply writers(const unsigned char *log, unsigned long length, unsigned first, unsigned last,
                                           unsigned long room)
{
    return second_writers(&panel, &registers, memory, sizeof memory, rom, sizeof rom, log, length, first, last, list, room);
}

/* From state and memory as they stand, which stay, with so many numbers lent: the reply and the list, and registers and
   memory end as a run leaves them. */
static int gives_in(const unsigned char *log, unsigned long length, unsigned first, unsigned last, unsigned long room,
                    unsigned number, unsigned long place, const unsigned long *expected, unsigned long numbers)
{
    const struct second_registers before = registers;
    struct second_registers after = registers;
    int holds;
    memcpy(start_memory, memory, sizeof memory);
    memcpy(other, memory, sizeof memory);
    untouch();
    holds = replies(writers(log, length, first, last, room), number, place, numbers / 4) && lists(expected, numbers);
    holds = holds && plain_run(&after, log, length) && memcmp(&after, &registers, sizeof after) == 0
            && memcmp(other, memory, sizeof memory) == 0;
    registers = before;
    memcpy(memory, start_memory, sizeof memory);
    return holds;
}

/* The same with the list exactly full. */
static int gives(const unsigned char *log, unsigned long length, unsigned first, unsigned last,
                 const unsigned long *expected, unsigned long numbers)
{
    return gives_in(log, length, first, last, numbers, 0, 0, expected, numbers);
}

/* C0H, C2H, C4H. */
static void single_stores(void)
{
    static const unsigned char log[] = {
        0, 0x10, 0, 0x20, 1, 0x24,
        0, 0x11, 1, 0xC0,          /* 4: 2010H, then 2011H */
        0, 0x22, 1, 0xC2,          /* 6: 2011H, then 2010H */
        0, 0x33, 1, 0xC4,          /* 8: 2010H, which stays */
        0, 0x44, 0, 0x55, 1, 0xC0, /* 11: the last datum */
        0, 0x22, 1, 0xC4           /* 13: 2011H holds it already */
    };
    static const unsigned long all[20] = {
        4, 0x2010, 0x5A, 0x11, 6, 0x2011, 0xA5, 0x22, 8, 0x2010, 0x11, 0x33, 11, 0x2010, 0x33, 0x55, 13, 0x2011, 0x22, 0x22
    };
    static const unsigned long of_2010[12] = {4, 0x2010, 0x5A, 0x11, 8, 0x2010, 0x11, 0x33, 11, 0x2010, 0x33, 0x55};
    static const unsigned long of_2011[8] = {6, 0x2011, 0xA5, 0x22, 13, 0x2011, 0x22, 0x22};
    static const unsigned char around_0[] = {0, 1, 1, 0xC2, 0, 2, 1, 0xC0, 0, 3, 1, 0xC4};
    static const unsigned long wrapped[12] = {1, 0, 0, 1, 3, 0xFFFF, 0, 2, 5, 0, 1, 3};
    start();
    memory[0x2010] = 0x5A;
    memory[0x2011] = 0xA5;
    check("C0H, C2H and C4H, with the bytes before and after", gives(log, sizeof log, 0, 0xFFFF, all, 20));
    check("a stretch of exactly the two addresses", gives(log, sizeof log, 0x2010, 0x2011, all, 20));
    check("a stretch of one address", gives(log, sizeof log, 0x2010, 0x2010, of_2010, 12));
    check("a stretch of the other, where the byte is there already", gives(log, sizeof log, 0x2011, 0x2011, of_2011, 8));
    check("a stretch that begins between them", gives(log, sizeof log, 0x2011, 0x2FFF, of_2011, 8));
    check("a stretch that ends between them", gives(log, sizeof log, 0x1000, 0x2010, of_2010, 12));
    check("a stretch behind them", gives(log, sizeof log, 0x2012, 0xFFFF, NULL, 0));
    check("a stretch before them", gives(log, sizeof log, 0, 0x200F, NULL, 0));
    check("all but them, by way of FFFFH", gives(log, sizeof log, 0x2012, 0x200F, NULL, 0));
    check("all but the second, by way of FFFFH", gives(log, sizeof log, 0x2012, 0x2010, of_2010, 12));
    check("all but the first, by way of FFFFH", gives(log, sizeof log, 0x2011, 0x200F, of_2011, 8));
    check("all of memory, by way of FFFFH", gives(log, sizeof log, 0x2011, 0x2010, all, 20));
    check("first and last are modulo 65,536", gives(log, sizeof log, 0x12010, 0x32010, of_2010, 12));
    start();
    check("C2H at 0000H, C0H at FFFFH", gives(around_0, sizeof around_0, 0xFFFF, 0, wrapped, 12));
    check("of these 0000H alone", gives(around_0, sizeof around_0, 0, 0, (const unsigned long[]){1, 0, 0, 1, 5, 0, 1, 3}, 8));
    check("of these FFFFH alone", gives(around_0, sizeof around_0, 0xFFFF, 0xFFFF, wrapped + 4, 4));
}

/* FFFDH to 0002H get 1 to 6. */
static const unsigned char auto_log[] = {0, 0xFD, 0, 0xFF, 1, 0x24, 1, 0xB0, 0, 1, 0, 2, 0, 3, 0, 4, 0, 5, 0, 6, 1, 0xB2, 0, 9};
static const unsigned long auto_list[24] = {
    4, 0xFFFD, 0xD0, 1, 5, 0xFFFE, 0xE0, 2, 6, 0xFFFF, 0xF0, 3, 7, 0, 0x0A, 4, 8, 1, 0x1A, 5, 9, 2, 0x2A, 6
};

static void before_auto(void)
{
    start();
    memory[0xFFFD] = 0xD0;
    memory[0xFFFE] = 0xE0;
    memory[0xFFFF] = 0xF0;
    memory[0] = 0x0A;
    memory[1] = 0x1A;
    memory[2] = 0x2A;
}

static void auto_write(void)
{
    static const unsigned long split[16] = {4, 0xFFFD, 0xD0, 1, 5, 0xFFFE, 0xE0, 2, 8, 1, 0x1A, 5, 9, 2, 0x2A, 6};
    static const unsigned long outer[8] = {4, 0xFFFD, 0xD0, 1, 9, 2, 0x2A, 6};
    const unsigned long n = sizeof auto_log;
    before_auto();
    check("auto write over FFFFH", gives(auto_log, n, 0, 0xFFFF, auto_list, 24));
    check("auto write, exactly its own stretch", gives(auto_log, n, 0xFFFD, 2, auto_list, 24));
    check("auto write, a wrapping stretch inside it", gives(auto_log, n, 0xFFFE, 1, auto_list + 4, 16));
    check("auto write, FFFFH and 0000H", gives(auto_log, n, 0xFFFF, 0, auto_list + 8, 8));
    check("auto write, FFFFH alone", gives(auto_log, n, 0xFFFF, 0xFFFF, auto_list + 8, 4));
    check("auto write, 0000H alone", gives(auto_log, n, 0, 0, auto_list + 12, 4));
    check("auto write, up to FFFFH", gives(auto_log, n, 0x8000, 0xFFFF, auto_list, 12));
    check("auto write, from 0000H", gives(auto_log, n, 0, 0x7FFF, auto_list + 12, 12));
    check("auto write, a stretch that does not wrap, both its ends", gives(auto_log, n, 1, 0xFFFE, split, 16));
    check("auto write, its first and last address", gives(auto_log, n, 2, 0xFFFD, outer, 8));
    check("auto write, the stretch between", gives(auto_log, n, 3, 0xFFFC, NULL, 0));
    check("auto write, all of memory from 0003H round", gives(auto_log, n, 3, 2, auto_list, 24));
}

/* The state given may be in auto write already, or have data pending. */
static void from_a_state(void)
{
    static const unsigned char data[] = {0, 7, 0, 8}, store[] = {1, 0xC0};
    start();
    registers.auto_mode = SECOND_AUTO_WRITE;
    registers.pointer = 0xFFFF;
    check("from auto write: the first pair stores",
          gives(data, sizeof data, 0, 0xFFFF, (const unsigned long[]){0, 0xFFFF, 0, 7, 1, 0, 0, 8}, 8));
    registers.auto_mode = SECOND_AUTO_OFF;
    check("data with auto off store nothing", gives(data, sizeof data, 0, 0xFFFF, NULL, 0));
    registers.pending = 2;
    registers.older = 0x66;
    registers.newest = 0x77;
    check("pending data of the state are stored",
          gives(store, sizeof store, 0, 0xFFFF, (const unsigned long[]){0, 0xFFFF, 0, 0x77}, 4));
}

static void bits(void)
{
    static const unsigned char log[] = {0, 0, 0, 3, 1, 0x24, 1, 0xFB, 1, 0xF3, 1, 0xF3, 1, 0xFF, 1, 0xF8, 1, 0xF8, 1, 0xF0};
    static const unsigned long expected[28] = {
        3, 0x300, 0, 8, 4, 0x300, 8, 0, 5, 0x300, 0, 0, 6, 0x300, 0, 0x80, 7, 0x300, 0x80, 0x81, 8, 0x300, 0x81, 0x81,
        9, 0x300, 0x81, 0x80
    };
    /* 5AH, by F0H to FFH */
    static const unsigned char of_5A[16] = {
        0x5A, 0x58, 0x5A, 0x52, 0x4A, 0x5A, 0x1A, 0x5A, 0x5B, 0x5A, 0x5E, 0x5A, 0x5A, 0x7A, 0x5A, 0xDA
    };
    unsigned i;
    int holds = 1;
    start();
    check("bits set and reset; one that is so already is a store", gives(log, sizeof log, 0x300, 0x300, expected, 28));
    check("bits, the address before", gives(log, sizeof log, 0x200, 0x2FF, NULL, 0));
    check("bits, the address behind", gives(log, sizeof log, 0x301, 0x400, NULL, 0));
    memory[0x1234] = 0x5A;
    registers.pointer = 0x1234;
    for (i = 0; i < 16; i++) {
        unsigned char pair[2] = {1, 0};
        unsigned long entry[4] = {0, 0x1234, 0x5A, 0};
        pair[1] = (unsigned char)(0xF0 + i);
        entry[3] = of_5A[i];
        if (!gives(pair, 2, 0x1234, 0x1234, entry, 4)) holds = 0;
    }
    check("each of the sixteen bit codes", holds);
}

/* C 4: graphic bytes from 1000H, four a row; text from 0FFFH, so that a copy moves row 0 one byte on. */
static void before_copy(void)
{
    static const unsigned char bytes[5] = {0x11, 0x22, 0x33, 0x44, 0x55};
    panel.columns = 4;
    panel.lines = 1;
    panel.width = 8;
    panel.dual = 0;
    start();
    memcpy(memory + 0x0FFF, bytes, 5);
    registers.graphic_home = registers.pointer = 0x1000;
    registers.graphic_area = registers.text_area = 4;
    registers.text_home = 0x0FFF;
    registers.text = 1;
}

static void copies(void)
{
    static const unsigned char log[] = {1, 0xE8}, twice[] = {1, 0xE8, 3, 0, 1, 0xE8};
    static const unsigned long whole[16] = {
        0, 0x1000, 0x22, 0x11, 0, 0x1001, 0x33, 0x22, 0, 0x1002, 0x44, 0x33, 0, 0x1003, 0x55, 0x44
    };
    static const unsigned long ends[8] = {0, 0x1000, 0x22, 0x11, 0, 0x1003, 0x55, 0x44};
    static const unsigned long row_2[16] = {
        0, 0x1008, 0, 0x13, 0, 0x1009, 0, 0x24, 0, 0x100A, 0, 0x35, 0, 0x100B, 0, 0x46
    };
    static const unsigned long again[32] = {
        0, 0x1000, 0x22, 0x11, 0, 0x1001, 0x33, 0x22, 0, 0x1002, 0x44, 0x33, 0, 0x1003, 0x55, 0x44,
        2, 0x1000, 0x11, 0x11, 2, 0x1001, 0x22, 0x11, 2, 0x1002, 0x33, 0x22, 2, 0x1003, 0x44, 0x33
    };
    before_copy();
    check("each byte of a copy, all gathered before any is stored", gives(log, 2, 0, 0xFFFF, whole, 16));
    check("a copy, exactly its own stretch", gives(log, 2, 0x1000, 0x1003, whole, 16));
    check("a copy that passes the stretch's end", gives(log, 2, 0x0F00, 0x1001, whole, 8));
    check("a copy that begins before the stretch", gives(log, 2, 0x1002, 0x1FFF, whole + 8, 8));
    check("a copy across both ends", gives(log, 2, 0x1001, 0x1002, whole + 4, 8));
    check("a copy, its last byte alone", gives(log, 2, 0x1003, 0x1003, whole + 12, 4));
    check("a copy, its first and last by way of FFFFH", gives(log, 2, 0x1003, 0x1000, ends, 8));
    check("a copy beside the stretch", gives(log, 2, 0x1004, 0x0FFF, NULL, 0));
    check("two copies, the second of what the first left", gives(twice, 6, 0, 0xFFFF, again, 32));
    registers.pointer = 0x1002;
    check("a copy from the middle of a row", gives(log, 2, 0, 0xFFFF, whole + 8, 8));
    registers.pointer = 0x1003;
    check("a copy from the last column", gives(log, 2, 0, 0xFFFF, whole + 12, 4));
    registers.pointer = 0x1008;
    check("a copy in row 2", gives(log, 2, 0, 0xFFFF, row_2, 16));
}

/* What the layers make of a copy. */
static void copied_bytes(void)
{
    static const unsigned char log[] = {1, 0xE8};
    before_copy();
    registers.text = 0;
    registers.graphic = 1;
    memory[0x1002] = 0xC4;
    check("a copy of graphic alone: bytes that are there already",
          gives(log, 2, 0x1002, 0x1003, (const unsigned long[]){0, 0x1002, 0xC4, 0xC4, 0, 0x1003, 0x55, 0x55}, 8));
    panel.width = 6;
    check("at w 6 the low six bits of them",
          gives(log, 2, 0x1002, 0x1003, (const unsigned long[]){0, 0x1002, 0xC4, 0x04, 0, 0x1003, 0x55, 0x15}, 8));
    registers.graphic = 0;
    check("a copy with both layers off stores 0",
          gives(log, 2, 0x1002, 0x1003, (const unsigned long[]){0, 0x1002, 0xC4, 0, 0, 0x1003, 0x55, 0}, 8));
    before_copy();
    registers.graphic = 1;
    registers.pointer = 0x1003; /* 55H, and text 44H */
    check("a copy with OR", gives(log, 2, 0, 0xFFFF, (const unsigned long[]){0, 0x1003, 0x55, 0x55}, 4));
    registers.combination = SECOND_EXOR;
    check("a copy with EXOR", gives(log, 2, 0, 0xFFFF, (const unsigned long[]){0, 0x1003, 0x55, 0x11}, 4));
    registers.combination = SECOND_AND;
    check("a copy with AND", gives(log, 2, 0, 0xFFFF, (const unsigned long[]){0, 0x1003, 0x55, 0x44}, 4));
}

static void copy_places(void)
{
    static const unsigned char log[] = {1, 0xE8};
    unsigned long row[320];
    unsigned long i;
    before_copy();
    registers.text = 0;
    registers.graphic = 1;
    registers.graphic_home = registers.pointer = 0xFFFE;
    panel.width = 6;
    memory[0xFFFE] = 0x81;
    memory[0xFFFF] = 0x82;
    memory[0] = 0xC4;
    memory[1] = 0xC8;
    check("a copy over FFFFH",
          gives(log, 2, 0, 0xFFFF,
                (const unsigned long[]){0, 0xFFFE, 0x81, 1, 0, 0xFFFF, 0x82, 2, 0, 0, 0xC4, 4, 0, 1, 0xC8, 8}, 16));
    check("its middle, by way of FFFFH",
          gives(log, 2, 0xFFFF, 0, (const unsigned long[]){0, 0xFFFF, 0x82, 2, 0, 0, 0xC4, 4}, 8));
    registers.graphic_area = 1;
    registers.pointer = 0;
    check("at area 1 the first position is in row 0",
          gives(log, 2, 0, 0xFFFF, (const unsigned long[]){0, 0, 0xC4, 4, 0, 1, 0xC8, 8}, 8));
    registers.pointer = 2;
    check("at area 1, behind row 0, the last column of row 1",
          gives(log, 2, 0, 0xFFFF, (const unsigned long[]){0, 2, 0, 0}, 4));

    panel.columns = 80;
    panel.width = 8;
    registers.graphic_home = registers.pointer = 0x4000;
    registers.graphic_area = 80;
    registers.graphic = 0;
    for (i = 0; i < 80; i++) {
        memory[0x4000 + i] = (unsigned char)(i + 1);
        row[4 * i] = 0;
        row[4 * i + 1] = 0x4000 + i;
        row[4 * i + 2] = i + 1;
        row[4 * i + 3] = 0;
    }
    check("a copy of eighty bytes", gives(log, 2, 0x4000, 0x404F, row, 320));
    check("its first sixty-four", gives(log, 2, 0x3000, 0x403F, row, 256));
}

static void copies_without_store(void)
{
    static const unsigned char log[] = {1, 0xE8, 0, 0x77, 1, 0xE8, 1, 0xC4, 0, 0x78, 1, 0xC4};
    const unsigned long after[4] = {5, 0x1020, 0, 0x78};
    before_copy();
    registers.pointer = 0x1020; /* behind row 7 */
    check("a copy without a position stores nothing, and drops the data", gives(log, sizeof log, 0, 0xFFFF, after, 4));
    before_copy();
    registers.combination = SECOND_ATTRIBUTE;
    check("a copy in attribute mode", gives(log, 4, 0, 0xFFFF, NULL, 0));
    before_copy();
    panel.lines = 2;
    panel.dual = 1;
    check("a copy on a panel in two halves", gives(log, 4, 0, 0xFFFF, NULL, 0));
    panel.dual = 0;
    check("and on the same panel in one",
          gives(log, 2, 0x1003, 0x1003, (const unsigned long[]){0, 0x1003, 0x55, 0x44}, 4));
    before_copy();
}

/* Refused pairs count as pairs, store nothing and leave what is pending. */
static void refused_pairs(void)
{
    static const unsigned char log[] = {
        5, 0,              /* 3 */
        1, 0xC6,           /* 4 */
        1, 0xC0, 1, 0xC2, 1, 0xC4, /* 6 */
        0, 0xAA, 1, 0xB1,  /* drops the datum */
        0, 0xBB,           /* 7 */
        1, 0xC0, 1, 0xF8, 1, 0xE8, /* 5 */
        1, 0xB2,
        1, 0xC4,           /* 12: 6 */
        1, 0xB0,
        2, 0,              /* 7 */
        1, 0xFF, 1, 0xE8,  /* 5 */
        0, 0xCC,           /* 17: 0000H */
        1, 0xB2, 0, 0xDD,
        1, 0x82,           /* 4 */
        0x80, 0x11, 0xFF, 0xFF, /* 3 */
        1, 0xC0            /* 23: 0001H */
    };
    static const unsigned long expected[8] = {17, 0, 0x5A, 0xCC, 23, 1, 0, 0xDD};
    start();
    panel.columns = 1;
    memory[0] = 0x5A;
    check("refused pairs store nothing", gives(log, sizeof log, 0, 0xFFFF, expected, 8));
    check("up to the last refused pair: a single store", gives(log, 46, 0, 0xFFFF, expected, 4));
    check("refused pairs alone", gives(log, 10, 0, 0xFFFF, NULL, 0));
}

/* Reads, peek, status and ticks store nothing, and the pointer moves once after each read. */
static void reads(void)
{
    static const unsigned char log[] = {
        1, 0xC1, 2, 0, 3, 0, 1, 0xC1, 1, 0xC3, 1, 0xC5, 4, 0, 1, 0xE0, /* pointer 0001H */
        1, 0xB1, 2, 0, 3, 0, 2, 0, 1, 0xB2, 2, 0,                      /* 0003H */
        0, 0x77, 3, 0, 2, 0, 4, 0, 1, 0xC4                             /* 18 */
    };
    static const unsigned char up[] = {1, 0xC1, 0, 1, 1, 0xC4}, down[] = {1, 0xC3, 0, 1, 1, 0xC4}, stay[] = {1, 0xC5, 0, 1, 1, 0xC4};
    static const unsigned char by_auto[] = {1, 0xB1, 2, 0, 1, 0xB2, 0, 1, 1, 0xC4}, peek[] = {1, 0xE0, 2, 0, 3, 0};
    start();
    memory[0] = 0xA0;
    memory[1] = 0xA1;
    memory[2] = 0xA2;
    memory[3] = 0xA3;
    check("reads of every kind, peek, status, ticks: one store alone, at 0003H",
          gives(log, sizeof log, 0, 0xFFFF, (const unsigned long[]){18, 3, 0xA3, 0x77}, 4));
    check("up to that store nothing", gives(log, sizeof log - 2, 0, 0xFFFF, NULL, 0));
    check("after C1H one up", gives(up, 6, 0, 0xFFFF, (const unsigned long[]){2, 1, 0xA1, 1}, 4));
    check("after C3H one down", gives(down, 6, 0, 0xFFFF, (const unsigned long[]){2, 0xFFFF, 0, 1}, 4));
    check("after C5H the same", gives(stay, 6, 0, 0xFFFF, (const unsigned long[]){2, 0, 0xA0, 1}, 4));
    check("after auto read's read one up", gives(by_auto, 10, 0, 0xFFFF, (const unsigned long[]){4, 1, 0xA1, 1}, 4));
    check("peek that finds its position", gives(peek, 6, 0, 0xFFFF, NULL, 0));
    registers.pointer = 0x100;
    check("peek that does not", gives(peek, 6, 0, 0xFFFF, NULL, 0));
}

/* Kinds 0 to 5 with every byte, in every auto mode with 0, 1 and 2 pending, at a position of C 1. */
static void every_pair(void)
{
    unsigned kind, byte, mode, wrong = 0, stored = 0;
    panel.columns = 1;
    panel.lines = 1;
    start();
    for (mode = 0; mode < 9; mode++) {
        for (kind = 0; kind < 6; kind++) {
            for (byte = 0; byte < 256; byte++) {
                const unsigned pending = mode % 3;
                unsigned char log[2];
                unsigned long count = 0;
                struct second_writers_reply reply;
                log[0] = (unsigned char)kind;
                log[1] = (unsigned char)byte;
                second_reset(&registers);
                registers.auto_mode = mode / 3;
                registers.pending = pending;
                registers.newest = pending > 0 ? 0x12 : 0;
                registers.older = pending > 1 ? 0x34 : 0;
                if (mode / 3 == SECOND_AUTO_WRITE && kind == SECOND_DATA_WRITE) count = 1;
                if (mode / 3 == SECOND_AUTO_OFF && kind == SECOND_COMMAND) {
                    if (byte == 0xC0 || byte == 0xC2 || byte == 0xC4) count = pending > 0;
                    else if (byte >= 0xF0 || byte == 0xE8) count = 1;
                }
                memory[0] = 0x5A;
                list[0] = list[1] = list[2] = list[3] = UNTOUCHED;
                reply = writers(log, 2, 0, 0xFFFF, 4);
                if (!replies(reply, 0, 0, count)) wrong++;
                if (count == 0 && (list[0] != UNTOUCHED || memory[0] != 0x5A)) wrong++;
                if (count == 1 && (list[0] != 0 || list[1] != 0 || list[2] != 0x5A || list[3] != memory[0])) wrong++;
                stored += (unsigned)count;
            }
        }
    }
    check("of every pair in every auto mode, those that store", wrong == 0 && stored == 3 * 256 + 3 * 17 + 2 * 3);
}

/* A list too small, exactly full and with more room than needed. */
static void rooms(void)
{
    const unsigned long n = sizeof auto_log;
    unsigned long room;
    int small = 1, enough = 1, cut = 1;
    before_auto();
    for (room = 0; room < 24; room++) {
        if (!gives_in(auto_log, n, 0, 0xFFFF, room, 15, 6, NULL, 0)) small = 0;
    }
    check("15 for every shorter list, with six entries needed; nothing listed, the run stands", small);
    for (room = 24; room < 40; room++) {
        if (!gives_in(auto_log, n, 0, 0xFFFF, room, 0, 0, auto_list, 24)) enough = 0;
    }
    check("exactly full, and with more room, which is not touched", enough);
    for (room = 0; room < 20; room++) {
        if (room < 16 && !gives_in(auto_log, n, 0xFFFE, 1, room, 15, 4, NULL, 0)) cut = 0;
        if (room >= 16 && !gives_in(auto_log, n, 0xFFFE, 1, room, 0, 0, auto_list + 4, 16)) cut = 0;
    }
    check("of a part of the stretch only its entries are needed", cut);
    check("nothing to list: no room is needed",
          replies(second_writers(&panel, &registers, memory, sizeof memory, rom, sizeof rom, auto_log, n, 3, 0xFFFC, NULL, 0),
                  0, 0, 0) && memory[0xFFFD] == 1 && memory[2] == 6 && registers.pointer == 3 && registers.newest == 9);
    before_auto();
    check("an empty log",
          replies(second_writers(&panel, &registers, memory, sizeof memory, rom, sizeof rom, NULL, 0, 0, 0xFFFF, NULL, 0),
                  0, 0, 0));
}

/* 1, 2 and 8: the number and place, and nothing changes. */
static int refuses(const struct second_panel *of, const struct second_registers *from, unsigned long memory_length,
                   unsigned long rom_length, unsigned long log_length, unsigned number, unsigned long place)
{
    static unsigned char kept[SECOND_MEMORY_LENGTH];
    struct second_registers state = *from;
    struct second_writers_reply reply;
    untouch();
    memcpy(kept, memory, sizeof memory);
    reply = second_writers(of, &state, memory, memory_length, rom, rom_length, auto_log, log_length, 0, 0xFFFF, list, ROOM);
    if (!replies(reply, number, place, 0) || !lists(NULL, 0)) return 0;
    reply = second_writers(of, &state, memory, memory_length, rom, rom_length, auto_log, log_length, 0, 0xFFFF, list, 0);
    return replies(reply, number, place, 0) && memcmp(&state, from, sizeof state) == 0
           && memcmp(kept, memory, sizeof memory) == 0;
}

static void refusals(void)
{
    static const struct second_panel wrong[] = {
        {0, 1, 8, 0}, {81, 1, 8, 0}, {1, 0, 8, 0}, {1, 17, 8, 0}, {1, 1, 7, 0}, {1, 1, 0, 0}, {1, 0, 8, 1}, {1, 3, 8, 1},
        {1, 34, 8, 1}, {1, 2, 8, 2}
    };
    struct second_registers state;
    unsigned i;
    int holds = 1;
    before_auto();
    for (i = 0; i < sizeof wrong / sizeof wrong[0]; i++) {
        if (!refuses(&wrong[i], &registers, 65536, 1024, 24, 1, 0)) holds = 0;
        if (!refuses(&wrong[i], &registers, 0, 0, 23, 1, 0)) holds = 0;
    }
    check("1 by the panel, before 2 and 8", holds);
    holds = 1;
    state = registers;
    state.cursor_height = 0;
    if (!refuses(&panel, &state, 65536, 1024, 24, 1, 0) || !refuses(&panel, &state, 65535, 1025, 23, 1, 0)) holds = 0;
    state = registers;
    state.pointer = 65536;
    if (!refuses(&panel, &state, 65536, 1024, 24, 1, 0)) holds = 0;
    state = registers;
    state.newest = 1; /* with none pending */
    if (!refuses(&panel, &state, 65536, 1024, 24, 1, 0)) holds = 0;
    check("1 by the state, before 2 and 8", holds);
    check("2 by the memory, before 8",
          refuses(&panel, &registers, 65535, 1024, 23, 2, 0) && refuses(&panel, &registers, 65537, 1024, 24, 2, 0)
          && refuses(&panel, &registers, 0, 1024, 24, 2, 0));
    check("2 by the ROM, before 8",
          refuses(&panel, &registers, 65536, 1023, 23, 2, 0) && refuses(&panel, &registers, 65536, 1025, 24, 2, 0)
          && refuses(&panel, &registers, 65536, 0, 24, 2, 0));
    check("8 with the whole pairs, before 15",
          refuses(&panel, &registers, 65536, 1024, 23, 8, 11) && refuses(&panel, &registers, 65536, 1024, 1, 8, 0)
          && refuses(&panel, &registers, 65536, 1024, 3, 8, 1));
}

/* At random. The list of all of memory is held against single accesses; the lists of stretches against that one. */

#define MOST_PAIRS (GENERATE_ROOM / 2)

static unsigned char input[GENERATE_ROOM], flipped[SECOND_MEMORY_LENGTH], replayed[SECOND_MEMORY_LENGTH];
static unsigned char after_15[SECOND_MEMORY_LENGTH], answers[MOST_PAIRS];
static unsigned long skipped[2 * MOST_PAIRS];

static struct {
    unsigned long logs, dual, by_1, by_8, pairs, refused, stores, alike, bits, autos, singles, copies, copied, failed_copies;
    unsigned long stretches, filled, wrapping, cut_copies, ones, small;
} seen;

struct lent {
    unsigned long *numbers; /* as many as it is to hold, so that a number too many is found */
    unsigned long entries;
};

static int is_copy(unsigned char kind, unsigned char byte)
{
    return kind == SECOND_COMMAND && byte == 0xE8;
}

/* How many bytes a copy has from the pointer's first position on. */
static unsigned long bytes_of_copy(const struct second_registers *state)
{
    unsigned r, c;
    for (r = 0; r < 8 * panel.lines; r++) {
        for (c = 0; c < panel.columns; c++) {
            if ((state->graphic_home + r * state->graphic_area + c) % 65536 == state->pointer) return panel.columns - c;
        }
    }
    return 0;
}

/* How many bytes a pair stores from the pointer on, by what it does and not by its code: a copy that clears the error
   flag has stored; any other pair has stored at the pointer exactly if not every bit of a complemented byte there stays
   complemented. `flipped` is the memory before the pair, and after it. */
static unsigned long stores_seen(const struct second_registers *before, unsigned char kind, unsigned char byte)
{
    struct second_registers state = *before;
    const unsigned pointer = before->pointer;
    unsigned char plain = flipped[pointer], result;
    if (is_copy(kind, byte)) {
        state.error = 1;
        second_access(&panel, &state, flipped, 65536, rom, 1024, kind, byte);
        return state.error == 0 ? bytes_of_copy(before) : 0;
    }
    flipped[pointer] = (unsigned char)~plain;
    second_access(&panel, &state, flipped, 65536, rom, 1024, kind, byte);
    result = flipped[pointer];
    flipped[pointer] = plain;
    state = *before;
    second_access(&panel, &state, flipped, 65536, rom, 1024, kind, byte);
    return (result ^ flipped[pointer]) != 0xFF;
}

static void count_pair(unsigned char kind, unsigned char byte, unsigned long stores)
{
    if (is_copy(kind, byte)) {
        if (stores == 0) seen.failed_copies++;
        else seen.copies++;
        seen.copied += stores;
    } else if (stores > 0) {
        if (kind == SECOND_DATA_WRITE) seen.autos++;
        else if (byte >= 0xF0) seen.bits++;
        else seen.singles++;
    }
}

/* The list of all of memory, pair by pair: the entries of each are what it is seen to store, and made after each other
   on the memory before it they give the memory after it. */
static int all_stores_right(const struct second_registers *from, const unsigned char *log, unsigned long pairs, const struct lent *all)
{
    struct second_registers state = *from;
    unsigned long pair, entry = 0;
    memcpy(other, start_memory, sizeof other);
    memcpy(flipped, start_memory, sizeof flipped);
    memcpy(replayed, start_memory, sizeof replayed);
    for (pair = 0; pair < pairs; pair++) {
        const unsigned char kind = log[2 * pair], byte = log[2 * pair + 1];
        const struct second_registers before = state;
        unsigned long stores = 0, i;
        if (second_access(&panel, &state, other, 65536, rom, 1024, kind, byte).number == 0) {
            stores = stores_seen(&before, kind, byte);
            count_pair(kind, byte, stores);
        } else {
            seen.refused++;
        }
        if ((kind != SECOND_DATA_WRITE && kind != SECOND_COMMAND) && stores != 0) return 0;
        for (i = 0; i < stores; i++, entry++) {
            const unsigned long *store = all->numbers + 4 * entry;
            if (entry >= all->entries) return 0;
            if (store[0] != pair || store[1] != (before.pointer + i) % 65536) return 0;
            if (store[2] != replayed[store[1]] || store[3] > 255) return 0;
            replayed[store[1]] = (unsigned char)store[3];
            if (store[2] == store[3]) seen.alike++;
        }
        /* A byte that differs and has no entry is found here. */
        if (memcmp(replayed, other, sizeof other) != 0 || memcmp(flipped, other, sizeof other) != 0) return 0;
    }
    return entry == all->entries && memcmp(&state, &registers, sizeof state) == 0 && memcmp(other, memory, sizeof other) == 0;
}

/* An address whose last byte differs from its first has an entry; its last entry's byte after is the last byte; one
   without an entry keeps its byte. */
static int claims_hold(unsigned first, unsigned last, const struct lent *some)
{
    static unsigned char touched[SECOND_MEMORY_LENGTH], final[SECOND_MEMORY_LENGTH];
    unsigned long address, i;
    memset(touched, 0, sizeof touched);
    memcpy(final, start_memory, sizeof final);
    for (i = 0; i < some->entries; i++) {
        touched[some->numbers[4 * i + 1]] = 1;
        final[some->numbers[4 * i + 1]] = (unsigned char)some->numbers[4 * i + 3];
    }
    for (address = 0; address < 65536; address++) {
        const int inside = first <= last ? first <= address && address <= last : first <= address || address <= last;
        if (!inside && touched[address]) return 0;
        if (!inside) continue;
        if (memory[address] != start_memory[address] && !touched[address]) return 0;
        if (memory[address] != final[address]) return 0;
    }
    return 1;
}

static struct second_writers_reply from_start(const struct second_registers *from, const unsigned char *log, unsigned long length,
                                              unsigned first, unsigned last, unsigned long *numbers, unsigned long room)
{
    registers = *from;
    memcpy(memory, start_memory, sizeof memory);
    return second_writers(&panel, &registers, memory, sizeof memory, rom, sizeof rom, log, length, first, last, numbers, room);
}

/* The list of a stretch: 15 with a number too few, and then no number written and the run as it is; else the list. */
static int list_of(const struct second_registers *from, const unsigned char *log, unsigned long length,
                   unsigned first, unsigned last, struct lent *some)
{
    struct second_writers_reply reply = from_start(from, log, length, first, last, NULL, 0);
    struct second_registers after;
    unsigned long i, room;
    some->numbers = NULL;
    some->entries = 0;
    if (reply.number == 0) return replies(reply, 0, 0, 0);
    if (!replies(reply, 15, reply.place, 0) || reply.place == 0) return 0;
    some->entries = reply.place;
    room = 4 * some->entries;
    some->numbers = malloc(room * sizeof *some->numbers);
    if (some->numbers == NULL) return 0;
    for (i = 0; i < room; i++) some->numbers[i] = UNTOUCHED;
    seen.small++;
    if (!replies(from_start(from, log, length, first, last, some->numbers, room - 1), 15, some->entries, 0)) return 0;
    for (i = 0; i < room; i++) {
        if (some->numbers[i] != UNTOUCHED) return 0;
    }
    after = registers;
    memcpy(after_15, memory, sizeof memory);
    return replies(from_start(from, log, length, first, last, some->numbers, room), 0, 0, some->entries)
           && memcmp(&after, &registers, sizeof after) == 0 && memcmp(after_15, memory, sizeof memory) == 0;
}

/* A stretch is what is not further from first than last is. The entries of all of memory in it, and no others. */
static int is_part(unsigned first, unsigned last, const struct lent *some, const struct lent *all)
{
    unsigned long i, entry = 0;
    for (i = 0; i < all->entries; i++) {
        const unsigned long *store = all->numbers + 4 * i;
        const int inside = (store[1] + 65536 - first) % 65536 <= (last + 65536UL - first) % 65536;
        if (i > 0 && store[0] == store[-4]) {
            const int inside_before = (store[-3] + 65536 - first) % 65536 <= (last + 65536UL - first) % 65536;
            if (inside != inside_before) seen.cut_copies++;
        }
        if (!inside) continue;
        if (entry == some->entries || memcmp(store, some->numbers + 4 * entry, 4 * sizeof *store) != 0) return 0;
        entry++;
    }
    return entry == some->entries;
}

/* Mostly around an address that is stored at. */
static void choose_stretch(struct generate_random *random, const struct lent *all, unsigned *first, unsigned *last)
{
    const unsigned at = all->entries == 0 ? 0 : (unsigned)all->numbers[4 * generate_below(random, (unsigned)all->entries) + 1];
    const unsigned reach = 1 + generate_below(random, generate_below(random, 2) ? 12 : 3000);
    *first = (at + 65536 - generate_below(random, reach)) % 65536;
    *last = (at + generate_below(random, reach)) % 65536;
    switch (generate_below(random, 8)) {
    case 0:
        *first = *last = at;
        break;
    case 1:
        *first = generate_below(random, 65536);
        *last = generate_below(random, 65536);
        break;
    case 2: { /* all but a part */
        const unsigned end = *first;
        *first = *last;
        *last = end;
        break;
    }
    default:
        break;
    }
}

static int stretches_right(struct generate_random *random, const struct second_registers *from, const unsigned char *log,
                           unsigned long length, const struct lent *all)
{
    const struct second_registers after = registers;
    unsigned i;
    for (i = 0; i < 6; i++) {
        struct lent some;
        unsigned first, last;
        int holds;
        choose_stretch(random, all, &first, &last);
        holds = list_of(from, log, length, first, last, &some) && is_part(first, last, &some, all)
                && claims_hold(first, last, &some) && memcmp(&registers, &after, sizeof after) == 0
                && memcmp(memory, other, sizeof memory) == 0;
        seen.stretches++;
        if (some.entries > 0) seen.filled++;
        if (some.entries > 0 && first > last) seen.wrapping++;
        if (some.entries > 0 && first == last) seen.ones++;
        free(some.numbers);
        if (!holds) return 0;
    }
    return 1;
}

/* A byte in thirty is another one. */
static void tear(struct generate_random *random, unsigned char *log, unsigned long length)
{
    unsigned long i;
    for (i = 0; i < length; i++) {
        if (generate_below(random, 30) != 0) continue;
        log[i] = (unsigned char)(i % 2 == 0 ? generate_below(random, 7) : generate_below(random, 256));
    }
}

static int agree(unsigned long long seed)
{
    struct generate_random random;
    struct second_registers from, run_registers;
    struct second_run_reply run;
    struct lent all;
    unsigned long length, i;
    int holds;
    random.word = ~seed;
    memset(input, 0, sizeof input);
    panel.dual = generate_below(&random, 5) == 0;
    length = panel.dual ? generate_dual_input(seed, input) : generate_input(seed, input);
    length = length > 3 ? length - 3 : 0;
    panel.columns = input[0];
    panel.lines = input[1];
    panel.width = input[2];
    if (generate_below(&random, 3) == 0) tear(&random, input + 3, length);
    second_reset(&from);
    if (generate_below(&random, 2)) random_state(&random, &panel, &from);
    memset(start_memory, 0, sizeof start_memory);
    if (generate_below(&random, 2)) {
        for (i = 0; i < 65536; i++) start_memory[i] = (unsigned char)generate_below(&random, 256);
    }
    seen.logs++;
    if (panel.dual) seen.dual++;
    if (!second_panel_valid(&panel) || length % 2 != 0) {
        const unsigned number = second_panel_valid(&panel) ? 8 : 1;
        if (number == 1) seen.by_1++;
        else seen.by_8++;
        holds = replies(from_start(&from, input + 3, length, 0, 0xFFFF, NULL, 0), number, number == 8 ? length / 2 : 0, 0);
        return holds && memcmp(&registers, &from, sizeof from) == 0 && memcmp(memory, start_memory, sizeof memory) == 0;
    }
    seen.pairs += length / 2;

    holds = list_of(&from, input + 3, length, 0, 0xFFFF, &all);
    seen.stores += all.entries;
    run_registers = from;
    memcpy(other, start_memory, sizeof other);
    run = second_run(&panel, &run_registers, other, sizeof other, rom, sizeof rom, input + 3, length, length / 2,
                     answers, MOST_PAIRS, skipped, 2 * MOST_PAIRS);
    holds = holds && run.number == 0 && memcmp(&run_registers, &registers, sizeof run_registers) == 0
            && memcmp(other, memory, sizeof memory) == 0;
    holds = holds && all_stores_right(&from, input + 3, length / 2, &all);
    holds = holds && claims_hold(0, 0xFFFF, &all);
    holds = holds && stretches_right(&random, &from, input + 3, length, &all);
    free(all.numbers);
    return holds;
}

static void at_random(unsigned long long seeds)
{
    unsigned long long seed;
    int holds = 1;
    for (seed = 1; seed <= seeds; seed++) {
        if (!agree(seed)) {
            if (holds) printf("# seed %llu\n", seed);
            holds = 0;
        }
    }
    printf("# %lu logs, dual %lu, refused by 1 %lu, by 8 %lu; %lu pairs, refused %lu\n",
           seen.logs, seen.dual, seen.by_1, seen.by_8, seen.pairs, seen.refused);
    printf("# %lu stores: auto %lu, single %lu, bits %lu, of %lu copies %lu; of the same byte %lu; copies that failed %lu\n",
           seen.stores, seen.autos, seen.singles, seen.bits, seen.copies, seen.copied, seen.alike, seen.failed_copies);
    printf("# %lu stretches, not empty %lu, wrapping %lu, one address %lu, copies cut %lu; lists too small %lu\n",
           seen.stretches, seen.filled, seen.wrapping, seen.ones, seen.cut_copies, seen.small);
    check("random logs: every store by what the pair does, every stretch a part of it", holds);
    check("random logs: counts agree", seen.stores == seen.autos + seen.singles + seen.bits + seen.copied);
    check("random logs: all kinds of stores, bytes already there, refused pairs, dual panels",
          seen.autos > 10 * seeds && seen.singles > seeds && seen.bits > seeds && seen.copies > seeds / 4
          && seen.copied > seen.copies && seen.failed_copies > seeds / 20 && seen.alike > seeds && seen.refused > seeds
          && seen.dual > seeds / 10);
    check("random logs: stretches of one address, wrapping, through a copy, a list too small",
          seen.filled > seeds && seen.wrapping > seeds / 4 && seen.ones > seeds / 8 && seen.cut_copies > seeds / 20
          && seen.small > seeds && seen.by_1 > 0 && seen.by_8 > 0);
}

int main(int argc, char **argv)
{
    unsigned i;
    for (i = 0; i < sizeof rom; i++) rom[i] = (unsigned char)(i / 8 + i % 8);
    single_stores();
    auto_write();
    from_a_state();
    bits();
    copies();
    copied_bytes();
    copy_places();
    copies_without_store();
    refused_pairs();
    reads();
    every_pair();
    rooms();
    refusals();
    at_random(argc == 2 ? strtoull(argv[1], NULL, 10) : 200);
    printf("%lu passed, %lu failed\n", passed, failed);
    return failed != 0;
}
