/* difference_points SEEDS: from screen to screen by short streams, by hand and at random; one line per point, ok or
   not ok. */
#include <limits.h>
#include <stdlib.h>
#include <string.h>

#include "difference.h"
#include "generate.h"
#include "generate_book.h"
#include "point.h"

#define UNTOUCHED 0xEE
#define ROOM 300000

static unsigned char room[ROOM], full[ROOM];
static const struct second_panel panel = {3, 2, 6, 0};

static int all(const unsigned char *bytes, unsigned long length, unsigned char value)
{
    unsigned long i;
    for (i = 0; i < length; i++) {
        if (bytes[i] != value) return 0;
    }
    return 1;
}

/* Four screens. 0: none. 1: dot (7, 1), text 41H in the last cell, glyph 81H, EXOR, a cursor. 2: a rectangle of 80H,
   which w 6 does not show, AND. 3: dot (7, 1) set and reset, OR after EXOR, two cursors. */
static const unsigned char book[] = {
    4, 17, 0, 0, 0, 17, 0, 27, 0, 44, 0, 8, 0, 52, 0, 24, 0,
    3, 7, 0, 1, 1, 1, 1, 2, 1, 0x41, 4, 0x81, 1, 2, 3, 4, 5, 6, 7, 8, 6, 1, 5, 1, 2, 3, 1,
    2, 0, 0, 1, 2, 0x80, 6, 2,
    3, 7, 0, 1, 1, 3, 7, 0, 1, 0, 6, 1, 6, 0, 5, 0, 0, 1, 0, 5, 1, 0, 8, 0
};

static struct second_write_reply write_from(unsigned long a, unsigned long b)
{
    memset(room, UNTOUCHED, 2000);
    return second_write_difference(&panel, book, sizeof book, a, b, room, ROOM);
}

static int gives(unsigned long a, unsigned long b, const unsigned char *expected, unsigned long pairs)
{
    struct second_write_reply reply = write_from(a, b);
    return reply.number == 0 && reply.place == 0 && reply.pairs == pairs && memcmp(room, expected, 2 * pairs) == 0
           && room[2 * pairs] == UNTOUCHED;
}

static void by_hand(void)
{
    static const unsigned char none[] = {1, 0x80, 1, 0x9C};
    static const unsigned char same_1[] = {1, 0x81, 0, 2, 0, 1, 1, 0x21, 1, 0xA2, 1, 0x9F};
    static const unsigned char same_3[] = {1, 0x80, 0, 0, 0, 1, 1, 0x21, 1, 0xA7, 1, 0x9E};
    static const unsigned char from_0_to_2[] = {0, 0, 0, 0, 1, 0x24, 0, 0x80, 1, 0xC4, 0, 1, 0, 0, 1, 0x24, 0, 0x80, 1, 0xC4,
                                                1, 0x83, 1, 0x9C};
    static const unsigned char from_2_to_0[] = {0, 0, 0, 0, 1, 0x24, 0, 0, 1, 0xC4, 0, 1, 0, 0, 1, 0x24, 0, 0, 1, 0xC4,
                                                1, 0x80, 1, 0x9C};
    unsigned char to_1[2 * 56], from_1[2 * 52];
    unsigned v;
    static const unsigned char graphic[] = {0, 4, 0, 0, 1, 0x24, 0, 0x10, 1, 0xC4}, text[] = {0, 5, 0, 0x40, 1, 0x24, 0, 0x41, 1, 0xC4};
    memcpy(to_1, graphic, 10);
    memcpy(to_1 + 10, text, 10);
    for (v = 0; v < 8; v++) {
        unsigned char glyph[10] = {0, 8, 0, 0xFC, 1, 0x24, 0, 1, 1, 0xC4};
        glyph[1] = (unsigned char)(8 + v);
        glyph[7] = (unsigned char)(1 + v);
        memcpy(to_1 + 20 + 10 * v, glyph, 10);
    }
    memcpy(to_1 + 100, same_1, 12);
    memcpy(from_1, to_1, 100);
    for (v = 0; v < 10; v++) from_1[10 * v + 7] = 0;
    memcpy(from_1 + 100, none, 4);
    point("A to A without cursor: 2 pairs", gives(0, 0, none, 2));
    point("A to A with cursor: 6 pairs", gives(1, 1, same_1, 6));
    point("one graphic byte, one text code, eight glyph bytes: 5 pairs each and 6", gives(0, 1, to_1, 56));
    point("and back: 5 pairs each and 2", gives(1, 0, from_1, 52));
    point("bits that do not show differ too; AND", gives(0, 2, from_0_to_2, 12));
    point("and back", gives(2, 0, from_2_to_0, 12));
    point("a dot set and reset is no difference; the last mode and the last cursor", gives(0, 3, same_3, 6));
    point("from a screen with a cursor to itself", gives(3, 3, same_3, 6));
}

static void dual(void)
{
    static const unsigned char two[] = {0, 2, 3, 0, 14, 0, 0, 0, 0x2C, 1, 14, 0, 10, 0, 1, 3, 0, 1, 0x42, 5, 2, 1, 1, 0};
    static const unsigned char expected[] = {0, 9, 0, 0x80, 1, 0x24, 0, 0x42, 1, 0xC4, 1, 0x80, 0, 1, 0, 16, 1, 0x21, 1, 0xA0, 1, 0x9E};
    static const struct second_panel halves = {3, 4, 8, 1};
    struct second_write_reply reply = second_write_difference(&halves, two, sizeof two, 3, 300, room, ROOM);
    point("a dual panel and form two: text at 8000H, Y 16, identities 3 and 300",
          reply.number == 0 && reply.pairs == 11 && memcmp(room, expected, sizeof expected) == 0);
    point("an identity not present: 10", second_write_difference(&halves, two, sizeof two, 3, 1, room, ROOM).number == 10);
}

static int refuses(const unsigned char *bytes, unsigned long length, unsigned long a, unsigned long b, unsigned long room_length,
                   unsigned number, unsigned long place)
{
    struct second_write_reply reply;
    memset(room, UNTOUCHED, 2000);
    reply = second_write_difference(&panel, bytes, length, a, b, room, room_length);
    return reply.number == number && reply.place == place && reply.pairs == 0 && all(room, 2000, UNTOUCHED);
}

static void refusals(void)
{
    static const struct second_panel bad = {3, 2, 7, 0};
    unsigned char wrong[sizeof book];
    unsigned long length;
    struct second_write_reply reply;
    int holds = 1;
    for (length = 0; length < 112; length++) {
        if (!refuses(book, sizeof book, 0, 1, length, 12, 56)) holds = 0;
    }
    point("12 for every shorter room, with the pairs needed", holds);
    reply = second_write_difference(&panel, book, sizeof book, 0, 1, room, 112);
    point("a room of exactly twice the pairs", reply.number == 0 && reply.pairs == 56);
    point("10 for A, for B, for both", refuses(book, sizeof book, 4, 0, 0, 10, 0) && refuses(book, sizeof book, 0, 4, 0, 10, 0)
          && refuses(book, sizeof book, ULONG_MAX, 256, 0, 10, 0));
    memcpy(wrong, book, sizeof book);
    wrong[17] = 9;
    wrong[44] = 9;
    point("11 for A", refuses(wrong, sizeof wrong, 1, 0, 0, 11, 17));
    point("11 for B", refuses(wrong, sizeof wrong, 0, 1, 0, 11, 17));
    point("A's before B's", refuses(wrong, sizeof wrong, 2, 1, 0, 11, 44) && refuses(wrong, sizeof wrong, 1, 2, 0, 11, 17));
    point("A itself", refuses(wrong, sizeof wrong, 2, 2, 0, 11, 44));
    point("other screens may hold anything", second_write_difference(&panel, wrong, sizeof wrong, 0, 3, room, ROOM).number == 0);
    point("10 for B before 11 for A", refuses(wrong, sizeof wrong, 1, 4, 0, 10, 0));
    wrong[5] ^= 1;
    point("9 before 10", refuses(wrong, sizeof wrong, 4, 4, 0, 9, 5));
    reply = second_write_difference(&bad, wrong, sizeof wrong, 4, 4, room, 0);
    point("1 before 9", reply.number == 1 && reply.place == 0 && reply.pairs == 0);
}

/* At random: both streams run on the same controller, one that has just run A's. */

static unsigned char input[GENERATE_BOOK_ROOM];
static unsigned char rom[SECOND_ROM_LENGTH];
static unsigned char after_a[SECOND_MEMORY_LENGTH], by_short[SECOND_MEMORY_LENGTH], by_full[SECOND_MEMORY_LENGTH];
static unsigned char graphic[20480], text[2560], glyphs[1024], picture[20480], frame[20480];
static struct second_panel p;

static struct {
    unsigned long pairs, same, cursors, refused, dual, form_two, shorter;
} seen;

static void draw_registers(struct generate_random *random, struct second_registers *registers)
{
    second_reset(registers);
    registers->cursor_x = generate_below(random, 128);
    registers->cursor_y = generate_below(random, 32);
    registers->offset = generate_below(random, 32);
    registers->pointer = generate_below(random, 65536);
    registers->text_home = generate_below(random, 65536);
    registers->graphic_home = generate_below(random, 65536);
    registers->text_area = generate_below(random, 256);
    registers->graphic_area = generate_below(random, 256);
    registers->combination = generate_below(random, 4);
    registers->external = generate_below(random, 2);
    registers->cursor = generate_below(random, 2);
    registers->blink = generate_below(random, 2);
    registers->auto_mode = generate_below(random, 3);
    registers->error = generate_below(random, 2);
    registers->phase = generate_below(random, 2);
}

static int run(struct second_registers *registers, unsigned char *memory, const unsigned char *stream, unsigned long pairs)
{
    struct second_run_reply reply = second_run(&p, registers, memory, SECOND_MEMORY_LENGTH, rom, SECOND_ROM_LENGTH,
                                               stream, 2 * pairs, pairs, NULL, 0, NULL, 0);
    return reply.number == 0 && reply.taken == pairs;
}

/* Both phases show B's picture. */
static int shows(const struct second_registers *registers, const unsigned char *memory,
                 const unsigned char *bytes, unsigned long length, unsigned long b)
{
    struct second_registers shown = *registers;
    unsigned long frame_length = second_frame_length(&p);
    unsigned normal;
    for (normal = 0; normal < 2; normal++) {
        shown.phase = normal ? SECOND_PHASE_NORMAL : SECOND_PHASE_OFF;
        second_picture(&p, bytes, length, b, rom, SECOND_ROM_LENGTH, normal, graphic, second_graphic_length(&p),
                       text, second_text_length(&p), glyphs, 1024, picture, frame_length);
        second_frame(&p, &shown, memory, SECOND_MEMORY_LENGTH, rom, SECOND_ROM_LENGTH, frame, frame_length);
        if (memcmp(frame, picture, frame_length) != 0) return 0;
    }
    return 1;
}

static int streams_agree(struct generate_random *random, const unsigned char *bytes, unsigned long length,
                         unsigned long a, unsigned long b)
{
    static unsigned char between[2 * 8];
    struct second_registers registers, other;
    struct second_write_reply reply;
    unsigned long i, differences = 0, pairs;
    unsigned char answers[8];
    draw_registers(random, &registers);
    for (i = 0; i < SECOND_MEMORY_LENGTH; i++) after_a[i] = (unsigned char)generate_below(random, 256);
    reply = second_write(&p, bytes, length, a, full, ROOM);
    if (reply.number != 0 || !run(&registers, after_a, full, reply.pairs)) return 0;
    pairs = generate_below(random, 9);
    for (i = 0; i < pairs; i++) {
        between[2 * i] = (unsigned char)(3 + generate_below(random, 2)); /* a status read or a tick */
        between[2 * i + 1] = (unsigned char)generate_below(random, 256);
    }
    second_run(&p, &registers, after_a, SECOND_MEMORY_LENGTH, rom, SECOND_ROM_LENGTH, between, 2 * pairs, pairs, answers, 8, NULL, 0);

    memcpy(by_full, after_a, sizeof by_full);
    memcpy(by_short, after_a, sizeof by_short);
    other = registers;
    reply = second_write(&p, bytes, length, b, full, ROOM);
    if (reply.number != 0 || !run(&other, by_full, full, reply.pairs)) return 0;
    pairs = reply.pairs;
    reply = second_write_difference(&p, bytes, length, a, b, room, ROOM);
    if (reply.number != 0 || !run(&registers, by_short, room, reply.pairs)) return 0;
    for (i = 0; i < SECOND_MEMORY_LENGTH; i++) {
        if (after_a[i] != by_full[i]) differences++;
    }
    if (reply.pairs != 5 * differences + (other.cursor ? 6 : 2)) return 0;
    seen.pairs++;
    if (reply.pairs < pairs) seen.shorter++;
    if (other.cursor) seen.cursors++;
    if (differences == 0) seen.same++;
    return memcmp(by_full, by_short, sizeof by_full) == 0 && shows(&registers, by_short, bytes, length, b);
}

static int agree(unsigned long long seed, unsigned is_dual, unsigned form)
{
    struct generate_book_reply made = generate_book_for(seed, is_dual, form, input);
    struct generate_random random;
    const unsigned char *bytes = input + GENERATE_BOOK_HEAD;
    unsigned long length = made.length - GENERATE_BOOK_HEAD, a, b, screen, i;
    if (made.number != 0 || made.pairs > 60000) return 1;
    random.word = ~seed;
    for (i = 0; i < sizeof rom; i++) rom[i] = (unsigned char)generate_below(&random, 256);
    p.columns = input[0];
    p.lines = input[1];
    p.width = input[2];
    p.dual = is_dual;
    for (i = 0, screen = input[3]; i < 4 && screen == input[3]; i++) {
        screen = generate_below(&random, (unsigned)made.screens); /* mostly another one, which may be wrong */
        if (form == 2) screen = bytes[2 + 6 * screen] + 256UL * bytes[3 + 6 * screen];
    }
    a = seed % 2 ? input[3] : screen;
    b = seed % 2 ? screen : input[3];
    for (i = 0; i < 2; i++) {
        struct second_write_reply plain = second_write(&p, bytes, length, i == 0 ? a : b, full, ROOM);
        if (plain.number == 12) return 1;
        if (plain.number != 0) {
            struct second_write_reply reply = second_write_difference(&p, bytes, length, a, b, room, ROOM);
            seen.refused++;
            return reply.number == plain.number && reply.place == plain.place && reply.pairs == 0;
        }
    }
    if (is_dual) seen.dual++;
    if (form == 2) seen.form_two++;
    return streams_agree(&random, bytes, length, a, b);
}

static void at_random(unsigned long long seeds)
{
    unsigned long long seed;
    int holds = 1;
    for (seed = 1; seed <= seeds; seed++) {
        if (!agree(seed, 0, 1) || !agree(seed, 1, 1) || !agree(seed, 0, 2) || !agree(seed, 1, 2)) {
            if (holds) printf("# seed %llu\n", seed);
            holds = 0;
        }
    }
    printf("# %lu pairs of screens: alike %lu, with cursor %lu, shorter than the full stream %lu, dual %lu, form two %lu; refused %lu\n",
           seen.pairs, seen.same, seen.cursors, seen.shorter, seen.dual, seen.form_two, seen.refused);
    point("random screens: both streams leave the same bytes and B's picture in either phase, and the count is as given", holds);
    point("screens alike and not, with cursor and without, both panels and forms, refused ones",
          seen.pairs > seeds && seen.same > seeds / 10 && seen.same < seen.pairs / 2 && seen.cursors > seeds / 10
          && seen.shorter > seeds / 2 && seen.dual > seeds / 4 && seen.form_two > seeds / 4 && seen.refused > seeds / 20);
}

int main(int argc, char **argv)
{
    by_hand();
    dual();
    refusals();
    at_random(argc == 2 ? strtoull(argv[1], NULL, 10) : 150);
    return 0;
}
