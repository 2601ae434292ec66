/* order_points SEEDS: neighbours that may change places, by hand, and at random exchanged; one line per point, ok or
   not ok. */
#include <limits.h>
#include <stdlib.h>
#include <string.h>

#include "generate.h"
#include "generate_book.h"
#include "order.h"
#include "point.h"
#include "screens.h"

#define ROOM 300000

static const struct second_panel panel_80_16_8 = {80, 16, 8, 0}, panel_80_16_6 = {80, 16, 6, 0};

static void numbers(void)
{
    /* One of each number, all in the cell or byte 0; then the same elsewhere, with other codes and values. */
    static const unsigned char here[6][10] = {
        {1, 0, 0, 1, 0x41}, {2, 0, 0, 1, 1, 9}, {3, 0, 0, 0, 1}, {4, 0x80, 1, 2, 3, 4, 5, 6, 7, 8}, {5, 0, 0, 1, 0}, {6, 0}
    };
    static const unsigned char there[6][10] = {
        {1, 1, 0, 1, 0x42}, {2, 9, 9, 1, 1, 8}, {3, 0, 1, 9, 0}, {4, 0x81, 1, 2, 3, 4, 5, 6, 7, 8}, {5, 1, 1, 2, 1}, {6, 1}
    };
    static const char may_here[6][7] = {"011111", "100111", "100111", "111011", "111101", "111110"};
    static const char may_there[6][7] = {"111111", "111111", "111111", "111111", "111101", "111110"};
    unsigned i, j, wrong = 0;
    for (i = 0; i < 6; i++) {
        for (j = 0; j < 6; j++) {
            if (second_may_change_places(&panel_80_16_8, here[i], here[j]) != (may_here[i][j] == '1')) wrong++;
            if (second_may_change_places(&panel_80_16_8, here[i], there[j]) != (may_there[i][j] == '1')) wrong++;
            if (second_may_change_places(&panel_80_16_8, there[i], here[j]) != (may_there[i][j] == '1')) wrong++;
        }
    }
    point("every pair of numbers, sharing and not", wrong == 0);
}

/* Both orders have the same answer. */
static int may(const struct second_panel *panel, const unsigned char *a, const unsigned char *b)
{
    int first = second_may_change_places(panel, a, b);
    return first == second_may_change_places(panel, b, a) ? first : -1;
}

static void sharing(void)
{
    static const unsigned char text[] = {1, 2, 10, 3, 1, 2, 3}, left[] = {1, 2, 8, 2, 1, 2}, touching[] = {1, 2, 8, 3, 1, 2, 3};
    static const unsigned char right[] = {1, 2, 13, 1, 1}, last[] = {1, 2, 12, 1, 1}, below[] = {1, 3, 10, 3, 1, 2, 3};
    static const unsigned char box[] = {2, 8, 4, 8, 2, 1}, above[] = {2, 0, 0, 8, 80, 1}, under[] = {2, 16, 4, 1, 2, 1};
    static const unsigned char beside[] = {2, 0, 6, 128, 74, 1}, corner[] = {2, 15, 5, 9, 9, 1}, inside[] = {2, 10, 5, 1, 1, 1};
    static const unsigned char dot_in[] = {3, 40, 0, 15, 1}, dot_out[] = {3, 48, 0, 15, 1}, dot_over[] = {3, 40, 0, 7, 1};
    static const unsigned char dot_31[] = {3, 31, 0, 8, 1}, dot_36[] = {3, 36, 0, 15, 1}, dot_23[] = {3, 23, 0, 15, 1};
    static const unsigned char dot_byte[] = {3, 47, 0, 15, 0}, glyph[] = {4, 0x80, 1, 2, 3, 4, 5, 6, 7, 8};
    static const unsigned char glyph_81[] = {4, 0x81, 1, 2, 3, 4, 5, 6, 7, 8};
    const struct second_panel *w8 = &panel_80_16_8, *w6 = &panel_80_16_6;
    point("texts: apart, left and right of it", may(w8, text, left) == 1 && may(w8, text, right) == 1 && may(w8, text, below) == 1);
    point("texts: one cell shared", may(w8, text, touching) == 0 && may(w8, text, last) == 0 && may(w8, text, text) == 0);
    point("rectangles: above, under and beside", may(w8, box, above) == 1 && may(w8, box, under) == 1 && may(w8, box, beside) == 1);
    point("rectangles: a corner, a byte inside", may(w8, box, corner) == 0 && may(w8, box, inside) == 0);
    point("a dot in a rectangle's byte, and outside", may(w8, box, dot_in) == 0 && may(w8, box, dot_out) == 1 && may(w8, box, dot_over) == 1);
    point("columns of a dot go by w", may(w8, box, dot_31) == 1 && may(w6, box, dot_31) == 0 && may(w6, box, dot_36) == 1
          && may(w8, box, dot_36) == 0 && may(w6, box, dot_23) == 1);
    point("two dots of one byte share it, though not a dot", may(w8, dot_in, dot_byte) == 0 && may(w8, dot_in, dot_out) == 1
          && may(w8, dot_in, dot_over) == 1 && may(w6, dot_in, dot_byte) == 1);
    point("glyphs by their code", may(w8, glyph, glyph) == 0 && may(w8, glyph, glyph_81) == 1);
}

/* At random. */

static unsigned char input[GENERATE_BOOK_ROOM], book[GENERATE_BOOK_ROOM], changed[GENERATE_BOOK_ROOM];
static unsigned char rom[SECOND_ROM_LENGTH];
static unsigned char start_memory[SECOND_MEMORY_LENGTH], memory[SECOND_MEMORY_LENGTH], other[SECOND_MEMORY_LENGTH];
static unsigned char stream[ROOM];
static struct second_panel p;
static unsigned long length;

struct shown {
    unsigned char graphic[20480], text[2560], glyphs[1024], frame[2][20480];
};
static struct shown before, after;

static struct {
    unsigned long exchanged[7][7], kept_back, would_show, screens, dual, form_two;
} seen;

static unsigned long operation_length(const unsigned char *operation)
{
    static const unsigned char fixed[7] = {0, 4, 6, 5, 10, 5, 2};
    return fixed[operation[0]] + (operation[0] == 1 ? operation[3] : 0UL);
}

/* The rule by sets: marks what an operation touches, and counts what was marked already. */
static unsigned long mark(unsigned char *marks, const unsigned char *operation)
{
    unsigned long shared = 0, i, row, column;
    if (operation[0] == 1) {
        for (i = 0; i < operation[3]; i++) shared += marks[80UL * operation[1] + operation[2] + i]++;
    } else if (operation[0] == 2) {
        for (row = operation[1]; row < operation[1] + (unsigned long)operation[3]; row++) {
            for (column = operation[2]; column < operation[2] + (unsigned long)operation[4]; column++) shared += marks[80 * row + column]++;
        }
    } else if (operation[0] == 3) {
        shared += marks[80UL * operation[3] + (operation[1] + 256UL * operation[2]) / p.width]++;
    } else if (operation[0] == 4) {
        shared += marks[operation[1]]++;
    }
    return shared;
}

static int rule(const unsigned char *a, const unsigned char *b)
{
    static unsigned char marks[20480];
    int both_graphic = (a[0] == 2 || a[0] == 3) && (b[0] == 2 || b[0] == 3);
    if (a[0] != b[0] && !both_graphic) return 1;
    if (a[0] >= 5) return 0;
    memset(marks, 0, sizeof marks);
    mark(marks, a);
    return mark(marks, b) == 0;
}

static int draw(const unsigned char *bytes, unsigned long screen, struct shown *shown)
{
    unsigned normal, number = 0;
    for (normal = 0; normal < 2; normal++) {
        number |= second_picture(&p, bytes, length, screen, rom, sizeof rom, normal, shown->graphic, second_graphic_length(&p),
                                 shown->text, second_text_length(&p), shown->glyphs, 1024,
                                 shown->frame[normal], second_frame_length(&p)).number;
    }
    return number == 0;
}

static int same_picture(const struct shown *a, const struct shown *b)
{
    unsigned long frame_length = second_frame_length(&p);
    return memcmp(a->graphic, b->graphic, second_graphic_length(&p)) == 0 && memcmp(a->text, b->text, second_text_length(&p)) == 0
           && memcmp(a->glyphs, b->glyphs, 1024) == 0 && memcmp(a->frame[0], b->frame[0], frame_length) == 0
           && memcmp(a->frame[1], b->frame[1], frame_length) == 0;
}

/* The pairs of the screen's stream, run from reset and the start memory; 0 if it does not fit or is refused. */
static unsigned long run(const unsigned char *bytes, unsigned long screen, unsigned char *end)
{
    struct second_registers registers;
    struct second_write_reply reply = second_write(&p, bytes, length, screen, stream, ROOM);
    struct second_run_reply ran;
    memcpy(end, start_memory, sizeof start_memory);
    if (reply.number != 0) return 0;
    second_reset(&registers);
    ran = second_run_stopping(&p, &registers, end, SECOND_MEMORY_LENGTH, rom, sizeof rom, stream, 2 * reply.pairs, ULONG_MAX, NULL, 0);
    return ran.number == 0 ? reply.pairs : 0;
}

static void exchange(unsigned char *bytes, unsigned long at)
{
    unsigned char first[96];
    unsigned long one = operation_length(bytes + at), two = operation_length(bytes + at + one);
    memcpy(first, bytes + at, one);
    memmove(bytes + at, bytes + at + one, two);
    memcpy(bytes + at + two, first, one);
}

/* Walks over the body three times and exchanges half of the neighbours that may change places; after each walk the
   picture is the same. */
static int exchange_all(struct generate_random *random, unsigned long begin, unsigned long end, unsigned long screen)
{
    unsigned walk;
    for (walk = 0; walk < 3; walk++) {
        unsigned long at = begin;
        while (at < end && at + operation_length(changed + at) < end) {
            unsigned char *one = changed + at, *two = one + operation_length(one);
            int may_be = second_may_change_places(&p, one, two);
            if (may_be != rule(one, two)) return 0;
            if (may_be && generate_below(random, 2) == 0) {
                seen.exchanged[one[0]][two[0]]++;
                exchange(changed, at);
            } else if (!may_be && generate_below(random, 8) == 0) {
                /* Would it have shown? Put back at once. */
                static struct shown wrong;
                exchange(changed, at);
                if (draw(changed, screen, &wrong) && !same_picture(&before, &wrong)) seen.would_show++;
                exchange(changed, at);
                seen.kept_back++;
            }
            at += operation_length(changed + at);
        }
        if (!draw(changed, screen, &after) || !same_picture(&before, &after)) return 0;
    }
    return 1;
}

static int agree(unsigned long long seed, unsigned dual, unsigned form)
{
    struct generate_book_reply made = generate_book_for(seed, dual, form, input);
    struct generate_random random;
    unsigned long i, pairs;
    if (made.number != 0 || made.pairs > 30000 || made.end - made.begin > 3000) return 1;
    random.word = ~seed;
    for (i = 0; i < sizeof rom; i++) rom[i] = (unsigned char)generate_below(&random, 256);
    for (i = 0; i < sizeof start_memory; i++) start_memory[i] = (unsigned char)generate_below(&random, 256);
    p.columns = input[0];
    p.lines = input[1];
    p.width = input[2];
    p.dual = dual;
    length = made.length - GENERATE_BOOK_HEAD;
    memcpy(book, input + GENERATE_BOOK_HEAD, length);
    memcpy(changed, book, length);
    if (!draw(book, input[3], &before)) return 0;
    if (!exchange_all(&random, made.begin, made.end, input[3])) return 0;
    pairs = run(book, input[3], memory);
    if (pairs == 0 || run(changed, input[3], other) != pairs || pairs != made.pairs) return 0;
    seen.screens++;
    if (dual) seen.dual++;
    if (form == 2) seen.form_two++;
    return memcmp(memory, other, sizeof memory) == 0;
}

static void at_random(unsigned long long seeds)
{
    unsigned long long seed;
    unsigned i, j, kinds = 0;
    int holds = 1;
    for (seed = 1; seed <= seeds; seed++) {
        if (!agree(seed, 0, 1) || !agree(seed, 1, 1) || !agree(seed, 0, 2) || !agree(seed, 1, 2)) {
            if (holds) printf("# seed %llu\n", seed);
            holds = 0;
        }
    }
    for (i = 1; i <= 6; i++) {
        for (j = 1; j <= 6; j++) {
            if (seen.exchanged[i][j] > 0) kinds++;
        }
    }
    printf("# %lu screens, dual %lu, form two %lu; pairs of numbers exchanged %u of 34; kept back %lu, that would show %lu\n",
           seen.screens, seen.dual, seen.form_two, kinds, seen.kept_back, seen.would_show);
    point("random exchanges: the same picture, the same bytes in all memory, as many pairs", holds);
    point("all pairs of numbers but two cursors and two combinations are exchanged", kinds == 34);
    point("neighbours kept back whose exchange would show", seen.would_show > seeds / 10 && seen.would_show < seen.kept_back);
    point("both panels and forms", seen.dual > seeds / 4 && seen.form_two > seeds / 4);
}

int main(int argc, char **argv)
{
    numbers();
    sharing();
    at_random(argc == 2 ? strtoull(argv[1], NULL, 10) : 150);
    return 0;
}
