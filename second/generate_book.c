#include "generate_book.h"

#include "generate.h"

/* Good operations stop here, so that bad ones, at most one to a body, always find room. */
#define ROOM_FOR_GOOD 24000UL
/* From here on rectangles are low, so that streams stay below a megabyte. */
#define MANY_PAIRS 60000UL
#define MOST_SCREENS 64
#define LONGEST_OPERATION 84UL

enum contents_damage {
    CONTENTS_RIGHT, OFFSET_WRONG, LENGTH_WRONG, PAST_END, END_LOST, LAST_SHORT, CONTENTS_CUT,
    NO_SCREENS, TOO_MANY_SCREENS, OTHER_COUNT, EMPTY_BOOK, TOO_LONG, CONTENTS_DAMAGES,
    IDENTITY_WRONG = CONTENTS_DAMAGES, FORM_TWO_DAMAGES
};

/* No call below has two drawing arguments: C leaves open which would draw first. */

struct maker {
    struct generate_random random;
    unsigned char *book;
    unsigned long length; /* bytes written */
    unsigned columns, lines, width, dual;
    unsigned form;
    unsigned screens, asked;
    unsigned identity[MOST_SCREENS + 4]; /* of each screen, its index in form one; some books have too many */
    unsigned long begin[MOST_SCREENS + 4], end[MOST_SCREENS + 4]; /* of each body */
    unsigned long pairs; /* of the body being written */
};

static unsigned below(struct maker *m, unsigned bound)
{
    return generate_below(&m->random, bound);
}

static int one_in(struct maker *m, unsigned bound)
{
    return below(m, bound) == 0;
}

static void byte(struct maker *m, unsigned value)
{
    m->book[m->length] = (unsigned char)value;
    m->length++;
}

/* A number below bound, often the first or the last. */
static unsigned spot(struct maker *m, unsigned bound)
{
    switch (below(m, 4)) {
    case 0: return 0;
    case 1: return bound - 1;
    default: return below(m, bound);
    }
}

/* A number from 1 to most, often most itself: up to the border exactly. */
static unsigned reach(struct maker *m, unsigned most)
{
    switch (below(m, 3)) {
    case 0: return most;
    case 1: return 1 + below(m, most < 4 ? most : 4);
    default: return 1 + below(m, most);
    }
}

/* Good operations. */

/* Few codes have glyphs, so that texts show them; others lie at the border of the ROM. */
static unsigned text_code(struct maker *m)
{
    switch (below(m, 6)) {
    case 0: return 0x7E + below(m, 4);
    case 1: return below(m, 256);
    case 2: return 0xFE + below(m, 2);
    default: return 0x80 + below(m, 4);
    }
}

static unsigned glyph_code(struct maker *m)
{
    switch (below(m, 6)) {
    case 0: return 0x80 + below(m, 128);
    case 1: return 0xFF;
    default: return 0x80 + below(m, 4);
    }
}

static unsigned content(struct maker *m)
{
    switch (below(m, 6)) {
    case 0: return 0x00;
    case 1: return 0xFF;
    default: return below(m, 256);
    }
}

static void text(struct maker *m)
{
    unsigned line = spot(m, m->lines);
    unsigned column = spot(m, m->columns);
    unsigned n = reach(m, m->columns - column);
    unsigned i;
    byte(m, 1);
    byte(m, line);
    byte(m, column);
    byte(m, n);
    for (i = 0; i < n; i++) byte(m, text_code(m));
    m->pairs += n + 5UL;
}

static void rectangle(struct maker *m)
{
    unsigned top = spot(m, 8 * m->lines);
    unsigned column = spot(m, m->columns);
    unsigned height = m->pairs > MANY_PAIRS ? 1 : reach(m, 8 * m->lines - top);
    unsigned width = reach(m, m->columns - column);
    if (height > 255) height = 255; /* all that one byte holds of 256 rows */
    byte(m, 2);
    byte(m, top);
    byte(m, column);
    byte(m, height);
    byte(m, width);
    byte(m, content(m));
    m->pairs += height * (width + 5UL);
}

static void dot(struct maker *m)
{
    unsigned x = spot(m, m->columns * m->width);
    unsigned y = spot(m, 8 * m->lines);
    byte(m, 3);
    byte(m, x % 256);
    byte(m, x / 256);
    byte(m, y);
    byte(m, one_in(m, 3) ? 0 : 1);
    m->pairs += 4;
}

static void glyph(struct maker *m)
{
    unsigned v;
    byte(m, 4);
    byte(m, glyph_code(m));
    for (v = 0; v < 8; v++) byte(m, content(m));
    m->pairs += 13;
}

static void cursor(struct maker *m)
{
    byte(m, 5);
    byte(m, spot(m, m->lines));
    byte(m, spot(m, m->columns));
    byte(m, 1 + spot(m, 8));
    byte(m, below(m, 2));
    m->pairs += 5;
}

static void combination(struct maker *m)
{
    byte(m, 6);
    byte(m, below(m, m->form == 2 ? 2 : 3)); /* form two has no AND */
    m->pairs += 1;
}

static void good_operation(struct maker *m)
{
    switch (below(m, 12)) {
    case 0: case 1: case 2: text(m); break;
    case 3: case 4: rectangle(m); break;
    case 5: case 6: case 7: dot(m); break;
    case 8: case 9: glyph(m); break;
    case 10: cursor(m); break;
    default: combination(m); break;
    }
}

/* Bad operations. */

/* The first number out of range, or seldom a later one. */
static unsigned char past(struct maker *m, unsigned first)
{
    return (unsigned char)(one_in(m, 4) ? first + below(m, 256 - first) : first);
}

static void out_of_range_text(struct maker *m)
{
    unsigned char *operation = m->book + m->length;
    text(m);
    switch (below(m, 4)) {
    case 0: operation[1] = past(m, m->lines); break;
    case 1: operation[3] = 0; break;
    case 2:
        /* Its codes are there: too wide, and not cut. */
        operation[3]++;
        operation[2] = (unsigned char)(m->columns + 1 - operation[3]);
        byte(m, text_code(m));
        break;
    default:
        /* More than 80 codes, all there. */
        operation[2] = 0;
        while (m->book + m->length < operation + 4 + 81) byte(m, text_code(m));
        operation[3] = 81;
        break;
    }
}

static void out_of_range_rectangle(struct maker *m)
{
    unsigned char *operation = m->book + m->length;
    unsigned rows = 8 * m->lines;
    rectangle(m);
    switch (below(m, 5)) {
    case 0: operation[3] = 0; break;
    case 1: operation[4] = 0; break;
    case 2:
        if (rows - operation[1] > 254) operation[1] = 2; /* else one row more is past what a byte holds */
        operation[3] = (unsigned char)(rows + 1 - operation[1]);
        break;
    case 3: operation[4] = (unsigned char)(m->columns + 1 - operation[2]); break;
    default:
        /* Sums of 256 and more, which one byte does not hold; 256 rows may be all there. */
        if (one_in(m, 2) && rows < 256) operation[1] = (unsigned char)(256 - operation[3]);
        else operation[2] = (unsigned char)(256 - operation[4]);
        break;
    }
}

static void out_of_range_dot(struct maker *m)
{
    unsigned char *operation = m->book + m->length;
    unsigned x = m->columns * m->width;
    unsigned which;
    dot(m);
    which = below(m, 4);
    if (which == 2 && m->lines == 32) which = 3; /* with 256 rows every y is in range */
    switch (which) {
    case 0:
        operation[1] = (unsigned char)(x % 256);
        operation[2] = (unsigned char)(x / 256);
        break;
    case 1: operation[2] = past(m, 3); break;
    case 2: operation[3] = past(m, 8 * m->lines); break;
    default: operation[4] = past(m, 2); break;
    }
}

static void out_of_range_cursor(struct maker *m)
{
    unsigned char *operation = m->book + m->length;
    cursor(m);
    switch (below(m, 5)) {
    case 0: operation[1] = past(m, m->lines); break;
    case 1: operation[2] = past(m, m->columns); break;
    case 2: operation[3] = 0; break;
    case 3: operation[3] = past(m, 9); break;
    default: operation[4] = past(m, 2); break;
    }
}

static void out_of_range(struct maker *m)
{
    unsigned char *operation = m->book + m->length;
    switch (below(m, 10)) {
    case 0: case 1: out_of_range_text(m); break;
    case 2: case 3: out_of_range_rectangle(m); break;
    case 4: case 5: out_of_range_dot(m); break;
    case 6: case 7: out_of_range_cursor(m); break;
    case 8:
        glyph(m);
        operation[1] = (unsigned char)(one_in(m, 4) ? below(m, 128) : 0x7F);
        break;
    default:
        combination(m);
        operation[1] = past(m, m->form == 2 ? 2 : 3);
        break;
    }
}

static void unknown(struct maker *m)
{
    unsigned count;
    byte(m, one_in(m, 3) ? 0 : past(m, 7));
    for (count = below(m, 6); count > 0; count--) byte(m, below(m, 256));
}

/* The body ends with it; a text often inside its header. */
static void cut(struct maker *m)
{
    unsigned long begin = m->length;
    unsigned whole;
    if (one_in(m, 3)) text(m);
    else good_operation(m);
    whole = (unsigned)(m->length - begin);
    if (m->book[begin] == 1 && one_in(m, 2)) whole = 4;
    m->length = begin + 1 + below(m, whole - 1);
}

/* Bodies. */

static unsigned choose_operations(struct maker *m)
{
    switch (below(m, 24)) {
    case 0: case 1: case 2: case 3: return 0;
    case 4: return one_in(m, 4) ? 4000 : 100; /* 4000: as many as find room */
    case 5: case 6: return 20 + below(m, 60);
    case 7: case 8: case 9: return 1;
    default: return 2 + below(m, 12);
    }
}

static void good_operations(struct maker *m, unsigned count)
{
    for (; count > 0 && m->length < ROOM_FOR_GOOD; count--) good_operation(m);
}

/* A body with one bad operation; the place where that begins. */
static unsigned long bad_body(struct maker *m)
{
    unsigned long place;
    good_operations(m, choose_operations(m));
    place = m->length;
    switch (below(m, 4)) {
    case 0:
        cut(m);
        return place;
    case 1: unknown(m); break;
    default: out_of_range(m); break;
    }
    if (one_in(m, 2)) good_operations(m, 1 + below(m, 4));
    if (one_in(m, 4)) unknown(m);
    return place;
}

/* Good operations up to exactly that many bytes, at least 100 from here. */
static void fill_up(struct maker *m, unsigned long wanted)
{
    while (m->length + LONGEST_OPERATION + 5 <= wanted) good_operation(m);
    if ((wanted - m->length) % 2 != 0) dot(m);
    while (m->length < wanted) combination(m);
}

static void word(struct maker *m, unsigned long place, unsigned long value)
{
    m->book[place] = (unsigned char)(value % 256);
    m->book[place + 1] = (unsigned char)(value / 256);
}

static unsigned long entry_place(const struct maker *m, unsigned screen)
{
    return m->form == 2 ? 2 + 6UL * screen : 1 + 4UL * screen;
}

static unsigned long offset_place(const struct maker *m, unsigned screen)
{
    return entry_place(m, screen) + (m->form == 2 ? 2 : 0);
}

static unsigned long length_place(const struct maker *m, unsigned screen)
{
    return offset_place(m, screen) + 2;
}

/* The byte that holds n. */
static unsigned char *count(struct maker *m)
{
    return &m->book[m->form - 1];
}

/* Rising, and up to the asked one small enough for a byte; one book in three has those of a move up. */
static void choose_identities(struct maker *m)
{
    int indices = m->form == 1 || one_in(m, 3);
    unsigned value = 0, screen;
    if (!indices) value = below(m, 3);
    for (screen = 0; screen < m->screens; screen++) {
        m->identity[screen] = value;
        value += 1;
        if (!indices) value += below(m, 3);
        if (!indices && screen >= m->asked && one_in(m, 3)) value += below(m, 900);
    }
}

/* Contents and bodies, the last one up to full bytes if full is not 0; the bad operation's place, or 0. */
static unsigned long write_book(struct maker *m, int asked_bad, int others_bad, unsigned long full)
{
    unsigned long place = 0, asked_pairs = 0;
    unsigned screen;
    m->book[0] = 0; /* stands in form two */
    *count(m) = (unsigned char)m->screens;
    m->length = entry_place(m, m->screens);
    for (screen = 0; screen < m->screens; screen++) {
        int asked = screen == m->asked;
        m->begin[screen] = m->length;
        m->pairs = 0;
        if (asked && asked_bad) place = bad_body(m);
        else if (!asked && others_bad && !one_in(m, 4)) bad_body(m);
        else good_operations(m, choose_operations(m));
        if (screen == m->screens - 1 && full != 0) fill_up(m, full);
        if (asked) asked_pairs = m->pairs;
        m->end[screen] = m->length;
        if (m->form == 2) word(m, entry_place(m, screen), m->identity[screen]);
        word(m, offset_place(m, screen), m->begin[screen]);
        word(m, length_place(m, screen), m->end[screen] - m->begin[screen]);
    }
    m->pairs = asked_pairs;
    return place;
}

/* Damage to the contents; each returns the place that refusal 9 gets. */

static unsigned long spoil_offset(struct maker *m)
{
    unsigned screen = spot(m, m->screens);
    unsigned long right = m->begin[screen], wrong = right + 1;
    switch (below(m, 4)) {
    case 0: wrong = right - 1; break;
    case 1: wrong = 0; break;
    case 2: wrong = (right + 256UL * (1 + below(m, 255))) % 65536; break;
    default: break;
    }
    word(m, offset_place(m, screen), wrong);
    return entry_place(m, screen);
}

/* One body longer or shorter by one: the next does not begin where it ends. */
static unsigned long spoil_length(struct maker *m)
{
    unsigned screen = below(m, m->screens);
    unsigned long length = m->end[screen] - m->begin[screen];
    int last = screen == m->screens - 1;
    if (length > 0 && one_in(m, 2)) {
        word(m, length_place(m, screen), length - 1);
        return entry_place(m, last ? screen : screen + 1);
    }
    word(m, length_place(m, screen), length + 1);
    return entry_place(m, m->end[screen] == m->length ? screen : screen + 1);
}

static unsigned long spoil_past_end(struct maker *m)
{
    unsigned screen = spot(m, m->screens);
    unsigned long least = m->length - m->begin[screen] + 1;
    word(m, length_place(m, screen), one_in(m, 3) ? 65535 : least);
    return entry_place(m, screen);
}

static unsigned long add_bytes(struct maker *m)
{
    unsigned count;
    for (count = 1 + spot(m, 6); count > 0; count--) byte(m, below(m, 256));
    return entry_place(m, m->screens - 1);
}

/* Bytes of the bodies are lost at the book's end. */
static unsigned long lose_end(struct maker *m)
{
    unsigned long bodies = m->length - m->begin[0];
    unsigned screen;
    if (bodies == 0) return add_bytes(m);
    m->length -= 1 + (one_in(m, 2) ? 0 : below(m, (unsigned)bodies));
    for (screen = 0; m->end[screen] <= m->length; screen++) continue;
    return entry_place(m, screen);
}

/* Place 0 even where an entry before the cut is wrong. */
static unsigned long cut_contents(struct maker *m)
{
    if (one_in(m, 2)) spoil_offset(m);
    m->length = 1 + spot(m, (unsigned)entry_place(m, m->screens) - 1);
    return 0;
}

static unsigned long other_count(struct maker *m)
{
    if (m->screens > 1 && one_in(m, 2)) {
        (*count(m))--;
        return entry_place(m, 0);
    }
    if (m->screens == MOST_SCREENS) return spoil_offset(m);
    (*count(m))++;
    return m->length < entry_place(m, m->screens + 1) ? 0 : entry_place(m, 0);
}

/* No screens: in form one a first byte 0 is form two's, so that its n is 0 too. */
static unsigned long no_screens(struct maker *m)
{
    m->book[0] = m->book[1] = 0;
    return 0;
}

/* The same identity as the last entry's, or a lower one. */
static unsigned long spoil_identity(struct maker *m)
{
    unsigned screen;
    if (m->form == 1 || m->screens == 1) return spoil_offset(m);
    screen = 1 + spot(m, m->screens - 1);
    word(m, entry_place(m, screen), one_in(m, 2) ? m->identity[screen - 1] : below(m, m->identity[screen - 1] + 1));
    return entry_place(m, screen);
}

static unsigned choose_damage(struct maker *m)
{
    if (m->form == 1) return 1 + below(m, CONTENTS_DAMAGES - 1);
    return one_in(m, 6) ? IDENTITY_WRONG : 1 + below(m, FORM_TWO_DAMAGES - 1);
}

static unsigned long damage_contents(struct maker *m, unsigned damage)
{
    switch (damage) {
    case OFFSET_WRONG: return spoil_offset(m);
    case LENGTH_WRONG: return spoil_length(m);
    case PAST_END: return spoil_past_end(m);
    case END_LOST: return lose_end(m);
    case LAST_SHORT: return add_bytes(m);
    case CONTENTS_CUT: return cut_contents(m);
    case NO_SCREENS: return no_screens(m);
    case TOO_MANY_SCREENS:
        if (one_in(m, 2)) *count(m) = past(m, MOST_SCREENS + 1); /* else right but for its number */
        return 0;
    case OTHER_COUNT: return other_count(m);
    case IDENTITY_WRONG: return spoil_identity(m);
    case EMPTY_BOOK: m->length = 0; return 0;
    default: return 0; /* too long as it was written */
    }
}

/* The whole input. */

static void choose_dual_panel(struct maker *m)
{
    switch (below(m, 16)) {
    case 0:
        m->columns = one_in(m, 3) ? 1 : 80;
        m->lines = one_in(m, 3) ? 2 : 32;
        break;
    case 1:
        m->columns = 1 + below(m, 80);
        m->lines = 2 + 2 * below(m, 16);
        break;
    case 2: case 3: case 4:
        m->columns = 1 + below(m, 12);
        m->lines = 2 + 2 * below(m, 16);
        break;
    default:
        m->columns = 1 + below(m, 6);
        m->lines = 2 + 2 * below(m, 3);
        break;
    }
    m->width = one_in(m, 2) ? 6 : 8;
}

static void choose_panel(struct maker *m)
{
    switch (below(m, 16)) {
    case 0:
        m->columns = one_in(m, 3) ? 1 : 80;
        m->lines = one_in(m, 3) ? 1 : 16;
        break;
    case 1:
        m->columns = 1 + below(m, 80);
        m->lines = 1 + below(m, 16);
        break;
    case 2: case 3: case 4:
        m->columns = 1 + below(m, 40);
        m->lines = 1 + below(m, 8);
        break;
    default:
        m->columns = 1 + below(m, 6);
        m->lines = 1 + below(m, 3);
        break;
    }
    m->width = one_in(m, 2) ? 6 : 8;
}

static unsigned choose_screens(struct maker *m)
{
    switch (below(m, 24)) {
    case 0: return MOST_SCREENS;
    case 1: return 1 + below(m, MOST_SCREENS);
    case 2: case 3: case 4: return 5 + below(m, 8);
    default: return 1 + below(m, 4);
    }
}

static void spoil_panel(struct maker *m, unsigned char *panel)
{
    static const unsigned char wrong[3][4] = {{0, 81, 144, 255}, {0, 17, 129, 255}, {0, 7, 9, 136}};
    static const unsigned char wrong_dual_lines[4] = {0, 17, 33, 34};
    unsigned which = below(m, 3);
    unsigned value = below(m, 4);
    panel[which] = m->dual && which == 1 ? wrong_dual_lines[value] : wrong[which][value];
}

/* Fewer bytes than the head has; every missing one counts as 0. */
static struct generate_book_reply short_input(struct maker *m)
{
    struct generate_book_reply reply = {0, 0, 0, 0, 0, 0, 0};
    reply.length = below(m, (unsigned)GENERATE_BOOK_HEAD);
    reply.number = reply.length < 3 ? 1 : 9;
    return reply;
}

/* A number or identity below 256 that no screen has. */
static unsigned absent(struct maker *m)
{
    for (;;) {
        unsigned number = m->form == 1 ? m->screens + below(m, 256 - m->screens) : below(m, 256), screen;
        for (screen = 0; screen < m->screens && m->identity[screen] != number; screen++) continue;
        if (screen == m->screens) return number;
    }
}

struct generate_book_reply generate_book_for(unsigned long long seed, unsigned dual, unsigned form,
                                             unsigned char *buffer)
{
    struct generate_book_reply reply = {0, 0, 0, 0, 0, 0, 0};
    struct maker maker;
    struct maker *m = &maker;
    int panel_bad = 0, number_bad = 0, operation_bad = 0, others_bad;
    unsigned damage = CONTENTS_RIGHT, number;
    unsigned long full = 0, contents_place, operation_place;
    m->random.word = seed;
    m->book = buffer + GENERATE_BOOK_HEAD;
    m->dual = dual;
    m->form = form;
    if (dual) choose_dual_panel(m);
    else choose_panel(m);
    m->screens = choose_screens(m);
    buffer[0] = (unsigned char)m->columns;
    buffer[1] = (unsigned char)m->lines;
    buffer[2] = (unsigned char)m->width;
    if (one_in(m, 100)) return short_input(m);

    /* One damage decides the number; those of later numbers often stand behind it. */
    if (one_in(m, 2)) {
        unsigned first = below(m, 20);
        panel_bad = first == 0;
        if ((first >= 1 && first <= 9) || (first < 1 && one_in(m, 4))) damage = choose_damage(m);
        number_bad = first == 10 || first == 11 || (first < 10 && one_in(m, 4));
        operation_bad = first >= 12 || one_in(m, 4);
    }
    others_bad = one_in(m, 3);
    if (damage == TOO_MANY_SCREENS) m->screens = MOST_SCREENS + 1 + below(m, 4);
    if (damage == TOO_LONG) full = GENERATE_BOOK_LIMIT + 1 + spot(m, (unsigned)GENERATE_BOOK_PAST);
    else if (damage == CONTENTS_RIGHT && !operation_bad && one_in(m, 40)) full = GENERATE_BOOK_LIMIT;

    m->asked = spot(m, m->screens);
    choose_identities(m);
    operation_place = write_book(m, operation_bad, others_bad, full);
    contents_place = damage_contents(m, damage);
    number = m->identity[m->asked];
    if (number_bad) number = form == 1 && one_in(m, 2) ? m->screens : absent(m);
    buffer[3] = (unsigned char)number;
    if (panel_bad) spoil_panel(m, buffer);

    reply.length = GENERATE_BOOK_HEAD + m->length;
    reply.begin = m->begin[m->asked];
    reply.end = m->end[m->asked];
    reply.screens = m->screens;
    if (panel_bad) {
        reply.number = 1;
    } else if (damage != CONTENTS_RIGHT) {
        reply.number = 9;
        reply.place = contents_place;
    } else if (number_bad) {
        reply.number = 10;
    } else if (operation_bad) {
        reply.number = 11;
        reply.place = operation_place;
    } else {
        reply.pairs = 1057 + 9UL * m->columns * m->lines + m->pairs;
    }
    return reply;
}

struct generate_book_reply generate_book(unsigned long long seed, unsigned char *buffer)
{
    return generate_book_for(seed, 0, 1, buffer);
}
