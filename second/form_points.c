/* form_points SEEDS: books of form two, and books moved between the forms, by hand and at random; one line per point,
   ok or not ok. */
#include <limits.h>
#include <stdlib.h>
#include <string.h>

#include "generate_book.h"
#include "moves.h"
#include "point.h"
#include "screens.h"

#define UNTOUCHED 0xEE
#define ROOM 20000

static unsigned char book[SECOND_BOOK_LIMIT + 1], output[SECOND_BOOK_LIMIT + 2], back[SECOND_BOOK_LIMIT + 2];
static unsigned char room[ROOM], other_room[ROOM];
static unsigned char rom[SECOND_ROM_LENGTH];
static unsigned char graphic[48], text[6], glyphs[SECOND_GLYPHS_LENGTH], frame[48];
static const struct second_panel panel = {3, 2, 6, 0};
static const unsigned long opening = 1057 + 9 * 3 * 2;

static int all(const unsigned char *bytes, unsigned long length, unsigned char value)
{
    unsigned long i;
    for (i = 0; i < length; i++) {
        if (bytes[i] != value) return 0;
    }
    return 1;
}

static void put(unsigned long place, unsigned long value)
{
    book[place] = (unsigned char)(value % 256);
    book[place + 1] = (unsigned char)(value / 256);
}

/* Writer and picture give number and place, and change nothing where they refuse. */
static int both_give(unsigned long length, unsigned long screen, unsigned number, unsigned long place)
{
    struct second_write_reply written;
    struct second_picture_reply drawn;
    memset(room, UNTOUCHED, sizeof room);
    memset(frame, UNTOUCHED, sizeof frame);
    written = second_write(&panel, book, length, screen, room, ROOM);
    drawn = second_picture(&panel, book, length, screen, rom, 1024, 1, graphic, 48, text, 6, glyphs, 1024, frame, 48);
    if (written.number != number || written.place != place) return 0;
    if (drawn.number != number || drawn.place != place) return 0;
    if (number == 0) return written.pairs >= opening;
    return written.pairs == 0 && all(room, ROOM, UNTOUCHED) && all(frame, 48, UNTOUCHED);
}

/* A book in form two of empty screens, identities 10, 20 and so on. */
static unsigned long empty_screens(unsigned n)
{
    unsigned long length = 2 + 6UL * n, i;
    memset(book, 0, length);
    book[1] = (unsigned char)n;
    for (i = 0; i < n; i++) {
        put(2 + 6 * i, 10 * (i + 1));
        put(4 + 6 * i, length);
    }
    return length;
}

static void contents(void)
{
    static const unsigned char smallest[8] = {0, 1, 7, 0, 8, 0, 0, 0};
    unsigned n;
    unsigned long length;
    int holds = 1;
    memcpy(book, smallest, 8);
    point("00 01 07 00 08 00 00 00: one empty screen, identity 7", both_give(8, 7, 0, 0));
    point("and no screen 0", both_give(8, 0, 10, 0));
    for (n = 0; n < 256; n++) {
        int right = n >= 1 && n <= 64;
        if (!both_give(empty_screens(n), 10, right ? 0 : 9, 0)) holds = 0;
    }
    point("n 1 to 64 and no other", holds);
    holds = 1;
    for (n = 1; n <= 64; n++) {
        for (length = 0; length < 2 + 6 * n; length++) {
            empty_screens(n);
            book[4] ^= 1; /* wrong too, but place 0 stands */
            if (!both_give(length, 10, 9, 0)) holds = 0;
        }
    }
    point("a book that ends inside its contents: place 0", holds);
    point("longer than 32,768 bytes: place 0", both_give(SECOND_BOOK_LIMIT + 1, 10, 9, 0));
}

static void entries(void)
{
    unsigned long i, length = empty_screens(64);
    int offsets = 1, lengths = 1, same = 1, lower = 1;
    for (i = 0; i < 64; i++) {
        empty_screens(64);
        put(4 + 6 * i, length + 1);
        if (!both_give(length, 10, 9, 2 + 6 * i)) offsets = 0;
        put(4 + 6 * i, length - 1);
        if (!both_give(length, 10, 9, 2 + 6 * i)) offsets = 0;
        put(4 + 6 * i, length);
        put(6 + 6 * i, 1);
        if (!both_give(length, 10, 9, 2 + 6 * i)) lengths = 0;
        put(6 + 6 * i, 65535);
        if (!both_give(length, 10, 9, 2 + 6 * i)) lengths = 0;
        put(6 + 6 * i, 0);
        if (i == 0) continue;
        put(2 + 6 * i, 10 * i);
        if (!both_give(length, 10, 9, 2 + 6 * i)) same = 0;
        put(2 + 6 * i, 10 * i - 1);
        if (!both_give(length, 10, 9, 2 + 6 * i)) lower = 0;
        put(4 + 6 * i, 0);
        if (!both_give(length, 10, 9, 2 + 6 * i)) lower = 0;
    }
    point("each of 64 entries wrong by its offset", offsets);
    point("by a body past the end", lengths);
    point("an identity that is the last one's: the later entry", same);
    point("an identity below the last one's, also with a wrong offset", lower);
    point("the last entry falls short", both_give(empty_screens(64) + 1, 10, 9, 2 + 6 * 63));
    length = empty_screens(3);
    put(2, 300);
    point("identities compare by both bytes: 300, 20", both_give(length, 300, 9, 8));
    put(8, 512);
    put(14, 513);
    point("300, 512, 513 rise", both_give(length, 512, 0, 0) && both_give(length, 513, 0, 0) && both_give(length, 300, 0, 0));
    put(2, 0);
    put(14, 65535);
    point("0, 512, 65535", both_give(length, 0, 0, 0) && both_give(length, 65535, 0, 0));
    point("none below, between or above: 10", both_give(length, 1, 10, 0) && both_give(length, 511, 10, 0)
          && both_give(length, 65534, 10, 0) && both_give(length, 65536, 10, 0) && both_give(length, 66048, 10, 0)
          && both_give(length, ULONG_MAX, 10, 0));
    put(14, 512);
    point("9 before 10", both_give(length, 1, 9, 14));
}

/* Two screens, identities 5 and 9: text, and a bad operation after a good one. */
static void bodies(void)
{
    static const unsigned char two[] = {0, 2, 5, 0, 14, 0, 5, 0, 9, 0, 19, 0, 4, 0, 1, 1, 0, 1, 0x41, 6, 1, 6, 9};
    static const unsigned char one[] = {1, 5, 0, 5, 0, 1, 1, 0, 1, 0x41};
    struct second_write_reply reply;
    memcpy(book, two, sizeof two);
    point("11's place is the byte in this book", both_give(sizeof two, 9, 11, 21));
    point("the other screen is right", both_give(sizeof two, 5, 0, 0));
    reply = second_write(&panel, book, sizeof two, 5, room, ROOM);
    second_write(&panel, one, sizeof one, 0, other_room, ROOM);
    point("the stream is that of the same body in form one", reply.pairs == opening + 6 && memcmp(room, other_room, 2 * reply.pairs) == 0);
    reply = second_write(&panel, book, sizeof two, 5, room, 2 * (opening + 6) - 1);
    point("12 as in form one", reply.number == 12 && reply.place == opening + 6);
    reply = second_write_asking(&panel, book, sizeof two, 5, room, ROOM);
    second_write_asking(&panel, one, sizeof one, 0, other_room, ROOM);
    point("so is the asking stream", reply.pairs == 2 * (opening + 6) && memcmp(room, other_room, 2 * reply.pairs) == 0);
    point("11 of the asking stream", second_write_asking(&panel, book, sizeof two, 9, room, 0).place == 21);
}

/* Moves. */

static int replies(struct second_move_reply reply, unsigned number, unsigned long place, unsigned long length)
{
    return reply.number == number && reply.place == place && reply.length == length;
}

static struct second_move_reply up(const unsigned char *bytes, unsigned long length, unsigned long output_length)
{
    return second_move_up(&panel, bytes, length, output, output_length);
}

static struct second_move_reply down(const unsigned char *bytes, unsigned long length, unsigned long output_length)
{
    return second_move_down(bytes, length, output, output_length);
}

/* Bodies 06 01, none, and a dot; the same with identities 0, 1 and 2. */
static const unsigned char form_one[] = {3, 13, 0, 2, 0, 15, 0, 0, 0, 15, 0, 5, 0, 6, 1, 3, 0, 0, 0, 1};
static const unsigned char form_two[] = {0, 3, 0, 0, 20, 0, 2, 0, 1, 0, 22, 0, 0, 0, 2, 0, 22, 0, 5, 0, 6, 1, 3, 0, 0, 0, 1};

static void moves_by_hand(void)
{
    unsigned long room_length;
    int holds;
    memset(output, UNTOUCHED, sizeof output);
    holds = replies(up(form_one, sizeof form_one, sizeof output), 0, 0, sizeof form_two);
    point("up: identities 0 to 2, offsets 7 on", holds && memcmp(output, form_two, sizeof form_two) == 0);
    point("up: the rest is unchanged", all(output + sizeof form_two, sizeof output - sizeof form_two, UNTOUCHED));
    memset(output, UNTOUCHED, sizeof output);
    holds = replies(down(form_two, sizeof form_two, sizeof output), 0, 0, sizeof form_one);
    point("down: the same back", holds && memcmp(output, form_one, sizeof form_one) == 0);
    point("down: the rest is unchanged", all(output + sizeof form_one, sizeof output - sizeof form_one, UNTOUCHED));
    memset(output, UNTOUCHED, sizeof output);
    holds = 1;
    for (room_length = 0; room_length < sizeof form_two; room_length++) {
        if (!replies(up(form_one, sizeof form_one, room_length), 12, sizeof form_two, 0)) holds = 0;
    }
    point("up: 12 for every shorter output, with the bytes needed", holds && all(output, sizeof output, UNTOUCHED));
    holds = 1;
    for (room_length = 0; room_length < sizeof form_one; room_length++) {
        if (!replies(down(form_two, sizeof form_two, room_length), 12, sizeof form_one, 0)) holds = 0;
    }
    point("down: 12 for every shorter output, with the bytes needed", holds && all(output, sizeof output, UNTOUCHED));
    point("outputs of exactly the bytes needed", replies(up(form_one, sizeof form_one, sizeof form_two), 0, 0, sizeof form_two)
          && replies(down(form_two, sizeof form_two, sizeof form_one), 0, 0, sizeof form_one));
}

static void moves_refused(void)
{
    static const struct { unsigned n; unsigned identity[3]; } other[] = {
        {1, {1}}, {1, {65535}}, {2, {0, 2}}, {2, {1, 2}}, {3, {0, 1, 3}}, {3, {0, 2, 3}}, {1, {256}}, {2, {0, 257}}
    };
    unsigned long length, i, j;
    int holds = 1;
    memset(output, UNTOUCHED, sizeof output);
    point("up from form two: 9, place 0", replies(up(form_two, sizeof form_two, sizeof output), 9, 0, 0));
    point("down from form one: 9, place 0", replies(down(form_one, sizeof form_one, 0), 9, 0, 0));
    memcpy(book, form_two, sizeof form_two);
    book[10] ^= 1;
    point("down with a wrong entry: its byte", replies(down(book, sizeof form_two, 0), 9, 8, 0));
    point("up from form two with a wrong entry: the form comes first", replies(up(book, sizeof form_two, 0), 9, 0, 0));
    memcpy(book, form_one, sizeof form_one);
    book[5] ^= 1;
    point("up with a wrong entry: its byte", replies(up(book, sizeof form_one, 0), 9, 5, 0));
    point("down from form one with a wrong entry: the form comes first", replies(down(book, sizeof form_one, 0), 9, 0, 0));
    point("no bytes: 9", replies(up(book, 0, 99), 9, 0, 0) && replies(down(book, 0, 99), 9, 0, 0));
    point("cut contents: 9, place 0", replies(up(form_one, 12, 99), 9, 0, 0) && replies(down(form_two, 19, 99), 9, 0, 0)
          && replies(down(form_two, 1, 99), 9, 0, 0));
    book[0] = 65;
    point("n 65: 9, place 0", replies(up(book, sizeof form_one, 99), 9, 0, 0));
    for (i = 0; i < sizeof other / sizeof other[0]; i++) {
        length = empty_screens(other[i].n);
        for (j = 0; j < other[i].n; j++) put(2 + 6 * j, other[i].identity[j]);
        if (!replies(down(book, length, 0), 17, 0, 0)) holds = 0;
    }
    point("17 for other identities, place 0, before 12", holds);
    length = empty_screens(2);
    put(2, 5);
    put(8, 5);
    point("9 for identities out of order, before 17", replies(down(book, length, 99), 9, 8, 0));
    point("nothing is moved", all(output, sizeof output, UNTOUCHED));
}

/* n screens, empty but for the last; length bytes in form one. */
static void fill_book(unsigned n, unsigned long length)
{
    unsigned long begin = 1 + 4UL * n, i;
    memset(book, 6, sizeof book);
    book[0] = (unsigned char)n;
    for (i = 0; i < n; i++) {
        put(1 + 4 * i, begin);
        put(3 + 4 * i, i + 1 < n ? 0 : length - begin);
    }
    for (i = begin + 1; i < length; i += 2) book[i] = 1;
    if ((length - begin) % 2 != 0) {
        static const unsigned char dot[5] = {3, 0, 0, 0, 1};
        memcpy(book + length - 5, dot, 5); /* so that an odd length is filled too */
    }
}

static void sizes(void)
{
    unsigned n;
    int holds = 1;
    memset(output, UNTOUCHED, sizeof output);
    for (n = 1; n <= 64; n++) {
        unsigned long over = 1 + 2UL * n;
        fill_book(n, SECOND_BOOK_LIMIT);
        if (!replies(up(book, SECOND_BOOK_LIMIT, 0), 18, SECOND_BOOK_LIMIT + over, 0)) holds = 0;
        fill_book(n, SECOND_BOOK_LIMIT - over + 1);
        if (!replies(up(book, SECOND_BOOK_LIMIT - over + 1, sizeof output), 18, SECOND_BOOK_LIMIT + 1, 0)) holds = 0;
        if (!all(output, sizeof output, UNTOUCHED)) holds = 0;
        fill_book(n, SECOND_BOOK_LIMIT - over);
        if (!replies(up(book, SECOND_BOOK_LIMIT - over, SECOND_BOOK_LIMIT - 1), 12, SECOND_BOOK_LIMIT, 0)) holds = 0;
        if (!replies(second_move_up(&panel, book, SECOND_BOOK_LIMIT - over, back, sizeof back), 0, 0, SECOND_BOOK_LIMIT)) holds = 0;
    }
    point("18 past 32,768 bytes with the size, before 12; a book of just that size is moved", holds);
}

/* A book in form one, two bytes for each screen: EXOR, from and_from on AND, and in screen wrong an unknown operation. */
static unsigned long combinations(unsigned n, unsigned long and_from, unsigned long wrong)
{
    unsigned long i, begin = 1 + 4UL * n;
    book[0] = (unsigned char)n;
    for (i = 0; i < n; i++) {
        put(1 + 4 * i, begin + 2 * i);
        put(3 + 4 * i, 2);
        book[begin + 2 * i] = i == wrong ? 7 : 6;
        book[begin + 2 * i + 1] = i >= and_from ? 2 : 1;
    }
    return begin + 2UL * n;
}

static void without_and(void)
{
    static const struct second_panel bad = {3, 17, 6, 0}, small = {2, 1, 6, 0}, dual = {3, 2, 6, 1};
    static const unsigned char torn[] = {0, 1, 0, 0, 8, 0, 3, 0, 6, 2, 9};
    static const unsigned char large[] = {1, 5, 0, 7, 0, 6, 1, 3, 17, 0, 0, 1};
    unsigned long n, i, length;
    int holds = 1, before = 1;
    memset(output, UNTOUCHED, sizeof output);
    for (n = 1; n <= 64; n += 9) {
        for (i = 0; i < n; i++) {
            length = combinations((unsigned)n, i, n);
            if (!replies(up(book, length, i % 2 ? 0 : sizeof output), 19, i, 0)) holds = 0;
            length = combinations((unsigned)n, i, n - 1);
            if (!replies(up(book, length, sizeof output), 11, 1 + 4 * n + 2 * (n - 1), 0)) before = 0;
        }
    }
    point("19 at the first screen with AND, before 12", holds);
    point("11 in any screen comes before 19", before);
    length = combinations(64, 63, 64);
    book[1] ^= 1;
    point("9 before 11 and 19", replies(up(book, length, 0), 9, 1, 0));
    point("1 before 9", replies(second_move_up(&bad, book, length, output, 0), 1, 0, 0));
    fill_book(1, SECOND_BOOK_LIMIT);
    book[32767] = 2;
    point("11 before 18", replies(up(book, SECOND_BOOK_LIMIT, 0), 11, 32763, 0));
    fill_book(1, SECOND_BOOK_LIMIT - 1);
    book[6] = 2;
    point("19 before 18", replies(up(book, SECOND_BOOK_LIMIT - 1, 0), 19, 0, 0));
    point("a dot past a smaller panel: 11 at its byte", replies(second_move_up(&small, large, sizeof large, output, 99), 11, 7, 0));
    point("the output is untouched", all(output, sizeof output, UNTOUCHED));
    point("a dual panel checks too, and takes what is in range",
          replies(second_move_up(&dual, large, sizeof large, output, 99), 0, 0, sizeof large + 3));
    point("a move down looks at no body", replies(down(torn, sizeof torn, 99), 0, 0, 8) && output[5] == 6 && output[6] == 2
          && output[7] == 9);
    length = combinations(2, 1, 9);
    point("form one still has AND", both_give(length, 1, 0, 0) && second_write(&panel, book, length, 1, room, ROOM).pairs == opening + 1
          && room[2 * opening + 1] == 0x83);
    memcpy(book, torn, sizeof torn);
    book[6] = 2;
    point("form two does not: 11 for the operation", both_give(10, 0, 11, 8));
    book[9] = 1;
    point("EXOR stays", both_give(10, 0, 0, 0));
    book[9] = 0;
    point("OR stays", both_give(10, 0, 0, 0));
}

/* At random: right books up and down, down and up, and their screens. */

static struct {
    unsigned long up, down, other, too_long, screens, with_and, wrong;
} seen;

static unsigned char input[GENERATE_BOOK_ROOM];

/* What a move up of these bodies gets, 0, 11 or 19, by asking for every screen and looking for AND from its start. */
static unsigned expected_number(const struct second_panel *p, const unsigned char *bytes, unsigned long length,
                                unsigned long *place)
{
    static const unsigned char fixed[7] = {0, 4, 6, 5, 10, 5, 2};
    unsigned long screen, n = bytes[0], at, end;
    for (screen = 0; screen < n; screen++) {
        struct second_write_reply reply = second_write(p, bytes, length, screen, NULL, 0);
        *place = reply.place;
        if (reply.number == 11) return 11;
    }
    for (screen = 0; screen < n; screen++) {
        at = bytes[1 + 4 * screen] + 256UL * bytes[2 + 4 * screen];
        end = at + bytes[3 + 4 * screen] + 256UL * bytes[4 + 4 * screen];
        *place = screen;
        for (; at < end; at += fixed[bytes[at]] + (bytes[at] == 1 ? bytes[at + 3] : 0U)) {
            if (bytes[at] == 6 && bytes[at + 1] == 2) return 19;
        }
    }
    *place = 0;
    return 0;
}

/* The asked screen is the same in both forms. */
static int screen_stays(const struct second_panel *p, const unsigned char *a, unsigned long a_length, unsigned long a_screen,
                        const unsigned char *b, unsigned long b_length, unsigned long b_screen)
{
    static unsigned char one[200000], two[200000];
    struct second_write_reply first = second_write(p, a, a_length, a_screen, one, sizeof one);
    struct second_write_reply then = second_write(p, b, b_length, b_screen, two, sizeof two);
    if (first.number == 12) return then.number == 12 && first.place == then.place;
    seen.screens++;
    return first.number == 0 && then.number == 0 && first.pairs == then.pairs && memcmp(one, two, 2 * first.pairs) == 0;
}

static int round_trip(unsigned long long seed, unsigned form)
{
    struct generate_book_reply made = generate_book_for(seed, 0, form, input);
    struct second_panel p = {0, 0, 0, 0};
    struct second_move_reply first, then;
    const unsigned char *bytes = input + GENERATE_BOOK_HEAD;
    unsigned long length = made.length - GENERATE_BOOK_HEAD, i, changed = 1 + 2 * made.screens, place;
    unsigned number;
    int indices = 1;
    if (made.number != 0) return 1;
    p.columns = input[0];
    p.lines = input[1];
    p.width = input[2];
    if (form == 1) {
        first = second_move_up(&p, bytes, length, output, sizeof output);
        number = expected_number(&p, bytes, length, &place);
        if (number == 11) seen.wrong++;
        if (number == 19) seen.with_and++;
        if (number != 0) return replies(first, number, place, 0);
        if (length + changed > SECOND_BOOK_LIMIT) {
            seen.too_long++;
            return replies(first, 18, length + changed, 0);
        }
        if (!replies(first, 0, 0, length + changed)) return 0;
        seen.up++;
        then = second_move_down(output, first.length, back, sizeof back);
    } else {
        for (i = 0; i < made.screens; i++) {
            if (bytes[2 + 6 * i] != i || bytes[3 + 6 * i] != 0) indices = 0;
        }
        first = second_move_down(bytes, length, output, sizeof output);
        if (!indices) {
            seen.other++;
            return replies(first, 17, 0, 0);
        }
        if (!replies(first, 0, 0, length - changed)) return 0;
        seen.down++;
        then = second_move_up(&p, output, first.length, back, sizeof back);
        number = expected_number(&p, output, first.length, &place);
        if (number != 0) return replies(then, number, place, 0);
    }
    return replies(then, 0, 0, length) && memcmp(back, bytes, length) == 0
           && screen_stays(&p, bytes, length, input[3], output, first.length, input[3]);
}

static void at_random(unsigned long long seeds)
{
    unsigned long long seed;
    int holds = 1;
    for (seed = 1; seed <= seeds; seed++) {
        if (!round_trip(seed, 1) || !round_trip(seed, 2)) {
            if (holds) printf("# seed %llu\n", seed);
            holds = 0;
        }
    }
    printf("# up and down %lu, down and up %lu, by 11 %lu, by 19 %lu, by 17 %lu, by 18 %lu; screens %lu\n", seen.up,
           seen.down, seen.wrong, seen.with_and, seen.other, seen.too_long, seen.screens);
    point("up then down and down then up give the same bytes, the screens between them the same streams", holds);
    point("both round trips, other identities", seen.up > seeds / 20 && seen.down > seeds / 20 && seen.other > seeds / 20);
    point("books with AND, and with a wrong body", seen.with_and > seeds / 20 && seen.wrong > seeds / 20);
}

int main(int argc, char **argv)
{
    contents();
    entries();
    bodies();
    moves_by_hand();
    moves_refused();
    sizes();
    without_and();
    at_random(argc == 2 ? strtoull(argv[1], NULL, 10) : 400);
    return 0;
}
