/* save_points SEEDS: torn books saved, by hand and at random; one line per point, ok or not ok. */
#include <stdlib.h>
#include <string.h>

#include "generate.h"
#include "generate_book.h"
#include "point.h"
#include "saving.h"

#define UNTOUCHED 0xEE

static unsigned char output[SECOND_BOOK_LIMIT + 1];
static const struct second_panel panel = {3, 2, 6, 0};

static int all(const unsigned char *bytes, unsigned long length, unsigned char value)
{
    unsigned long i;
    for (i = 0; i < length; i++) {
        if (bytes[i] != value) return 0;
    }
    return 1;
}

static struct second_save_reply save(const unsigned char *book, unsigned long length, unsigned long output_length)
{
    memset(output, UNTOUCHED, sizeof output);
    return second_save_book(&panel, book, length, output, output_length);
}

/* A refusal reports nothing and leaves the output. */
static int refuses(struct second_save_reply reply, unsigned number, unsigned long place)
{
    unsigned i;
    for (i = 0; i < 64; i++) {
        if (reply.kept[i] != 0 || reply.dropped[i] != 0) return 0;
    }
    return reply.number == number && reply.place == place && reply.length == 0 && reply.screens == 0
           && all(output, sizeof output, UNTOUCHED);
}

static int saves(struct second_save_reply reply, const unsigned char *expected, unsigned long length)
{
    return reply.number == 0 && reply.place == 0 && reply.length == length && memcmp(output, expected, length) == 0
           && all(output + length, sizeof output - length, UNTOUCHED);
}

/* Three screens: a dot then an unknown operation and good ones; a text cut by its body's end; none. */
static const unsigned char torn_one[] = {3, 13, 0, 13, 0, 26, 0, 6, 0, 32, 0, 0, 0,
                                         3, 0, 0, 0, 1, 7, 6, 1, 6, 0, 6, 1, 6,
                                         6, 2, 1, 0, 0, 3};
static const unsigned char saved_one[] = {3, 13, 0, 5, 0, 18, 0, 2, 0, 20, 0, 0, 0, 3, 0, 0, 0, 1, 6, 2};
/* The same bodies in form two, identities 1, 300 and 65535; there AND is no good operation. */
static const unsigned char torn_two[] = {0, 3, 1, 0, 20, 0, 13, 0, 0x2C, 1, 33, 0, 6, 0, 0xFF, 0xFF, 39, 0, 0, 0,
                                         3, 0, 0, 0, 1, 7, 6, 1, 6, 0, 6, 1, 6,
                                         6, 2, 1, 0, 0, 3};
static const unsigned char saved_two[] = {0, 3, 1, 0, 20, 0, 5, 0, 0x2C, 1, 25, 0, 0, 0, 0xFF, 0xFF, 25, 0, 0, 0, 3, 0, 0, 0, 1};

static void by_hand(void)
{
    struct second_save_reply reply = save(torn_one, sizeof torn_one, sizeof output);
    point("form one: good operations up to the first bad one, AND among them", saves(reply, saved_one, sizeof saved_one));
    point("bytes kept and dropped of each", reply.screens == 3 && reply.kept[0] == 5 && reply.dropped[0] == 8
          && reply.kept[1] == 2 && reply.dropped[1] == 4 && reply.kept[2] == 0 && reply.dropped[2] == 0
          && reply.kept[3] == 0 && reply.dropped[63] == 0);
    reply = save(torn_two, sizeof torn_two, sizeof output);
    point("form two: the same identities, AND dropped", saves(reply, saved_two, sizeof saved_two));
    point("bytes kept and dropped of each in form two", reply.screens == 3 && reply.kept[0] == 5 && reply.dropped[0] == 8
          && reply.kept[1] == 0 && reply.dropped[1] == 6 && reply.kept[2] == 0 && reply.dropped[2] == 0);
    reply = save(saved_one, sizeof saved_one, sizeof output);
    point("a sound book comes back", saves(reply, saved_one, sizeof saved_one) && reply.dropped[0] == 0 && reply.dropped[1] == 0);
    reply = save(saved_two, sizeof saved_two, sizeof output);
    point("a sound book of form two comes back", saves(reply, saved_two, sizeof saved_two));
}

static void refusals(void)
{
    static const struct second_panel bad = {3, 3, 6, 1};
    unsigned char book[sizeof torn_two];
    unsigned long length;
    int holds = 1;
    for (length = 0; length < sizeof saved_one; length++) {
        if (!refuses(save(torn_one, sizeof torn_one, length), 12, sizeof saved_one)) holds = 0;
    }
    for (length = 0; length < sizeof saved_two; length++) {
        if (!refuses(save(torn_two, sizeof torn_two, length), 12, sizeof saved_two)) holds = 0;
    }
    point("12 for every shorter output, with the bytes needed, nothing reported", holds);
    point("an output of exactly the bytes needed", saves(save(torn_one, sizeof torn_one, sizeof saved_one), saved_one, sizeof saved_one));
    memcpy(book, torn_one, sizeof torn_one);
    book[5]++;
    point("9 for a wrong entry, at its byte, before 12", refuses(save(book, sizeof torn_one, 0), 9, 5));
    memcpy(book, torn_two, sizeof torn_two);
    book[9] = 0;
    book[8] = 1;
    point("9 for identities out of order", refuses(save(book, sizeof torn_two, 0), 9, 8));
    point("9 for no bytes", refuses(save(book, 0, sizeof output), 9, 0));
    point("9 for contents cut", refuses(save(torn_two, 19, sizeof output), 9, 0));
    memset(output, UNTOUCHED, sizeof output);
    point("1 before 9", refuses(second_save_book(&bad, book, 0, output, 0), 1, 0));
}

/* A cursor, then one operation of every kind: kept whole if right, dropped if cut, unknown or out of range. */
static void operations(void)
{
    static const struct { const char *name; unsigned length; unsigned char body[10]; int right; } operation[] = {
        {"a text", 7, {1, 1, 0, 3, 0x41, 0x42, 0x43}, 1}, {"a text cut", 6, {1, 1, 0, 3, 0x41, 0x42}, 0},
        {"a text past the last column", 6, {1, 1, 2, 2, 0x41, 0x42}, 0},
        {"a rectangle", 6, {2, 8, 1, 8, 2, 0xFF}, 1}, {"a rectangle cut", 5, {2, 8, 1, 8, 2}, 0},
        {"a rectangle too low", 6, {2, 9, 1, 8, 2, 0xFF}, 0},
        {"a dot", 5, {3, 17, 0, 15, 1}, 1}, {"a dot cut", 4, {3, 17, 0, 15}, 0}, {"a dot past the last row", 5, {3, 17, 0, 16, 1}, 0},
        {"a glyph", 10, {4, 0x80, 1, 2, 3, 4, 5, 6, 7, 8}, 1}, {"a glyph cut", 9, {4, 0x80, 1, 2, 3, 4, 5, 6, 7}, 0},
        {"a glyph of the ROM's codes", 10, {4, 0x7F, 1, 2, 3, 4, 5, 6, 7, 8}, 0},
        {"a cursor", 5, {5, 1, 2, 8, 1}, 1}, {"a cursor cut", 4, {5, 1, 2, 8}, 0}, {"a cursor of height 9", 5, {5, 1, 2, 9, 1}, 0},
        {"a combination", 2, {6, 1}, 1}, {"a combination cut", 1, {6}, 0}, {"a combination 3", 2, {6, 3}, 0}, {"operation 0", 1, {0}, 0}
    };
    unsigned i;
    char name[80];
    for (i = 0; i < sizeof operation / sizeof operation[0]; i++) {
        unsigned char book[5 + 5 + 10 + 2] = {1, 5, 0, 0, 0, 5, 0, 0, 1, 0};
        unsigned length = 10 + operation[i].length;
        unsigned kept = 5 + (operation[i].right ? operation[i].length : 0);
        struct second_save_reply reply;
        book[3] = (unsigned char)(length - 5);
        memcpy(book + 10, operation[i].body, operation[i].length);
        reply = save(book, length, sizeof output);
        sprintf(name, "%s after a cursor: %s", operation[i].name, operation[i].right ? "kept" : "dropped");
        point(name, reply.number == 0 && reply.length == 5 + kept && reply.kept[0] == kept && reply.dropped[0] == length - 5 - kept
                    && output[3] == kept && memcmp(output + 5, book + 5, kept) == 0);
    }
}

/* At random: books with torn bodies. */

static unsigned char input[GENERATE_BOOK_ROOM];

static struct {
    unsigned long books, sound, torn, form_two, dual;
} seen;

/* Is this much of a body a run of whole good operations? A book of that screen alone is written to tell. */
static int good_run(const struct second_panel *p, unsigned form, const unsigned char *body, unsigned long length)
{
    static unsigned char alone[SECOND_BOOK_LIMIT];
    static const unsigned char head_one[5] = {1, 5, 0, 0, 0}, head_two[8] = {0, 1, 0, 0, 8, 0, 0, 0};
    unsigned long head = form == 2 ? 8 : 5;
    memcpy(alone, form == 2 ? head_two : head_one, head);
    alone[head - 2] = (unsigned char)(length % 256);
    alone[head - 1] = (unsigned char)(length / 256);
    memcpy(alone + head, body, length);
    return second_write(p, alone, head + length, 0, NULL, 0).number == 12;
}

/* Tears some bytes of the bodies. */
static void tear(struct generate_random *random, unsigned char *bytes, unsigned long begin, unsigned long length)
{
    unsigned long at;
    for (at = begin; at < length; at++) {
        if (generate_below(random, 60) == 0) bytes[at] = (unsigned char)generate_below(random, 256);
    }
}

static int agree(unsigned long long seed, unsigned dual, unsigned form)
{
    struct generate_book_reply made = generate_book_for(seed, dual, form, input);
    struct generate_random random;
    struct second_panel p;
    struct second_save_reply reply;
    unsigned char *bytes = input + GENERATE_BOOK_HEAD;
    unsigned long length = made.length - GENERATE_BOOK_HEAD, contents, screen, at, put, dropped = 0;
    if ((made.number != 0 && made.number != 11) || length > 700) return 1;
    random.word = ~seed;
    p.columns = input[0];
    p.lines = input[1];
    p.width = input[2];
    p.dual = dual;
    contents = form == 2 ? 2 + 6 * made.screens : 1 + 4 * made.screens;
    if (seed % 2) tear(&random, bytes, contents, length);
    memset(output, UNTOUCHED, sizeof output);
    reply = second_save_book(&p, bytes, length, output, sizeof output);
    if (reply.number != 0 || reply.place != 0 || reply.screens != made.screens) return 0;
    seen.books++;
    if (form == 2) seen.form_two++;
    if (dual) seen.dual++;

    at = put = contents;
    for (screen = 0; screen < made.screens; screen++) {
        unsigned long entry = form == 2 ? 2 + 6 * screen : 1 + 4 * screen, identity = screen, kept, whole;
        if (form == 2) {
            identity = bytes[entry] + 256UL * bytes[entry + 1];
            if (memcmp(output + entry, bytes + entry, 2) != 0) return 0;
            entry += 2;
        }
        whole = bytes[entry + 2] + 256UL * bytes[entry + 3];
        for (kept = whole; !good_run(&p, form, bytes + at, kept); kept--) continue; /* the longest first */
        if (output[entry] + 256UL * output[entry + 1] != put || output[entry + 2] + 256UL * output[entry + 3] != kept) return 0;
        if (reply.kept[screen] != kept || reply.dropped[screen] != whole - kept) return 0;
        if (memcmp(output + put, bytes + at, kept) != 0) return 0;
        if (second_write(&p, output, reply.length, identity, NULL, 0).number != 12) return 0;
        at += whole;
        put += kept;
        dropped += whole - kept;
    }
    if (dropped == 0) seen.sound++;
    else seen.torn++;
    if (reply.length != put || !all(output + put, sizeof output - put, UNTOUCHED)) return 0;
    return dropped > 0 || (reply.length == length && memcmp(output, bytes, length) == 0);
}

static void at_random(unsigned long long seeds)
{
    unsigned long long seed;
    int holds = 1;
    for (seed = 1; seed <= seeds; seed++) {
        if (!agree(seed, 0, 1) || !agree(seed, 0, 2) || !agree(seed, 1, 1) || !agree(seed, 1, 2)) {
            if (holds) printf("# seed %llu\n", seed);
            holds = 0;
        }
    }
    printf("# %lu books: sound %lu, torn %lu; form two %lu, dual %lu\n", seen.books, seen.sound, seen.torn, seen.form_two, seen.dual);
    point("random books: the longest good run of each body, laid out again, and every screen right", holds);
    point("sound and torn books, both forms, both kinds of panel",
          seen.sound > seeds / 2 && seen.torn > seeds / 2 && seen.form_two > seeds / 2 && seen.dual > seeds / 2);
}

int main(int argc, char **argv)
{
    by_hand();
    refusals();
    operations();
    at_random(argc == 2 ? strtoull(argv[1], NULL, 10) : 200);
    return 0;
}
