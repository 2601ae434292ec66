/* rehearse SEEDS: the books of seeds 1 to SEEDS written, run on the controller and drawn; every seed gives one for a single
   and one for a dual panel, and two in three one in form two. One line per property, ok or not ok. */
#include <limits.h>
#include <stdio.h>
#include <stdlib.h>
#include <string.h>

#include "asking.h"
#include "generate.h"
#include "generate_book.h"
#include "screens.h"

#define UNTOUCHED 0xEE

static unsigned char input[GENERATE_BOOK_ROOM], again[GENERATE_BOOK_ROOM];
static unsigned char memory[SECOND_MEMORY_LENGTH], before[SECOND_MEMORY_LENGTH], stopping[SECOND_MEMORY_LENGTH];
static unsigned char last_frame[20480]; /* 8 * 32 * 80, the largest frame */

/* Each lent piece is allocated at its exact length, so that a sanitizer sees the first byte past it. */
static struct {
    struct second_panel panel;
    unsigned char *book, *rom, *graphic, *text, *glyphs, *frame, *machine_frame;
    unsigned long book_length, screen, graphic_length, text_length, frame_length;
    unsigned long text_home; /* as document 01 and Req 08 give it */
} lent;

static struct {
    unsigned long numbers[14], place_0, later_entry, widths[9], operations[7];
    unsigned long large, empty, limit, too_long, many_screens, short_inputs, large_streams, phases_differ, order_shows;
    unsigned long form_two, high_identity;
    unsigned long books, dual, dual_large, cursor_rows[2]; /* rows in the upper and lower half that a cursor covers */
} seen;

static struct {
    int repeats, writer_replies, picture_replies, room, run, either_run, frames, planes, outside, nothing_changed;
    int asking, passes;
} holds = {1, 1, 1, 1, 1, 1, 1, 1, 1, 1, 1, 1};

static void expect(int *property, int condition, unsigned long long seed, const char *what)
{
    if (condition) return;
    if (*property) printf("# seed %llu: %s\n", seed, what);
    *property = 0;
}

static void property(const char *name, int condition)
{
    printf("%s %s\n", condition ? "ok" : "not ok", name);
}

static unsigned char *lend(unsigned long length)
{
    unsigned char *bytes = malloc(length > 0 ? length : 1);
    if (bytes == NULL) {
        fprintf(stderr, "rehearse: no memory for %lu bytes\n", length);
        exit(2);
    }
    memset(bytes, UNTOUCHED, length);
    return bytes;
}

static int untouched(const unsigned char *bytes, unsigned long length)
{
    unsigned long i;
    for (i = 0; i < length; i++) {
        if (bytes[i] != UNTOUCHED) return 0;
    }
    return 1;
}

static void fill(struct generate_random *random, unsigned char *bytes, unsigned long length)
{
    unsigned long i;
    for (i = 0; i < length; i++) bytes[i] = (unsigned char)generate_below(random, 256);
}

/* The input as the programs take it apart; lengths of no use with a bad panel are short. */
static void lend_all(struct generate_random *random, unsigned long length, unsigned dual)
{
    int valid;
    lent.panel.dual = dual;
    lent.text_home = dual ? 0x8000 : 0x4000;
    lent.panel.columns = input[0];
    lent.panel.lines = input[1];
    lent.panel.width = input[2];
    lent.screen = input[3];
    lent.book_length = length > GENERATE_BOOK_HEAD ? length - GENERATE_BOOK_HEAD : 0;
    valid = second_panel_valid(&lent.panel);
    lent.graphic_length = valid ? second_graphic_length(&lent.panel) : 1;
    lent.text_length = valid ? second_text_length(&lent.panel) : 1;
    lent.frame_length = valid ? second_frame_length(&lent.panel) : 1;
    lent.book = lend(lent.book_length);
    memcpy(lent.book, input + GENERATE_BOOK_HEAD, lent.book_length);
    lent.rom = lend(SECOND_ROM_LENGTH);
    fill(random, lent.rom, SECOND_ROM_LENGTH);
    lent.graphic = lend(lent.graphic_length);
    lent.text = lend(lent.text_length);
    lent.glyphs = lend(SECOND_GLYPHS_LENGTH);
    lent.frame = lend(lent.frame_length);
    lent.machine_frame = lend(lent.frame_length);
}

static void give_back(void)
{
    free(lent.book);
    free(lent.rom);
    free(lent.graphic);
    free(lent.text);
    free(lent.glyphs);
    free(lent.frame);
    free(lent.machine_frame);
}

static struct second_write_reply write_into(unsigned char *room, unsigned long room_length)
{
    return second_write(&lent.panel, lent.book, lent.book_length, lent.screen, room, room_length);
}

static struct second_picture_reply draw(unsigned normal)
{
    return second_picture(&lent.panel, lent.book, lent.book_length, lent.screen, lent.rom, SECOND_ROM_LENGTH, normal,
                          lent.graphic, lent.graphic_length, lent.text, lent.text_length,
                          lent.glyphs, SECOND_GLYPHS_LENGTH, lent.frame, lent.frame_length);
}

static void draw_registers(struct generate_random *random, struct second_registers *registers)
{
    registers->cursor_x = generate_below(random, 128);
    registers->cursor_y = generate_below(random, 32);
    registers->offset = generate_below(random, 32);
    registers->pointer = generate_below(random, 65536);
    registers->text_home = generate_below(random, 65536);
    registers->graphic_home = generate_below(random, 65536);
    registers->text_area = generate_below(random, 256);
    registers->graphic_area = generate_below(random, 256);
    registers->combination = generate_below(random, 4);
    registers->external = generate_below(random, 2);
    registers->graphic = generate_below(random, 2);
    registers->text = generate_below(random, 2);
    registers->cursor = generate_below(random, 2);
    registers->blink = generate_below(random, 2);
    registers->cursor_height = 1 + generate_below(random, 8);
    registers->auto_mode = generate_below(random, 3);
    registers->pending = generate_below(random, 3);
    registers->newest = registers->pending > 0 ? generate_below(random, 256) : 0;
    registers->older = registers->pending > 1 ? generate_below(random, 256) : 0;
    registers->latch = generate_below(random, 256);
    registers->error = generate_below(random, 2);
    registers->phase = generate_below(random, 2);
}

/* Is the address in the graphic area, the text area or the glyphs? */
static int inside_areas(unsigned long address)
{
    if (address < lent.graphic_length) return 1;
    if (address >= lent.text_home && address < lent.text_home + lent.text_length) return 1;
    return address >= 0xFC00;
}

/* The halves of dual panels that show a cursor. */
static void count_cursor(const struct second_registers *registers)
{
    unsigned row;
    if (!lent.panel.dual || !registers->cursor) return;
    for (row = 0; row < 8 * lent.panel.lines; row++) {
        int covered = second_cursor_covers(&lent.panel, registers, row, registers->cursor_x);
        if (covered) seen.cursor_rows[row < 4 * lent.panel.lines ? 0 : 1]++;
    }
}

static void rehearse_run(struct generate_random *random, unsigned long long seed,
                         const unsigned char *stream, unsigned long pairs)
{
    struct second_registers registers, others;
    struct second_run_reply run, other;
    unsigned long address;
    unsigned normal;
    draw_registers(random, &registers);
    others = registers;
    fill(random, memory, sizeof memory);
    memcpy(before, memory, sizeof memory);
    memcpy(stopping, memory, sizeof memory);
    run = second_run(&lent.panel, &registers, memory, sizeof memory, lent.rom, SECOND_ROM_LENGTH,
                     stream, 2 * pairs, ULONG_MAX, NULL, 0, NULL, 0);
    expect(&holds.run, run.number == 0 && run.place == 0 && run.taken == pairs && run.answers == 0 && run.skipped == 0,
           seed, "the stream is not accepted whole");
    other = second_run_stopping(&lent.panel, &others, stopping, sizeof stopping, lent.rom, SECOND_ROM_LENGTH,
                                stream, 2 * pairs, ULONG_MAX, NULL, 0);
    expect(&holds.either_run, other.number == 0 && other.taken == pairs
                              && memcmp(&registers, &others, sizeof others) == 0
                              && memcmp(memory, stopping, sizeof memory) == 0, seed,
           "the stopping run ends elsewhere");

    for (normal = 0; normal < 2; normal++) {
        struct second_picture_reply reply = draw(normal);
        expect(&holds.picture_replies, reply.number == 0 && reply.place == 0, seed, "a right screen is not drawn");
        registers.phase = normal ? SECOND_PHASE_NORMAL : SECOND_PHASE_OFF;
        second_frame(&lent.panel, &registers, memory, sizeof memory, lent.rom, SECOND_ROM_LENGTH,
                     lent.machine_frame, lent.frame_length);
        expect(&holds.frames, memcmp(lent.frame, lent.machine_frame, lent.frame_length) == 0, seed,
               "the machine shows another frame than the picture");
        expect(&holds.planes, memcmp(lent.graphic, memory, lent.graphic_length) == 0
                              && memcmp(lent.text, memory + lent.text_home, lent.text_length) == 0
                              && memcmp(lent.glyphs, memory + 0xFC00, SECOND_GLYPHS_LENGTH) == 0, seed,
               "an area holds other bytes than its plane");
        if (normal && memcmp(lent.frame, last_frame, lent.frame_length) != 0) seen.phases_differ++;
        memcpy(last_frame, lent.frame, lent.frame_length);
    }
    count_cursor(&registers);
    for (address = 0; address < SECOND_MEMORY_LENGTH; address++) {
        if (inside_areas(address)) continue;
        expect(&holds.outside, memory[address] == before[address], seed, "a byte outside the areas is changed");
    }
}

/* The asking stream from a random state, with the controller's own answers beside it: it passes, and the plain one not. */
static void rehearse_asking(struct generate_random *random, unsigned long long seed,
                            const unsigned char *stream, unsigned long pairs)
{
    unsigned char *room = lend(4 * pairs), *answers = lend(pairs);
    struct second_write_reply reply = second_write_asking(&lent.panel, lent.book, lent.book_length, lent.screen, room, 4 * pairs);
    struct second_registers registers, start;
    struct second_run_reply run;
    struct second_check_reply check;
    unsigned long i;
    int same = reply.number == 0 && reply.pairs == 2 * pairs;
    for (i = 0; i < pairs; i++) {
        if (room[4 * i] != SECOND_STATUS_READ || room[4 * i + 1] != 0 || memcmp(room + 4 * i + 2, stream + 2 * i, 2) != 0) same = 0;
    }
    expect(&holds.asking, same, seed, "the asking stream is not the plain one with status reads");
    draw_registers(random, &start);
    registers = start;
    memcpy(stopping, before, sizeof before);
    run = second_run(&lent.panel, &registers, stopping, sizeof stopping, lent.rom, SECOND_ROM_LENGTH,
                     room, 4 * pairs, ULONG_MAX, answers, pairs, NULL, 0);
    expect(&holds.passes, run.number == 0 && run.answers == pairs && memcmp(memory, stopping, sizeof memory) == 0, seed,
           "the asking stream leaves other memory");
    memcpy(stopping, before, sizeof before);
    check = second_check_log(&lent.panel, &start, stopping, sizeof stopping, lent.rom, SECOND_ROM_LENGTH,
                             room, 4 * pairs, answers, pairs);
    expect(&holds.passes, check.number == 0 && !check.unasked_named && !check.differing_named
                          && memcmp(memory, stopping, sizeof memory) == 0, seed, "the asking stream does not pass");
    check = second_check_log(&lent.panel, &start, stopping, sizeof stopping, lent.rom, SECOND_ROM_LENGTH,
                             stream, 2 * pairs, answers, 0);
    expect(&holds.passes, check.number == 0 && check.unasked_named && check.unasked == 0 && !check.differing_named, seed,
           "the plain stream passes");
    free(room);
    free(answers);
}

/* Counts a body's operations and turns their order round. */
static void turn_round(unsigned long begin, unsigned long end)
{
    static const unsigned char fixed[7] = {0, 4, 6, 5, 10, 5, 2};
    unsigned char *turned = lend(end - begin);
    unsigned long at = begin, left = end - begin;
    while (at < end) {
        unsigned code = lent.book[at];
        unsigned length = fixed[code] + (code == 1 ? lent.book[at + 3] : 0U);
        seen.operations[code]++;
        left -= length;
        memcpy(turned + left, lent.book + at, length);
        at += length;
    }
    memcpy(lent.book + begin, turned, end - begin);
    free(turned);
}

static void rehearse_right(struct generate_random *random, unsigned long long seed,
                           const struct generate_book_reply *made)
{
    unsigned long pairs = made->pairs, length = made->end - made->begin;
    unsigned long tail = generate_below(random, 4);
    unsigned char *scarce = lend(2 * pairs - 1);
    unsigned char *room = lend(2 * pairs + tail);
    struct second_write_reply reply = write_into(scarce, 2 * pairs - 1);
    expect(&holds.writer_replies, reply.number == 12 && reply.place == pairs && reply.pairs == 0, seed,
           "a room one byte short is not refused by 12");
    expect(&holds.nothing_changed, untouched(scarce, 2 * pairs - 1), seed, "12 changes the room");
    reply = write_into(room, 2 * pairs + tail);
    expect(&holds.writer_replies, reply.number == 0 && reply.place == 0 && reply.pairs == pairs, seed,
           "a right screen is not written, or with other pairs");
    expect(&holds.room, untouched(room + 2 * pairs, tail), seed, "the room's rest is changed");
    rehearse_run(random, seed, room, pairs);
    if (seed % 3 == 0) rehearse_asking(random, seed, room, pairs);

    turn_round(made->begin, made->end);
    draw(1);
    if (memcmp(lent.frame, last_frame, lent.frame_length) != 0) seen.order_shows++;
    seen.widths[lent.panel.width]++;
    if (lent.panel.columns == 80 && lent.panel.lines == 16 && !lent.panel.dual) seen.large++;
    if (lent.panel.columns == 80 && lent.panel.lines == 32) seen.dual_large++;
    if (lent.panel.dual) seen.dual++;
    if (length == 0) seen.empty++;
    if (lent.book_length == GENERATE_BOOK_LIMIT) seen.limit++;
    if (made->screens == 64) seen.many_screens++;
    if (lent.book[0] == 0) seen.form_two++;
    if (lent.screen >= made->screens) seen.high_identity++;
    if (2 * pairs > GENERATE_LOG_LIMIT) seen.large_streams++;
    free(scarce);
    free(room);
}

static void rehearse_damaged(unsigned long long seed, unsigned number, unsigned long place)
{
    static unsigned char room[65536];
    struct second_write_reply written;
    struct second_picture_reply drawn;
    unsigned normal;
    memset(room, UNTOUCHED, sizeof room);
    written = write_into(room, sizeof room);
    expect(&holds.writer_replies, written.number == number && written.place == place && written.pairs == 0, seed,
           "the writer's number and place are not those of the damage");
    written = write_into(NULL, 0);
    expect(&holds.writer_replies, written.number == number && written.place == place, seed,
           "without room the number is another one");
    for (normal = 0; normal < 2; normal++) {
        drawn = draw(normal);
        expect(&holds.picture_replies, drawn.number == number && drawn.place == place, seed,
               "the picture's number and place are not those of the damage");
    }
    expect(&holds.nothing_changed, untouched(room, sizeof room) && untouched(lent.graphic, lent.graphic_length)
                                   && untouched(lent.text, lent.text_length)
                                   && untouched(lent.glyphs, SECOND_GLYPHS_LENGTH)
                                   && untouched(lent.frame, lent.frame_length), seed,
           "a refusal changes lent bytes");
    if (number == 9 && place == 0) seen.place_0++;
    if (number == 9 && place > 1) seen.later_entry++;
    if (lent.book_length > GENERATE_BOOK_LIMIT) seen.too_long++;
}

static void rehearse(unsigned long long seed, unsigned dual, unsigned form)
{
    struct generate_book_reply made, repeated;
    struct generate_random random;
    made = generate_book_for(seed, dual, form, input);
    repeated = generate_book_for(seed, dual, form, again);
    seen.books++;
    expect(&holds.repeats, repeated.length == made.length && memcmp(input, again, made.length) == 0, seed,
           "other bytes the second time");
    if (made.length < GENERATE_BOOK_HEAD) {
        seen.short_inputs++;
        memset(input + made.length, 0, GENERATE_BOOK_HEAD - made.length); /* a missing byte counts as 0 */
    }
    random.word = ~seed;
    lend_all(&random, made.length, dual);
    seen.numbers[made.number]++;
    if (made.number == 0) rehearse_right(&random, seed, &made);
    else rehearse_damaged(seed, made.number, made.place);
    give_back();
}

int main(int argc, char **argv)
{
    unsigned long long seed, seeds = argc == 2 ? strtoull(argv[1], NULL, 10) : 1000;
    unsigned code, operations = 0;
    for (seed = 1; seed <= seeds; seed++) {
        rehearse(seed, 0, 1);
        rehearse(seed, 1, 1);
        if (seed % 3 == 1) rehearse(seed, 0, 2);
        if (seed % 3 == 2) rehearse(seed, 1, 2);
    }
    for (code = 1; code <= 6; code++) {
        if (seen.operations[code] > seeds) operations++;
    }

    printf("# %llu seeds, %lu books: %lu right, refused by 1 %lu, by 9 %lu, by 10 %lu, by 11 %lu\n", seeds, seen.books,
           seen.numbers[0], seen.numbers[1], seen.numbers[9], seen.numbers[10], seen.numbers[11]);
    printf("# order shows in %lu, phases differ in %lu, streams past the log limit %lu, empty bodies %lu\n",
           seen.order_shows, seen.phases_differ, seen.large_streams, seen.empty);
    property("same seed, same bytes", holds.repeats);
    property("the writer's number, place and pairs are those the book was made for", holds.writer_replies);
    property("the picture's number and place are those the book was made for", holds.picture_replies);
    property("the stream fills the room's start, the rest is unchanged", holds.room);
    property("a refusal changes no lent byte", holds.nothing_changed);
    property("from any valid state and memory the stream is accepted whole", holds.run);
    property("by either run, which end alike", holds.either_run);
    property("the machine then shows the picture, in both phases", holds.frames);
    property("the three areas hold the picture's planes", holds.planes);
    property("memory outside the three areas is unchanged", holds.outside);
    property("the asking stream is the plain one with a status read before each pair", holds.asking);
    property("it passes the check from any valid state and leaves the same memory", holds.passes);
    property("about half of the books are right",
             5 * seen.numbers[0] > 2 * seen.books && 5 * seen.numbers[0] < 3 * seen.books);
    property("refusals 1, 9, 10 and 11 occur", seen.numbers[1] > 0 && seen.numbers[9] > seeds / 10
                                               && seen.numbers[10] > seeds / 50 && seen.numbers[11] > seeds / 10);
    property("refusal 9 with place 0 and at a later entry", seen.place_0 > seeds / 50 && seen.later_entry > seeds / 50);
    property("books too long, of exactly the limit, of 64 screens; missing bytes",
             seen.too_long > 0 && seen.limit > 0 && seen.many_screens > 0 && seen.short_inputs > 0);
    property("each operation is accepted more than once a seed", operations == 6);
    property("both widths, the full panel, empty bodies",
             seen.widths[6] > seeds / 8 && seen.widths[8] > seeds / 8 && seen.large > 0 && seen.empty > seeds / 50);
    property("streams longer than the log program's limit, and mostly shorter ones",
             seen.large_streams > 0 && 2 * seen.large_streams < seen.numbers[0]);
    property("right books for dual panels, also the full one", seen.dual > seeds / 3 && seen.dual_large > 0);
    property("right books in form two, and screens in them that no number asks for",
             seen.form_two > seeds / 5 && seen.high_identity > seeds / 50);
    property("cursors in both halves", seen.cursor_rows[0] > seeds / 50 && seen.cursor_rows[1] > seeds / 50);
    property("pictures that differ between the phases", seen.phases_differ > seeds / 50);
    property("pictures that show the operations' order", seen.order_shows > seeds / 8);
    return 0;
}
