#include "moves.h"

static struct second_move_reply refused(unsigned number, unsigned long place)
{
    struct second_move_reply reply;
    reply.number = number;
    reply.place = place;
    reply.length = 0;
    return reply;
}

static void put_word(unsigned char *bytes, unsigned long place, unsigned long value)
{
    bytes[place] = (unsigned char)(value % 256);
    bytes[place + 1] = (unsigned char)(value / 256);
}

/* 0, or 9 for a book of the other form, which is looked at first, or for wrong contents. */
static unsigned open_form(const unsigned char *bytes, unsigned long length, unsigned form, struct second_book *book,
                          unsigned long *place)
{
    *place = 0;
    if (length >= 1 && (bytes[0] == 0) != (form == 2)) return 9;
    return second_book_open(bytes, length, book, place);
}

/* The length of the same bodies behind contents of that form. */
static unsigned long length_in_form(const struct second_book *book, unsigned form)
{
    return book->length - second_entry_place(book->form, book->screens) + second_entry_place(form, book->screens);
}

/* The contents in that form, identities the indices, and the bodies as they are. */
static struct second_move_reply lay_out(const struct second_book *book, unsigned form, unsigned char *output)
{
    struct second_move_reply reply;
    unsigned long from = second_entry_place(book->form, book->screens);
    unsigned long to = second_entry_place(form, book->screens);
    unsigned long index, at;
    if (form == 2) output[0] = 0;
    output[form - 1] = (unsigned char)book->screens;
    for (index = 0; index < book->screens; index++) {
        struct second_body body = second_book_body(book, index);
        unsigned long place = second_entry_place(form, index);
        if (form == 2) {
            put_word(output, place, index);
            place += 2;
        }
        put_word(output, place, body.begin - from + to);
        put_word(output, place + 2, body.end - body.begin);
    }
    for (at = from; at < book->length; at++) output[at - from + to] = book->bytes[at];
    reply.number = 0;
    reply.place = 0;
    reply.length = length_in_form(book, form);
    return reply;
}

/* Does a right body set AND? */
static int uses_and(const struct second_panel *panel, const struct second_book *book, struct second_body body)
{
    unsigned long at;
    for (at = body.begin; at < body.end; at += second_operation_length(panel, book, body, at)) {
        if (book->bytes[at] == 6 && book->bytes[at + 1] == 2) return 1;
    }
    return 0;
}

/* 0, or 11 or 19 and its place; an 11 in any screen comes first. */
static unsigned bodies_number(const struct second_panel *panel, const struct second_book *book, unsigned long *place)
{
    unsigned long index;
    for (index = 0; index < book->screens; index++) {
        struct second_body body = second_book_body(book, index);
        *place = second_first_wrong(panel, book, body);
        if (*place != body.end) return 11;
    }
    for (index = 0; index < book->screens; index++) {
        *place = index;
        if (uses_and(panel, book, second_book_body(book, index))) return 19;
    }
    return 0;
}

struct second_move_reply second_move_up(const struct second_panel *panel,
                                        const unsigned char *book, unsigned long book_length,
                                        unsigned char *output, unsigned long output_length)
{
    struct second_book one;
    unsigned long place, needed;
    unsigned number;
    if (!second_panel_valid(panel)) return refused(1, 0);
    if (open_form(book, book_length, 1, &one, &place) != 0) return refused(9, place);
    number = bodies_number(panel, &one, &place);
    if (number != 0) return refused(number, place);
    needed = length_in_form(&one, 2);
    if (needed > SECOND_BOOK_LIMIT) return refused(18, needed);
    if (needed > output_length) return refused(12, needed);
    return lay_out(&one, 2, output);
}

struct second_move_reply second_move_down(const unsigned char *book, unsigned long book_length,
                                          unsigned char *output, unsigned long output_length)
{
    struct second_book two;
    unsigned long place, needed, index;
    if (open_form(book, book_length, 2, &two, &place) != 0) return refused(9, place);
    for (index = 0; index < two.screens; index++) {
        if (second_book_identity(&two, index) != index) return refused(17, 0);
    }
    needed = length_in_form(&two, 1);
    if (needed > output_length) return refused(12, needed);
    return lay_out(&two, 1, output);
}
