#include "saving.h"

static struct second_save_reply empty_reply(unsigned number, unsigned long place)
{
    struct second_save_reply reply;
    unsigned long index;
    reply.number = number;
    reply.place = place;
    reply.length = 0;
    reply.screens = 0;
    for (index = 0; index < SECOND_MOST_SCREENS; index++) reply.kept[index] = reply.dropped[index] = 0;
    return reply;
}

/* What is kept and dropped of each body, and the length that makes. */
static struct second_save_reply measure(const struct second_panel *panel, const struct second_book *book)
{
    struct second_save_reply reply = empty_reply(0, 0);
    unsigned long index;
    reply.length = second_entry_place(book->form, book->screens);
    reply.screens = book->screens;
    for (index = 0; index < book->screens; index++) {
        struct second_body body = second_book_body(book, index);
        unsigned long wrong = second_first_wrong(panel, book, body);
        reply.kept[index] = wrong - body.begin;
        reply.dropped[index] = body.end - wrong;
        reply.length += reply.kept[index];
    }
    return reply;
}

static void put_word(unsigned char *bytes, unsigned long place, unsigned long value)
{
    bytes[place] = (unsigned char)(value % 256);
    bytes[place + 1] = (unsigned char)(value / 256);
}

/* The contents, then of each body what is kept. */
static void lay_out(const struct second_book *book, const struct second_save_reply *reply, unsigned char *output)
{
    unsigned long index, at, begin = second_entry_place(book->form, book->screens);
    if (book->form == 2) output[0] = 0;
    output[book->form - 1] = (unsigned char)book->screens;
    for (index = 0; index < book->screens; index++) {
        unsigned long from = second_book_body(book, index).begin;
        unsigned long entry = second_entry_place(book->form, index);
        if (book->form == 2) {
            put_word(output, entry, second_book_identity(book, index));
            entry += 2;
        }
        put_word(output, entry, begin);
        put_word(output, entry + 2, reply->kept[index]);
        for (at = 0; at < reply->kept[index]; at++) output[begin + at] = book->bytes[from + at];
        begin += reply->kept[index];
    }
}

struct second_save_reply second_save_book(const struct second_panel *panel,
                                          const unsigned char *book, unsigned long book_length,
                                          unsigned char *output, unsigned long output_length)
{
    struct second_save_reply reply;
    struct second_book torn;
    unsigned long place;
    if (!second_panel_valid(panel)) return empty_reply(1, 0);
    if (second_book_open(book, book_length, &torn, &place) != 0) return empty_reply(9, place);
    reply = measure(panel, &torn);
    if (reply.length > output_length) return empty_reply(12, reply.length);
    lay_out(&torn, &reply, output);
    return reply;
}
