/* swaps [dual]: C, L, w, a screen's key (low byte first) and a book on standard input; its refusal, then for each operation
   and the one behind it whether they may change places, on standard output. */
#include <stdio.h>
#include <string.h>

#include "order.h"
#include "screens.h"

#define HEAD 5UL

static unsigned char input[HEAD + SECOND_BOOK_LIMIT + 1];

static unsigned long word(const unsigned char *at)
{
    return at[0] + 256UL * at[1];
}

/* The entry of a right book's offset and length: by number in form one, by identity in form two. */
static const unsigned char *entry(const unsigned char *book, unsigned long key)
{
    const unsigned char *at = book + 2;
    if (book[0] != 0) return book + 1 + 4 * key;
    while (word(at) != key) at += 6;
    return at + 2;
}

static unsigned long operation_length(const unsigned char *operation)
{
    static const unsigned char fixed[7] = {0, 4, 6, 5, 10, 5, 2};
    return fixed[operation[0]] + (operation[0] == 1 ? operation[3] : 0UL);
}

static void swaps(const struct second_panel *panel, const unsigned char *body, unsigned long length)
{
    unsigned long at = 0, i = 0;
    while (at < length && at + operation_length(body + at) < length) {
        const unsigned char *next = body + at + operation_length(body + at);
        printf("%lu %lu %s\n", i, i + 1, second_may_change_places(panel, body + at, next) ? "may" : "stays");
        at += operation_length(body + at);
        i++;
    }
}

int main(int argc, char **argv)
{
    struct second_panel panel;
    struct second_write_reply reply;
    const unsigned char *book = input + HEAD;
    unsigned long length = fread(input, 1, sizeof input, stdin), key = word(input + 3);
    panel.columns = input[0];
    panel.lines = input[1];
    panel.width = input[2];
    panel.dual = argc == 2 && strcmp(argv[1], "dual") == 0;
    length = length < HEAD ? 0 : length - HEAD;
    /* With no room a right screen is refused by 12, which comes last. */
    reply = second_write(&panel, book, length, key, NULL, 0);
    if (reply.number == 12) {
        puts("refusal 0 place 0");
        swaps(&panel, book + word(entry(book, key)), word(entry(book, key) + 2));
    } else {
        printf("refusal %u place %lu\n", reply.number, reply.place);
    }
    return 0;
}
