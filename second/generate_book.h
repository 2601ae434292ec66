/* Seeded random books for the programs write and picture. No system headers; same seed, same bytes everywhere. */
#ifndef GENERATE_BOOK_H
#define GENERATE_BOOK_H

#define GENERATE_BOOK_HEAD 4UL
#define GENERATE_BOOK_LIMIT 32768UL
#define GENERATE_BOOK_PAST 200UL
#define GENERATE_BOOK_ROOM (GENERATE_BOOK_HEAD + GENERATE_BOOK_LIMIT + GENERATE_BOOK_PAST)

/* Number, place and pairs follow from how the book was made; nothing here checks a book. */
struct generate_book_reply {
    unsigned long length; /* bytes filled */
    unsigned number;      /* 0, 1, 9, 10 or 11 */
    unsigned long place;
    unsigned long pairs;   /* of the asked screen's stream; 0 where number is not 0 */
    unsigned long begin;   /* of the asked screen's body in the book, as it was before any damage to the contents */
    unsigned long end;     /* its end */
    unsigned long screens; /* in the book; these three are 0 where a head's byte is missing */
};

/* Fills the start of a buffer of GENERATE_BOOK_ROOM bytes with C, L, w, a screen's number and a book. */
struct generate_book_reply generate_book(unsigned long long seed, unsigned char *buffer);

/* The same for a dual panel, where L is even, 2 to 32; the marker itself stands nowhere in the buffer. And the same
   in form two, with an identity below 256 for the screen's number. */
struct generate_book_reply generate_book_for(unsigned long long seed, unsigned dual, unsigned form,
                                             unsigned char *buffer);

#endif
