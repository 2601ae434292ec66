/* The screens of document 01, written a second time. No system headers, no state of its own. */
#ifndef SCREENS_H
#define SCREENS_H

#include "second.h"

#define SECOND_BOOK_LIMIT 32768UL
#define SECOND_MOST_SCREENS 64
#define SECOND_GLYPHS_LENGTH 1024UL
#define SECOND_GRAPHIC_HOME 0x0000UL
#define SECOND_GLYPHS_START 0xFC00UL

struct second_write_reply {
    unsigned number;
    unsigned long place;
    unsigned long pairs; /* written; 0 on refusal */
};

struct second_picture_reply {
    unsigned number;
    unsigned long place;
};

/* The lengths of a picture's graphic and text planes, C * 8L and C * L. The panel is valid. */
unsigned long second_graphic_length(const struct second_panel *panel);
unsigned long second_text_length(const struct second_panel *panel);

/* A book whose contents are sound. */
struct second_book {
    const unsigned char *bytes;
    unsigned long length;
    unsigned form;         /* 1, or 2 with identities */
    unsigned long screens; /* n */
};

/* A screen's body, from begin up to but without end. */
struct second_body {
    unsigned long begin, end;
};

/* 0, or 9 and its place. The book is open only with 0. */
unsigned second_book_open(const unsigned char *bytes, unsigned long length, struct second_book *book,
                          unsigned long *place);

/* Where an entry stands; that of n is where the bodies begin. */
unsigned long second_entry_place(unsigned form, unsigned long index);

/* The next four ask for an open book, an index below n, a valid panel and a place inside the body. */
unsigned long second_book_identity(const struct second_book *book, unsigned long index); /* the index in form one */
struct second_body second_book_body(const struct second_book *book, unsigned long index);
/* The bytes of the operation at a place; 0 if it is unknown, cut or out of range, as AND is in form two. */
unsigned long second_operation_length(const struct second_panel *panel, const struct second_book *book,
                                      struct second_body body, unsigned long at);

/* A body's first operation that is unknown, cut or out of range, or the body's end. */
unsigned long second_first_wrong(const struct second_panel *panel, const struct second_book *book,
                                 struct second_body body);

/* A screen is asked for by number in a book of form one, by identity in one of form two. */

/* The index of the screen asked for in an open book; n if there is none. */
unsigned long second_find_screen(const struct second_book *book, unsigned long screen);

/* The writer's text home, and the Y it sends for a line. The panel is valid. */
unsigned long second_text_home(const struct second_panel *panel);
unsigned second_cursor_y(const struct second_panel *panel, unsigned line);

/* 0, 1, 9, 10, 11 or 12. The stream, kind and byte of each pair, fills the room's start; else the room is unchanged. */
struct second_write_reply second_write(const struct second_panel *panel,
                                       const unsigned char *book, unsigned long book_length, unsigned long screen,
                                       unsigned char *room, unsigned long room_length);

/* The same with a status read, byte 00H, before each pair; every count of pairs doubles. */
struct second_write_reply second_write_asking(const struct second_panel *panel,
                                              const unsigned char *book, unsigned long book_length,
                                              unsigned long screen,
                                              unsigned char *room, unsigned long room_length);

/* 0, 1, 2, 9, 10 or 11. Phase off if normal is 0. On refusal planes and frame are unchanged. */
struct second_picture_reply second_picture(const struct second_panel *panel,
                                           const unsigned char *book, unsigned long book_length, unsigned long screen,
                                           const unsigned char *rom, unsigned long rom_length, unsigned normal,
                                           unsigned char *graphic, unsigned long graphic_length,
                                           unsigned char *text, unsigned long text_length,
                                           unsigned char *glyphs, unsigned long glyphs_length,
                                           unsigned char *frame, unsigned long frame_length);

#endif
