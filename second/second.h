/* The controller of document 01, written a second time. No system headers, no state of its own. */
#ifndef SECOND_H
#define SECOND_H

#define SECOND_MEMORY_LENGTH 65536UL
#define SECOND_ROM_LENGTH 1024UL

enum { SECOND_OR, SECOND_EXOR, SECOND_AND, SECOND_ATTRIBUTE };
enum { SECOND_AUTO_OFF, SECOND_AUTO_WRITE, SECOND_AUTO_READ };
enum { SECOND_PHASE_NORMAL, SECOND_PHASE_OFF };
enum { SECOND_DATA_WRITE, SECOND_COMMAND, SECOND_DATA_READ, SECOND_STATUS_READ, SECOND_TICK };

struct second_panel {
    unsigned columns; /* C, 1 to 80 */
    unsigned lines;   /* L, 1 to 16; for a dual panel 2 to 32, even */
    unsigned width;   /* w, 6 or 8 */
    unsigned dual;    /* the marker: 1 for two halves, else 0 */
};

/* Every field is wider than its range; second_state_valid tests the ranges. */
struct second_registers {
    unsigned cursor_x;      /* 0 to 127 */
    unsigned cursor_y;      /* 0 to 31 */
    unsigned offset;        /* 0 to 31 */
    unsigned pointer;       /* 16 bits */
    unsigned text_home;     /* 16 bits */
    unsigned graphic_home;  /* 16 bits */
    unsigned text_area;     /* 8 bits */
    unsigned graphic_area;  /* 8 bits */
    unsigned combination;   /* SECOND_OR to SECOND_ATTRIBUTE */
    unsigned external;      /* flag */
    unsigned graphic;       /* display bit */
    unsigned text;          /* display bit */
    unsigned cursor;        /* display bit */
    unsigned blink;         /* display bit: cursor blink */
    unsigned cursor_height; /* 1 to 8 */
    unsigned auto_mode;     /* SECOND_AUTO_OFF to SECOND_AUTO_READ */
    unsigned pending;       /* 0 to 2 */
    unsigned newest;        /* the newest datum; 0 with none pending */
    unsigned older;         /* the datum before it; 0 with fewer than two pending */
    unsigned latch;         /* 8 bits */
    unsigned error;         /* flag */
    unsigned phase;         /* SECOND_PHASE_NORMAL or SECOND_PHASE_OFF */
};

/* One dot row of one cell, 0 above the low w bits. */
struct second_layers {
    unsigned char text;      /* after the attribute; 0 where text is off */
    unsigned char graphic;   /* 0 where graphic is off or in attribute mode */
    unsigned char displayed; /* what comes of them, without the cursor */
};

struct second_layers_reply {
    unsigned number;
    struct second_layers layers; /* all 0 on refusal */
};

struct second_reply {
    unsigned number;
    unsigned long place;
    unsigned char read;
};

struct second_run_reply {
    unsigned number;
    unsigned long place;
    unsigned long taken;   /* pairs, skipped ones too */
    unsigned long answers; /* bytes written */
    unsigned long skipped; /* entries listed; 0 for a stopping run */
};

void second_reset(struct second_registers *registers);
int second_panel_valid(const struct second_panel *panel);
int second_state_valid(const struct second_registers *registers);

/* R, the bytes of one frame row; the frame's length is 8 * lines * R. The panel is valid. */
unsigned long second_row_length(const struct second_panel *panel);
unsigned long second_frame_length(const struct second_panel *panel);

/* The number for panel, state, memory and ROM: 0, 1 or 2. */
unsigned second_lent_number(const struct second_panel *panel, const struct second_registers *registers,
                            unsigned long memory_length, unsigned long rom_length);

/* The next five ask for a valid panel and state, full lengths, and a row and column inside the panel. */
struct second_layers second_displayed(const struct second_panel *panel, const struct second_registers *registers,
                                      const unsigned char *memory, const unsigned char *rom,
                                      unsigned row, unsigned column);
int second_cursor_covers(const struct second_panel *panel, const struct second_registers *registers,
                         unsigned row, unsigned column);
int second_dot(const struct second_panel *panel, const struct second_registers *registers,
               const unsigned char *memory, const unsigned char *rom, unsigned x, unsigned row);
/* The row's stretch of the frame, second_row_length bytes. */
void second_paint_row(const struct second_panel *panel, const struct second_registers *registers,
                      const unsigned char *memory, const unsigned char *rom, unsigned row, unsigned char *stretch);
/* 1 and the pointer's first position, or 0 and both places unchanged. */
int second_position(const struct second_panel *panel, const struct second_registers *registers,
                    unsigned *row, unsigned *column);

/* The number: 0, 1 or 2. Outside the panel there are no dots: all three are 0. */
struct second_layers_reply second_show_layers(const struct second_panel *panel,
                                              const struct second_registers *registers,
                                              const unsigned char *memory, unsigned long memory_length,
                                              const unsigned char *rom, unsigned long rom_length,
                                              unsigned row, unsigned column);

/* The number: 0, 1 or 2. On refusal the frame is unchanged. */
unsigned second_frame(const struct second_panel *panel, const struct second_registers *registers,
                      const unsigned char *memory, unsigned long memory_length,
                      const unsigned char *rom, unsigned long rom_length,
                      unsigned char *frame, unsigned long frame_length);

/* One access; registers and memory are those after it, or unchanged on refusal. */
struct second_reply second_access(const struct second_panel *panel, struct second_registers *registers,
                                  unsigned char *memory, unsigned long memory_length,
                                  const unsigned char *rom, unsigned long rom_length,
                                  unsigned char kind, unsigned char byte);

/* At most limit pairs of the log; registers, memory and answers are those after the pairs taken. A refused pair is
   skipped and listed: its number, then its place. list_length counts numbers; an odd last one is never used.
   The number: 0, 1, 2, 8, 13, or 16 where the list is full. */
struct second_run_reply second_run(const struct second_panel *panel, struct second_registers *registers,
                                   unsigned char *memory, unsigned long memory_length,
                                   const unsigned char *rom, unsigned long rom_length,
                                   const unsigned char *log, unsigned long log_length, unsigned long limit,
                                   unsigned char *answers, unsigned long answers_length,
                                   unsigned long *list, unsigned long list_length);

/* The same, but the first refused pair ends it. The number: 0 to 8 or 13. */
struct second_run_reply second_run_stopping(const struct second_panel *panel, struct second_registers *registers,
                                            unsigned char *memory, unsigned long memory_length,
                                            const unsigned char *rom, unsigned long rom_length,
                                            const unsigned char *log, unsigned long log_length, unsigned long limit,
                                            unsigned char *answers, unsigned long answers_length);

#endif
