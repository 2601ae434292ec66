/* The T6963C for C and C++, for x86-64: link libboundary.a, which `rt lib` in crates/boundary proves and writes. Calls that
   follow rows are in libfollowing.a, by `rt lib` in crates/following, the one that asks who wrote in libwriting.a, in crates/writing.
   docs/C.md has the steps and an example, docs/RULES.md the controller's rules, docs/NUMBERS.md what to do about a number.

   Every call answers every input, and keeps nothing between calls: all state is in the buffers lent. A buffer is a pointer, not null, and
   the number of its elements; no two buffers of a call may overlap. */
#ifndef BINTARUMPE_H
#define BINTARUMPE_H

/* The panel: columns (C), lines of text (L), cell width (w) and a marker; it shows 8 * lines rows of columns * width dots. A dual panel is
   scanned in two halves, of lines / 2 lines each: line l of the lower one has cursor Y 16 + l - lines / 2, and copy is invalid there, so
   that it only sets error. Memory goes on line by line through both halves. */
#define T6963C_COLUMNS_MAX 80    /* 1 to 80 */
#define T6963C_LINES_MAX 16      /* of a single panel, 1 to 16 */
#define T6963C_DUAL_LINES_MAX 32 /* of a dual one, 2 to 32, even */
#define T6963C_WIDTH_6 6         /* a width is 6 or 8 */
#define T6963C_WIDTH_8 8
#define T6963C_SINGLE 0          /* a marker is 0 or 1 */
#define T6963C_DUAL 1

/* The buffers' sizes, in elements. */
#define T6963C_MEMORY_SIZE 65536    /* display memory, exactly */
#define T6963C_ROM_SIZE 1024        /* character ROM, exactly: row v (0 the top one) of code k (0 to 127) is byte 8 * k + v, and of it the
                                       low `width` bits show, the highest of them leftmost */
#define T6963C_REGISTERS_SIZE 25    /* registers, exactly */
#define T6963C_COUNTS_SIZE 4        /* an ordinary run's counts, exactly */
#define T6963C_STOPPING_COUNTS_SIZE 3 /* those of a run that stops */
#define T6963C_WRITERS_COUNTS_SIZE 2 /* those of a list of stores */
#define T6963C_FRAME_SIZE_MAX 20480 /* the largest frame, a dual panel's */
/* A row of the frame, and the frame, in bytes: the leftmost dot is in the top bit, spare bits at a row's end are 0. */
#define T6963C_ROW_SIZE(columns, width) (((columns) * (width) + 7) / 8)
#define T6963C_FRAME_SIZE(columns, lines, width) (8 * (lines) * T6963C_ROW_SIZE(columns, width))

/* The kinds of a pair. The byte counts in the first two. */
#define T6963C_DATA_WRITE 0
#define T6963C_COMMAND 1
#define T6963C_DATA_READ 2
#define T6963C_STATUS_READ 3
#define T6963C_TICK 4 /* flips the blink phase */

/* The numbers returned. 1 comes before 2, but for registers that are not 25 bytes: where the panel is valid they give 2. On 1 and 2 no
   buffer is written. */
#define T6963C_DONE 0
#define T6963C_NOT_VALID 1       /* panel (a marker above 1 too) or registers, or a byte of the registers that stands for nothing */
#define T6963C_LENGTH 2          /* a buffer of another length than it must have */
#define T6963C_KIND 3            /* of a pair: a kind above 4 */
#define T6963C_CODE 4            /* an undefined command code */
#define T6963C_IN_AUTO 5         /* in auto mode, a command other than B2H */
#define T6963C_FEW_DATA 6        /* too few data pending */
#define T6963C_AGAINST_AUTO 7    /* data written in auto read, or read in auto write */
#define T6963C_ODD_LOG 8         /* of a log: an odd number of bytes */
#define T6963C_NO_ANSWER_ROOM 13 /* a read whose answer has no room */
#define T6963C_NO_ENTRY_ROOM 15 /* stores that the list has no room for */
#define T6963C_NO_LIST_ROOM 16 /* a refused pair that the list has no room for */

/* Where the registers stand among their 25 bytes, and their ranges. Words have their low byte first. */
#define T6963C_CURSOR_X 0        /* 0 to 127 */
#define T6963C_CURSOR_Y 1        /* 0 to 31 */
#define T6963C_OFFSET 2          /* 0 to 31 */
#define T6963C_POINTER 3         /* 2 bytes */
#define T6963C_TEXT_HOME 5       /* 2 bytes */
#define T6963C_GRAPHIC_HOME 7    /* 2 bytes */
#define T6963C_TEXT_AREA 9       /* 0 to 255 */
#define T6963C_GRAPHIC_AREA 10   /* 0 to 255 */
#define T6963C_COMBINATION 11    /* 0 OR, 1 EXOR, 2 AND, 3 attribute */
#define T6963C_EXTERNAL 12       /* 0 or 1 */
#define T6963C_GRAPHIC_ON 13     /* 0 or 1, as the next three */
#define T6963C_TEXT_ON 14
#define T6963C_CURSOR_ON 15
#define T6963C_BLINK_ON 16
#define T6963C_CURSOR_HEIGHT 17  /* 1 to 8 */
#define T6963C_AUTO 18           /* 0 off, 1 write, 2 read */
#define T6963C_PENDING 19        /* how many data are pending, 0 to 2 */
#define T6963C_OLDER 20          /* the older of two, else 0 */
#define T6963C_NEWEST 21         /* the newest, or 0 */
#define T6963C_LATCH 22          /* 0 to 255 */
#define T6963C_ERROR 23          /* 0 or 1 */
#define T6963C_PHASE 24          /* 1 normal, 0 off */

/* Where a run's counts stand. */
#define T6963C_PLACE 0   /* the pair refused, the first being 0; on 8 the whole pairs; else 0 */
#define T6963C_TAKEN 1   /* pairs taken */
#define T6963C_ANSWERS 2 /* answers written */
#define T6963C_SKIPPED 3 /* pairs skipped and listed, by an ordinary run */
#define T6963C_ENTRIES 1 /* in place of the pairs taken, of a list of stores: the entries listed */

#ifdef __cplusplus
extern "C" {
#endif

/* The reset state into the registers: 0, or 2 where they are not 25 bytes. Memory has none of it: a reset leaves it as it was. */
unsigned char t6963c_reset(unsigned char *registers, unsigned long registers_length);

/* One access: the number in the low byte, the byte read (or 0) in the high one. A refused access changes nothing. */
unsigned short t6963c_access(unsigned long columns, unsigned long lines, unsigned long width, unsigned char dual,
                             unsigned char *registers, unsigned long registers_length,
                             unsigned char *memory, unsigned long memory_length,
                             const unsigned char *rom, unsigned long rom_length,
                             unsigned char kind, unsigned char byte);

/* The ordinary run: at most `limit` pairs (kind, byte) of a log, whose length is in bytes: the number. The counts are then filled in. A
   refused pair changes nothing; its number, 3 to 7, and its place, the pairs before it, go into `skips`, two elements a pair, and the run
   goes on behind it. It stops before a pair whose answer or whose entry has no room. Every answer takes one byte of `answers` and every
   entry two elements of `skips`, so half the log's length is always enough for the one, and its length for the other. A long log may be
   run in parts: go on with the rest of it, of the answers and of the list, with the same registers and memory; places are then counted
   from the part's start. */
unsigned char t6963c_run(unsigned long columns, unsigned long lines, unsigned long width, unsigned char dual,
                         unsigned char *registers, unsigned long registers_length,
                         unsigned char *memory, unsigned long memory_length,
                         const unsigned char *rom, unsigned long rom_length,
                         const unsigned char *log, unsigned long log_length,
                         unsigned long limit,
                         unsigned char *answers, unsigned long answers_length,
                         unsigned long *skips, unsigned long skips_length,
                         unsigned long *counts, unsigned long counts_length);

/* The same, but that the first refused pair ends the run. */
unsigned char t6963c_run_stopping(unsigned long columns, unsigned long lines, unsigned long width, unsigned char dual,
                                  unsigned char *registers, unsigned long registers_length,
                                  unsigned char *memory, unsigned long memory_length,
                                  const unsigned char *rom, unsigned long rom_length,
                                  const unsigned char *log, unsigned long log_length,
                                  unsigned long limit,
                                  unsigned char *answers, unsigned long answers_length,
                                  unsigned long *counts, unsigned long counts_length);

/* The frame, row after row: the number. A refusal leaves it as it was. */
unsigned char t6963c_paint(unsigned long columns, unsigned long lines, unsigned long width, unsigned char dual,
                           const unsigned char *registers, unsigned long registers_length,
                           const unsigned char *memory, unsigned long memory_length,
                           const unsigned char *rom, unsigned long rom_length,
                           unsigned char *frame, unsigned long frame_length);

/* The layers of a cell row, without the cursor: the number in the low byte, then the low w bits of the text row after its attribute (0
   where text is off), of the graphic byte (0 where graphic is off or in attribute mode), and of what comes of them; 0 on a refusal. Any
   dot row and column may be asked for: past the panel the addresses go on. */
unsigned t6963c_layers(unsigned long columns, unsigned long lines, unsigned long width, unsigned char dual,
                       const unsigned char *registers, unsigned long registers_length,
                       const unsigned char *memory, unsigned long memory_length,
                       const unsigned char *rom, unsigned long rom_length,
                       unsigned long row, unsigned long column);

/* libfollowing.a has the next three. t6963c_access that keeps a flag for each dot row: `rows` are exactly 8 * lines bytes, 0 clear, else
   set; set them all to 1 at the start. A taken pair sets those of the rows that read a byte it stored, or of all rows where it alters what
   decides the picture. */
unsigned short t6963c_follow(unsigned long columns, unsigned long lines, unsigned long width, unsigned char dual,
                             unsigned char *registers, unsigned long registers_length,
                             unsigned char *memory, unsigned long memory_length,
                             const unsigned char *rom, unsigned long rom_length,
                             unsigned char kind, unsigned char byte,
                             unsigned char *rows, unsigned long rows_length);

/* t6963c_run that keeps the same flags, set by every pair that is not skipped. Nothing at all is touched where `rows` have another length. */
unsigned char t6963c_follow_run(unsigned long columns, unsigned long lines, unsigned long width, unsigned char dual,
                                unsigned char *registers, unsigned long registers_length,
                                unsigned char *memory, unsigned long memory_length,
                                const unsigned char *rom, unsigned long rom_length,
                                const unsigned char *log, unsigned long log_length,
                                unsigned long limit,
                                unsigned char *answers, unsigned long answers_length,
                                unsigned long *skips, unsigned long skips_length,
                                unsigned long *counts, unsigned long counts_length,
                                unsigned char *rows, unsigned long rows_length);

/* The flagged rows painted, the others' bytes left, all flags cleared: the number. If the frame was right at the last refresh it then is
   what t6963c_paint would give. A refusal leaves frame and flags as they were. */
unsigned char t6963c_refresh(unsigned long columns, unsigned long lines, unsigned long width, unsigned char dual,
                             const unsigned char *registers, unsigned long registers_length,
                             const unsigned char *memory, unsigned long memory_length,
                             const unsigned char *rom, unsigned long rom_length,
                             unsigned char *frame, unsigned long frame_length,
                             unsigned char *rows, unsigned long rows_length);

/* libwriting.a has this one. Who wrote there: all pairs of a log by the ordinary run, its answers dropped, and every byte that they store
   from address `first` to `last` (first above last: through FFFFH to 0000H), in order, four numbers each: pair, address, byte before, byte
   after. `counts` become place and entries. Where the entries don't fit: T6963C_NO_ENTRY_ROOM, the first ones listed, and the place is how
   many are needed. */
unsigned char t6963c_writers(unsigned long columns, unsigned long lines, unsigned long width, unsigned char dual,
                             unsigned char *registers, unsigned long registers_length,
                             unsigned char *memory, unsigned long memory_length,
                             const unsigned char *rom, unsigned long rom_length,
                             const unsigned char *log, unsigned long log_length,
                             unsigned short first, unsigned short last,
                             unsigned long *entries, unsigned long entries_length,
                             unsigned long *counts, unsigned long counts_length);

#ifdef __cplusplus
}
#endif

#endif
