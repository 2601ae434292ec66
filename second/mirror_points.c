/* mirror_points: the table as a whole, and frames converted; one line per point, ok or not ok. */
#include <string.h>

#include "generate.h"
#include "mirror.h"
#include "point.h"

static unsigned char frame[20480 + 1], first[20480 + 1]; /* 8 * 32 * 80, the largest frame, and a byte */

static void table(void)
{
    unsigned i, bit, wrong = 0, twice = 0;
    for (i = 0; i < 256; i++) {
        for (bit = 0; bit < 8; bit++) {
            if (((unsigned)second_mirror[i] >> bit & 1) != (i >> (7 - bit) & 1)) wrong++;
        }
        if (second_mirror[second_mirror[i]] == i) twice++;
    }
    point("256 numbers, each its index mirrored", sizeof second_mirror == 256 && wrong == 0);
    point("mirrored twice each is itself", twice == 256);
    point("by hand", second_mirror[0x00] == 0x00 && second_mirror[0x01] == 0x80 && second_mirror[0x4C] == 0x32
          && second_mirror[0x80] == 0x01 && second_mirror[0xB3] == 0xCD && second_mirror[0xFF] == 0xFF);
}

static void lengths(void)
{
    static const struct second_panel bad[5] = {{0, 1, 8, 0}, {1, 17, 8, 0}, {1, 1, 7, 0}, {1, 3, 8, 1}, {1, 2, 8, 2}};
    const struct second_panel panel = {3, 2, 6, 0}; /* a frame of 48 */
    unsigned i;
    int holds = 1;
    memset(frame, 0x01, sizeof frame);
    memcpy(first, frame, sizeof frame);
    for (i = 0; i < 5; i++) {
        if (second_convert_frame(&bad[i], frame, 0) != 1) holds = 0;
    }
    point("1 for the panel, before 2", holds && memcmp(first, frame, sizeof frame) == 0);
    holds = 1;
    for (i = 0; i < 200; i++) {
        if (i != 48 && second_convert_frame(&panel, frame, i) != 2) holds = 0;
    }
    point("2 for every other length", holds && memcmp(first, frame, sizeof frame) == 0);
    holds = second_convert_frame(&panel, frame, 48) == 0;
    for (i = 0; i < 48; i++) {
        if (frame[i] != 0x80) holds = 0;
    }
    point("all bytes of the frame and none more", holds && frame[48] == 0x01);
}

/* Dot x of a row, from the top bit on in a frame and from the lowest bit on in XBM. */
static unsigned frame_dot(const unsigned char *row, unsigned x) { return (unsigned)row[x / 8] >> (7 - x % 8) & 1; }
static unsigned xbm_dot(const unsigned char *row, unsigned x) { return (unsigned)row[x / 8] >> x % 8 & 1; }

static void frames(void)
{
    struct generate_random random = {1};
    unsigned turn, wrong = 0, spare = 0, back = 0;
    for (turn = 0; turn < 200; turn++) {
        struct second_panel panel;
        unsigned long i, length, row_length;
        unsigned row, x;
        panel.dual = turn % 2;
        panel.columns = 1 + generate_below(&random, 80);
        panel.lines = panel.dual ? 2 + 2 * generate_below(&random, 16) : 1 + generate_below(&random, 16);
        panel.width = turn / 2 % 2 ? 6 : 8;
        length = second_frame_length(&panel);
        row_length = second_row_length(&panel);
        for (i = 0; i < length; i++) first[i] = frame[i] = (unsigned char)generate_below(&random, 256);
        second_convert_frame(&panel, frame, length);
        for (row = 0; row < 8 * panel.lines; row++) {
            for (x = 0; x < 8 * row_length; x++) {
                int differs = frame_dot(first + row * row_length, x) != xbm_dot(frame + row * row_length, x);
                if (differs && x < panel.columns * panel.width) wrong++;
                else if (differs) spare++;
            }
        }
        second_convert_frame(&panel, frame, length);
        if (memcmp(frame, first, length) != 0) back++;
    }
    point("every dot is where XBM has it", wrong == 0);
    point("spare bits come along", spare == 0);
    point("converted twice it is the frame again", back == 0);
}

int main(void)
{
    table();
    lengths();
    frames();
    return 0;
}
