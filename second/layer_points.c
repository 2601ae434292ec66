/* layer_points: text dots, graphic dots and what comes of them; one line per point, ok or not ok. */
#include <limits.h>
#include <string.h>

#include "generate.h"
#include "point.h"
#include "second.h"

static unsigned char memory[SECOND_MEMORY_LENGTH], before[SECOND_MEMORY_LENGTH];
static unsigned char rom[SECOND_ROM_LENGTH];
static struct second_panel panel = {2, 1, 8, 0};
static struct second_registers registers;

static struct second_layers_reply show(unsigned row, unsigned column)
{
    return second_show_layers(&panel, &registers, memory, sizeof memory, rom, sizeof rom, row, column);
}

static int gives(unsigned row, unsigned column, unsigned text, unsigned graphic, unsigned displayed)
{
    struct second_layers_reply reply = show(row, column);
    return reply.number == 0 && reply.layers.text == text && reply.layers.graphic == graphic
           && reply.layers.displayed == displayed;
}

/* Row 1 of column 1: text code 4CH, so glyph row 4DH, and graphic byte F0H; the attribute stands at 2001H. */
static void start(void)
{
    unsigned code, v;
    for (code = 0; code < 128; code++) {
        for (v = 0; v < 8; v++) rom[8 * code + v] = (unsigned char)(code + v);
    }
    memset(memory, 0, sizeof memory);
    memory[0x1001] = 0x4C;
    memory[0x2003] = 0xF0;
    memory[0x2001] = 0x05;
    second_reset(&registers);
    registers.text_home = 0x1000;
    registers.graphic_home = 0x2000;
    registers.graphic_area = 2;
    registers.text = registers.graphic = 1;
}

static void by_hand(void)
{
    start();
    point("OR of both", gives(1, 1, 0x4D, 0xF0, 0xFD));
    registers.combination = SECOND_EXOR;
    point("EXOR of both", gives(1, 1, 0x4D, 0xF0, 0xBD));
    registers.combination = SECOND_AND;
    point("AND of both", gives(1, 1, 0x4D, 0xF0, 0x40));
    registers.text = 0;
    point("AND, graphic only", gives(1, 1, 0x00, 0xF0, 0xF0));
    registers.text = 1;
    registers.graphic = 0;
    point("AND, text only", gives(1, 1, 0x4D, 0x00, 0x4D));
    registers.text = 0;
    point("AND, neither", gives(1, 1, 0x00, 0x00, 0x00));
    panel.width = 6;
    registers.text = registers.graphic = 1;
    registers.combination = SECOND_OR;
    point("w 6: only the low six bits of each", gives(1, 1, 0x0D, 0x30, 0x3D));
    registers.combination = SECOND_ATTRIBUTE;
    point("w 6: text reversed, graphic 0", gives(1, 1, 0x32, 0x00, 0x32));
    panel.width = 8;
    point("attribute 5: text after attribute, graphic 0", gives(1, 1, 0xB2, 0x00, 0xB2));
    registers.graphic = 0;
    point("attribute mode, text only: plain", gives(1, 1, 0x4D, 0x00, 0x4D));
    registers.text = 0;
    registers.graphic = 1;
    point("attribute mode, graphic only: all 0", gives(1, 1, 0x00, 0x00, 0x00));
    registers.text = 1;
    memory[0x2001] = 0x0D;
    registers.phase = SECOND_PHASE_OFF;
    point("attribute 13 in phase off: all 0", gives(1, 1, 0x00, 0x00, 0x00));
    registers.combination = SECOND_OR;
    registers.cursor = 1;
    registers.cursor_height = 8;
    registers.cursor_x = 1;
    point("the cursor is in none of the three", gives(1, 1, 0x4D, 0xF0, 0xFD));
}

static void refusals(void)
{
    const struct second_panel bad = {0, 1, 8, 0};
    struct second_registers invalid;
    struct second_layers_reply reply;
    unsigned i;
    int holds = 1;
    start();
    memcpy(before, memory, sizeof memory);
    invalid = registers;
    invalid.cursor_height = 9;
    reply = second_show_layers(&bad, &registers, memory, 0, rom, 0, 1, 1);
    holds = reply.number == 1 && reply.layers.text == 0 && reply.layers.graphic == 0 && reply.layers.displayed == 0;
    reply = second_show_layers(&panel, &invalid, memory, 0, rom, 0, 1, 1);
    point("1 for panel or state, before 2", holds && reply.number == 1);
    for (i = 0; i < 2; i++) {
        reply = second_show_layers(&panel, &registers, memory, sizeof memory - 1 + 2 * i, rom, sizeof rom, 1, 1);
        if (reply.number != 2 || reply.layers.displayed != 0) holds = 0;
        reply = second_show_layers(&panel, &registers, memory, sizeof memory, rom, sizeof rom - 1 + 2 * i, 1, 1);
        if (reply.number != 2 || reply.layers.displayed != 0) holds = 0;
    }
    point("2 for memory and ROM", holds);
    memset(memory, 0xFF, sizeof memory);
    holds = gives(8, 0, 0, 0, 0) && gives(0, 2, 0, 0, 0) && gives(UINT_MAX, 0, 0, 0, 0) && gives(0, UINT_MAX, 0, 0, 0);
    point("outside the panel all are 0", holds);
    memcpy(memory, before, sizeof memory);
}

/* Document 01's words dot by dot, one bit at a time; bit w - 1 is the leftmost. */

static unsigned byte_at(unsigned long address)
{
    return memory[address % 65536];
}

static unsigned text_bit(unsigned row, unsigned column, unsigned bit)
{
    unsigned line = row / 8, attribute, code, set;
    if (!registers.text) return 0;
    code = byte_at(registers.text_home + (unsigned long)line * registers.text_area + column);
    if (!registers.external && code < 0x80) set = rom[8 * code + row % 8];
    else set = byte_at(2048UL * registers.offset + 8 * code + row % 8);
    set = (set >> bit) & 1;
    if (registers.combination != SECOND_ATTRIBUTE || !registers.graphic) return set;
    attribute = byte_at(registers.graphic_home + (unsigned long)line * registers.graphic_area + column) % 16;
    if (attribute > 7 && registers.phase == SECOND_PHASE_OFF) return 0;
    if (attribute == 3 || attribute == 11) return 0;
    if (attribute == 5 || attribute == 13) return 1 - set;
    return set;
}

static unsigned graphic_bit(unsigned row, unsigned column, unsigned bit)
{
    if (!registers.graphic || registers.combination == SECOND_ATTRIBUTE) return 0;
    return (byte_at(registers.graphic_home + (unsigned long)row * registers.graphic_area + column) >> bit) & 1;
}

static unsigned displayed_bit(unsigned text, unsigned graphic)
{
    if (registers.combination == SECOND_OR) return text + graphic > 0;
    if (registers.combination == SECOND_EXOR) return text + graphic == 1;
    if (registers.combination == SECOND_AND && registers.text && registers.graphic) return text + graphic == 2;
    return text + graphic > 0; /* the one that is on, or the text alone */
}

static int agree(unsigned row, unsigned column)
{
    unsigned text = 0, graphic = 0, displayed = 0, bit;
    for (bit = 0; bit < panel.width; bit++) {
        unsigned t = text_bit(row, column, bit), g = graphic_bit(row, column, bit);
        text |= t << bit;
        graphic |= g << bit;
        displayed |= displayed_bit(t, g) << bit;
    }
    return gives(row, column, text, graphic, displayed);
}

static void random_layers(void)
{
    struct generate_random random = {7};
    unsigned i, mode, wrong = 0;
    start();
    for (i = 0; i < sizeof memory; i++) memory[i] = (unsigned char)generate_below(&random, 256);
    memcpy(before, memory, sizeof memory);
    panel.columns = 80;
    panel.lines = 16;
    for (mode = 0; mode < 256 * 40; mode++) {
        registers.combination = mode % 4;
        registers.external = mode / 4 % 2;
        registers.text = mode / 8 % 2;
        registers.graphic = mode / 16 % 2;
        registers.phase = mode / 32 % 2;
        panel.width = mode / 64 % 2 ? 6 : 8;
        registers.offset = generate_below(&random, 32);
        registers.text_home = generate_below(&random, 65536);
        registers.graphic_home = generate_below(&random, 65536);
        registers.text_area = generate_below(&random, 256);
        registers.graphic_area = generate_below(&random, 256);
        for (i = 0; i < 20; i++) {
            unsigned row = generate_below(&random, 128), column = generate_below(&random, 80);
            if (!agree(row, column)) wrong++;
        }
    }
    point("all three as the paper has them, every mode, anywhere", wrong == 0);
    point("nothing is stored", memcmp(memory, before, sizeof memory) == 0);
}

int main(void)
{
    by_hand();
    refusals();
    random_layers();
    return 0;
}
