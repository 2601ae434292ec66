/* recorded [dual] SEED: a random input of the inspect program: a generated log with status reads put in, the second controller's own
   answers beside it, and by the seed some of them damaged, one too few or one too many. */
#include <stdio.h>
#include <stdlib.h>
#include <string.h>

#include "generate.h"
#include "second.h"

#define PAIRS 16000UL

static unsigned char input[GENERATE_ROOM], log_bytes[2 * PAIRS + 8], answers[PAIRS + 8];
static unsigned char memory[SECOND_MEMORY_LENGTH], rom[SECOND_ROM_LENGTH];

/* A status read before the pairs of kinds 0 to 2, but one in so many. */
static unsigned long put_in(struct generate_random *random, unsigned long pairs, unsigned forget)
{
    unsigned long i, put = 0;
    for (i = 0; i < pairs && put + 2 < PAIRS; i++) {
        if (input[3 + 2 * i] <= 2 && generate_below(random, forget) != 0) {
            log_bytes[2 * put] = 3;
            log_bytes[2 * put + 1] = (unsigned char)generate_below(random, 256);
            put++;
        }
        memcpy(log_bytes + 2 * put, input + 3 + 2 * i, 2);
        put++;
    }
    return put;
}

int main(int argc, char **argv)
{
    const int dual = argc == 3;
    const unsigned long long seed = strtoull(argv[argc - 1], NULL, 10);
    struct generate_random random;
    struct second_panel panel;
    struct second_registers registers;
    unsigned long length = dual ? generate_dual_input(seed, input) : generate_input(seed, input), pairs, count = 0, bytes, i;
    unsigned code, v;
    random.word = ~seed;
    while (length < 3) input[length++] = 0;
    pairs = (length - 3) / 2;
    if (pairs > 7000) pairs = 7000;
    pairs = put_in(&random, pairs, generate_below(&random, 2) ? 40 : 1000000);
    panel.columns = input[0], panel.lines = input[1], panel.width = input[2], panel.dual = (unsigned)dual;
    for (code = 0; code < 128; code++) {
        for (v = 0; v < 8; v++) rom[8 * code + v] = (unsigned char)((code + v) % 256);
    }
    second_reset(&registers);
    for (i = 0; i < pairs; i++) {
        struct second_reply reply = second_access(&panel, &registers, memory, SECOND_MEMORY_LENGTH, rom, SECOND_ROM_LENGTH,
                                                  log_bytes[2 * i], log_bytes[2 * i + 1]);
        if (reply.number != 0) {
            /* most of them end before the refused pair */
            if (generate_below(&random, 4) != 0) pairs = i;
            break;
        }
        if (log_bytes[2 * i] == 2 || log_bytes[2 * i] == 3) answers[count++] = reply.read;
    }
    for (i = generate_below(&random, 4); i < 2 && count > 0; i++) {
        unsigned char *spoilt = answers + generate_below(&random, (unsigned)count);
        *spoilt = (unsigned char)(*spoilt ^ (1U << generate_below(&random, 8)));
    }
    if (generate_below(&random, 10) == 0) answers[count++] = 0xA3;
    else if (generate_below(&random, 10) == 0 && count > 0) count--;
    bytes = 2 * pairs - (pairs > 0 && generate_below(&random, 20) == 0 ? 1 : 0);
    fwrite(input, 1, 3, stdout);
    putchar((int)(bytes % 256)), putchar((int)(bytes / 256 % 256)), putchar((int)(bytes / 65536));
    fwrite(log_bytes, 1, bytes, stdout);
    fwrite(answers, 1, count, stdout);
    return 0;
}
