/* pairs: the program write's output as text: the panel, a line for each run of equal pairs, and their number. */
#include <stdio.h>

static void print_run(int kind, int byte, unsigned long times)
{
    if (times == 1) printf("%d %02X\n", kind, byte);
    if (times > 1) printf("%d %02X x%lu\n", kind, byte, times);
}

int main(void)
{
    int columns = getchar(), lines, width, kind, byte, last_kind = 0, last_byte = 0;
    unsigned long times = 0, pairs = 0;
    if (columns == EOF) return 0; /* a refusal: nothing was written */
    lines = getchar();
    width = getchar();
    if (lines == EOF || width == EOF) return 1;
    printf("panel %02X %02X %02X\n", columns, lines, width);
    while ((kind = getchar()) != EOF) {
        byte = getchar();
        if (byte == EOF) return 1;
        if (kind != last_kind || byte != last_byte) {
            print_run(last_kind, last_byte, times);
            times = 0;
        }
        last_kind = kind;
        last_byte = byte;
        times++;
        pairs++;
    }
    print_run(last_kind, last_byte, times);
    printf("pairs %lu\n", pairs);
    return 0;
}
