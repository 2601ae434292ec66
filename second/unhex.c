/* unhex: a case on standard input, the raw bytes of its in: part on standard output. */
#include <ctype.h>
#include <stdio.h>
#include <string.h>

static int digit(int c)
{
    const char *digits = "0123456789ABCDEF";
    const char *found = c == '\0' ? NULL : strchr(digits, toupper(c));
    return found == NULL ? -1 : (int)(found - digits);
}

int main(void)
{
    char line[1024];
    int inside = 0;
    while (fgets(line, sizeof line, stdin) != NULL) {
        char *at = line;
        if (line[0] == '#') continue;
        if (!inside && strncmp(line, "program:", 8) == 0) continue;
        if (strncmp(line, "out:", 4) == 0) return inside ? 0 : 1;
        if (strncmp(line, "in:", 3) == 0) {
            inside = 1;
            at += 3;
        }
        while (*at != '\0') {
            if (isspace((unsigned char)*at)) {
                at++;
                continue;
            }
            if (!inside || digit((unsigned char)at[0]) < 0 || digit((unsigned char)at[1]) < 0) return 1;
            putchar(16 * digit((unsigned char)at[0]) + digit((unsigned char)at[1]));
            at += 2;
        }
    }
    return 1; /* no out: line */
}
