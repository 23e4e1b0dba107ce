/* status_choose on recorded pairs of messages: `status_choose KIND N FIRST SECOND = 0 ANSWER` on each line, messages in hex
 * or `-` for none. Each message stands at the end of a block of its own, and must be as it was after the call. */
#include "../include/station.h"

#include <inttypes.h>
#include <stdio.h>
#include <stdlib.h>
#include <string.h>

enum { LINE = 4096, MESSAGE = 1024 };

struct message {
    uint8_t *bytes;
    size_t length;
    uint8_t was[MESSAGE];
};

static int digit(char c)
{
    return c >= 'a' ? c - 'a' + 10 : c - '0';
}

/* The message of a word, in a block of its own length. */
static struct message message(const char *word)
{
    struct message m = {NULL, 0, {0}};
    size_t i;
    if (strcmp(word, "-") != 0)
        m.length = strlen(word) / 2;
    if (m.length > MESSAGE)
        abort();
    m.bytes = malloc(m.length ? m.length : 1);
    if (!m.bytes)
        abort();
    for (i = 0; i < m.length; i++)
        m.was[i] = (uint8_t)(digit(word[2 * i]) * 16 + digit(word[2 * i + 1]));
    memcpy(m.bytes, m.was, m.length);
    return m;
}

int main(int argc, char **argv)
{
    static char line[LINE], first[LINE], second[LINE];
    unsigned long lines = 0, differ = 0;
    int i;
    for (i = 1; i < argc; i++) {
        FILE *file = fopen(argv[i], "r");
        if (!file) {
            perror(argv[i]);
            return 2;
        }
        while (fgets(line, sizeof line, file)) {
            uint64_t kind, n, answer, said;
            struct message a, b;
            if (sscanf(line, "status_choose %" SCNu64 " %" SCNu64 " %s %s = 0 %" SCNu64, &kind, &n, first, second, &answer) != 5) {
                fprintf(stderr, "%s: no such line: %s", argv[i], line);
                return 2;
            }
            a = message(first), b = message(second);
            said = status_choose(kind, n, a.bytes, a.length, b.bytes, b.length);
            lines++;
            if (said != answer || memcmp(a.bytes, a.was, a.length) || memcmp(b.bytes, b.was, b.length)) {
                differ++;
                printf("%" PRIu64 " and not %" PRIu64 ": %s", said, answer, line);
            }
            free(a.bytes);
            free(b.bytes);
        }
        fclose(file);
    }
    printf("%lu pairs of reports, %lu differ\n", lines, differ);
    return lines == 0 || differ != 0;
}
