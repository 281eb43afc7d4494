/* Prints a file at an indent of 2, or says why it is refused: print FILE */
#include "hirvelan.h"
#include <stdio.h>
#include <stdlib.h>

int main(int count, char **words) {
    static uint8_t text[HIRVELAN_LONGEST + 1];
    uint32_t *nodes, *comments;
    uint8_t *out;
    hirvelan_answer answer;
    hirvelan_spot spot;
    FILE *file;
    size_t n, room;
    int fault;

    if (count != 2 || !(file = fopen(words[1], "rb"))) {
        fprintf(stderr, "usage: print FILE, which can be read\n");
        return 2;
    }
    n = fread(text, 1, sizeof text, file);
    if (ferror(file)) {
        fprintf(stderr, "%s can't be read\n", words[1]);
        return 2;
    }
    fclose(file);
    room = 16 * n + 64;
    nodes = malloc(HIRVELAN_NODES(n) * sizeof *nodes + 1);
    comments = malloc(HIRVELAN_COMMENTS(n) * sizeof *comments + 1);
    out = malloc(room);
    if (!nodes || !comments || !out) return 2;
    fault = hirvelan_print_safe(text, n, 2, nodes, HIRVELAN_NODES(n), comments, HIRVELAN_COMMENTS(n), out, room, &answer);
    if (fault) {
        fprintf(stderr, "not called: %d\n", fault);
        return 2;
    }
    if (answer.number) {
        if (hirvelan_place_safe(text, n, answer.place, &spot) == HIRVELAN_OK)
            fprintf(stderr, "refused %u at %u:%u\n", (unsigned)answer.number, (unsigned)spot.line, (unsigned)spot.column);
        return 1;
    }
    return fwrite(out, 1, (size_t)answer.bytes, stdout) == (size_t)answer.bytes && fflush(stdout) == 0 ? 0 : 2;
}
