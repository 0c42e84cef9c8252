/* Judges the unit in a file by both passes and prints document 01's line, "number letter place":
 *
 *     cc -I include -o judge examples/c/judge.c crates/wavgrut/out/libwavgrut.a && ./judge FILE */
#include <stdio.h>

#include "wavgrut.h"

int main(int argc, char **argv) {
    /* One byte more than the longest unit: a longer file gets the same verdict, 1 b 0, however long it is. */
    static uint8_t unit[WAVGRUT_LONGEST_UNIT + 1];
    static uint8_t area[16384];
    FILE *file = argc == 2 ? fopen(argv[1], "rb") : NULL;
    if (file == NULL) {
        fprintf(stderr, "usage: judge FILE, which can be read\n");
        return 2;
    }
    size_t unit_len = fread(unit, 1, sizeof unit, file);
    int failed = ferror(file);
    fclose(file);
    if (failed) {
        fprintf(stderr, "judge: %s cannot be read\n", argv[1]);
        return 2;
    }
    uint64_t verdict = wavgrut_both(unit, unit_len, area, sizeof area);
    printf("%u %c %u\n", wavgrut_number(verdict), wavgrut_letter(verdict), wavgrut_place(verdict));
    return 0;
}
