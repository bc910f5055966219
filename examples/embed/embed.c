/* Plays the script of standard input on a new store in memory, over one repository, and writes the report. */
#include "kilntaupe.h"
#include <stdio.h>
#include <stdlib.h>

#define MOST 8388608

int main(void) {
    uint8_t *script = malloc(MOST), *report = malloc(MOST);
    if (!script || !report) return 9;
    size_t length = fread(script, 1, MOST, stdin);
    struct kilntaupe_given given = {.repos = 1, .tries = 16, .cache = 64, .mob = 1048576};
    struct kilntaupe_lengths lengths;
    uint8_t status = kilntaupe_c_play(&given, script, length, report, MOST, &lengths);
    fwrite(report, 1, lengths.report < MOST ? lengths.report : MOST, stdout);
    free(script);
    free(report);
    return status;
}
