/* A host, to start from: list SHEET judges a sheet file and prints its decided branches. */
#include <inttypes.h>
#include <stdio.h>
#include "pomthija.h"

static uint8_t sheet[1 << 20];
static uint8_t list[POMTHIJA_LIST]; /* never too short */

static uint64_t address(const uint8_t *bytes)
{
    uint64_t value = 0;
    for (int i = 7; i >= 0; i--)
        value = value << 8 | bytes[i];
    return value;
}

int main(int argc, char **argv)
{
    if (argc != 2) {
        fprintf(stderr, "usage: list SHEET\n");
        return 2;
    }
    FILE *file = fopen(argv[1], "rb");
    size_t length = file ? fread(sheet, 1, sizeof sheet, file) : 0;
    if (!file || ferror(file)) {
        perror(argv[1]);
        return 2;
    }
    if (length == sizeof sheet) {
        fprintf(stderr, "%s: 1 MiB or more\n", argv[1]);
        return 2;
    }
    uint64_t out, refusal = pomthija_listing(sheet, length, list, sizeof list, &out);
    if (refusal != POMTHIJA_OK) {
        printf("refused %" PRIu64 " at %" PRIu64 "\n", refusal, out);
        return 1;
    }
    for (const uint8_t *line = list; out > 0; out--, line += POMTHIJA_LINE)
        printf("0x%" PRIx64 " to 0x%" PRIx64 ": %s taken, reason %d\n", address(line), address(line + 8),
               line[16] == POMTHIJA_ALWAYS ? "always" : "never", line[17]);
    return 0;
}
