/* A host, to start from: sentences SHEET says for each block of a sheet file why its branch is decided. */
#include <inttypes.h>
#include <stdio.h>
#include "pomthija.h"

static uint8_t sheet[1 << 20];
static uint8_t text[POMTHIJA_SENTENCE]; /* never too short */

int main(int argc, char **argv)
{
    if (argc != 2) {
        fprintf(stderr, "usage: sentences SHEET\n");
        return 2;
    }
    FILE *file = fopen(argv[1], "rb");
    size_t length = file ? fread(sheet, 1, sizeof sheet, file) : 0;
    if (!file || ferror(file)) {
        perror(argv[1]);
        return 2;
    }
    if (length == sizeof sheet) {
        fprintf(stderr, "%s: 1 MiB or more\n", argv[1]);
        return 2;
    }
    uint64_t out, refusal, block = 0;
    while ((refusal = pomthija_sentence(sheet, length, block, text, sizeof text, &out)) == POMTHIJA_OK) {
        printf("block %" PRIu64 ": ", block++);
        if (out > 0)
            printf("%.*s\n", (int)out, (const char *)text);
        else
            printf("no verdict\n");
    }
    if (refusal == POMTHIJA_NUMBER) /* it was the last */
        return 0;
    printf("refused %" PRIu64 " at %" PRIu64 "\n", refusal, out);
    return 1;
}
