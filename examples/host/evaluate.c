/* A host, to start from: evaluate SHEET NODE [VALUE ...] runs a node of a sheet file on values of its variables. */
#include <errno.h>
#include <inttypes.h>
#include <stdio.h>
#include <stdlib.h>
#include "pomthija.h"

static uint8_t sheet[1 << 20];
static uint64_t values[POMTHIJA_MAX_VARIABLES];

/* A number from 0 to 2^64 - 1, decimal, 0x hexadecimal or 0 octal. */
static uint64_t number(const char *text)
{
    char *end;
    errno = 0;
    uint64_t value = strtoull(text, &end, 0);
    if (*text < '0' || *text > '9' || *end != 0 || errno != 0) {
        fprintf(stderr, "%s: no number from 0 to 2^64 - 1\n", text);
        exit(2);
    }
    return value;
}

int main(int argc, char **argv)
{
    if (argc < 3 || argc > 3 + POMTHIJA_MAX_VARIABLES) {
        fprintf(stderr, "usage: evaluate SHEET NODE [VALUE ...], at most %d values\n", POMTHIJA_MAX_VARIABLES);
        return 2;
    }
    FILE *file = fopen(argv[1], "rb");
    size_t length = file ? fread(sheet, 1, sizeof sheet, file) : 0;
    if (!file || ferror(file)) {
        perror(argv[1]);
        return 2;
    }
    if (length == sizeof sheet) {
        fprintf(stderr, "%s: 1 MiB or more\n", argv[1]);
        return 2;
    }
    for (int v = 0; v < argc - 3; v++)
        values[v] = number(argv[v + 3]);
    uint64_t out, refusal = pomthija_evaluation(sheet, length, number(argv[2]), values, (size_t)(argc - 3), &out);
    if (refusal == POMTHIJA_OK)
        printf("%s\n", out ? "holds" : "fails");
    else
        printf("refused %" PRIu64 " at %" PRIu64 "\n", refusal, out);
    return refusal != POMTHIJA_OK;
}
