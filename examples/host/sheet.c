/* A host, to start from: sheet makes a sheet with pomthija_sheet.h, of xor eax, eax at 0x10, je to 0x20 at 0x12 and their
 * block, and prints its decided branches; sheet FILE stores it too. */
#include <inttypes.h>
#include <stdio.h>
#include "pomthija_sheet.h"

static uint8_t bytes[256];
static uint8_t list[POMTHIJA_LIST];

static size_t make(void)
{
    struct pomthija_writer w;
    struct pomthija_instruction clear = pomthija_instruction_at(0x10, POMTHIJA_XOR);
    struct pomthija_instruction jump = pomthija_instruction_at(0x12, POMTHIJA_JE);
    clear.first = clear.second = pomthija_register_operand(pomthija_general(0, 32));
    jump.branch = 1;
    jump.target = 0x20;

    pomthija_write_start(&w, bytes, sizeof bytes);
    pomthija_write_instruction(&w, &clear);
    pomthija_write_instruction(&w, &jump);
    pomthija_write_block(&w, 0x10, 0x14);
    return pomthija_write_end(&w);
}

static int store(const char *name, size_t length)
{
    FILE *file = fopen(name, "wb");
    int whole = file && fwrite(bytes, 1, length, file) == length;
    if (!file || fclose(file) != 0 || !whole) {
        perror(name);
        return 1;
    }
    return 0;
}

int main(int argc, char **argv)
{
    uint64_t out;
    size_t length = make();
    if (length == 0) {
        fprintf(stderr, "the buffer is too short\n");
        return 1;
    }
    if (argc > 1 && store(argv[1], length) != 0)
        return 1;
    uint64_t refusal = pomthija_listing(bytes, length, list, sizeof list, &out);
    if (refusal != POMTHIJA_OK) {
        printf("refused %" PRIu64 " at %" PRIu64 "\n", refusal, out);
        return 1;
    }
    for (uint64_t k = 0; k < out; k++)
        printf("0x%x: %s taken\n", list[k * POMTHIJA_LINE],
               list[k * POMTHIJA_LINE + 16] == POMTHIJA_ALWAYS ? "always" : "never");
    return 0;
}
