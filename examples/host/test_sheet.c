/* The test of pomthija_sheet.h, in C and in C++: what is written against bytes worked out by hand from docs/SHEET.md, which the
 * library accepts, each error, and that nothing is written past the buffer. Says how many cases went wrong. */
#include <stdio.h>
#include "pomthija_sheet.h"

static int wrong, cases;

static void expect(int ok, const char *what)
{
    cases++;
    if (!ok) {
        wrong++;
        printf("wrong: %s\n", what);
    }
}

/* an instruction with everything that one may have; a block; a node of two variables, both statements and two addresses */
static const uint8_t full[] = {
    2, 0,                                              /* instructions */
    61, 1, 0, 0, 0, 0, 0, 0, 0, 16,                    /* all bits but that of a call; address 1; je */
    2, 0, 0, 0, 0, 0, 0, 0x80,                         /* target */
    0, 1, 3, 8, 8,                                     /* bh */
    1, 255, 255, 255, 255, 255, 255, 255, 255,         /* -1 */
    2, 0, 1, 15, 64, 0, 2, 7, 128, 1,                  /* writes r15, and a register of class 2 */
    31,                                                /* and all flags */
    6, 2, 0, 0, 0, 0, 0, 0, 0, 0,                      /* call-like, with one operand; address 2 */
    2,                                                 /* memory */
    1, 0,                                              /* blocks */
    1, 0, 0, 0, 0, 0, 0, 0, 2, 0, 0, 0, 0, 0, 0, 0,
    2, 0,                                              /* nodes */
    2, 0, 6, 9,                                        /* unsigned 32, bool */
    2, 0,                                              /* statements */
    3, 0, 3, 0, 0, 0, 1, 4, 5, 0, 0, 0, 0, 0, 0, 0, 7, 0, /* v0 = v0 + 5 */
    0,
    9, 0,                                              /* records of the condition */
    0, 1, 4, 7, 5, 6, 0, 0, 6, 8, 8, 2, 3, 8,          /* v1 ? load of an effect : pointer of v0; true; false; ternary */
    2, 0,                                              /* addresses */
    1, 0, 0, 0, 0, 0, 0, 0, 0, 0, 0, 0, 0, 0, 0, 0x80,
    0, 0, 0, 0, 1, 0, 2, 0, 0                          /* a node that is true */
};

static size_t write_full(uint8_t *buffer, size_t room, struct pomthija_writer *w)
{
    struct pomthija_instruction i = pomthija_instruction_at(1, POMTHIJA_JE);
    i.branch = 1;
    i.target = UINT64_C(0x8000000000000002);
    i.first = pomthija_register_operand(pomthija_high_byte(3));
    i.second = pomthija_immediate_operand(UINT64_MAX);
    i.written[0] = pomthija_general(15, 64);
    i.written[1].register_class = 2;
    i.written[1].index = 7;
    i.written[1].size = 128;
    i.written[1].offset = 1;
    i.written_count = 2;
    i.flags = POMTHIJA_CF + POMTHIJA_PF + POMTHIJA_ZF + POMTHIJA_SF + POMTHIJA_OF;
    struct pomthija_instruction call = pomthija_instruction_at(2, POMTHIJA_OTHER);
    call.call = 1;
    call.first = pomthija_memory_operand();
    pomthija_write_start(w, buffer, room);
    pomthija_write_instruction(w, &i);
    pomthija_write_instruction(w, &call);
    pomthija_write_block(w, 1, 2);
    pomthija_write_node(w);
    pomthija_write_variable(w, POMTHIJA_U32);
    pomthija_write_variable(w, POMTHIJA_BOOL);
    pomthija_write_assignment(w, 0);
    pomthija_write_record(w, POMTHIJA_VARIABLE, 0);
    pomthija_write_constant(w, 4, 5);
    pomthija_write_record(w, POMTHIJA_BINARY, POMTHIJA_PLUS);
    pomthija_write_other_statement(w);
    pomthija_write_condition(w);
    pomthija_write_record(w, POMTHIJA_VARIABLE, 1);
    pomthija_write_record(w, POMTHIJA_EFFECT, POMTHIJA_U64);
    pomthija_write_record(w, POMTHIJA_LOAD, POMTHIJA_U32);
    pomthija_write_record(w, POMTHIJA_VARIABLE, 0);
    pomthija_write_record(w, POMTHIJA_CAST, POMTHIJA_POINTER);
    pomthija_write_record(w, POMTHIJA_TERNARY, 0);
    pomthija_write_record(w, POMTHIJA_TRUE, 0);
    pomthija_write_record(w, POMTHIJA_FALSE, 0);
    pomthija_write_record(w, POMTHIJA_TERNARY, 0);
    pomthija_write_address(w, 1);
    pomthija_write_address(w, UINT64_C(0x8000000000000000));
    pomthija_write_node(w);
    pomthija_write_condition(w);
    pomthija_write_record(w, POMTHIJA_TRUE, 0);
    return pomthija_write_end(w);
}

/* In a buffer of every length: whole where it fits, else an error, and nothing past it. */
static void lengths(void)
{
    for (size_t room = 0; room <= sizeof full + 1; room++) {
        struct pomthija_writer w;
        uint8_t buffer[sizeof full + 2];
        memset(buffer, 0xA5, sizeof buffer);
        size_t length = write_full(buffer, room, &w);
        int fits = room >= sizeof full;
        expect(length == (fits ? sizeof full : 0), "length");
        expect(w.error == (fits ? POMTHIJA_WRITER_OK : POMTHIJA_WRITER_FULL), "error of a short buffer");
        expect(!fits || memcmp(buffer, full, sizeof full) == 0, "bytes");
        expect(buffer[room] == 0xA5, "the byte past the buffer");
    }
}

static void accepted(void)
{
    static uint8_t list[POMTHIJA_LIST];
    uint64_t out;
    expect(pomthija_listing(full, sizeof full, list, sizeof list, &out) == POMTHIJA_OK, "accepted");
}

/* How a sheet ends after these steps: i instruction, b block, n node, v variable, a assignment, o other statement,
 * c condition, r record, p address. */
static enum pomthija_writer_error after(const char *steps, int times)
{
    static uint8_t buffer[1 << 16];
    struct pomthija_writer w;
    struct pomthija_instruction i = pomthija_instruction_at(0, POMTHIJA_OTHER);
    pomthija_write_start(&w, buffer, sizeof buffer);
    for (; *steps; steps++)
        for (int k = 0; k < (steps[1] == 0 ? times : 1); k++)
            switch (*steps) {
            case 'i': pomthija_write_instruction(&w, &i); break;
            case 'b': pomthija_write_block(&w, 0, 0); break;
            case 'n': pomthija_write_node(&w); break;
            case 'v': pomthija_write_variable(&w, POMTHIJA_U8); break;
            case 'a': pomthija_write_assignment(&w, 0); break;
            case 'o': pomthija_write_other_statement(&w); break;
            case 'c': pomthija_write_condition(&w); break;
            case 'r': pomthija_write_record(&w, POMTHIJA_TRUE, 0); break;
            default: pomthija_write_address(&w, 0); break;
            }
    pomthija_write_end(&w);
    return w.error;
}

static void orders(void)
{
    static const char *const good[] = {"", "i", "b", "ib", "ncr", "incr", "ibncrncrp", "nvvarocrp", "noarocr"};
    static const char *const bad[] = {"bi",  "nb",  "n",   "nv",  "nc",  "na",   "nacr", "ncrv", "ncro",
                                      "ncrc", "nvr", "p",   "ncp", "r",   "ncrpr", "v",    "c",    "a", "ncri", "ncrb"};
    for (size_t k = 0; k < sizeof good / sizeof *good; k++)
        expect(after(good[k], 1) == POMTHIJA_WRITER_OK, good[k]);
    for (size_t k = 0; k < sizeof bad / sizeof *bad; k++)
        expect(after(bad[k], 1) == POMTHIJA_WRITER_ORDER, bad[k]);
}

static void limits(void)
{
    static const struct { const char *steps; int most; int whole; } rows[] = {
        {"i", POMTHIJA_MAX_INSTRUCTIONS, 1}, {"b", POMTHIJA_MAX_BLOCKS, 1},      {"nv", POMTHIJA_MAX_VARIABLES, 0},
        {"no", POMTHIJA_MAX_STATEMENTS, 0},  {"ncr", POMTHIJA_MAX_RECORDS, 1},   {"ncrp", POMTHIJA_MAX_ADDRESSES, 1}};
    for (size_t k = 0; k < sizeof rows / sizeof *rows; k++) {
        enum pomthija_writer_error due = rows[k].whole ? POMTHIJA_WRITER_OK : POMTHIJA_WRITER_ORDER;
        expect(after(rows[k].steps, rows[k].most) == due, rows[k].steps);
        expect(after(rows[k].steps, rows[k].most + 1) == POMTHIJA_WRITER_MANY, rows[k].steps);
    }
    struct pomthija_writer w;
    uint8_t buffer[256];
    struct pomthija_instruction i = pomthija_instruction_at(0, POMTHIJA_OTHER);
    i.written_count = 9;
    pomthija_write_start(&w, buffer, sizeof buffer);
    pomthija_write_instruction(&w, &i);
    expect(pomthija_write_end(&w) == 0 && w.error == POMTHIJA_WRITER_MANY, "nine written registers");
}

int main(void)
{
    lengths();
    accepted();
    orders();
    limits();
    printf("cases %d, wrong %d\n", cases, wrong);
    return wrong != 0;
}
