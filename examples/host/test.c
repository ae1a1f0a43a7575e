/* The test of the C interface, in C and in C++: each function on good sheets, and on a sheet, a list, a text or values for each refusal.
 * What is lent to be read may only be read, and the pages on both sides of all that is lent may not be touched at all; each case is
 * tried with its last byte at the end of its page and with its first byte at the start. All calls run on a stack of POMTHIJA_STACK
 * bytes. Says how many cases went wrong. */
#include <inttypes.h>
#include <stdio.h>
#include <string.h>
#include <sys/mman.h>
#include <ucontext.h>
#include "pomthija.h"

enum { PAGE = 4096 };

/* one node: variable 0 of type 6 (unsigned 32); condition 10 / v0 == 2; no addresses */
static const uint8_t sheet[] = {
    0, 0, 0, 0, 1, 0,                                  /* no instructions, no blocks, one node */
    1, 0, 6,                                           /* one variable, unsigned 32 */
    0, 0,                                              /* no statements */
    5, 0,                                              /* five records */
    1, 4, 10, 0, 0, 0, 0, 0, 0, 0,                     /* constant 10 of width 4 */
    0, 0,                                              /* variable 0 */
    7, 3,                                              /* divided */
    1, 4, 2, 0, 0, 0, 0, 0, 0, 0,                      /* constant 2 of width 4 */
    7, 10,                                             /* equal */
    0, 0,                                              /* no addresses */
};

/* one node: variable 0 of type 0 (signed 8); condition v0 < cast to type 0 of 0 */
static const uint8_t negative[] = {0, 0, 0, 0, 1, 0, 1, 0, 0, 0, 0, 4, 0, 0, 0, 1, 1, 0, 0, 0, 0, 0, 0, 0, 0, 6, 0, 7, 12, 0, 0};

/* one node whose condition is an effect of type 6 */
static const uint8_t effect[] = {0, 0, 0, 0, 1, 0, 0, 0, 0, 0, 1, 0, 4, 6, 0, 0};

/* two instructions at address 1 */
static const uint8_t twice[] = {2, 0, 0, 1, 0, 0, 0, 0, 0, 0, 0, 0, 0, 1, 0, 0, 0, 0, 0, 0, 0, 0};

/* an instruction with a register of class 1 and index 16 */
static const uint8_t ill_formed[] = {1, 0, 4, 0, 0, 0, 0, 0, 0, 0, 0, 0, 0, 1, 16, 32, 0};

/* inc eax that declares no flags */
static const uint8_t undeclared[] = {1, 0, 4, 0, 0, 0, 0, 0, 0, 0, 0, 13, 0, 1, 0, 32, 0};

/* a condition that is the constant 256 of width 1 */
static const uint8_t wide[] = {0, 0, 0, 0, 1, 0, 0, 0, 0, 0, 1, 0, 1, 1, 0, 1, 0, 0, 0, 0, 0, 0, 0, 0};

/* an assignment of a constant of width 1 to a variable of type 6 */
static const uint8_t untyped[] = {0, 0, 0, 0, 1, 0, 1, 0, 6, 1, 0, 3, 0, 1, 0, 1, 1, 0, 0, 0, 0, 0, 0, 0, 0};

/* three pages, of which only the middle one is there */
static uint8_t *page(void)
{
    uint8_t *pages = (uint8_t *)mmap(NULL, 3 * PAGE, PROT_NONE, MAP_PRIVATE | MAP_ANONYMOUS, -1, 0);
    return pages + PAGE;
}

/* a copy of these bytes at one end of a page, which from then on may only be read */
static const void *lent(uint8_t *page, const void *bytes, size_t length, int at_end)
{
    uint8_t *copy = page + (at_end ? PAGE - length : 0);
    mprotect(page, PAGE, PROT_READ | PROT_WRITE);
    if (length > 0)
        memcpy(copy, bytes, length);
    mprotect(page, PAGE, PROT_READ);
    return copy;
}

static int wrong = 0;

static uint8_t *sheet_page, *value_page, *list_page;

static void evaluates(const char *name, const uint8_t *s, size_t length, uint64_t node, const uint64_t *values, size_t count,
                   uint64_t answer, uint64_t out)
{
    for (int at_end = 0; at_end < 2; at_end++) {
        const uint8_t *lent_sheet = s ? (const uint8_t *)lent(sheet_page, s, length, at_end) : NULL;
        const uint64_t *lent_values = values ? (const uint64_t *)lent(value_page, values, count * sizeof *values, at_end) : NULL;
        uint64_t got[3] = {55, 66, 77};
        uint64_t returned = pomthija_evaluation(lent_sheet, length, node, lent_values, count, &got[1]);
        if (returned != answer || got[1] != out || got[0] != 55 || got[2] != 77) {
            printf("%s: returned %" PRIu64 " with %" PRIu64 "\n", name, returned, got[1]);
            wrong++;
        }
    }
}

static void judges(const char *name, const uint8_t *s, size_t length, uint64_t node, uint64_t answer, uint64_t out, uint64_t reason)
{
    for (int at_end = 0; at_end < 2; at_end++) {
        const uint8_t *lent_sheet = s ? (const uint8_t *)lent(sheet_page, s, length, at_end) : NULL;
        uint64_t got[5] = {55, 66, 77, 88, 99};
        uint64_t returned = pomthija_node_verdict(lent_sheet, length, node, &got[1], &got[3]);
        if (returned != answer || got[1] != out || got[3] != reason || got[0] != 55 || got[2] != 77 || got[4] != 99) {
            printf("%s: returned %" PRIu64 " with %" PRIu64 " and %" PRIu64 "\n", name, returned, got[1], got[3]);
            wrong++;
        }
    }
}

/* A listing with room for so many bytes. These lines are due at the list's front; every other byte of its page stays. */
static void lists(const char *name, const uint8_t *s, size_t length, size_t room, uint64_t answer, uint64_t out, const uint8_t *lines,
                  size_t line_bytes)
{
    for (int at_end = 0; at_end < 2; at_end++) {
        const uint8_t *lent_sheet = s ? (const uint8_t *)lent(sheet_page, s, length, at_end) : NULL;
        size_t from = at_end ? PAGE - room : 0;
        uint8_t due[PAGE];
        memset(due, 165, PAGE);
        memcpy(list_page, due, PAGE);
        if (line_bytes > 0)
            memcpy(due + from, lines, line_bytes);
        uint64_t got[3] = {55, 66, 77};
        uint8_t *list = room > 0 || at_end ? list_page + from : NULL;
        uint64_t returned = pomthija_listing(lent_sheet, length, list, room, &got[1]);
        if (returned != answer || got[1] != out || got[0] != 55 || got[2] != 77 || memcmp(list_page, due, PAGE) != 0) {
            printf("%s: returned %" PRIu64 " with %" PRIu64 "\n", name, returned, got[1]);
            wrong++;
        }
    }
}

/* The sentence of a block, with room for so many bytes. It is due at the text's front where it is not NULL; every other byte of
 * the page stays. */
static void tells(const char *name, const uint8_t *s, size_t length, uint64_t block, size_t room, uint64_t answer, uint64_t out,
                  const char *sentence)
{
    for (int at_end = 0; at_end < 2; at_end++) {
        const uint8_t *lent_sheet = s ? (const uint8_t *)lent(sheet_page, s, length, at_end) : NULL;
        size_t from = at_end ? PAGE - room : 0;
        uint8_t due[PAGE];
        memset(due, 165, PAGE);
        memcpy(list_page, due, PAGE);
        if (sentence)
            memcpy(due + from, sentence, strlen(sentence));
        uint64_t got[3] = {55, 66, 77};
        uint8_t *text = room > 0 || at_end ? list_page + from : NULL;
        uint64_t returned = pomthija_sentence(lent_sheet, length, block, text, room, &got[1]);
        if (returned != answer || got[1] != out || got[0] != 55 || got[2] != 77 || memcmp(list_page, due, PAGE) != 0) {
            printf("%s: returned %" PRIu64 " with %" PRIu64 "\n", name, returned, got[1]);
            wrong++;
        }
    }
}

/* a sheet that is written field by field */
static uint8_t written[PAGE];
static size_t used;

static void put(uint64_t value, int bytes)
{
    for (; bytes > 0; bytes--, value >>= 8)
        written[used++] = (uint8_t)value;
}

static void clear_eax(uint64_t address)
{
    const uint8_t operands[] = {0, 1, 0, 32, 0, 0, 1, 0, 32, 0};
    put(12, 1);
    put(address, 8);
    put(11, 1); /* xor */
    for (size_t i = 0; i < sizeof operands; i++)
        put(operands[i], 1);
}

static void jump(uint64_t address, uint8_t mnemonic, uint64_t target)
{
    put(1, 1);
    put(address, 8);
    put(mnemonic, 1);
    put(target, 8);
}

/* three branches: je and jne after eax was cleared, and one whose node's condition is true */
static void write_three(void)
{
    used = 0;
    put(5, 2);
    clear_eax(0x10);
    jump(0x12, 16, 0x20);
    clear_eax(0x14);
    jump(0x16, 17, 0x30);
    jump(0x18, 16, 0x1122334455667788);
    put(2, 2);
    put(0x14, 8), put(0x18, 8); /* jne */
    put(0x10, 8), put(0x14, 8); /* je */
    put(1, 2);
    put(0, 2), put(0, 2);             /* no variables, no statements */
    put(1, 2), put(2, 1);             /* true */
    put(2, 2), put(0x18, 8), put(0x10, 8); /* its jump, and an address that is none */
}

/* a node whose variables, each twice the one before, pass 128 records */
static void write_long(void)
{
    used = 0;
    put(0, 2), put(0, 2), put(1, 2);
    put(8, 2);
    for (int v = 0; v < 8; v++)
        put(6, 1);
    put(7, 2);
    for (int v = 1; v < 8; v++)
        put(3, 1), put(v, 1), put(3, 2), put(0, 1), put(v - 1, 1), put(0, 1), put(v - 1, 1), put(7, 1), put(0, 1);
    put(1, 2), put(2, 1);
    put(0, 2);
}

/* a node that asks whether a product of three sums of eight variables is 0: 512 terms */
static void write_wide(void)
{
    used = 0;
    put(0, 2), put(0, 2), put(1, 2);
    put(24, 2);
    for (int v = 0; v < 24; v++)
        put(6, 1);
    put(0, 2);
    put(24 + 21 + 2 + 2, 2);
    for (int v = 0; v < 24; v++) {
        put(0, 1), put(v, 1);
        if (v % 8 > 0)
            put(7, 1), put(0, 1); /* sum */
        if (v % 8 == 7 && v > 7)
            put(7, 1), put(2, 1); /* product */
    }
    put(1, 1), put(4, 1), put(0, 8);
    put(7, 1), put(10, 1);
    put(0, 2);
}

/* a sheet whose one node has two variables of type 6, no statement and this condition */
static void write_condition(uint64_t records, const uint8_t *bytes, size_t length)
{
    used = 0;
    put(0, 2), put(0, 2), put(1, 2);
    put(2, 2), put(6, 1), put(6, 1);
    put(0, 2);
    put(records, 2);
    for (size_t i = 0; i < length; i++)
        put(bytes[i], 1);
    put(0, 2);
}

/* a sheet that reading refuses, before anything else is asked */
static void refuses(const char *name, const uint8_t *s, size_t length, uint64_t answer, uint64_t offset)
{
    evaluates(name, s, length, 0, NULL, 0, answer, offset);
    judges(name, s, length, 0, answer, offset, POMTHIJA_REASON_NONE);
    lists(name, s, length, 100, answer, offset, NULL, 0);
    tells(name, s, length, 0, 100, answer, offset, NULL);
}

static void refusals(void)
{
    refuses("no bytes", NULL, 0, POMTHIJA_ENDS, 0);
    refuses("cut", sheet, sizeof sheet - 1, POMTHIJA_ENDS, sizeof sheet - 2);
    uint8_t bad[sizeof sheet];
    memcpy(bad, sheet, sizeof sheet);
    bad[8] = 10;
    refuses("a type outside its table", bad, sizeof bad, POMTHIJA_CODE, 8);
    bad[8] = 6;
    bad[6] = 33;
    refuses("a count over its limit", bad, sizeof bad, POMTHIJA_COUNT, 6);
    refuses("an address twice", twice, sizeof twice, POMTHIJA_ADDRESS, 13);
    refuses("an ill formed register", ill_formed, sizeof ill_formed, POMTHIJA_REGISTER, 13);
    refuses("undeclared flags", undeclared, sizeof undeclared, POMTHIJA_INSTRUCTION, 2);
    bad[6] = 1;
    bad[11] = 4;
    refuses("not one tree", bad, sizeof bad, POMTHIJA_TREE, sizeof bad - 4);
    refuses("a constant above its width", wide, sizeof wide, POMTHIJA_CONSTANT, 14);
    refuses("a value of another type", untyped, sizeof untyped, POMTHIJA_TYPE, 11);
}

static void evaluations(void)
{
    const uint64_t five[] = {5, 99}, three[] = {3}, zero[] = {0}, large[] = {0x100000000};
    evaluates("holds, an extra value unread", sheet, sizeof sheet, 0, five, 2, POMTHIJA_OK, 1);
    evaluates("fails", sheet, sizeof sheet, 0, three, 1, POMTHIJA_OK, 0);
    evaluates("division by zero", sheet, sizeof sheet, 0, zero, 1, POMTHIJA_DIVISION, 6);
    evaluates("no value", sheet, sizeof sheet, 0, NULL, 0, POMTHIJA_VALUE, 0);
    evaluates("a value too large", sheet, sizeof sheet, 0, large, 1, POMTHIJA_VALUE, 0);
    const uint64_t minus_one[] = {255}, extended[] = {(uint64_t)-1};
    evaluates("-1 as the bits of its type", negative, sizeof negative, 0, minus_one, 1, POMTHIJA_OK, 1);
    evaluates("-1 with bits above its type", negative, sizeof negative, 0, extended, 1, POMTHIJA_VALUE, 0);
    evaluates("no such node", sheet, sizeof sheet, 1, five, 1, POMTHIJA_NUMBER, 0);
    evaluates("an effect", effect, sizeof effect, 0, NULL, 0, POMTHIJA_NOT_PLAIN, 6);
}

/* a constant of width 4 */
#define NUMBER(n) 1, 4, n, 0, 0, 0, 0, 0, 0, 0

static void judges_condition(const char *name, uint64_t records, const uint8_t *bytes, size_t length, uint64_t out, uint64_t reason)
{
    write_condition(records, bytes, length);
    judges(name, written, used, 0, POMTHIJA_OK, out, reason);
}

static void verdicts(void)
{
    const uint8_t truth[] = {2}, falsity[] = {3};
    const uint8_t equal[] = {0, 0, 0, 0, 7, 11};                                      /* x != x */
    const uint8_t cast[] = {0, 0, 6, 6, NUMBER(0), 7, 15};                            /* (unsigned)x >= 0 */
    const uint8_t exact[] = {0, 0, 0, 0, NUMBER(1), 7, 0, 7, 2, NUMBER(1), 7, 5, NUMBER(0), 7, 10}; /* (x * (x + 1) & 1) == 0 */
    const uint8_t odd[] = {0, 0, 0, 0, 7, 0, NUMBER(2), 0, 1, 7, 2, NUMBER(1), 7, 0, 7, 10};        /* x + x == 2 * y + 1 */
    const uint8_t halves[] = {2, 2, 7, 16};                                           /* true && true */
    judges("undecided", sheet, sizeof sheet, 0, POMTHIJA_OK, POMTHIJA_UNDECIDED, POMTHIJA_REASON_NONE);
    judges_condition("true", 1, truth, sizeof truth, POMTHIJA_ALWAYS, POMTHIJA_REASON_TRUTH);
    judges_condition("false", 1, falsity, sizeof falsity, POMTHIJA_NEVER, POMTHIJA_REASON_TRUTH);
    judges_condition("equal sides", 3, equal, sizeof equal, POMTHIJA_NEVER, POMTHIJA_REASON_EQUAL_SIDES);
    judges_condition("an unsigned cast", 4, cast, sizeof cast, POMTHIJA_ALWAYS, POMTHIJA_REASON_UNSIGNED_ZERO);
    judges_condition("exact sides", 9, exact, sizeof exact, POMTHIJA_ALWAYS, POMTHIJA_REASON_EXACT_SIDES);
    judges_condition("low bits that differ", 9, odd, sizeof odd, POMTHIJA_NEVER, POMTHIJA_REASON_PARITY);
    judges_condition("both halves", 3, halves, sizeof halves, POMTHIJA_ALWAYS, POMTHIJA_REASON_HALVES);
    judges("no such node", sheet, sizeof sheet, 1, POMTHIJA_NUMBER, 0, POMTHIJA_REASON_NONE);
    write_long();
    judges("more than 128 records", written, used, 0, POMTHIJA_RECORDS, 6, POMTHIJA_REASON_NONE);
    write_wide();
    judges("more than 256 terms", written, used, 0, POMTHIJA_TERMS, 6, POMTHIJA_REASON_NONE);
}

/* a node whose condition has 127 records: whether a sum of 63 variables, nested to the right, is 0; of all chains it needs
 * the most stack */
static void deepest(void)
{
    static const uint64_t zeros[POMTHIJA_MAX_VARIABLES] = {0};
    used = 0;
    put(0, 2), put(0, 2), put(1, 2);
    put(POMTHIJA_MAX_VARIABLES, 2);
    for (int v = 0; v < POMTHIJA_MAX_VARIABLES; v++)
        put(6, 1);
    put(0, 2);
    put(127, 2);
    for (int i = 0; i < 63; i++)
        put(0, 1), put((uint64_t)i % POMTHIJA_MAX_VARIABLES, 1);
    for (int i = 0; i < 62; i++)
        put(7, 1), put(0, 1); /* sum */
    put(1, 1), put(4, 1), put(0, 8);
    put(7, 1), put(10, 1); /* equal */
    put(0, 2);
    evaluates("127 records", written, used, 0, zeros, POMTHIJA_MAX_VARIABLES, POMTHIJA_OK, 1);
    judges("127 records", written, used, 0, POMTHIJA_OK, POMTHIJA_UNDECIDED, POMTHIJA_REASON_NONE);
    lists("127 records", written, used, 0, POMTHIJA_OK, 0, NULL, 0);
}

static void listings(void)
{
    static const uint8_t none[6] = {0}; /* no instructions, no blocks, no nodes */
    const uint8_t lines[] = {
        0x12, 0, 0, 0, 0, 0, 0, 0, 0x20, 0, 0, 0, 0, 0, 0, 0, POMTHIJA_ALWAYS, POMTHIJA_REASON_FLAGS,
        0x16, 0, 0, 0, 0, 0, 0, 0, 0x30, 0, 0, 0, 0, 0, 0, 0, POMTHIJA_NEVER, POMTHIJA_REASON_FLAGS,
        0x18, 0, 0, 0, 0, 0, 0, 0, 0x88, 0x77, 0x66, 0x55, 0x44, 0x33, 0x22, 0x11, POMTHIJA_ALWAYS, POMTHIJA_REASON_TRUTH,
    };
    write_three();
    lists("a list as long as the lines", written, used, sizeof lines, POMTHIJA_OK, 3, lines, sizeof lines);
    lists("a longer list", written, used, PAGE, POMTHIJA_OK, 3, lines, sizeof lines);
    lists("a list one byte too short", written, used, sizeof lines - 1, POMTHIJA_ROOM, used, NULL, 0);
    lists("a list of no bytes", written, used, 0, POMTHIJA_ROOM, used, NULL, 0);
    lists("no lines and a list of no bytes", none, sizeof none, 0, POMTHIJA_OK, 0, NULL, 0);
    lists("no bytes and a list of no bytes", NULL, 0, 0, POMTHIJA_ENDS, 0, NULL, 0);
    lists("the last address cut", written, used - 1, 100, POMTHIJA_ENDS, used - 8, NULL, 0);
    written[2] = 64;
    lists("a map outside its table", written, used, 100, POMTHIJA_CODE, 2, NULL, 0);
    write_three();
    written[1] = 9;
    lists("too many instructions", written, used, 100, POMTHIJA_COUNT, 0, NULL, 0);
    write_long();
    lists("more than 128 records", written, used, 100, POMTHIJA_RECORDS, 6, NULL, 0);
    write_wide();
    lists("more than 256 terms", written, used, 100, POMTHIJA_TERMS, 6, NULL, 0);
}

/* what is said where there is room, and the answer where there is one byte too few */
static void says(const char *name, uint64_t block, const char *sentence)
{
    size_t length = strlen(sentence);
    tells(name, written, used, block, length, POMTHIJA_OK, length, sentence);
    tells(name, written, used, block, length + 1, POMTHIJA_OK, length, sentence);
    tells(name, written, used, block, PAGE, POMTHIJA_OK, length, sentence);
    if (length > 0)
        tells(name, written, used, block, length - 1, POMTHIJA_TEXT, length, NULL);
}

/* instructions at 0x10 and from there on, without operands: stc 1, cmc 3; the last one a jump */
static void write_carry(size_t count, const uint8_t *mnemonics)
{
    used = 0;
    put(count, 2);
    for (size_t i = 0; i + 1 < count; i++)
        put(0, 1), put(0x10 + i, 8), put(mnemonics[i], 1);
    jump(0x10 + count - 1, mnemonics[count - 1], 0x20);
    put(3, 2);
    put(0x10, 8), put(0x10 + count, 8);
    put(0x10 + count - 1, 8), put(0x10 + count, 8); /* the jump alone */
    put(0x10, 8), put(0x10 + count - 1, 8);         /* all but the jump */
    put(0, 2);
}

static void sentences(void)
{
    const uint8_t turned[] = {1, 3, 3, 22}; /* jb */
    write_three();
    says("never", 0, "eax is 0 here");
    says("always", 1, "eax is 0 here");
    tells("no room", written, used, 0, 0, POMTHIJA_TEXT, 13, NULL);
    tells("no such block", written, used, 2, 100, POMTHIJA_NUMBER, 0, NULL);
    tells("no such block and no room", written, used, UINT64_MAX, 0, POMTHIJA_NUMBER, 0, NULL);
    tells("a sheet cut and no such block", written, used - 1, 2, 0, POMTHIJA_ENDS, used - 8, NULL);
    write_carry(sizeof turned, turned);
    says("turned twice", 0, "stc sets the carry, and cmc turns it round, and cmc turns it round");
    says("undecided", 1, "");
    says("no branch", 2, "");
}

static void all(void)
{
    if (pomthija_version() != POMTHIJA_VERSION) {
        printf("the library's version is %" PRIu64 "\n", pomthija_version());
        wrong++;
    }
    refusals();
    evaluations();
    verdicts();
    listings();
    sentences();
    deepest();
}

/* runs all cases on a stack of POMTHIJA_STACK bytes, with pages below it that may not be touched */
static void on_small_stack(void)
{
    static ucontext_t here, there;
    uint8_t *stack = (uint8_t *)mmap(NULL, 2 * POMTHIJA_STACK, PROT_NONE, MAP_PRIVATE | MAP_ANONYMOUS, -1, 0);
    mprotect(stack + POMTHIJA_STACK, POMTHIJA_STACK, PROT_READ | PROT_WRITE);
    getcontext(&there);
    there.uc_stack.ss_sp = stack + POMTHIJA_STACK;
    there.uc_stack.ss_size = POMTHIJA_STACK;
    there.uc_link = &here;
    makecontext(&there, all, 0);
    swapcontext(&here, &there);
}

int main(void)
{
    sheet_page = page();
    value_page = page();
    list_page = page();
    mprotect(list_page, PAGE, PROT_READ | PROT_WRITE);
    on_small_stack();
    printf("%d wrong\n", wrong);
    return wrong != 0;
}
