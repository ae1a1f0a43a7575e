/* How much stack each function of the library needs, in bytes: on the sheets that are named, and the most on nodes of 125 to 128
 * records in one chain of each kind and on random nodes. A call runs on a stack of its own that was filled with one value before;
 * what it has written over is what it needs.
 *
 *     stack RANDOM_NODES [SHEET ..] */
#include <stdio.h>
#include <stdlib.h>
#include <string.h>
#include <sys/mman.h>
#include <ucontext.h>
#include "pomthija.h"

enum { STACK = 4 << 20, FILL = 0xa5, FUNCTIONS = 4 };

static uint8_t *stack;
static size_t filled_from;
static ucontext_t here, there;
static uint8_t sheet[1 << 20], list[POMTHIJA_LIST], text[POMTHIJA_SENTENCE];
static size_t used, needed[FUNCTIONS], most[FUNCTIONS];
static char worst[FUNCTIONS][64];
static uint64_t values[POMTHIJA_MAX_VARIABLES], nodes;

static void evaluates(void)
{
    uint64_t out;
    for (uint64_t node = 0; node < nodes; node++)
        pomthija_evaluation(sheet, used, node, values, POMTHIJA_MAX_VARIABLES, &out);
}

static void judges(void)
{
    uint64_t out, reason;
    for (uint64_t node = 0; node < nodes; node++)
        pomthija_node_verdict(sheet, used, node, &out, &reason);
}

static void lists(void)
{
    uint64_t out;
    pomthija_listing(sheet, used, list, sizeof list, &out);
}

static void tells(void)
{
    uint64_t out, block = 0;
    while (pomthija_sentence(sheet, used, block, text, sizeof text, &out) == POMTHIJA_OK)
        block++;
}

static void (*const calls[FUNCTIONS])(void) = {evaluates, judges, lists, tells};
static const char *const names[FUNCTIONS] = {"pomthija_evaluation", "pomthija_node_verdict", "pomthija_listing", "pomthija_sentence"};

static void measure(const char *name)
{
    for (int f = 0; f < FUNCTIONS; f++) {
        memset(stack + filled_from, FILL, STACK - filled_from);
        getcontext(&there);
        there.uc_stack.ss_sp = stack;
        there.uc_stack.ss_size = STACK;
        there.uc_link = &here;
        makecontext(&there, calls[f], 0);
        swapcontext(&here, &there);
        size_t low = 0;
        while (stack[low] == FILL)
            low++;
        filled_from = low;
        needed[f] = STACK - low;
        if (needed[f] > most[f]) {
            most[f] = needed[f];
            snprintf(worst[f], sizeof worst[f], "%s", name);
        }
    }
}

static void put(uint64_t value, int bytes)
{
    for (; bytes > 0; bytes--, value >>= 8)
        sheet[used++] = (uint8_t)value;
}

/* a sheet of one node with 32 variables of type 6; its statements and its condition follow */
static void start(void)
{
    used = 0;
    nodes = 1;
    put(0, 4), put(1, 2), put(32, 2);
    for (int v = 0; v < 32; v++)
        put(6, 1);
}

static void leaf(int kind, int n)
{
    switch (kind) {
    case 0: put(0, 1), put((uint64_t)n % 32, 1); break;
    case 1: put(1, 1), put(4, 1), put((uint64_t)n, 8); break;
    case 2: put(4, 1), put(6, 1); break;
    default: put(2, 1); break;
    }
}

/* leaves joined by an operator, nested to the left or to the right */
static void chain(int leaves, int op, int left, int kind)
{
    for (int i = 0; i < leaves; i++) {
        leaf(kind, i);
        if (left && i > 0)
            put(7, 1), put((uint64_t)op, 1);
    }
    for (int i = 1; !left && i < leaves; i++)
        put(7, 1), put((uint64_t)op, 1);
}

/* a random tree of so many records, at most */
static int tree(int records)
{
    if (records < 2 || rand() % 16 == 0) {
        leaf(rand() % 8 == 0 ? rand() % 4 : rand() % 2, rand() % 4);
        return 1;
    }
    if (records < 3 || rand() % 8 == 0) {
        int below = tree(records - 1);
        put(rand() % 4 ? 6 : 5, 1), put((uint64_t)rand() % 10, 1);
        return below + 1;
    }
    if (records > 3 && rand() % 16 == 0) {
        int a = tree(rand() % (records - 3) + 1), b = tree(1), c = tree(records - 1 - a - b);
        put(8, 1);
        return a + b + c + 1;
    }
    int first = rand() % 3 == 0 ? 1 : rand() % 2 ? records - 2 : rand() % (records - 2) + 1;
    int a = tree(first), b = tree(records - 1 - a);
    put(7, 1), put((uint64_t)(rand() % 2 ? rand() % 18 : rand() % 3), 1);
    return a + b + 1;
}

/* the count of an expression's records, which is known when they have been written */
static void counted(size_t at, int records)
{
    sheet[at] = (uint8_t)records;
    sheet[at + 1] = 0;
}

static void chains(void)
{
    for (int op = 0; op < 18; op++)
        for (int left = 0; left < 2; left++)
            for (int kind = 0; kind < 4; kind++)
                for (int way = 0; way < 3; way++) {
                    start();
                    put(0, 2);
                    size_t at = used;
                    put(0, 2);
                    int leaves = way == 0 ? 64 : way == 1 ? 63 : 62;
                    chain(leaves, op, left, kind);
                    if (way == 2)
                        leaf(1, 1), put(7, 1), put(5, 1); /* & 1 */
                    if (way > 0)
                        leaf(1, 0), put(7, 1), put(10, 1); /* == 0 */
                    counted(at, 2 * leaves - 1 + (way == 0 ? 0 : way == 1 ? 2 : 4));
                    put(0, 2);
                    char name[64];
                    snprintf(name, sizeof name, "chain of %d, to the %s, leaf %d, way %d", op, left ? "left" : "right", kind, way);
                    measure(name);
                }
    for (int kind = 5; kind < 7; kind++)
        for (int type = 0; type < 10; type++) {
            start();
            put(0, 2), put(127, 2), leaf(0, 0);
            for (int i = 0; i < 124; i++)
                put((uint64_t)kind, 1), put((uint64_t)type, 1);
            leaf(1, 0), put(7, 1), put(10, 1), put(0, 2);
            measure(kind == 5 ? "loads" : "casts");
        }
    for (int child = 0; child < 3; child++) {
        start();
        put(0, 2), put(1 + 3 * 41 + 2, 2);
        for (int i = 0; i < 41; i++)
            for (int before = 0; before < child; before++)
                leaf(0, i);
        leaf(0, 0);
        for (int i = 0; i < 41; i++) {
            for (int after = child; after < 2; after++)
                leaf(0, i);
            put(8, 1);
        }
        leaf(1, 0), put(7, 1), put(10, 1), put(0, 2);
        measure("ternaries");
    }
    for (int left = 0; left < 2; left++)
        for (int joined = 16; joined < 18; joined++) {
            start();
            put(0, 2), put(127, 2);
            for (int i = 0; i < 32; i++) {
                leaf(0, i), leaf(1, i), put(7, 1), put(10, 1);
                if (left && i > 0)
                    put(7, 1), put((uint64_t)joined, 1);
            }
            for (int i = 1; !left && i < 32; i++)
                put(7, 1), put((uint64_t)joined, 1);
            put(0, 2);
            measure("halves that are equalities");
        }
}

static void random_node(void)
{
    start();
    int statements = rand() % 2 ? rand() % 65 : 0;
    put((uint64_t)statements, 2);
    for (int i = 0; i < statements; i++) {
        if (rand() % 8 == 0) {
            put(0, 1);
            continue;
        }
        put(3, 1), put((uint64_t)rand() % 32, 1);
        int leaves = rand() % (rand() % 4 ? 3 : 64) + 1;
        put((uint64_t)(2 * leaves - 1), 2), chain(leaves, rand() % 3, rand() % 2, rand() % 2);
    }
    size_t at = used;
    put(0, 2);
    int records = tree(rand() % 4 ? 126 : rand() % 126 + 1);
    leaf(1, rand() % 2), put(7, 1), put(10 + (uint64_t)rand() % 2, 1);
    counted(at, records + 2);
    put(0, 2);
    measure("random");
}

static void say(const char *name, const size_t *bytes)
{
    for (int f = 0; f < FUNCTIONS; f++)
        printf("%s: %s %zu\n", name ? name : worst[f], names[f], bytes[f]);
}

int main(int count, char **arguments)
{
    stack = (uint8_t *)mmap(NULL, STACK, PROT_READ | PROT_WRITE, MAP_PRIVATE | MAP_ANONYMOUS, -1, 0);
    for (int i = 2; i < count; i++) {
        FILE *file = fopen(arguments[i], "rb");
        if (!file)
            return perror(arguments[i]), 1;
        used = fread(sheet, 1, sizeof sheet, file);
        fclose(file);
        nodes = 1;
        measure(arguments[i]);
        say(arguments[i], needed);
    }
    chains();
    for (long i = count > 1 ? atol(arguments[1]) : 0; i > 0; i--)
        random_node();
    say(NULL, most);
    return 0;
}
