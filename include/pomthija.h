/* Pomthija, for a host in C or C++. The library is libpomthija.a, made by `make library`.
 *
 * The host answers for this much; the library checks everything else by itself:
 *   - a pointer is good for as many elements as the length beside it says. Where that is 0, any
 *     pointer will do, also NULL;
 *   - out and reason are not NULL, and share no byte with each other, the sheet, the values, the list
 *     or the text, nor these with each other;
 *   - nothing writes to the sheet or to the values, and nothing touches the list or the text, while a
 *     call runs;
 *   - the calling thread has POMTHIJA_STACK bytes of its stack left.
 * A call writes to *out and *reason, and where it is not refused the listing to the list and the sentence
 * to the text; to nothing else. Nothing is allocated or kept, so threads may call at the same time.
 *
 * The functions are proved; that this header describes them, and what a host does, is not. */
#ifndef POMTHIJA_H
#define POMTHIJA_H

#include <stddef.h>
#include <stdint.h>

#if defined __cplusplus && __cplusplus >= 201103L
static_assert(sizeof(size_t) == 8, "the library takes lengths of 64 bits");
#elif defined __STDC_VERSION__ && __STDC_VERSION__ >= 201112L
_Static_assert(sizeof(size_t) == 8, "the library takes lengths of 64 bits");
#endif

#ifdef __cplusplus
extern "C" {
#endif

/* The number of this interface. pomthija_version gives the library's: where the two differ, this is not
 * the header of the library that the host is linked with. */
#define POMTHIJA_VERSION 1

uint64_t pomthija_version(void);

/* Limits: a sheet with more is refused. */
enum {
    POMTHIJA_MAX_INSTRUCTIONS = 2048, /* of a sheet */
    POMTHIJA_MAX_BLOCKS = 1024,
    POMTHIJA_MAX_NODES = 1024,
    POMTHIJA_MAX_VARIABLES = 32,      /* of a node */
    POMTHIJA_MAX_STATEMENTS = 64,
    POMTHIJA_MAX_ADDRESSES = 16,
    POMTHIJA_MAX_RECORDS = 128        /* of an expression */
};

/* Bytes: of a line of the listing, of a list that is long enough for every sheet, of the longest sentence,
 * and of stack that is enough for every call (the last two are worked out and measured, not proved). */
enum {
    POMTHIJA_LINE = 18,
    POMTHIJA_LIST = POMTHIJA_MAX_INSTRUCTIONS * POMTHIJA_LINE,
    POMTHIJA_SENTENCE = 49182,
    POMTHIJA_STACK = 512 * 1024
};

/* What is said of a branch. */
enum pomthija_verdict {
    POMTHIJA_NEVER = 0,
    POMTHIJA_ALWAYS = 1,
    POMTHIJA_UNDECIDED = 2
};

/* Why it is decided. */
enum pomthija_reason {
    POMTHIJA_REASON_NONE = 0,          /* it is not */
    POMTHIJA_REASON_FLAGS = 1,         /* what is known of flags and registers, of a block; the others are of nodes */
    POMTHIJA_REASON_EQUAL_SIDES = 2,   /* a comparison of equal sides */
    POMTHIJA_REASON_TRUTH = 3,         /* a condition that is true or false itself */
    POMTHIJA_REASON_UNSIGNED_ZERO = 4, /* an unsigned cast compared with 0 */
    POMTHIJA_REASON_EXACT_SIDES = 5,   /* exact low bits */
    POMTHIJA_REASON_PARITY = 6,        /* low bits that differ */
    POMTHIJA_REASON_HALVES = 7         /* both halves of && or || together */
};

/* What a function returns: 0, or the number of a refusal, which is never 0. A refusal leaves its
 * offset in *out, in bytes from the start of the sheet, except for POMTHIJA_NUMBER, where it is 0,
 * POMTHIJA_VALUE, where it is the number of a variable, and POMTHIJA_TEXT, where it is a length. */
enum {
    POMTHIJA_OK = 0,

    /* the sheet is not in the format */
    POMTHIJA_ENDS = 1,        /* it stops too early (offset: the field that is not complete), or goes on after its
                                 last record (offset: the byte after that) */
    POMTHIJA_CODE = 2,        /* a map, a code or a variable's number that is not in its table; offset: its byte */
    POMTHIJA_COUNT = 3,       /* a count outside its limits; offset: its first byte */
    POMTHIJA_ADDRESS = 4,     /* an instruction's address is no greater than the one before; offset: its first byte */
    POMTHIJA_REGISTER = 5,    /* a general register (class 1) that does not exist; offset: its class byte */
    POMTHIJA_INSTRUCTION = 6, /* operands or declared flags that a modelled instruction cannot have; offset: its map */
    POMTHIJA_TREE = 7,        /* records that do not form one tree; offset: the record without enough children, or,
                                 where trees are left over, the byte after the expression */
    POMTHIJA_CONSTANT = 8,    /* a constant that does not fit its width; offset: its value's first byte */
    POMTHIJA_TYPE = 9,        /* an assignment whose two types differ; offset: its map byte */

    /* the sheet is accepted, but not the request */
    POMTHIJA_RECORDS = 10,    /* a value that a node assigns, or its condition, passes 128 records once the values
                                 assigned before stand in it; offset: the node's first byte */
    POMTHIJA_TERMS = 11,      /* an equality of a node passes the limits on terms; offset: the node's first byte */
    POMTHIJA_ROOM = 12,       /* the list is too short for the lines; offset: the sheet's length */
    POMTHIJA_NUMBER = 13,     /* the sheet has no block, or node, of this number; offset: 0 */
    POMTHIJA_DIVISION = 14,   /* the run divides by zero; offset: the node's first byte */
    POMTHIJA_NOT_PLAIN = 15,  /* an effect, a load or a statement that assigns nothing; offset: the node's first byte */
    POMTHIJA_VALUE = 16,      /* no value for a variable, or one that its type cannot hold; offset: the number of the
                                 first such variable, from 0 */
    POMTHIJA_TEXT = 17        /* the text is too short for the sentence; offset: the sentence's length */
};

/* Runs one node of a sheet, numbered from 0, on given values, and says whether its condition holds:
 * returns POMTHIJA_OK with 1 in *out if it does and 0 if it does not, or else a refusal.
 *
 * values[v] is the value of the node's variable v, as the bits of its type with zeros above them. A
 * signed 8 of -1 is 255: (uint64_t)-1 has bits that an 8-bit type cannot hold, and is refused. A bool
 * is 0 or 1. Values after those of the node's variables are not read. */
uint64_t pomthija_evaluation(const uint8_t *sheet, size_t sheet_length, uint64_t node,
                             const uint64_t *values, size_t value_count, uint64_t *out);

/* The verdict on one node of a sheet, numbered from 0: returns POMTHIJA_OK with the verdict in *out and
 * the reason in *reason, POMTHIJA_REASON_NONE where it is undecided, or else a refusal, with POMTHIJA_REASON_NONE
 * in *reason. POMTHIJA_ALWAYS says that the condition holds in every run of the node that has an outcome,
 * POMTHIJA_NEVER that it holds in none. */
uint64_t pomthija_node_verdict(const uint8_t *sheet, size_t sheet_length, uint64_t node, uint64_t *out,
                               uint64_t *reason);

/* Lists the decided branches of a sheet: returns POMTHIJA_OK with the number of lines in *out, or else
 * a refusal, which leaves the list as it was.
 *
 * A line has POMTHIJA_LINE bytes: the branch's address in 8 and its target in 8, lowest byte first, then
 * POMTHIJA_ALWAYS or POMTHIJA_NEVER in one, then the reason in one. The lines stand at the front of the
 * list, with rising addresses, at most one for each address; the list after them stays as it was. A list
 * of POMTHIJA_LIST bytes always suffices. */
uint64_t pomthija_listing(const uint8_t *sheet, size_t sheet_length, uint8_t *list, size_t list_length,
                          uint64_t *out);

/* Says in words why the branch at the end of one block, numbered from 0, is decided, as 'eax is 0 here':
 * returns POMTHIJA_OK with the sentence's length in *out, 0 where the block has no verdict (it is undecided,
 * or does not end in a conditional branch), or else a refusal, which leaves the text as it was.
 *
 * The sentence stands at the front of the text, in ASCII, with neither a line feed nor a 0 behind it; the
 * text after it stays as it was. A text that is just as long as the sentence will do, and one of
 * POMTHIJA_SENTENCE bytes always does. A host that is told POMTHIJA_TEXT can call again with *out bytes. */
uint64_t pomthija_sentence(const uint8_t *sheet, size_t sheet_length, uint64_t block, uint8_t *text,
                           size_t text_length, uint64_t *out);

#ifdef __cplusplus
}
#endif

#endif
