/* Writes sheets, for a host in C or C++: functions that put records one after the other into a buffer of
 * the host's. docs/SHEET.md describes the format.
 *
 *   struct pomthija_writer w;
 *   pomthija_write_start(&w, buffer, sizeof buffer);
 *   ... instructions with rising addresses, then blocks, then nodes ...
 *   size_t length = pomthija_write_end(&w);      0: w.error says why
 *
 * The writer keeps the counts and the order of records. It does not check what is written: a register that
 * does not exist or records that form no tree are refused when the sheet is handed in, with their offset.
 * After an error every call does nothing, so it is enough to look at the end. */
#ifndef POMTHIJA_SHEET_H
#define POMTHIJA_SHEET_H

#include <string.h>
#include "pomthija.h"

enum pomthija_mnemonic {
    POMTHIJA_OTHER, POMTHIJA_STC, POMTHIJA_CLC, POMTHIJA_CMC, POMTHIJA_MOV, POMTHIJA_NOT, POMTHIJA_ADD, POMTHIJA_SUB,
    POMTHIJA_CMP, POMTHIJA_AND, POMTHIJA_OR, POMTHIJA_XOR, POMTHIJA_TEST, POMTHIJA_INC, POMTHIJA_DEC, POMTHIJA_NEG,
    POMTHIJA_JE, POMTHIJA_JNE, POMTHIJA_JL, POMTHIJA_JGE, POMTHIJA_JLE, POMTHIJA_JG, POMTHIJA_JB, POMTHIJA_JAE,
    POMTHIJA_JBE, POMTHIJA_JA, POMTHIJA_JS, POMTHIJA_JNS, POMTHIJA_JP, POMTHIJA_JNP, POMTHIJA_JO, POMTHIJA_JNO,
    POMTHIJA_JRCXZ, POMTHIJA_JECXZ, POMTHIJA_JCXZ
};

/* Written flags, to be added up. */
enum { POMTHIJA_CF = 1, POMTHIJA_PF = 2, POMTHIJA_ZF = 4, POMTHIJA_SF = 8, POMTHIJA_OF = 16 };

enum pomthija_type {
    POMTHIJA_I8, POMTHIJA_I16, POMTHIJA_I32, POMTHIJA_I64, POMTHIJA_U8, POMTHIJA_U16, POMTHIJA_U32, POMTHIJA_U64,
    POMTHIJA_POINTER, POMTHIJA_BOOL
};

enum pomthija_operator {
    POMTHIJA_PLUS, POMTHIJA_MINUS, POMTHIJA_TIMES, POMTHIJA_DIVIDED, POMTHIJA_REMAINDER, POMTHIJA_BIT_AND,
    POMTHIJA_BIT_OR, POMTHIJA_BIT_XOR, POMTHIJA_SHIFT_LEFT, POMTHIJA_SHIFT_RIGHT, POMTHIJA_EQUAL, POMTHIJA_NOT_EQUAL,
    POMTHIJA_LESS, POMTHIJA_LESS_EQUAL, POMTHIJA_GREATER, POMTHIJA_GREATER_EQUAL, POMTHIJA_LOGICAL_AND,
    POMTHIJA_LOGICAL_OR
};

/* Kinds of expression records. A constant has a function of its own. */
enum pomthija_kind {
    POMTHIJA_VARIABLE = 0, /* argument: its number */
    POMTHIJA_CONSTANT_RECORD = 1,
    POMTHIJA_TRUE = 2,
    POMTHIJA_FALSE = 3,
    POMTHIJA_EFFECT = 4,   /* argument: a type, as of the next two */
    POMTHIJA_LOAD = 5,     /* of the record before */
    POMTHIJA_CAST = 6,
    POMTHIJA_BINARY = 7,   /* argument: an operator; of the two records before */
    POMTHIJA_TERNARY = 8   /* of the three records before: condition, value where it holds, value where not */
};

struct pomthija_register {
    uint8_t register_class; /* 1: general */
    uint8_t index;
    uint8_t size;           /* bits */
    uint8_t offset;         /* 8 for ah, ch, dh, bh, else 0 */
};

enum pomthija_operand_kind {
    POMTHIJA_NO_OPERAND, POMTHIJA_REGISTER_OPERAND, POMTHIJA_IMMEDIATE_OPERAND, POMTHIJA_MEMORY_OPERAND
};

struct pomthija_operand {
    enum pomthija_operand_kind kind;
    struct pomthija_register of_register;
    uint64_t immediate;
};

struct pomthija_instruction {
    uint64_t address;
    enum pomthija_mnemonic mnemonic;
    int branch;                            /* 1: a conditional branch, to target */
    uint64_t target;
    int call;                              /* 1: a call, indirect call, system call or interrupt */
    struct pomthija_operand first, second;
    struct pomthija_register written[8];   /* declared as written */
    size_t written_count;
    uint8_t flags;                         /* declared as written */
};

enum pomthija_writer_error {
    POMTHIJA_WRITER_OK,
    POMTHIJA_WRITER_FULL,  /* the buffer is too short */
    POMTHIJA_WRITER_ORDER, /* a record where the format has none of its kind */
    POMTHIJA_WRITER_MANY   /* more records than a sheet, a node or an expression may have */
};

/* What the last record is part of. */
enum pomthija_part {
    POMTHIJA_IN_INSTRUCTIONS, POMTHIJA_IN_BLOCKS, POMTHIJA_IN_NODES, POMTHIJA_IN_VARIABLES, POMTHIJA_IN_STATEMENTS,
    POMTHIJA_IN_VALUE, POMTHIJA_IN_CONDITION, POMTHIJA_IN_ADDRESSES
};

struct pomthija_writer {
    uint8_t *bytes;
    size_t room;
    size_t length;     /* of what is written */
    size_t section_at; /* offsets of the counts of: instructions, blocks or nodes; */
    size_t list_at;    /* variables, statements or addresses of the node; */
    size_t records_at; /* records of the expression */
    enum pomthija_part part;
    enum pomthija_writer_error error;
};

static inline struct pomthija_register pomthija_general(uint8_t index, uint8_t size)
{
    struct pomthija_register r = {1, index, size, 0};
    return r;
}

/* ah, ch, dh, bh for 0 to 3 */
static inline struct pomthija_register pomthija_high_byte(uint8_t index)
{
    struct pomthija_register r = {1, index, 8, 8};
    return r;
}

static inline struct pomthija_operand pomthija_register_operand(struct pomthija_register r)
{
    struct pomthija_operand o = {POMTHIJA_REGISTER_OPERAND, r, 0};
    return o;
}

static inline struct pomthija_operand pomthija_immediate_operand(uint64_t value)
{
    struct pomthija_operand o = {POMTHIJA_IMMEDIATE_OPERAND, {0, 0, 0, 0}, value};
    return o;
}

static inline struct pomthija_operand pomthija_memory_operand(void)
{
    struct pomthija_operand o = {POMTHIJA_MEMORY_OPERAND, {0, 0, 0, 0}, 0};
    return o;
}

/* An instruction without operands that declares nothing as written and is no branch. */
static inline struct pomthija_instruction pomthija_instruction_at(uint64_t address, enum pomthija_mnemonic mnemonic)
{
    struct pomthija_instruction i;
    memset(&i, 0, sizeof i);
    i.address = address;
    i.mnemonic = mnemonic;
    return i;
}

/* Used by the functions below, not by a host. */

static inline void pomthija_put(struct pomthija_writer *w, uint64_t value, size_t bytes)
{
    if (w->error == POMTHIJA_WRITER_OK && w->room - w->length < bytes)
        w->error = POMTHIJA_WRITER_FULL;
    for (; w->error == POMTHIJA_WRITER_OK && bytes > 0; bytes--, value >>= 8)
        w->bytes[w->length++] = (uint8_t)value;
}

static inline void pomthija_put_register(struct pomthija_writer *w, struct pomthija_register r)
{
    pomthija_put(w, r.register_class, 1);
    pomthija_put(w, r.index, 1);
    pomthija_put(w, r.size, 1);
    pomthija_put(w, r.offset, 1);
}

static inline void pomthija_put_operand(struct pomthija_writer *w, struct pomthija_operand o)
{
    if (o.kind == POMTHIJA_NO_OPERAND)
        return;
    pomthija_put(w, (uint64_t)o.kind - 1, 1);
    if (o.kind == POMTHIJA_REGISTER_OPERAND)
        pomthija_put_register(w, o.of_register);
    if (o.kind == POMTHIJA_IMMEDIATE_OPERAND)
        pomthija_put(w, o.immediate, 8);
}

/* A count of 0, and where it stands. */
static inline size_t pomthija_put_count(struct pomthija_writer *w)
{
    size_t at = w->length;
    pomthija_put(w, 0, 2);
    return at;
}

/* One record more. */
static inline void pomthija_count(struct pomthija_writer *w, size_t at, unsigned most)
{
    if (w->error != POMTHIJA_WRITER_OK)
        return;
    unsigned count = (w->bytes[at] | (unsigned)w->bytes[at + 1] << 8) + 1;
    if (count > most)
        w->error = POMTHIJA_WRITER_MANY;
    w->bytes[at] = (uint8_t)count;
    w->bytes[at + 1] = (uint8_t)(count >> 8);
}

static inline void pomthija_misplaced(struct pomthija_writer *w)
{
    if (w->error == POMTHIJA_WRITER_OK)
        w->error = POMTHIJA_WRITER_ORDER;
}

/* Whether the expression that is being written has a record. */
static inline int pomthija_has_records(const struct pomthija_writer *w)
{
    return w->error == POMTHIJA_WRITER_OK && w->length > w->records_at + 2;
}

/* Goes on to blocks, or from them to nodes. */
static inline void pomthija_open_section(struct pomthija_writer *w, enum pomthija_part part)
{
    w->section_at = pomthija_put_count(w);
    w->part = part;
}

/* Goes on to the statements of a node: after its variables, or after an assigned value. */
static inline void pomthija_to_statements(struct pomthija_writer *w)
{
    if (w->part == POMTHIJA_IN_VARIABLES)
        w->list_at = pomthija_put_count(w);
    else if (w->part != POMTHIJA_IN_STATEMENTS && !(w->part == POMTHIJA_IN_VALUE && pomthija_has_records(w)))
        pomthija_misplaced(w);
    w->part = POMTHIJA_IN_STATEMENTS;
}

/* Goes on to the addresses of a node. */
static inline void pomthija_to_addresses(struct pomthija_writer *w)
{
    if (w->part == POMTHIJA_IN_CONDITION && pomthija_has_records(w))
        w->list_at = pomthija_put_count(w);
    else if (w->part != POMTHIJA_IN_ADDRESSES)
        pomthija_misplaced(w);
    w->part = POMTHIJA_IN_ADDRESSES;
}

/* Goes on to the nodes, past the one before. */
static inline void pomthija_to_nodes(struct pomthija_writer *w)
{
    if (w->part == POMTHIJA_IN_INSTRUCTIONS)
        pomthija_open_section(w, POMTHIJA_IN_BLOCKS);
    if (w->part == POMTHIJA_IN_BLOCKS)
        pomthija_open_section(w, POMTHIJA_IN_NODES);
    else if (w->part != POMTHIJA_IN_NODES)
        pomthija_to_addresses(w);
    w->part = POMTHIJA_IN_NODES;
}

/* Starts a sheet in a buffer of so many bytes. */
static inline void pomthija_write_start(struct pomthija_writer *w, uint8_t *buffer, size_t room)
{
    w->bytes = buffer;
    w->room = room;
    w->length = 0;
    w->list_at = w->records_at = 0;
    w->error = POMTHIJA_WRITER_OK;
    pomthija_open_section(w, POMTHIJA_IN_INSTRUCTIONS);
}

static inline void pomthija_write_instruction(struct pomthija_writer *w, const struct pomthija_instruction *i)
{
    if (w->part != POMTHIJA_IN_INSTRUCTIONS)
        pomthija_misplaced(w);
    if (i->written_count > 8 && w->error == POMTHIJA_WRITER_OK)
        w->error = POMTHIJA_WRITER_MANY;
    pomthija_count(w, w->section_at, POMTHIJA_MAX_INSTRUCTIONS);
    pomthija_put(w,
                 (i->branch ? 1u : 0u) + (i->call ? 2u : 0u) + (i->first.kind != POMTHIJA_NO_OPERAND ? 4u : 0u)
                     + (i->second.kind != POMTHIJA_NO_OPERAND ? 8u : 0u) + (i->written_count > 0 ? 16u : 0u)
                     + (i->flags != 0 ? 32u : 0u),
                 1);
    pomthija_put(w, i->address, 8);
    pomthija_put(w, (uint64_t)i->mnemonic, 1);
    if (i->branch)
        pomthija_put(w, i->target, 8);
    pomthija_put_operand(w, i->first);
    pomthija_put_operand(w, i->second);
    if (i->written_count > 0)
        pomthija_put(w, i->written_count, 2);
    for (size_t k = 0; w->error == POMTHIJA_WRITER_OK && k < i->written_count; k++)
        pomthija_put_register(w, i->written[k]);
    if (i->flags != 0)
        pomthija_put(w, i->flags, 1);
}

/* The instructions with from <= address < to. */
static inline void pomthija_write_block(struct pomthija_writer *w, uint64_t from, uint64_t to)
{
    if (w->part == POMTHIJA_IN_INSTRUCTIONS)
        pomthija_open_section(w, POMTHIJA_IN_BLOCKS);
    if (w->part != POMTHIJA_IN_BLOCKS)
        pomthija_misplaced(w);
    pomthija_count(w, w->section_at, POMTHIJA_MAX_BLOCKS);
    pomthija_put(w, from, 8);
    pomthija_put(w, to, 8);
}

/* Starts a node: its variables, its statements, its condition and its addresses follow, in this order. */
static inline void pomthija_write_node(struct pomthija_writer *w)
{
    pomthija_to_nodes(w);
    pomthija_count(w, w->section_at, POMTHIJA_MAX_NODES);
    w->list_at = pomthija_put_count(w);
    w->part = POMTHIJA_IN_VARIABLES;
}

static inline void pomthija_write_variable(struct pomthija_writer *w, enum pomthija_type type)
{
    if (w->part != POMTHIJA_IN_VARIABLES)
        pomthija_misplaced(w);
    pomthija_count(w, w->list_at, POMTHIJA_MAX_VARIABLES);
    pomthija_put(w, (uint64_t)type, 1);
}

/* A statement that is no assignment. */
static inline void pomthija_write_other_statement(struct pomthija_writer *w)
{
    pomthija_to_statements(w);
    pomthija_count(w, w->list_at, POMTHIJA_MAX_STATEMENTS);
    pomthija_put(w, 0, 1);
}

/* An assignment to a variable; the records of its value follow. */
static inline void pomthija_write_assignment(struct pomthija_writer *w, uint8_t variable)
{
    pomthija_to_statements(w);
    pomthija_count(w, w->list_at, POMTHIJA_MAX_STATEMENTS);
    pomthija_put(w, 3, 1);
    pomthija_put(w, variable, 1);
    w->records_at = pomthija_put_count(w);
    w->part = POMTHIJA_IN_VALUE;
}

/* The condition; its records follow. */
static inline void pomthija_write_condition(struct pomthija_writer *w)
{
    pomthija_to_statements(w);
    w->records_at = pomthija_put_count(w);
    w->part = POMTHIJA_IN_CONDITION;
}

/* A record of an expression, after its children. The argument of true, false and a ternary is not written. */
static inline void pomthija_write_record(struct pomthija_writer *w, enum pomthija_kind kind, uint8_t argument)
{
    if (w->part != POMTHIJA_IN_VALUE && w->part != POMTHIJA_IN_CONDITION)
        pomthija_misplaced(w);
    pomthija_count(w, w->records_at, POMTHIJA_MAX_RECORDS);
    pomthija_put(w, (uint64_t)kind, 1);
    if (kind != POMTHIJA_TRUE && kind != POMTHIJA_FALSE && kind != POMTHIJA_TERNARY)
        pomthija_put(w, argument, 1);
}

/* A constant of 1, 2, 4 or 8 bytes. */
static inline void pomthija_write_constant(struct pomthija_writer *w, uint8_t width, uint64_t value)
{
    pomthija_write_record(w, POMTHIJA_CONSTANT_RECORD, width);
    pomthija_put(w, value, 8);
}

static inline void pomthija_write_address(struct pomthija_writer *w, uint64_t address)
{
    pomthija_to_addresses(w);
    pomthija_count(w, w->list_at, POMTHIJA_MAX_ADDRESSES);
    pomthija_put(w, address, 8);
}

/* Ends the sheet: its length, or 0 after an error. */
static inline size_t pomthija_write_end(struct pomthija_writer *w)
{
    pomthija_to_nodes(w);
    return w->error == POMTHIJA_WRITER_OK ? w->length : 0;
}

#endif
