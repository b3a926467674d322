/*
 * The C interface of the checker of XML element content models.
 *
 * It answers to document 01, "The required build and its rules": the words (model text, tree table, slot, name number,
 * refusal, place, child text) and the numbers of the refusals are that document's.
 *
 * Link with libexports.a (x86-64). A lent slice is two arguments: a pointer, then a length in bytes. No pointer may be
 * NULL, also where its length is 0, and a slice that is written may not overlap another. The functions hold no state,
 * keep no pointer and take no memory; they can be called from any thread.
 *
 * On refusal no lent byte changes. On success only the answer's own bytes change: what a function says it writes, from
 * the start of the room on. Every length is answered, and every content of every slice.
 */
#ifndef SLOTS_H
#define SLOTS_H

#include <stddef.h>
#include <stdint.h>

#ifdef __cplusplus
extern "C" {
#endif

/* An answer is sort * 2^56 + a * 2^32 + b * 2^16 + c. A field that an answer does not name is 0. */
#define SLOTS_SORT(answer) ((unsigned)((uint64_t)(answer) >> 56))              /* 8 bits */
#define SLOTS_A(answer) ((uint32_t)((uint64_t)(answer) >> 32 & 0xFFFFFFu))     /* 24 bits */
#define SLOTS_B(answer) ((uint32_t)((uint64_t)(answer) >> 16 & 0xFFFFu))       /* 16 bits */
#define SLOTS_C(answer) ((uint32_t)((uint64_t)(answer) & 0xFFFFu))             /* 16 bits */

/* The rooms, in bytes. A smaller one is refused (2, 18, 25), whatever would be needed. */
#define SLOTS_TABLE_ROOM 5252
#define SLOTS_TEXT_ROOM 4096
#define SLOTS_SLOT_ROOM 8192

/* The limits: bytes of a model text, of child text and of a name; open groups, slots, distinct names and nodes. */
#define SLOTS_TEXT_MOST 4096
#define SLOTS_CHILDREN_MOST 16384
#define SLOTS_NAME_MOST 64
#define SLOTS_GROUPS_MOST 32
#define SLOTS_SLOTS_MOST 128
#define SLOTS_NAMES_MOST 128
#define SLOTS_NODES_MOST 512

/* Sorts. Every other sort is the number of a refusal, with a = its place. */
#define SLOTS_OK 0             /* slots_read, slots_write, slots_count */
#define SLOTS_DETERMINISTIC 0  /* slots_judge */
#define SLOTS_AMBIGUOUS 24     /* slots_judge, slots_match, slots_step: a, b, c = p, x, y */
#define SLOTS_ALLOWED 0        /* slots_match */
#define SLOTS_STOPPED 1
#define SLOTS_SHORT 2
#define SLOTS_NEXT 0           /* slots_step */
#define SLOTS_NONE 1
#define SLOTS_PART_CHILDREN 0  /* slots_part */
#define SLOTS_PART_TABLE 1
#define SLOTS_PART_END 2

/*
 * The refusals and their places.
 *
 *    1  model text over 4,096 bytes: 4,096
 *    2  table room under 5,252 bytes: 0
 *    3  a byte that the grammar uses nowhere: its offset
 *    4  the text so far begins a model, but not with this byte, or it ends too soon: its offset, or the length
 *    5  name over 64: its 65th byte
 *    6  33rd open group: its bracket
 *    7  129th slot: the name's first byte
 *    8  513th node: its first byte
 *   11  table under 4 bytes
 *   12  node count not 2 to 512, or name count not 1 to 128
 *   13  nodes are not one whole tree under a group, a member count too small, kind 3, a name number too high, or node
 *       bytes missing
 *   14  a name's length, bytes or end wrong, bytes left over, or two names equal
 *   15  name numbers not in order of first use, or one unused
 *   16  over 32 nested groups or 128 slots
 *   17  its text would pass 4,096 bytes
 *   18  text room under 4,096 bytes
 *   21  child text over 16,384 bytes: 16,384
 *   22  a byte in child text that is neither white space nor right for a name there: its offset
 *   23  child name over 64: its 65th byte
 *   24  model ambiguous, with p, x, y
 *   25  slot room under 8,192 bytes
 *   26  a step from a slot above the model's last
 *
 * The place of 11 to 18 and of 24 to 26 is 0. Order. Reading: 1, 2, then the least place among 3 to 8, the lower number
 * on a tie. Every function that takes a table: 11 to 17 in order; then 18 when writing. Matching: then 24, 25, 21, then
 * the least place of 22 and 23. A single step: then 24, 26.
 */

/* Reads a model text and writes its tree table. SLOTS_OK: a = the table's length. Refusals 1 to 8. */
uint64_t slots_read(const uint8_t *text, size_t text_len, uint8_t *table, size_t table_len);

/* Writes a table's text, without white space. SLOTS_OK: a = the text's length. Refusals 11 to 18. */
uint64_t slots_write(const uint8_t *table, size_t table_len, uint8_t *text, size_t text_len);

/*
 * The verdict. SLOTS_DETERMINISTIC, or SLOTS_AMBIGUOUS: a, b, c = p, x, y, where two allowed numbered lists share a
 * beginning that ends in slot p (0: an empty beginning) and then go to the slots x < y of the same name; the smallest
 * p, then the smallest x, then the smallest y. Refusals 11 to 17. It writes nothing.
 */
uint64_t slots_judge(const uint8_t *table, size_t table_len);

/* A table's counts. SLOTS_OK: a, b, c = nodes, slots, names. Refusals 11 to 17. */
uint64_t slots_count(const uint8_t *table, size_t table_len);

/*
 * Matches child text (names between runs of white space) and writes one byte, the slot, for each child placed.
 * SLOTS_ALLOWED: a = the number of children. SLOTS_STOPPED: a = k, the child (from 1) that cannot be placed, b = the
 * slot held before it; k - 1 bytes are written. SLOTS_SHORT: all children are placed but the list is no allowed one;
 * a = their number, b = the slot held. Refusals 11 to 17, 24, 25, 21, 22, 23.
 */
uint64_t slots_match(const uint8_t *table, size_t table_len, const uint8_t *children, size_t children_len,
                     uint8_t *slots, size_t slots_len);

/*
 * A single step from a slot (0: the start) by a name, given as any bytes. SLOTS_NEXT: a = the next slot; SLOTS_NONE:
 * there is none. Refusals 11 to 17, 24, 26.
 */
uint64_t slots_step(const uint8_t *table, size_t table_len, size_t slot, const uint8_t *name, size_t name_len);

/*
 * The name that a match's answer speaks of, as a part of what was lent. SLOTS_PART_CHILDREN, for stopped: the child's
 * name; SLOTS_PART_TABLE, for short at a slot that is not 0: the held slot's name; a = where the part starts in that
 * slice, b = its length. SLOTS_PART_END, for everything else, every refusal too: the empty part at the child text's
 * end.
 */
uint64_t slots_part(const uint8_t *table, size_t table_len, const uint8_t *children, size_t children_len);

#ifdef __cplusplus
}
#endif

#endif
