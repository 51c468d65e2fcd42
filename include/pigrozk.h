/* Travel times by nested regions: the seven calls, for C and C++.
 *
 * Link crates/pigrozk/out/libpigrozk.a, which `rt lib` in crates/pigrozk writes, for x86-64. Of other libraries it needs memcpy and memset alone.
 *
 * A sheet is bytes, each word of 32 bits with its most significant byte first, and so is a canonical form or a converted sheet. A table and the buffer of a
 * route are words in the machine's own order. What is lent is a pointer and a length: of a sheet, a canonical form or a converted sheet in bytes, of a table or
 * the buffer of a route in words. There is no other precondition than that of any such pair: the pointer is not null, even where the length is 0, it is aligned
 * for its type, that many items lie behind it, and what is written (the table of a run or a resume, the buffer of a route, of a canonical form or of a
 * converted sheet) overlaps nothing else that is lent. Each call answers for every content and every length, and ends. Nothing is allocated or kept, so calls
 * may be made in any number of threads.
 *
 * Each call returns one of the codes below. A refusal leaves all that was lent as it was.
 *
 * The words of a sheet: the top 4 bits are the kind, the low 28 the payload. In this order:
 *
 *     kind 1       once: the node count n
 *     kind 2       once: the source node
 *     kind 3       the spans for heights 1, 2, 3 and so on
 *     kind 13      none, or n: the holds at nodes 0, 1, 2 and so on, in hundredths of a second
 *     kinds 4, 5   in pairs, one arc each: tail in bits 19 to 10 and head in bits 9 to 0, then the length in hundredths of a second
 *     kinds 6, 7   in any mixture, one region each: an inner region's parent, or a leaf's parent in bits 22 to 11 and its arc in bits 10 to 0
 *
 * A route is as long as its arcs and the holds of the nodes between its ends together; the source's own hold is never charged. Distances, routes and possible
 * states are meant so: an arc's length is taken with its tail's hold added, 0 for the source.
 */
#ifndef PIGROZK_H
#define PIGROZK_H

#include <stddef.h>
#include <stdint.h>

#ifdef __cplusplus
extern "C" {
#endif

/* A stack of so many bytes has room for each call. No theorem speaks of a stack: tests/c/stack.c measures it, on a sheet of height 15, as 184,759 bytes for
 * a run, 184,935 for a resume, 61,671 for a canonical form, 14,711 for a route and 12,439 for a judgement, and on one of 36,924 bytes as 33,031 for a
 * conversion. */
#define PIGROZK_STACK_BYTES 196608

/* The limits of a sheet that is accepted. A node may have PIGROZK_MOST_ARCS_EACH_WAY arcs out of it, and as many into it. PIGROZK_MOST_LENGTH limits the length
 * of an arc, and its length with its tail's hold added, 0 for the source; so the source, and a node without outgoing arcs, may have any hold. */
#define PIGROZK_MOST_BYTES 36924
#define PIGROZK_MOST_NODES 1024
#define PIGROZK_MOST_SPANS 15
#define PIGROZK_MOST_SPAN 1000000
#define PIGROZK_MOST_ARCS 2048
#define PIGROZK_MOST_LENGTH 262143
#define PIGROZK_MOST_ARCS_EACH_WAY 4
#define PIGROZK_MOST_REGION_WORDS 4094

/* How many words a table has. For a sheet of n nodes and m arcs it has one of two forms: the usual one of 37 + 2n words, or the longer one of 37 + 2n + m. A
 * run fills the one whose length the lent table has, and a route is read out of either; of another length they answer 21. A resume takes the longer one alone.
 * With no arcs both have one length. PIGROZK_HEADER_WORDS of the words stand before those of the nodes: the status, and two words for each of 18 counts. These
 * are rounds, leaves worked, inner regions worked at each of the heights 1 to 15, updates. */
#define PIGROZK_COUNTS (3 + PIGROZK_MOST_SPANS)
#define PIGROZK_HEADER_WORDS (1 + 2 * PIGROZK_COUNTS)
#define PIGROZK_TABLE_WORDS(n) (PIGROZK_HEADER_WORDS + 2 * (size_t)(n))
#define PIGROZK_MOST_TABLE_WORDS (PIGROZK_HEADER_WORDS + 2 * PIGROZK_MOST_NODES)
#define PIGROZK_LONGER_TABLE_WORDS(n, m) (PIGROZK_TABLE_WORDS(n) + (size_t)(m))
#define PIGROZK_MOST_LONGER_TABLE_WORDS (PIGROZK_MOST_TABLE_WORDS + PIGROZK_MOST_ARCS)

/* A buffer of so many words has room for every route. */
#define PIGROZK_MOST_ROUTE_WORDS 1023

/* The words of a table: the top 4 bits are the kind, the low 28 the payload. Place 0 has kind 8: 1 ended, 0 paused. Places 1 to 36 have kind 11: the counts,
 * each as its high 28 bits, then its low 28; an inner count is 0 at a height that the sheet has no span for. Then for each node a word of kind 9, its
 * distance, and one of kind 10, its feeding arc. In the longer form then for each arc a word of kind 12: 1 if the arc's leaf has a key, else 0. */
#define PIGROZK_KIND(word) ((uint32_t)(word) >> 28)
#define PIGROZK_PAYLOAD(word) ((uint32_t)(word) & 268435455u)
/* The place of a count among the counts; of an inner count by its height, from 1 to PIGROZK_MOST_SPANS. */
#define PIGROZK_ROUNDS 0
#define PIGROZK_LEAVES 1
#define PIGROZK_INNER(height) (1 + (height))
#define PIGROZK_UPDATES (PIGROZK_COUNTS - 1)
/* The count at such a place in a table, below 2^56. */
#define PIGROZK_COUNT(table, at) ((uint64_t)PIGROZK_PAYLOAD((table)[1 + 2 * (at)]) << 28 | PIGROZK_PAYLOAD((table)[2 + 2 * (at)]))
/* Where the words of a node stand in a table. */
#define PIGROZK_DISTANCE_AT(node) (PIGROZK_HEADER_WORDS + 2 * (size_t)(node))
#define PIGROZK_FEEDING_ARC_AT(node) (PIGROZK_DISTANCE_AT(node) + 1)
/* Where the key word of an arc stands in the longer table of a sheet of n nodes. */
#define PIGROZK_KEY_AT(n, arc) (PIGROZK_TABLE_WORDS(n) + (size_t)(arc))
/* The payload that says 'unreached' in kind 9 and 'no arc' in kind 10. */
#define PIGROZK_NONE 268435455u

/* The codes. A number from 1 to 99 is that of a refusal; which of them say that the input was at fault, which that the state was:
 *
 *     1 to 14  input  the sheet, in every call
 *     15       input  the node of a route is not below the node count
 *     21       state  the table of a run or a route has the length of neither form
 *     22       state  the table has a wrong kind at a place, a status above 1, a feeding arc that is neither an arc nor 'none' or a key word above 1
 *     23       state  the table is paused
 *     24       state  the table's distances or feeding arcs are not shortest for this sheet
 *     25       state  the buffer is shorter than the route
 *     31       input  the buffer is shorter than the canonical form or the converted sheet
 *     32       state  the table of a resume has not the longer length, or is at fault as in 22
 *     33       state  the table of a resume is not a possible state
 *     34       input  the sheet, in every call: a tail's hold (0 for the source) and the arc's length are above 262,143 together
 *     35       input  the sheet, in every call but the conversion: an arc from a node to itself
 *
 * Of several the first that applies is given, 34 after 9 and before 10, 35 after 10 and before 11, 31 after 14; of a resume those of the sheet, then 32, then
 * 33. A number of holds that is neither 0 nor n is 2. */
#define PIGROZK_IS_REFUSED(code) ((code) < 100u)
#define PIGROZK_IS_FROM_STATE(code) \
    ((code) == 21u || (code) == 22u || (code) == 23u || (code) == 24u || (code) == 25u || (code) == 32u || (code) == 33u)
#define PIGROZK_IS_FROM_INPUT(code) (PIGROZK_IS_REFUSED(code) && !PIGROZK_IS_FROM_STATE(code))
#define PIGROZK_ACCEPTED 256u
#define PIGROZK_PAUSED 257u
#define PIGROZK_ENDED 258u
#define PIGROZK_NO_ROUTE 259u
/* A route: 65,536 and the count of its arcs. */
#define PIGROZK_ROUTE 65536u
#define PIGROZK_IS_ROUTE(code) ((code) >= PIGROZK_ROUTE && (code) < PIGROZK_WRITTEN)
#define PIGROZK_ROUTE_ARCS(code) ((code) - PIGROZK_ROUTE)
/* A canonical form or a converted sheet: 131,072 and the count of its bytes. */
#define PIGROZK_WRITTEN 131072u
#define PIGROZK_IS_WRITTEN(code) ((code) >= PIGROZK_WRITTEN)
#define PIGROZK_WRITTEN_BYTES(code) ((code) - PIGROZK_WRITTEN)

/* Judges a sheet: accepted, or a refusal of the sheet, 1 to 14, 34 or 35. */
uint32_t pigrozk_judge(const uint8_t *sheet, size_t sheet_bytes);

/* Runs a sheet to its end and fills the table, in the form whose length it has: ended, or a refusal of the sheet or 21. */
uint32_t pigrozk_run(const uint8_t *sheet, size_t sheet_bytes, uint32_t *table, size_t table_words);

/* The same for at most so many rounds: ended, paused, or a refusal of the sheet or 21. */
uint32_t pigrozk_run_limited(const uint8_t *sheet, size_t sheet_bytes, uint32_t rounds, uint32_t *table, size_t table_words);

/* Goes on from a longer table for at most so many rounds more, and writes the new state over the old. The sheet has the nodes, source, holds, arcs and division
 * of the one that the table is from, and the spans by which the rounds are to be made, which may be others. Counts carry on. A table is a possible state if,
 * lengths being those with holds:
 *
 *     the source is at 0 and has no feeding arc;
 *     every other reached node is fed along a chain from the source, and not below its feeder's label plus the arc's length;
 *     an unreached node has no feeding arc, and no arc that leaves it has a key;
 *     an arc without a key, from a reached node, has its head's label at most its tail's plus its length;
 *     no reached node's label exceeds 262,143 times the number of reached nodes less one;
 *     each count is below 2^55, and 0 at a height that the sheet has no span for;
 *     it is ended exactly when no arc has a key.
 *
 * Every longer table that a run leaves is one. From a table whose counts are below 2^54, as every run's are, each further table is one, however often spans are
 * changed at breaks; the rounds come to an end, and the distances are then shortest; and with the same spans rounds in parts leave what rounds together do. An
 * ended table is given back. Ended, paused, or a refusal of the sheet, 32 or 33. */
uint32_t pigrozk_resume(const uint8_t *sheet, size_t sheet_bytes, uint32_t rounds, uint32_t *table, size_t table_words);

/* Reads the route to a node out of a finished table of either form: the numbers of its arcs, from the source on, stand at the front of the buffer, and the
 * rest of the buffer stays. A route, no route, or a refusal of the sheet, 15 or 21 to 25. */
uint32_t pigrozk_route(const uint8_t *sheet, size_t sheet_bytes, const uint32_t *table, size_t table_words, uint32_t node, uint32_t *buffer,
                       size_t buffer_words);

/* Writes the canonical form of a sheet: the words of kinds 1 to 5 and 13 as given, the regions numbered parent first and depth first from region 0, children in
 * order of the lowest arc that they hold. Two sheets have the same one exactly when they share nodes, source, spans, holds, arcs and nesting; then their
 * distances are the same, but not always their tables, since ties between regions of one height go by region number. It is as long as the sheet and stands at
 * the front of the buffer, and the rest of the buffer stays; PIGROZK_MOST_BYTES are room for every one. Written, or a refusal of the sheet or 31. */
uint32_t pigrozk_canonical(const uint8_t *sheet, size_t sheet_bytes, uint8_t *out, size_t out_bytes);

/* Writes a sheet without its self-arcs, the arcs from a node to itself. These and their leaves are dropped, then inner regions other than 0 that are left
 * childless, until none is; what is left is numbered anew in its old order, and spans above the new height are dropped. Node count, source and holds are as
 * given. The sheet is judged with 35 left out. The converted one is accepted and has the distances that the old sheet had; a sheet without self-arcs is its own
 * conversion. It is no longer than the sheet and stands at the front of the buffer, and the rest of the buffer stays. Written, or a refusal of the sheet, 1 to
 * 14 or 34, or 31. */
uint32_t pigrozk_convert(const uint8_t *sheet, size_t sheet_bytes, uint8_t *out, size_t out_bytes);

#ifdef __cplusplus
}
#endif

#endif
