/* The lot store for programs in C: the public entries, exported by crate `boundary_c`, proved. A lot is a node, a transfer between lots is an edge.
 *
 * `wrapper/archive` writes target/staticlib/liblots.a, to be linked; wrapper/tests/header.c is a small program that uses it.
 *
 * What every function needs: each slice is a pointer, not NULL even where the length is 0, and a number of words that can be read there (and written where the
 * pointer is not const); no written slice overlaps another slice of the call. Nothing else: counts, words and lengths may be anything.
 *
 * What every function answers: number 0 and a value, or the number of a refusal. A call that refuses writes nothing, but for the work slice of lot_nearest.
 * Words past the length that a slice needs (below, at LOT_STORE_READ) are never written, nor those past an answer's end.
 *
 *   number  cause                                        value
 *   0       done                                         as each function says
 *   1       the words are no store                       the first broken rule, 1 to 7
 *   2       a lent slice is too short                    the length needed
 *   3       a strip is not a multiple of five words      its length
 *   5       a node at or above the bound                 LOT_NONE
 *   6       a removed node                               LOT_NONE
 *   7       an edge at or above the bound                LOT_NONE
 *   8       a removed edge                               LOT_NONE
 *   10      joined books that exceed the memory          LOT_NONE (lot_join)
 *   12      bytes that are no image                      the first broken rule, 1 to 6 (lot_read_image)
 *   13      a capacity above 32,768                      that capacity
 *   14      no chain from one node to another            LOT_NONE
 *   15      more lots or transfers than the skid takes   that capacity, or the image's count (lot_skid_fresh, lot_skid_read_image)
 *
 * Operations of a strip are refused by themselves (lot_strip). docs/ENTRIES.md tells the same of the Rattle functions, with the definition that each is proved
 * equal to.
 */
#ifndef LOTS_H
#define LOTS_H

#include <stddef.h>
#include <stdint.h>

#ifdef __cplusplus
extern "C" {
#endif

/* "None" where a slot is answered. */
#define LOT_NONE UINT32_C(4294967295)
/* The most node slots, and the most edge slots. */
#define LOT_LIMIT 32768
/* The most node slots, and the most edge slots, of the skid. */
#define LOT_SKID_NODES 64
#define LOT_SKID_EDGES 128
/* The words of `outgoing` and of `incoming`, and of live bits, for so many slots. */
#define LOT_AXIS_WORDS(nodes, edges) (4 * (size_t)(edges) + 6 * (size_t)(nodes) + 1)
#define LOT_LIVE_WORDS(slots) (((size_t)(slots) + 63) / 64)
/* The words that lot_nearest borrows. */
#define LOT_NEAREST_WORDS(nodes) (2 * (size_t)(nodes))

/* The counts of one kind of slot: all slots, those that the compressed base holds, those that are live. */
typedef struct {
    uint32_t bound;
    uint32_t base;
    uint32_t live;
} lot_slots;

/* The counts of a store, beside its seven slices. */
typedef struct {
    lot_slots nodes;
    lot_slots edges;
} lot_counts;

typedef struct {
    uint32_t number;
    uint64_t value;
} lot_answer;

/* What a call answers that makes or changes a store: the counts afterwards too. */
typedef struct {
    uint32_t number;
    uint64_t value;
    lot_counts counts;
} lot_changed;

/* The payload of an edge: its lowest and its highest weight. */
typedef struct {
    uint32_t low;
    uint32_t high;
} lot_payload;

/* What reading a record answers; the ends and the payload are 0 where it is refused. */
typedef struct {
    uint32_t number;
    uint64_t value;
    uint32_t source;
    uint32_t target;
    lot_payload payload;
} lot_record;

/* What a total answers: the sums of the lows and of the highs of a list; both are 0 where it is refused. */
typedef struct {
    uint32_t number;
    uint64_t value;
    uint64_t low;
    uint64_t high;
} lot_total;

/* A store is its counts and seven slices, which the caller owns:
 *   nodes       payloads of nodes; the length is the node capacity N
 *   lows        the lowest weights of edges; the length is the edge capacity E
 *   highs       the highest weights of edges, E
 *   live_nodes  LOT_LIVE_WORDS(N)
 *   live_edges  LOT_LIVE_WORDS(E)
 *   outgoing    LOT_AXIS_WORDS(N, E)
 *   incoming    LOT_AXIS_WORDS(N, E)
 * Longer ones are taken. */
#define LOT_STORE_READ                                                                                                                               \
    const uint32_t *nodes, size_t nodes_length, const uint32_t *lows, size_t lows_length, const uint32_t *highs, size_t highs_length,                 \
        const uint64_t *live_nodes, size_t live_nodes_length, const uint64_t *live_edges, size_t live_edges_length, const uint32_t *outgoing,         \
        size_t outgoing_length, const uint32_t *incoming, size_t incoming_length
#define LOT_STORE_WRITTEN                                                                                                                            \
    uint32_t *nodes, size_t nodes_length, uint32_t *lows, size_t lows_length, uint32_t *highs, size_t highs_length, uint64_t *live_nodes,             \
        size_t live_nodes_length, uint64_t *live_edges, size_t live_edges_length, uint32_t *outgoing, size_t outgoing_length, uint32_t *incoming,     \
        size_t incoming_length

/* ---- making and changing a store */

/* A fresh store in this memory. Answers 0, with counts that are all 0 (also beside a refusal). Leaves every word: with no slot none is read. Refuses 13 (nodes
 * before edges), then 2 in the order of the slices. */
lot_changed lot_fresh(LOT_STORE_READ);

/* The operations of a strip in turn, five words each: code, first, second, low, high; an unused word is 0. Each leaves two words in `answers`, number and value.
 *
 *   code                  words                      value                              refusals in order
 *   1  add node           0, 0, payload, 0           the new slot                       4, 10
 *   2  add edge           source, target, low, high  the new slot                       4, 16, source 5, 6, target 5, 6, 10
 *   3  remove edge        edge, 0, 0, 0              1, or 0 where nothing live was     4
 *   4  remove node        node, 0, 0, 0              1, or 0 where nothing live was     4
 *   5  redirect source    edge, node, 0, 0           the previous source                4, 7, 8, 5, 6
 *   6  redirect target    edge, node, 0, 0           the previous target                4, 7, 8, 5, 6
 *   7  move out-list      old, new, 0, 0             the edges moved                    4, 9, old 5; an empty list is done, 0; new 5, 6
 *   8  move in-list       old, new, 0, 0             the edges moved                    4, 9, old 5; an empty list is done, 0; new 5, 6
 *   9  set edge payload   edge, 0, low, high         0                                  4, 16, 7
 *
 * 4 is an unknown code or an unused word that is not 0, 9 a move onto itself, 10 a bound that equals the capacity, 16 a low above its high; the
 * value of a refused operation is LOT_NONE. A refused operation changes nothing and the strip goes on.
 *
 * Answers 0, with the counts afterwards, which the next call takes. Refuses 1, then 3, then 2 (two words an operation); then the counts are those given. Leaves
 * the words of `answers` past the answers. */
lot_changed lot_strip(lot_counts counts, LOT_STORE_WRITTEN, const uint32_t *words, size_t words_length, uint32_t *answers, size_t answers_length);

/* Compaction: drops the removed slots and numbers the live ones from 0 in slot order; the bounds are then their counts. Writes to `node_map` and `edge_map` the
 * new slot of every slot before, LOT_NONE where it was removed, and to `work` the out-lists of all nodes, joined, and then the in-lists, by the new numbers
 * and each in its order.
 *
 * Answers 0, with the counts afterwards, which the next call takes. Refuses 1, then 2: `node_map` (the node bound), `edge_map` (the edge bound), `work` (twice the
 * live edges); then the counts are those given. Leaves the words of the three slices past what is needed. */
lot_changed lot_compact(lot_counts counts, LOT_STORE_WRITTEN, uint32_t *node_map, size_t node_map_length, uint32_t *edge_map, size_t edge_map_length,
    uint32_t *work, size_t work_length);

/* The store of an image in place of all that was there. The result is what a compaction leaves: every slot live, all in the base.
 *
 * Answers 0, with the counts of the image, which the next call takes. Refuses 13 (nodes before edges), then 12 with the first broken rule, then 2: `nodes` shorter
 * than the image's node count, `lows` shorter than its edge count, then the other slices in their order; then the counts are those given. The rules of 12:
 *   1  under 4 bytes                        4  a padding bit that is not 0
 *   2  a count above 32,768                 5  an end that is not below the node count, or a low above its high
 *   3  a length that the counts do not give 6  a list entry not below the edge count, repeated, or at the wrong node
 * What was there is not checked, and need not be a store: counts of any content are taken. */
lot_changed lot_read_image(lot_counts counts, LOT_STORE_WRITTEN, const uint8_t *bytes, size_t bytes_length);

/* Two stores joined in a third memory, as a compaction leaves one: the live nodes of the first in slot order, then those of the second, edges likewise, each list in
 * its order. Writes to the maps the new slot of every slot of its book, LOT_NONE where it was removed. The two stores are only read, and may be the same; what was in
 * the third memory is not checked, and need not be a store.
 *
 * Answers 0, with the counts of the third memory, which the next call takes. Refuses 1 for the first store, 1 for the second, 13 for the third memory (nodes before
 * edges), 2 for its other slices in their order, 10 where the live nodes or edges of both are more than its capacity, 2 for a map: `first_node_map` (the node bound of
 * the first), `first_edge_map` (its edge bound), `second_node_map`, `second_edge_map`; then the counts are all 0, and every word is as it was: a store in that memory
 * goes on by the counts that it had. Leaves the words of the maps past what is needed. */
lot_changed lot_join(lot_counts first, const uint32_t *first_nodes, size_t first_nodes_length, const uint32_t *first_lows, size_t first_lows_length,
    const uint32_t *first_highs, size_t first_highs_length, const uint64_t *first_live_nodes, size_t first_live_nodes_length, const uint64_t *first_live_edges,
    size_t first_live_edges_length, const uint32_t *first_outgoing, size_t first_outgoing_length, const uint32_t *first_incoming, size_t first_incoming_length,
    lot_counts second, const uint32_t *second_nodes, size_t second_nodes_length, const uint32_t *second_lows, size_t second_lows_length,
    const uint32_t *second_highs, size_t second_highs_length, const uint64_t *second_live_nodes, size_t second_live_nodes_length,
    const uint64_t *second_live_edges, size_t second_live_edges_length, const uint32_t *second_outgoing, size_t second_outgoing_length,
    const uint32_t *second_incoming, size_t second_incoming_length, LOT_STORE_WRITTEN, uint32_t *first_node_map, size_t first_node_map_length,
    uint32_t *first_edge_map, size_t first_edge_map_length, uint32_t *second_node_map, size_t second_node_map_length, uint32_t *second_edge_map,
    size_t second_edge_map_length);

/* ---- the skid that washes tanks: the two calls that ask for its limits. Every other call is the same for both devices. */

/* lot_fresh within the skid's limits. Refuses 15 (nodes before edges) in place of 13, then 2. */
lot_changed lot_skid_fresh(LOT_STORE_READ);

/* lot_read_image within the skid's limits. Refuses 15 with a capacity (nodes before edges) in place of 13, then 12, then 15 with a count of the image (likewise), then 2. Rule 2
 * of 12 is the same. */
lot_changed lot_skid_read_image(lot_counts counts, LOT_STORE_WRITTEN, const uint8_t *bytes, size_t bytes_length);

/* Whether the words are a store. Answers 0. Refuses 1. Every function below that takes a store makes the same check first. */
lot_answer lot_check(lot_counts counts, LOT_STORE_READ);

/* ---- reads of a node's list; of a removed node it is empty */

/* How many edges the out-list, the in-list has. Refuses 1, 5. */
lot_answer lot_out_degree(lot_counts counts, LOT_STORE_READ, uint32_t node);
lot_answer lot_in_degree(lot_counts counts, LOT_STORE_READ, uint32_t node);

/* The sums of the lows and of the highs of the out-list, the in-list, each exact: weights within the ranges sum to between them. Answers 0. Refuses 1, 5. */
lot_total lot_out_total(lot_counts counts, LOT_STORE_READ, uint32_t node);
lot_total lot_in_total(lot_counts counts, LOT_STORE_READ, uint32_t node);

/* The edges of the out-list, the in-list, in order, at the start of `slots`. Answers how many. Refuses 1, 5, 2. Leaves the words of `slots` past them. */
lot_answer lot_outgoing(lot_counts counts, LOT_STORE_READ, uint32_t node, uint32_t *slots, size_t slots_length);
lot_answer lot_incoming(lot_counts counts, LOT_STORE_READ, uint32_t node, uint32_t *slots, size_t slots_length);

/* The same of the targets of the out-list, the sources of the in-list. */
lot_answer lot_successors(lot_counts counts, LOT_STORE_READ, uint32_t node, uint32_t *slots, size_t slots_length);
lot_answer lot_predecessors(lot_counts counts, LOT_STORE_READ, uint32_t node, uint32_t *slots, size_t slots_length);

/* The first edge of the out-list of `first` that ends at `second`, or LOT_NONE where there is none and only then. Refuses 1, first 5, second 5. */
lot_answer lot_find(lot_counts counts, LOT_STORE_READ, uint32_t first, uint32_t second);

/* The shortest chain of live edges, following their direction, from `first` to `second`, at the start of `chain`; among equal lengths the one whose first
 * edge stands earliest in the out-list, then its second, and so on. A node reaches itself by the empty chain. Answers its length. Refuses 1, first 5, 6,
 * second 5, 6, 2 for `work` (LOT_NEAREST_WORDS(N)), 14 where there is no chain and only then, 2 for `chain` (its length). The words of `work` may hold anything;
 * these first ones are 0 after 0, 14 and the last 2. Leaves the words of both slices past them, and where it refuses `chain` and, but for 14 and the last 2,
 * `work`. */
lot_answer lot_nearest(lot_counts counts, LOT_STORE_READ, uint32_t first, uint32_t second, uint32_t *work, size_t work_length, uint32_t *chain,
                       size_t chain_length);

/* ---- reads of a slot */

/* The payload of a node, of a removed one too. Refuses 1, 5. */
lot_answer lot_node_payload(lot_counts counts, LOT_STORE_READ, uint32_t node);

/* The ends and the payload of an edge, of a removed one too, which keeps its last ends. Answers 0. Refuses 1, 7. */
lot_record lot_edge_record(lot_counts counts, LOT_STORE_READ, uint32_t edge);

/* The same of a live edge only. Refuses 1, 7, 8. */
lot_record lot_live_edge_record(lot_counts counts, LOT_STORE_READ, uint32_t edge);

/* 1 if the slot is live, else 0, also at or above the bound. Refuses 1. */
lot_answer lot_contains_node(lot_counts counts, LOT_STORE_READ, uint32_t node);
lot_answer lot_contains_edge(lot_counts counts, LOT_STORE_READ, uint32_t edge);

/* ---- reads of the whole store */

/* How many slots there are, removed ones too. Refuses 1. */
lot_answer lot_node_bound(lot_counts counts, LOT_STORE_READ);
lot_answer lot_edge_bound(lot_counts counts, LOT_STORE_READ);

/* How many slots are live. Refuses 1. */
lot_answer lot_node_count(lot_counts counts, LOT_STORE_READ);
lot_answer lot_edge_count(lot_counts counts, LOT_STORE_READ);

/* 1 if no node is live, else 0. Refuses 1. */
lot_answer lot_is_empty(lot_counts counts, LOT_STORE_READ);

/* 1 if the store is as a compaction leaves it: all slots in the base, none removed, no run; else 0. Refuses 1. */
lot_answer lot_is_compact(lot_counts counts, LOT_STORE_READ);

/* The live slots in slot order, at the start of `slots`. Answers how many. Refuses 1, 2. Leaves the words of `slots` past them. */
lot_answer lot_node_ids(lot_counts counts, LOT_STORE_READ, uint32_t *slots, size_t slots_length);
lot_answer lot_edge_ids(lot_counts counts, LOT_STORE_READ, uint32_t *slots, size_t slots_length);

/* The image of the store, compact or not, at the start of `bytes`: what a compaction followed by writing would give, while the store keeps every word. It is
 * bit-packed, most significant bit first, and the same for stores in which the same is live. Answers how many bytes. Refuses 1, then 2: `work` (twice the live
 * edges), `bytes`. Where it answers 0, the words of `work` that are needed hold anything afterwards; leaves the words past them, and the bytes past the image. */
lot_answer lot_write_image(lot_counts counts, LOT_STORE_READ, uint32_t *work, size_t work_length, uint8_t *bytes, size_t bytes_length);

/* ---- maps of compactions: at each old slot the new one, or LOT_NONE where it was removed */

/* The new slot, or LOT_NONE, also past the map's end. Refuses nothing. */
lot_answer lot_lookup(const uint32_t *renumbering, size_t renumbering_length, uint32_t slot);

/* The first map, then the second, at the start of `result`. A short second map gives LOT_NONE. Answers 0. Refuses 2 (the first map's length). Leaves the words of
 * `result` past them. */
lot_answer lot_compose(const uint32_t *first, size_t first_length, const uint32_t *second, size_t second_length, uint32_t *result, size_t result_length);

/* 1 if both maps hold i at each i, else 0. Refuses nothing. */
lot_answer lot_is_identity(const uint32_t *nodes, size_t nodes_length, const uint32_t *edges, size_t edges_length);

#ifdef __cplusplus
}
#endif

#endif
