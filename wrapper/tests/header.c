/* A small program in C over lots.h: every function once, the layout of every struct, and answers that document 01 fixes. Ends with status 0 if all hold. */
#include <stdio.h>
#include <stdlib.h>
#include <string.h>

#include "lots.h"

_Static_assert(sizeof(lot_counts) == 24 && offsetof(lot_counts, edges) == 12 && offsetof(lot_slots, live) == 8, "counts");
_Static_assert(sizeof(lot_answer) == 16 && offsetof(lot_answer, value) == 8, "answer");
_Static_assert(sizeof(lot_changed) == 40 && offsetof(lot_changed, counts) == 16, "changed");
_Static_assert(sizeof(lot_payload) == 8 && offsetof(lot_payload, high) == 4, "payload");
_Static_assert(sizeof(lot_record) == 32 && offsetof(lot_record, source) == 16 && offsetof(lot_record, payload) == 24, "record");
_Static_assert(sizeof(lot_total) == 32 && offsetof(lot_total, low) == 16 && offsetof(lot_total, high) == 24, "total");

enum { NODES = 3, EDGES = 4 };

static uint32_t nodes[NODES], lows[EDGES], highs[EDGES], outgoing[LOT_AXIS_WORDS(NODES, EDGES)], incoming[LOT_AXIS_WORDS(NODES, EDGES)];
static uint64_t live_nodes[LOT_LIVE_WORDS(NODES)], live_edges[LOT_LIVE_WORDS(EDGES)];

#define LENGTH(slice) (sizeof(slice) / sizeof(slice)[0])
#define SLICE(slice) slice, LENGTH(slice)
#define STORE SLICE(nodes), SLICE(lows), SLICE(highs), SLICE(live_nodes), SLICE(live_edges), SLICE(outgoing), SLICE(incoming)

static int failed;

static void expect(const char *what, uint64_t number, uint64_t value, uint64_t expected_number, uint64_t expected_value) {
    if (number == expected_number && value == expected_value)
        return;
    printf("%s: %llu %llu, expected %llu %llu\n", what, (unsigned long long)number, (unsigned long long)value, (unsigned long long)expected_number,
           (unsigned long long)expected_value);
    failed = 1;
}

#define ANSWERS(call, number_, value_)                           \
    do {                                                         \
        lot_answer answer = call;                                \
        expect(#call, answer.number, answer.value, number_, value_); \
    } while (0)

int main(void) {
    lot_changed changed = lot_fresh(STORE);
    expect("fresh", changed.number, changed.value, 0, 0);
    lot_counts counts = changed.counts;
    ANSWERS(lot_is_empty(counts, STORE), 0, 1);
    ANSWERS(lot_is_compact(counts, STORE), 0, 1);

    /* Nodes 0 to 2; edges 0 and 1 from 0 to 1, 2 a loop at 1; node 2 removed; a move onto itself; a low above its high; edge 1 removed. */
    static const uint32_t strip[] = {1, 0, 0, 7, 0, 1, 0, 0, 9, 0, 1, 0, 0, 11, 0, 2, 0, 1, 5, 6, 2, 0, 1, 6, 6, 2, 1, 1, 8, 8,
                                     4, 2, 0, 0, 0, 7, 0, 0, 0, 0, 9, 0, 0, 7, 6, 3, 1, 0, 0, 0};
    static const uint32_t expected[] = {0, 0, 0, 1, 0, 2, 0, 0, 0, 1, 0, 2, 0, 1, 9, LOT_NONE, 16, LOT_NONE, 0, 1};
    uint32_t answers[LENGTH(expected)];
    changed = lot_strip(counts, STORE, SLICE(strip), answers, 3);
    expect("a strip with too few words of answer", changed.number, changed.value, 2, LENGTH(expected));
    changed = lot_strip(counts, STORE, SLICE(strip), SLICE(answers));
    expect("strip", changed.number, changed.value, 0, 0);
    for (size_t i = 0; i < LENGTH(expected); i++)
        expect("word of the answers", i, answers[i], i, expected[i]);
    counts = changed.counts;
    expect("counts of nodes", counts.nodes.bound, counts.nodes.live, 3, 2);
    expect("counts of edges", counts.edges.bound, counts.edges.live, 3, 2);

    ANSWERS(lot_check(counts, STORE), 0, 0);
    ANSWERS(lot_out_degree(counts, STORE, 0), 0, 1);
    ANSWERS(lot_in_degree(counts, STORE, 1), 0, 2);
    lot_total total = lot_in_total(counts, STORE, 1);
    expect("total", total.number, total.value, 0, 0);
    expect("sums", total.low, total.high, 5 + 8, 6 + 8);
    total = lot_out_total(counts, STORE, 0);
    expect("sums of the out-list", total.low, total.high, 5, 6);
    total = lot_out_total(counts, STORE, 3);
    expect("total out of range", total.number, total.value, 5, LOT_NONE);
    expect("refused total", total.low, total.high, 0, 0);
    uint32_t slots[3] = {77, 77, 77};
    ANSWERS(lot_incoming(counts, STORE, 1, slots, 1), 2, 2);
    expect("refused", slots[0], slots[1], 77, 77);
    ANSWERS(lot_incoming(counts, STORE, 1, SLICE(slots)), 0, 2);
    expect("in-list", slots[0], slots[1], 0, 2);
    ANSWERS(lot_predecessors(counts, STORE, 1, SLICE(slots)), 0, 2);
    expect("sources", slots[0], slots[1], 0, 1);
    ANSWERS(lot_outgoing(counts, STORE, 0, SLICE(slots)), 0, 1);
    expect("out-list", slots[0], slots[1], 0, 1);
    ANSWERS(lot_successors(counts, STORE, 0, SLICE(slots)), 0, 1);
    expect("targets", slots[0], slots[1], 1, 1);
    ANSWERS(lot_find(counts, STORE, 0, 1), 0, 0);
    ANSWERS(lot_find(counts, STORE, 1, 0), 0, LOT_NONE);
    ANSWERS(lot_find(counts, STORE, 0, 3), 5, LOT_NONE);
    uint32_t borrowed[LOT_NEAREST_WORDS(NODES) + 1] = {9, 9, 9, 9, 9, 9, 9}, chain[2] = {77, 77};
    ANSWERS(lot_nearest(counts, STORE, 2, 3, borrowed, 5, SLICE(chain)), 6, LOT_NONE);
    ANSWERS(lot_nearest(counts, STORE, 0, 3, borrowed, 5, SLICE(chain)), 5, LOT_NONE);
    ANSWERS(lot_nearest(counts, STORE, 1, 0, borrowed, 5, SLICE(chain)), 2, LOT_NEAREST_WORDS(NODES));
    expect("borrowed words where nothing is searched", borrowed[0], borrowed[5], 9, 9);
    ANSWERS(lot_nearest(counts, STORE, 1, 0, SLICE(borrowed), chain, 0), 14, LOT_NONE);
    expect("borrowed words", borrowed[0] | borrowed[5], borrowed[6], 0, 9);
    ANSWERS(lot_nearest(counts, STORE, 0, 1, SLICE(borrowed), chain, 0), 2, 1);
    ANSWERS(lot_nearest(counts, STORE, 1, 1, SLICE(borrowed), chain, 0), 0, 0);
    expect("no chain written", chain[0], chain[1], 77, 77);
    ANSWERS(lot_nearest(counts, STORE, 0, 1, SLICE(borrowed), SLICE(chain)), 0, 1);
    expect("chain", chain[0], chain[1], 0, 77);
    ANSWERS(lot_node_payload(counts, STORE, 2), 0, 11);
    lot_record record = lot_edge_record(counts, STORE, 1);
    expect("record", record.number, record.value, 0, 0);
    expect("ends", record.source, record.target, 0, 1);
    expect("payload", record.payload.low, record.payload.high, 6, 6);
    expect("a range", lot_edge_record(counts, STORE, 0).payload.low, lot_edge_record(counts, STORE, 0).payload.high, 5, 6);
    record = lot_live_edge_record(counts, STORE, 1);
    expect("live record", record.number, record.value, 8, LOT_NONE);
    expect("refused record", record.source | record.target, record.payload.low | record.payload.high, 0, 0);
    ANSWERS(lot_contains_node(counts, STORE, 2), 0, 0);
    ANSWERS(lot_contains_edge(counts, STORE, 2), 0, 1);
    ANSWERS(lot_node_bound(counts, STORE), 0, 3);
    ANSWERS(lot_edge_bound(counts, STORE), 0, 3);
    ANSWERS(lot_node_count(counts, STORE), 0, 2);
    ANSWERS(lot_edge_count(counts, STORE), 0, 2);
    ANSWERS(lot_is_empty(counts, STORE), 0, 0);
    ANSWERS(lot_is_compact(counts, STORE), 0, 0);
    ANSWERS(lot_node_ids(counts, STORE, SLICE(slots)), 0, 2);
    expect("live nodes", slots[0], slots[1], 0, 1);
    ANSWERS(lot_edge_ids(counts, STORE, SLICE(slots)), 0, 2);
    expect("live edges", slots[0], slots[1], 0, 2);
    expect("past the list", slots[2], 77, 77, 77);

    /* The image of what is live, compaction, and the image again: two nodes, two edges. */
    static const uint8_t image[] = {0, 2, 0, 2, 0, 0, 0, 7, 0, 0, 0, 9, 0x40, 0, 0, 1, 0x40, 0, 0, 1, 0xb0, 0, 0, 0, 0x80, 0, 0, 0, 0x85};
    uint8_t bytes[LENGTH(image) + 1];
    bytes[LENGTH(image)] = 77;
    uint32_t node_map[3], edge_map[3], work[4], spare[5] = {77, 77, 77, 77, 77};
    ANSWERS(lot_write_image(counts, STORE, spare, 3, bytes, 4), 2, 4);
    ANSWERS(lot_write_image(counts, STORE, SLICE(spare), bytes, 4), 2, LENGTH(image));
    expect("no work", spare[0], spare[3], 77, 77);
    ANSWERS(lot_write_image(counts, STORE, SLICE(spare), SLICE(bytes)), 0, LENGTH(image));
    expect("past the work", spare[4], 0, 77, 0);
    for (size_t i = 0; i < LENGTH(image); i++)
        expect("byte of the working store's image", i, bytes[i], i, image[i]);
    expect("past the working store's image", bytes[LENGTH(image)], 0, 77, 0);
    ANSWERS(lot_is_compact(counts, STORE), 0, 0);
    memset(bytes, 0, LENGTH(image));
    changed = lot_compact(counts, STORE, SLICE(node_map), SLICE(edge_map), SLICE(work));
    expect("compaction", changed.number, changed.value, 0, 0);
    expect("maps", node_map[2], edge_map[2], LOT_NONE, 1);
    counts = changed.counts;
    ANSWERS(lot_write_image(counts, STORE, SLICE(work), SLICE(bytes)), 0, LENGTH(image));
    for (size_t i = 0; i < LENGTH(image); i++)
        expect("byte of the image", i, bytes[i], i, image[i]);
    expect("past the image", bytes[LENGTH(image)], 0, 77, 0);
    changed = lot_read_image(counts, STORE, bytes, 3);
    expect("three bytes", changed.number, changed.value, 12, 1);
    changed = lot_read_image(counts, STORE, SLICE(image));
    expect("reading", changed.number, changed.value, 0, 0);
    counts = changed.counts;
    ANSWERS(lot_in_degree(counts, STORE, 1), 0, 2);

    /* Joined with itself: four nodes and four edges; with two transfers too many for the memory, 10. */
    static uint32_t all_nodes[2 * NODES], all_lows[EDGES], all_highs[EDGES], all_outgoing[LOT_AXIS_WORDS(2 * NODES, EDGES)],
        all_incoming[LOT_AXIS_WORDS(2 * NODES, EDGES)];
    static uint64_t all_live_nodes[LOT_LIVE_WORDS(2 * NODES)], all_live_edges[LOT_LIVE_WORDS(EDGES)];
#define OTHERS SLICE(all_highs), SLICE(all_live_nodes), SLICE(all_live_edges), SLICE(all_outgoing), SLICE(all_incoming)
    uint32_t maps[4][2];
#define MAPS SLICE(maps[0]), SLICE(maps[1]), SLICE(maps[2]), SLICE(maps[3])
    changed = lot_join(counts, STORE, counts, STORE, SLICE(all_nodes), all_lows, 2, OTHERS, MAPS);
    expect("too many transfers", changed.number, changed.value, 10, LOT_NONE);
    changed = lot_join(counts, STORE, counts, STORE, SLICE(all_nodes), SLICE(all_lows), OTHERS, SLICE(maps[0]), SLICE(maps[1]), SLICE(maps[2]), maps[3], 1);
    expect("a short map", changed.number, changed.value, 2, 2);
    changed = lot_join(counts, STORE, counts, STORE, SLICE(all_nodes), SLICE(all_lows), OTHERS, MAPS);
    expect("joined", changed.number, changed.value, 0, 0);
    expect("joined counts", changed.counts.nodes.bound, changed.counts.edges.live, 4, 4);
    expect("maps of the second", maps[2][1], maps[3][1], 3, 3);
    ANSWERS(lot_incoming(changed.counts, SLICE(all_nodes), SLICE(all_lows), OTHERS, 3, SLICE(slots)), 0, 2);
    expect("its in-list", slots[0], slots[1], 2, 3);
    /* The skid reads it too, and refuses 65 lots: bytes that are no image first, then 15. */
    changed = lot_skid_read_image(counts, STORE, SLICE(image));
    expect("reading on the skid", changed.number, changed.value, 0, 0);
    static const uint8_t many[4 + 4 * (LOT_SKID_NODES + 1)] = {0, LOT_SKID_NODES + 1};
    changed = lot_skid_read_image(counts, STORE, many, 4);
    expect("a broken image of 65 lots", changed.number, changed.value, 12, 3);
    changed = lot_skid_read_image(counts, STORE, SLICE(many));
    expect("65 lots", changed.number, changed.value, 15, 65);
    changed = lot_read_image(counts, STORE, SLICE(many));
    expect("65 lots on a box", changed.number, changed.value, 2, 65);
    changed = lot_skid_fresh(STORE);
    expect("fresh on the skid", changed.number, changed.value, 0, 0);
    static uint32_t more[LOT_SKID_EDGES + 1];
    changed = lot_skid_fresh(SLICE(nodes), SLICE(more), SLICE(more), SLICE(live_nodes), SLICE(live_edges), SLICE(outgoing), SLICE(incoming));
    expect("129 transfers", changed.number, changed.value, 15, 129);

    /* A low above its high: rule 3. */
    lows[1] = 9;
    ANSWERS(lot_check(counts, STORE), 1, 3);
    lows[1] = 8;

    /* A count that is not true: rule 2. */
    counts.nodes.live = 3;
    ANSWERS(lot_node_count(counts, STORE), 1, 2);
    total = lot_in_total(counts, STORE, 1);
    expect("total of no store", total.number, total.value, 1, 2);
    expect("refused total", total.low, total.high, 0, 0);

    static const uint32_t first[] = {1, LOT_NONE, 0}, second[] = {5}, identity[] = {0, 1};
    uint32_t result[3];
    ANSWERS(lot_lookup(SLICE(first), 2), 0, 0);
    ANSWERS(lot_compose(SLICE(first), SLICE(second), SLICE(result)), 0, 0);
    expect("composed", result[0], result[2], LOT_NONE, 5);
    ANSWERS(lot_is_identity(SLICE(identity), SLICE(identity)), 0, 1);
    if (!failed)
        puts("lots.h and the library agree");
    return failed ? EXIT_FAILURE : EXIT_SUCCESS;
}
