/* The proved tree core, for C. Link target/staticlib/liblift_c.a (sh tools/staticlib), x86-64.
 *
 * Memory is lent: words, seven to a slot, and a header of three words, used, first free, last free. Scratch of 2 x used words is lent
 * to calls that examine memory; where they did, those words are then zero. Each call takes any words, any header, any lengths, and
 * returns a number of the table below; `result` is always written. No two of the arguments overlap, unless both are only read. An empty
 * slice may come as a null pointer. */
#ifndef LIFT_H
#define LIFT_H

#include <stddef.h>
#include <stdint.h>

#ifdef __cplusplus
extern "C" {
#endif

enum lift_number {
    LIFT_DONE = 0,      /* accepted */
    LIFT_FRAME = 1,     /* used exceeds capacity */
    LIFT_SCRATCH = 2,   /* scratch under 2 x used words */
    LIFT_INVALID = 3,   /* memory not ready (in load: not sound) */
    LIFT_REMOVED = 4,   /* a named identifier is not found */
    LIFT_SELF = 5,      /* a move's two identifiers are equal */
    LIFT_ANCESTOR = 6,  /* the node to move is an ancestor of the target */
    LIFT_FULL = 7,      /* creation, free chain empty and used = capacity */
    LIFT_ROOM = 8,      /* an output or destination is too short */
    LIFT_COMMAND = 9,   /* unknown code, or an unused byte or argument not zero */
    LIFT_PART = 10,     /* 1 to 11 bytes left at the end of a trace */
    LIFT_MARK = 11,     /* image mark is not LFT */
    LIFT_VERSION = 12,  /* image version is not 1 */
    LIFT_LENGTH = 13    /* image under 11 bytes or not 11 + 28 x used */
};

/* DONE with result 1 for sound memory and 0 for any other; FRAME or SCRATCH with result 0. */
uint32_t lift_validate(const uint32_t *words, size_t words_len, const uint32_t header[3], uint32_t *scratch, size_t scratch_len,
                       uint32_t *result);

/* Sets the header to zero: nothing is in use. Returns 0. */
uint32_t lift_clear(uint32_t header[3]);

/* Single reads: FRAME, REMOVED. The result is the number stored, or the identifier that the link holds, 0 for none. */
uint32_t lift_get(const uint32_t *words, size_t words_len, const uint32_t header[3], uint32_t id, uint32_t *result);
uint32_t lift_parent(const uint32_t *words, size_t words_len, const uint32_t header[3], uint32_t id, uint32_t *result);
uint32_t lift_first_child(const uint32_t *words, size_t words_len, const uint32_t header[3], uint32_t id, uint32_t *result);
uint32_t lift_last_child(const uint32_t *words, size_t words_len, const uint32_t header[3], uint32_t id, uint32_t *result);
uint32_t lift_next_sibling(const uint32_t *words, size_t words_len, const uint32_t header[3], uint32_t id, uint32_t *result);
uint32_t lift_previous_sibling(const uint32_t *words, size_t words_len, const uint32_t header[3], uint32_t id, uint32_t *result);

/* Sets the number of a node: FRAME, REMOVED. */
uint32_t lift_set(uint32_t *words, size_t words_len, const uint32_t header[3], uint32_t id, uint32_t number, uint32_t *result);

/* Creations: the result is the new identifier. FRAME, SCRATCH, INVALID, REMOVED (value forms), FULL. */
uint32_t lift_new_node(uint32_t *words, size_t words_len, uint32_t header[3], uint32_t *scratch, size_t scratch_len,
                       uint32_t number, uint32_t *result);
uint32_t lift_append_value(uint32_t *words, size_t words_len, uint32_t header[3], uint32_t *scratch, size_t scratch_len,
                           uint32_t target, uint32_t number, uint32_t *result);
uint32_t lift_prepend_value(uint32_t *words, size_t words_len, uint32_t header[3], uint32_t *scratch, size_t scratch_len,
                            uint32_t target, uint32_t number, uint32_t *result);
uint32_t lift_insert_after_value(uint32_t *words, size_t words_len, uint32_t header[3], uint32_t *scratch, size_t scratch_len,
                                 uint32_t target, uint32_t number, uint32_t *result);
uint32_t lift_insert_before_value(uint32_t *words, size_t words_len, uint32_t header[3], uint32_t *scratch, size_t scratch_len,
                                  uint32_t target, uint32_t number, uint32_t *result);

/* Moves, of a node with its subtree: FRAME, SCRATCH, INVALID, SELF, REMOVED, ANCESTOR. */
uint32_t lift_checked_append(uint32_t *words, size_t words_len, uint32_t header[3], uint32_t *scratch, size_t scratch_len,
                             uint32_t target, uint32_t moved, uint32_t *result);
uint32_t lift_checked_prepend(uint32_t *words, size_t words_len, uint32_t header[3], uint32_t *scratch, size_t scratch_len,
                              uint32_t target, uint32_t moved, uint32_t *result);
uint32_t lift_checked_insert_after(uint32_t *words, size_t words_len, uint32_t header[3], uint32_t *scratch, size_t scratch_len,
                                   uint32_t target, uint32_t moved, uint32_t *result);
uint32_t lift_checked_insert_before(uint32_t *words, size_t words_len, uint32_t header[3], uint32_t *scratch, size_t scratch_len,
                                    uint32_t target, uint32_t moved, uint32_t *result);

/* Detaching and removing: FRAME, SCRATCH, INVALID, REMOVED. */
uint32_t lift_checked_detach(uint32_t *words, size_t words_len, uint32_t header[3], uint32_t *scratch, size_t scratch_len,
                             uint32_t id, uint32_t *result);
uint32_t lift_checked_detach_children(uint32_t *words, size_t words_len, uint32_t header[3], uint32_t *scratch,
                                      size_t scratch_len, uint32_t id, uint32_t *result);
uint32_t lift_checked_remove(uint32_t *words, size_t words_len, uint32_t header[3], uint32_t *scratch, size_t scratch_len,
                             uint32_t id, uint32_t *result);
uint32_t lift_checked_remove_subtree(uint32_t *words, size_t words_len, uint32_t header[3], uint32_t *scratch, size_t scratch_len,
                                     uint32_t id, uint32_t *result);
uint32_t lift_remove_children(uint32_t *words, size_t words_len, uint32_t header[3], uint32_t *scratch, size_t scratch_len,
                              uint32_t id, uint32_t *result);

/* The live slots; live, free, spent and fresh slots, four zeros where refused: FRAME, SCRATCH, INVALID. */
uint32_t lift_live_count(const uint32_t *words, size_t words_len, const uint32_t header[3], uint32_t *scratch, size_t scratch_len,
                         uint32_t *result);
uint32_t lift_census(const uint32_t *words, size_t words_len, const uint32_t header[3], uint32_t *scratch, size_t scratch_len,
                     uint32_t counts[4]);

/* The nodes from a node down, the node with them: FRAME, SCRATCH, INVALID, REMOVED. */
uint32_t lift_descendant_count(const uint32_t *words, size_t words_len, const uint32_t header[3], uint32_t *scratch,
                               size_t scratch_len, uint32_t id, uint32_t *result);

/* Lists: FRAME, SCRATCH, INVALID, REMOVED, ROOM. The result is the length; the list is written whole, places past it unchanged. Where
 * refused, ROOM included, the list is untouched. All but children begin with the node, leaves where it is one. Descendants are in
 * preorder, breadth first level by level; ancestors, preceding siblings and predecessors (previous sibling, else parent) go away from
 * the node. */
uint32_t lift_descendants(const uint32_t *words, size_t words_len, const uint32_t header[3], uint32_t *scratch, size_t scratch_len,
                          uint32_t id, uint32_t *list, size_t list_len, uint32_t *result);
uint32_t lift_breadth_first(const uint32_t *words, size_t words_len, const uint32_t header[3], uint32_t *scratch,
                            size_t scratch_len, uint32_t id, uint32_t *list, size_t list_len, uint32_t *result);
uint32_t lift_leaves(const uint32_t *words, size_t words_len, const uint32_t header[3], uint32_t *scratch, size_t scratch_len,
                     uint32_t id, uint32_t *list, size_t list_len, uint32_t *result);
uint32_t lift_ancestors(const uint32_t *words, size_t words_len, const uint32_t header[3], uint32_t *scratch, size_t scratch_len,
                        uint32_t id, uint32_t *list, size_t list_len, uint32_t *result);
uint32_t lift_children(const uint32_t *words, size_t words_len, const uint32_t header[3], uint32_t *scratch, size_t scratch_len,
                       uint32_t id, uint32_t *list, size_t list_len, uint32_t *result);
uint32_t lift_following_siblings(const uint32_t *words, size_t words_len, const uint32_t header[3], uint32_t *scratch,
                                 size_t scratch_len, uint32_t id, uint32_t *list, size_t list_len, uint32_t *result);
uint32_t lift_preceding_siblings(const uint32_t *words, size_t words_len, const uint32_t header[3], uint32_t *scratch,
                                 size_t scratch_len, uint32_t id, uint32_t *list, size_t list_len, uint32_t *result);
uint32_t lift_predecessors(const uint32_t *words, size_t words_len, const uint32_t header[3], uint32_t *scratch, size_t scratch_len,
                           uint32_t id, uint32_t *list, size_t list_len, uint32_t *result);

/* Two subtrees, of one memory lent twice or of two: the result is 1 where shape and numbers agree, else 0. FRAME, SCRATCH, INVALID of
 * the first, then of the second, then REMOVED of either. One scratch serves both; where the first is refused the second is not looked
 * at. */
uint32_t lift_subtree_eq(const uint32_t *words, size_t words_len, const uint32_t header[3], uint32_t id,
                         const uint32_t *other_words, size_t other_words_len, const uint32_t other_header[3], uint32_t other_id,
                         uint32_t *scratch, size_t scratch_len, uint32_t *result);

/* A stepped walk, on any memory, without scratch. `state` is the root, the next edge, the mark. An edge is Start, the identifier, or
 * End, that plus 32,768; it is 0 where its identifier is not found, and after over or broken. A mark above 2 counts as broken. A
 * refused call leaves `state` as it was. Memory may change between two calls: each looks its edges up anew. */
enum lift_walk_mark {
    LIFT_MORE = 0,   /* it can be continued */
    LIFT_OVER = 1,   /* no edge follows */
    LIFT_BROKEN = 2  /* the next edge's identifier is not found */
};

/* Before Start of the root, with the mark more: FRAME, REMOVED. Writes `state` where DONE; it has no result. */
uint32_t lift_walk_start(const uint32_t *words, size_t words_len, const uint32_t header[3], uint32_t root, uint32_t state[3]);

/* At most `budget` edges, to the first places of the list: FRAME, ROOM for a list under `budget` places. The result is how many were
 * written; places past them, and the whole list where refused, are unchanged. Writes `state` where DONE; the root in it stays. */
uint32_t lift_walk(const uint32_t *words, size_t words_len, const uint32_t header[3], uint32_t state[3], uint32_t budget,
                   uint32_t *list, size_t list_len, uint32_t *result);

/* The image: FRAME, SCRATCH, INVALID, ROOM for bytes under 11 + 28 x used. The result is the bytes written; those past them, and all
 * of them where refused, are unchanged. */
uint32_t lift_save(const uint32_t *words, size_t words_len, const uint32_t header[3], uint32_t *scratch, size_t scratch_len,
                   uint8_t *bytes, size_t bytes_len, uint32_t *result);

/* Memory from an image: LENGTH (under 11), MARK, VERSION, LENGTH (whole), ROOM for words of fewer slots than the image's, SCRATCH,
 * INVALID. The old header is not looked at, and every load writes it: zeros where refused. A load refused up to SCRATCH leaves words
 * and scratch; INVALID leaves the first 7 x used words zero, used as the image says. Words past these are never written. The result
 * is 0. */
uint32_t lift_load(const uint8_t *bytes, size_t bytes_len, uint32_t *words, size_t words_len, uint32_t header[3], uint32_t *scratch,
                   size_t scratch_len, uint32_t *result);

/* The commands of a trace, twelve bytes each, one after the other, each as its own call would: two words for each answer, number and
 * result. ROOM, before any command, for answers under 2 x (trace_len / 12, rounded up) words; else DONE, and the result is the number
 * of answers, one (10, 0) for a cut-off end among them. Places past them are unchanged. */
uint32_t lift_batch(uint32_t *words, size_t words_len, uint32_t header[3], uint32_t *scratch, size_t scratch_len,
                    const uint8_t *trace, size_t trace_len, uint32_t *answers, size_t answers_len, uint32_t *result);

#ifdef __cplusplus
}
#endif

#endif
