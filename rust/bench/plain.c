/* The batch and the stepped walk in plain C, for the benchmark alone: what the machine allows. The batch has the design of crate `splice`: one
 * write from each side of a place, chosen by values; it takes memory for ready, looks at no bound, and knows the codes 1 to 17 and 21 to 24 only.
 * Nothing is proved of either; the benchmark compares what they answer with the library. */
#include <stddef.h>
#include <stdint.h>
#include <string.h>

enum { STAMP, NUMBER, PARENT, PREVIOUS, NEXT, FIRST, LAST, WIDTH };
enum { READ, SET, MAKE, MOVE, DETACH, DETACH_CHILDREN, REMOVE, REMOVE_SUBTREE, REMOVE_CHILDREN };
enum { DONE, REMOVED = 4, SELF = 5, ANCESTOR = 6, FULL = 7, COMMAND = 9 };
enum { APPEND, PREPEND, AFTER, BEFORE, NOWHERE };

typedef struct {
    uint32_t *words;
    uint32_t used, first, last, capacity;
} Arena;

static const uint8_t KIND[25] = {0, MAKE, READ, SET, MOVE, MOVE, MOVE, MOVE, DETACH, DETACH_CHILDREN, REMOVE, REMOVE_SUBTREE, REMOVE_CHILDREN,
    READ, READ, READ, READ, READ, 0, 0, 0, MAKE, MAKE, MAKE, MAKE};
static const uint8_t WORD[25] = {[2] = NUMBER, [13] = PARENT, [14] = FIRST, [15] = LAST, [16] = NEXT, [17] = PREVIOUS};
static const uint8_t PLACE[25] = {[1] = NOWHERE, [5] = PREPEND, [6] = AFTER, [7] = BEFORE, [22] = PREPEND, [23] = AFTER, [24] = BEFORE};
static const uint8_t ARGUMENTS[25] = {0, 1, 1, 2, 2, 2, 2, 2, 1, 1, 1, 1, 1, 1, 1, 1, 1, 1, 0, 1, 0, 2, 2, 2, 2};

/* Of each place: the word of the target that names the other neighbour; then 1 where the parent, the previous and the next are the target, and
 * where previous and next are that neighbour. */
static const uint8_t BESIDE[4] = {LAST, FIRST, NEXT, PREVIOUS};
static const uint8_t UNDER[4] = {1, 1, 0, 0}, BEHIND_IT[4] = {0, 0, 1, 0}, BEFORE_IT[4] = {0, 0, 0, 1}, BEHIND[4] = {1, 0, 0, 1}, AHEAD[4] = {0, 1, 1, 0};

/* Counted from a slot before the first, so that none has a place too. */
static inline size_t place(uint32_t id, int k) { return (size_t)(id >> 16) * WIDTH + k; }
static inline uint32_t *at(Arena *a, uint32_t id, int k) { return a->words + place(id, k) - WIDTH; }

static inline int found(Arena *a, uint32_t id) {
    uint32_t slot = id >> 16, low = id & 65535;
    return slot - 1 < a->used && low < 32768 && *at(a, id, STAMP) == low;
}

static inline void lead(Arena *a, uint32_t spare, uint32_t parent, uint32_t neighbour, int along, int end, uint32_t v) {
    size_t own = place(spare, along), above = place(parent, end), beside = place(neighbour, along);
    size_t other = parent ? above : own;
    a->words[(neighbour ? beside : other) - WIDTH] = v;
}

static inline void take_out(Arena *a, uint32_t id) {
    uint32_t parent = *at(a, id, PARENT), previous = *at(a, id, PREVIOUS), next = *at(a, id, NEXT);
    lead(a, id, parent, previous, NEXT, FIRST, next);
    lead(a, id, parent, next, PREVIOUS, LAST, previous);
    *at(a, id, PARENT) = *at(a, id, PREVIOUS) = *at(a, id, NEXT) = 0;
}

static inline void put_in(Arena *a, uint32_t id, int to, uint32_t target) {
    uint32_t above = *at(a, target, PARENT), beside = *at(a, target, BESIDE[to]);
    uint32_t parent = target * UNDER[to] + above * !UNDER[to];
    uint32_t previous = beside * BEHIND[to] + target * BEHIND_IT[to], next = beside * AHEAD[to] + target * BEFORE_IT[to];
    lead(a, id, parent, previous, NEXT, FIRST, id);
    lead(a, id, parent, next, PREVIOUS, LAST, id);
    *at(a, id, PARENT) = parent;
    *at(a, id, PREVIOUS) = previous;
    *at(a, id, NEXT) = next;
}

static inline void write_node(Arena *a, uint32_t slot, uint32_t stamp, uint32_t number) {
    uint32_t *w = a->words + (size_t)slot * WIDTH - WIDTH;
    w[STAMP] = stamp;
    w[NUMBER] = number;
    w[PARENT] = w[PREVIOUS] = w[NEXT] = w[FIRST] = w[LAST] = 0;
}

/* 0 where there is no slot: no identifier of a live node is 0. */
static inline uint32_t create(Arena *a, uint32_t number) {
    uint32_t slot = a->first, stamp = 0;
    if (slot) {
        uint32_t *w = a->words + (size_t)slot * WIDTH - WIDTH;
        a->first = w[NUMBER];
        a->last = a->first ? a->last : 0;
        stamp = 65536 - (w[STAMP] & 65535);
    } else if (a->used < a->capacity) {
        slot = ++a->used;
    } else {
        return 0;
    }
    write_node(a, slot, stamp, number);
    return slot << 16 | stamp;
}

static inline void free_node(Arena *a, uint32_t id) {
    uint32_t slot = id >> 16, bits = 65535 - (*at(a, id, STAMP) & 65535);
    write_node(a, slot, 65536 + bits, 0);
    if (bits == 32768) return;
    if (a->last) a->words[(size_t)a->last * WIDTH - WIDTH + NUMBER] = slot;
    else a->first = slot;
    a->last = slot;
}

static void free_below(Arena *a, uint32_t id) {
    for (uint32_t x = id;;) {
        uint32_t first = *at(a, x, FIRST), next, parent;
        if (first) {
            x = first;
            continue;
        }
        if (x == id) return;
        next = *at(a, x, NEXT);
        parent = *at(a, x, PARENT);
        *at(a, parent, FIRST) = next;
        if (!next) *at(a, parent, LAST) = 0;
        free_node(a, x);
        x = next ? next : parent;
    }
}

static inline uint32_t move_number(Arena *a, uint32_t target, uint32_t moved) {
    if (target == moved) return SELF;
    if (!found(a, target) || !found(a, moved)) return REMOVED;
    if (*at(a, moved, FIRST))
        for (uint32_t x = *at(a, target, PARENT); x; x = *at(a, x, PARENT))
            if (x == moved) return ANCESTOR;
    return DONE;
}

static inline void remove_node(Arena *a, uint32_t id) {
    uint32_t parent = *at(a, id, PARENT), previous = *at(a, id, PREVIOUS), next = *at(a, id, NEXT);
    uint32_t first = *at(a, id, FIRST), last = *at(a, id, LAST);
    lead(a, id, parent, previous, NEXT, FIRST, first ? first : next);
    lead(a, id, parent, next, PREVIOUS, LAST, last ? last : previous);
    if (first) {
        for (uint32_t x = first; x; x = *at(a, x, NEXT)) *at(a, x, PARENT) = parent;
        *at(a, first, PREVIOUS) = previous;
        *at(a, last, NEXT) = next;
    }
    free_node(a, id);
}

uint32_t plain_batch(uint32_t *words, size_t words_len, uint32_t header[3], const uint8_t *trace, size_t count, uint32_t *answers) {
    Arena arena = {words, header[0], header[1], header[2], words_len / WIDTH < 65535 ? (uint32_t)(words_len / WIDTH) : 65535}, *a = &arena;
    for (size_t i = 0; i < count; i++) {
        uint32_t head, x, y, number = DONE, result = 0;
        memcpy(&head, trace + 12 * i, 4);
        memcpy(&x, trace + 12 * i + 4, 4);
        memcpy(&y, trace + 12 * i + 8, 4);
        if (head - 1 < 24 && (ARGUMENTS[head] > 1 || y == 0) && (ARGUMENTS[head] > 0 || x == 0)) {
            int kind = KIND[head], to = PLACE[head];
            if (kind != MAKE && kind != MOVE && !found(a, x)) number = REMOVED;
            else switch (kind) {
            case READ: result = *at(a, x, WORD[head]); break;
            case SET: *at(a, x, NUMBER) = y; break;
            case MAKE:
                if (to != NOWHERE && !found(a, x)) {
                    number = REMOVED;
                    break;
                }
                result = create(a, to == NOWHERE ? x : y);
                if (!result) number = FULL;
                else if (to != NOWHERE) put_in(a, result, to, x);
                break;
            case MOVE:
                number = move_number(a, x, y);
                if (number == DONE) {
                    take_out(a, y);
                    put_in(a, y, to, x);
                }
                break;
            case DETACH: take_out(a, x); break;
            case DETACH_CHILDREN:
                for (uint32_t child = *at(a, x, FIRST), next; child; child = next) {
                    next = *at(a, child, NEXT);
                    *at(a, child, PARENT) = *at(a, child, PREVIOUS) = *at(a, child, NEXT) = 0;
                }
                *at(a, x, FIRST) = *at(a, x, LAST) = 0;
                break;
            case REMOVE: remove_node(a, x); break;
            case REMOVE_SUBTREE:
                take_out(a, x);
                free_below(a, x);
                free_node(a, x);
                break;
            case REMOVE_CHILDREN: free_below(a, x); break;
            }
        } else {
            number = COMMAND;
        }
        answers[2 * i] = number;
        answers[2 * i + 1] = result;
    }
    header[0] = a->used;
    header[1] = a->first;
    header[2] = a->last;
    return DONE;
}

/* At most `budget` edges from the one that is next, which is then the one behind them, or 0 where there is none. The walk's own tests and no others. */
uint32_t plain_walk(const uint32_t *words, uint32_t used, uint32_t root, uint32_t *next, uint32_t budget, uint32_t *list) {
    Arena a = {(uint32_t *)words, used, 0, 0, 0};
    uint32_t x = *next & ~UINT32_C(32768), n = 0;
    if (x != *next) goto up;
down:
    while (n < budget) {
        if (!found(&a, x)) return *next = 0, n;
        list[n++] = x;
        uint32_t child = *at(&a, x, FIRST);
        if (!child) goto up;
        x = child;
    }
    return *next = x, n;
up:
    while (n < budget) {
        if (!found(&a, x)) return *next = 0, n;
        list[n++] = x + 32768;
        if (x == root) return *next = 0, n;
        uint32_t sibling = *at(&a, x, NEXT);
        if (sibling) {
            x = sibling;
            goto down;
        }
        x = *at(&a, x, PARENT);
    }
    return *next = x + 32768, n;
}
