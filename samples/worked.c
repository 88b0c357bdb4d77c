/* Document 01's worked examples by the face for C, and a cancel with an old identifier. Links the proved library:
 *     sh tools/staticlib && cc -Iinclude -o worked samples/worked.c target/staticlib/liblift_c.a && ./worked */
#include "lift.h"

#include <stdio.h>

enum { SLOTS = 8 };

static uint32_t words[7 * SLOTS], header[3], scratch[2 * SLOTS], result;
static int wrong;

/* A call's number and result against those expected. */
static void is(const char *what, uint32_t number, uint32_t expected, uint32_t expected_result) {
    int same = number == expected && result == expected_result;
    printf("%-28s %u %u%s\n", what, number, result, same ? "" : "   WRONG");
    wrong |= !same;
}

#define LENT words, sizeof words / sizeof *words, header
#define EXAMINED LENT, scratch, sizeof scratch / sizeof *scratch

static void worked(void) {
    uint32_t list[SLOTS], state[3], edges[4];
    uint8_t image[11 + 28 * SLOTS];
    /* new 50, a code that there is not, and the start of a command. */
    const uint8_t trace[26] = {1, 0, 0, 0, 50, 0, 0, 0, 0, 0, 0, 0, 25};
    uint32_t answers[6];
    is("new 10", lift_new_node(EXAMINED, 10, &result), LIFT_DONE, 65536);
    is("new 20", lift_new_node(EXAMINED, 20, &result), LIFT_DONE, 131072);
    is("new 30", lift_new_node(EXAMINED, 30, &result), LIFT_DONE, 196608);
    is("append 65536 131072", lift_checked_append(EXAMINED, 65536, 131072, &result), LIFT_DONE, 0);
    is("append 65536 196608", lift_checked_append(EXAMINED, 65536, 196608, &result), LIFT_DONE, 0);
    is("append 131072 65536", lift_checked_append(EXAMINED, 131072, 65536, &result), LIFT_ANCESTOR, 0);
    is("children of 65536", lift_children(EXAMINED, 65536, list, SLOTS, &result), LIFT_DONE, 2);
    is("children, no room", lift_children(EXAMINED, 65536, NULL, 0, &result), LIFT_ROOM, 0);
    result = 0;
    is("walk from 65536", lift_walk_start(LENT, 65536, state), LIFT_DONE, 0);
    is("four edges of it", lift_walk(LENT, state, 4, edges, 4, &result), LIFT_DONE, 4);
    is("remove 65536", lift_checked_remove(EXAMINED, 65536, &result), LIFT_DONE, 0);
    is("save", lift_save(EXAMINED, image, sizeof image, &result), LIFT_DONE, 95);
    is("new 40", lift_new_node(EXAMINED, 40, &result), LIFT_DONE, 65537);
    is("get 65536, the old one", lift_get(LENT, 65536, &result), LIFT_REMOVED, 0);
    is("remove 65536 once more", lift_checked_remove(EXAMINED, 65536, &result), LIFT_REMOVED, 0);
    is("get 65537", lift_get(LENT, 65537, &result), LIFT_DONE, 40);
    is("load", lift_load(image, 95, EXAMINED, &result), LIFT_DONE, 0);
    is("batch of two and a part", lift_batch(EXAMINED, trace, sizeof trace, answers, 6, &result), LIFT_DONE, 3);
    wrong |= answers[0] != LIFT_DONE || answers[1] != 65537 || answers[2] != LIFT_COMMAND || answers[4] != LIFT_PART;
    is("load, a byte short", lift_load(image, 94, EXAMINED, &result), LIFT_LENGTH, 0);
    wrong |= edges[0] != 65536 || edges[1] != 131072 || edges[2] != 131072 + 32768 || list[1] != 196608 || header[0] != 0;
}

int main(void) {
    worked();
    puts(wrong ? "not as document 01 says" : "as document 01 says");
    return wrong;
}
