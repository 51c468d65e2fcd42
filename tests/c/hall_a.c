/* The seven calls from C, on the paper's hall A: what they answer, and every word or byte that they leave; the same with holds; the limit on the arcs at a
 * node; and hall A with self-arcs, which the conversion drops. */
#include <stdio.h>
#include <string.h>

#include "pigrozk.h"

static const uint32_t words[18] = {0x10000004, 0x20000000, 0x30000002, 0x30000001, 0x40000001, 0x50000004, 0x40000002, 0x50000001, 0x40000801,
                                   0x50000002, 0x40000403, 0x50000005, 0x60000000, 0x60000000, 0x70000800, 0x70000803, 0x70001001, 0x70001002};

/* Hall A with other region numbers: both have the same canonical form. */
static const uint32_t renumbered[6] = {0x60000000, 0x70000802, 0x60000000, 0x70001803, 0x70000801, 0x70001800};
static const uint32_t canonical[6] = {0x60000000, 0x70000800, 0x70000803, 0x60000000, 0x70002001, 0x70002002};

enum { WORDS = 45, LONGER_WORDS = 49, WORDS_WITH_ONE_INNER_COUNT = 17 };

/* The words of a count below 2^28, and of the inner counts of heights 3 to 15, which hall A has not. */
#define COUNT(n) 0xb0000000, 0xb0000000 + (n)
#define FIVE_UNUSED COUNT(0), COUNT(0), COUNT(0), COUNT(0), COUNT(0)
#define UNUSED_HEIGHTS FIVE_UNUSED, FIVE_UNUSED, COUNT(0), COUNT(0), COUNT(0)

/* As the paper prints them: ended; rounds 3, leaves 5, inner 3 3, updates 13; distances 0, 3, 1, 8; feeding arcs none, 2, 1, 3. */
static const uint32_t ended[WORDS] = {0x80000001, COUNT(3), COUNT(5), COUNT(3), COUNT(3), UNUSED_HEIGHTS, COUNT(13),
                                      0x90000000, 0xafffffff, 0x90000003, 0xa0000002, 0x90000001, 0xa0000001, 0x90000008, 0xa0000003};

/* After one round: paused; rounds 1, leaves 2, inner 1 1, updates 8; labels 0, 4, unreached, 9. */
static const uint32_t paused[WORDS] = {0x80000000, COUNT(1), COUNT(2), COUNT(1), COUNT(1), UNUSED_HEIGHTS, COUNT(8),
                                       0x90000000, 0xafffffff, 0x90000004, 0xa0000000, 0x9fffffff, 0xafffffff, 0x90000009, 0xa0000003};

/* The key words of the longer table: after the start, after one round and at the end. */
static const uint32_t keys_at_start[4] = {0xc0000001, 0xc0000001, 0xc0000000, 0xc0000000};
static const uint32_t keys_after_one[4] = {0xc0000000, 0xc0000001, 0xc0000000, 0xc0000000};
static const uint32_t keys_at_end[4] = {0xc0000000, 0xc0000000, 0xc0000000, 0xc0000000};

/* After one round with the spans 2 and 1, three more with both spans 1: ended; rounds 4, leaves 5, inner 4 4, updates 13; the distances are the same. */
static const uint32_t ended_by_ones[WORDS] = {0x80000001, COUNT(4), COUNT(5), COUNT(4), COUNT(4), UNUSED_HEIGHTS, COUNT(13),
                                              0x90000000, 0xafffffff, 0x90000003, 0xa0000002, 0x90000001, 0xa0000001, 0x90000008, 0xa0000003};

/* Hall A with holds, and its form: 88 bytes. After one round paused; then ended, the detour by node 2 being the longer way: rounds 2, leaves 4, inner 2 2,
 * updates 10; distances 0, 4, 1, 4 + 10 + 5; feeding arcs none, 0, 1, 3. */
static const uint32_t holds[4] = {0xd0000064, 0xd000000a, 0xd0000003, 0xd0000007};
static const uint32_t held_paused[WORDS] = {0x80000000, COUNT(1), COUNT(2), COUNT(1), COUNT(1), UNUSED_HEIGHTS, COUNT(8),
                                            0x90000000, 0xafffffff, 0x90000004, 0xa0000000, 0x9fffffff, 0xafffffff, 0x90000013, 0xa0000003};
static const uint32_t held_ended[WORDS] = {0x80000001, COUNT(2), COUNT(4), COUNT(2), COUNT(2), UNUSED_HEIGHTS, COUNT(10),
                                           0x90000000, 0xafffffff, 0x90000004, 0xa0000000, 0x90000001, 0xa0000001, 0x90000013, 0xa0000003};

/* Hall A with two self-arcs, arcs 1 and 4. Arc 1 is alone in region 4, which is alone in region 3, so that region 0 has height 3; arc 4 is in region 2. */
static const uint32_t self_arcs[27] = {0x10000004, 0x20000000, 0x30000002, 0x30000001, 0x30000009, 0x40000001, 0x50000004, 0x40000401, 0x50000007,
                                       0x40000002, 0x50000001, 0x40000801, 0x50000002, 0x40000000, 0x50000000, 0x40000403, 0x50000005, 0x60000000,
                                       0x60000000, 0x60000000, 0x60000003, 0x70002001, 0x70000800, 0x70000805, 0x70001004, 0x70001002, 0x70001003};

static int failures = 0;

static void expect(const char *what, int holds) {
    if (!holds) {
        printf("not so: %s\n", what);
        failures++;
    }
}

/* Most significant byte first. */
static void to_bytes(uint8_t *bytes, const uint32_t *from, size_t n) {
    for (size_t i = 0; i < n; i++)
        for (size_t j = 0; j < 4; j++) bytes[4 * i + j] = (uint8_t)(from[i] >> (24 - 8 * j));
}

static void fill(uint32_t *to, size_t n) {
    for (size_t i = 0; i < n; i++) to[i] = 0x5eed0000u + (uint32_t)i;
}

static int filled(const uint32_t *from, size_t n) {
    for (size_t i = 0; i < n; i++)
        if (from[i] != 0x5eed0000u + (uint32_t)i) return 0;
    return 1;
}

static void judging(const uint8_t *sheet) {
    uint8_t wrong[72];
    memcpy(wrong, sheet, sizeof wrong);
    wrong[3] = 0;
    expect("hall A is accepted", pigrozk_judge(sheet, 72) == PIGROZK_ACCEPTED);
    expect("71 bytes are refused as 1", pigrozk_judge(sheet, 71) == 1);
    expect("an empty sheet is refused as 2", pigrozk_judge(sheet, 0) == 2);
    expect("no node is refused as 4", pigrozk_judge(wrong, 72) == 4);
}

/* Two nodes with so many arcs from each to the other, all on region 0. */
static uint32_t judged_joined(uint32_t arcs) {
    uint32_t joined[3 + 6 * (PIGROZK_MOST_ARCS_EACH_WAY + 1)] = {0x10000002, 0x20000000, 0x30000001};
    uint8_t sheet[sizeof joined];
    for (uint32_t arc = 0; arc < 2 * arcs; arc++) {
        joined[3 + 2 * arc] = 0x40000000 + (arc < arcs ? 1 : 1 << 10);
        joined[4 + 2 * arc] = 0x50000001;
        joined[3 + 4 * arcs + arc] = 0x70000000 + arc;
    }
    to_bytes(sheet, joined, 3 + 6 * arcs);
    return pigrozk_judge(sheet, 4 * (3 + 6 * arcs));
}

static void counting(void) {
    expect("as many arcs each way as a node may have are accepted", judged_joined(PIGROZK_MOST_ARCS_EACH_WAY) == PIGROZK_ACCEPTED);
    expect("one more is refused as 10", judged_joined(PIGROZK_MOST_ARCS_EACH_WAY + 1) == 10);
}

static void refusing(const uint8_t *sheet, uint32_t *table) {
    fill(table, WORDS + 1);
    expect("a table one word too long is refused as 21", pigrozk_run(sheet, 72, table, WORDS + 1) == 21);
    expect("one with one inner count is refused as 21", pigrozk_run(sheet, 72, table, WORDS_WITH_ONE_INNER_COUNT) == 21);
    expect("a limited run refuses one word too few", pigrozk_run_limited(sheet, 72, 1, table, WORDS - 1) == 21);
    expect("a refused run of a cut sheet", pigrozk_run(sheet, 70, table, WORDS) == 1);
    expect("a refusal changes no word", filled(table, WORDS + 1));
}

static void running(const uint8_t *sheet, uint32_t *table) {
    expect("one round is answered 'paused'", pigrozk_run_limited(sheet, 72, 1, table, WORDS) == PIGROZK_PAUSED);
    expect("the table after one round", memcmp(table, paused, sizeof paused) == 0);
    expect("three rounds are answered 'ended'", pigrozk_run_limited(sheet, 72, 3, table, WORDS) == PIGROZK_ENDED);
    expect("the table after three rounds", memcmp(table, ended, sizeof ended) == 0);
    fill(table, WORDS + 1);
    expect("a run is answered 'ended'", pigrozk_run(sheet, 72, table, PIGROZK_TABLE_WORDS(4)) == PIGROZK_ENDED);
    expect("the table of a run", memcmp(table, ended, sizeof ended) == 0);
    expect("no word behind the table is written", table[WORDS] == 0x5eed0000u + WORDS);
}

/* What the header names, held to the table of a run. */
static void named_places(const uint32_t *table) {
    expect("18 counts, 37 words before the nodes", PIGROZK_COUNTS == 18 && PIGROZK_HEADER_WORDS == 37);
    expect("37 + 2n words, at most 2,085", PIGROZK_TABLE_WORDS(4) == WORDS && PIGROZK_MOST_TABLE_WORDS == 2085);
    expect("rounds and leaves", PIGROZK_COUNT(table, PIGROZK_ROUNDS) == 3 && PIGROZK_COUNT(table, PIGROZK_LEAVES) == 5);
    for (int height = 1; height <= PIGROZK_MOST_SPANS; height++)
        expect("inner regions by height", PIGROZK_COUNT(table, PIGROZK_INNER(height)) == (height <= 2 ? 3 : 0));
    expect("updates", PIGROZK_COUNT(table, PIGROZK_UPDATES) == 13);
    expect("node 3's distance and feeding arc", table[PIGROZK_DISTANCE_AT(3)] == 0x90000008 && table[PIGROZK_FEEDING_ARC_AT(3)] == 0xa0000003);
}

static int is_longer(const uint32_t *table, const uint32_t *front, const uint32_t *keys) {
    return memcmp(table, front, 4 * WORDS) == 0 && memcmp(table + WORDS, keys, 4 * 4) == 0;
}

static void running_longer(const uint8_t *sheet, uint32_t *table) {
    expect("37 + 2n + m words, at most 4,133", PIGROZK_LONGER_TABLE_WORDS(4, 4) == LONGER_WORDS && PIGROZK_MOST_LONGER_TABLE_WORDS == 4133);
    expect("no round is answered 'paused'", pigrozk_run_limited(sheet, 72, 0, table, LONGER_WORDS) == PIGROZK_PAUSED);
    expect("arcs 0 and 1 have a key at the start", memcmp(table + PIGROZK_KEY_AT(4, 0), keys_at_start, sizeof keys_at_start) == 0);
    expect("one round into the longer table", pigrozk_run_limited(sheet, 72, 1, table, LONGER_WORDS) == PIGROZK_PAUSED);
    expect("its words", is_longer(table, paused, keys_after_one));
    fill(table, LONGER_WORDS + 1);
    expect("a run into the longer table", pigrozk_run(sheet, 72, table, LONGER_WORDS) == PIGROZK_ENDED);
    expect("its words", is_longer(table, ended, keys_at_end));
    expect("no word behind it is written", table[LONGER_WORDS] == 0x5eed0000u + LONGER_WORDS);
    fill(table, LONGER_WORDS + 1);
    for (size_t words = WORDS + 1; words <= LONGER_WORDS + 1; words++)
        expect("neither length is refused as 21", words == LONGER_WORDS || pigrozk_run(sheet, 72, table, words) == 21);
    expect("and changes no word", filled(table, LONGER_WORDS + 1));
}

static void reading_longer(const uint8_t *sheet, uint32_t *table) {
    uint32_t buffer[3];
    fill(buffer, 3);
    pigrozk_run(sheet, 72, table, LONGER_WORDS);
    table[LONGER_WORDS - 1] = 0xc0000002;
    expect("a key word of 2 is refused as 22", pigrozk_route(sheet, 72, table, LONGER_WORDS, 3, buffer, 3) == 22);
    expect("one word between the forms as 21", pigrozk_route(sheet, 72, table, LONGER_WORDS - 1, 3, buffer, 3) == 21);
    expect("neither changes a word", filled(buffer, 3));
    table[LONGER_WORDS - 1] = 0xc0000000;
    expect("a route out of the longer table", pigrozk_route(sheet, 72, table, LONGER_WORDS, 3, buffer, 3) == PIGROZK_ROUTE + 3);
    expect("it is arcs 1, 2 and 3", buffer[0] == 1 && buffer[1] == 2 && buffer[2] == 3);
}

static void resuming(const uint8_t *sheet, uint32_t *table) {
    uint8_t ones[72];
    memcpy(ones, sheet, sizeof ones);
    ones[11] = 1;
    pigrozk_run_limited(sheet, 72, 0, table, LONGER_WORDS);
    expect("one round from the start", pigrozk_resume(sheet, 72, 1, table, LONGER_WORDS) == PIGROZK_PAUSED);
    expect("is as one round of a run", is_longer(table, paused, keys_after_one));
    expect("no round more leaves it", pigrozk_resume(ones, 72, 0, table, LONGER_WORDS) == PIGROZK_PAUSED && is_longer(table, paused, keys_after_one));
    expect("the rest with both spans 1", pigrozk_resume(ones, 72, 4294967295u, table, LONGER_WORDS) == PIGROZK_ENDED);
    expect("has the same distances, and its own counts", is_longer(table, ended_by_ones, keys_at_end));
    expect("an ended table is given back", pigrozk_resume(sheet, 72, 9, table, LONGER_WORDS) == PIGROZK_ENDED);
    expect("as it was", is_longer(table, ended_by_ones, keys_at_end));
}

static void refusing_to_resume(const uint8_t *sheet, uint32_t *table) {
    uint32_t before[LONGER_WORDS];
    pigrozk_run_limited(sheet, 72, 1, table, LONGER_WORDS);
    table[PIGROZK_DISTANCE_AT(3)] = 0x90000008;
    memcpy(before, table, sizeof before);
    expect("a label below its feeder's plus length is refused as 33", pigrozk_resume(sheet, 72, 1, table, LONGER_WORDS) == 33);
    expect("the usual length as 32, and before that", pigrozk_resume(sheet, 72, 1, table, WORDS) == 32);
    expect("a cut sheet as 1", pigrozk_resume(sheet, 71, 1, table, LONGER_WORDS) == 1);
    expect("none changes a word", memcmp(table, before, sizeof before) == 0);
    table[LONGER_WORDS - 1] = 0xc0000002;
    expect("a key word of 2 is refused as 32", pigrozk_resume(sheet, 72, 1, table, LONGER_WORDS) == 32);
    expect("32 and 33 are from the state", PIGROZK_IS_FROM_STATE(32u) && PIGROZK_IS_FROM_STATE(33u) && !PIGROZK_IS_FROM_INPUT(33u));
}

static void reading(const uint8_t *sheet, const uint32_t *table) {
    uint32_t buffer[5], wrong[WORDS];
    fill(buffer, 5);
    memcpy(wrong, table, sizeof wrong);
    wrong[PIGROZK_DISTANCE_AT(3)] = 0x90000009;
    expect("two words are refused as 25", pigrozk_route(sheet, 72, table, WORDS, 3, buffer, 2) == 25);
    expect("node 4 is refused as 15", pigrozk_route(sheet, 72, table, WORDS, 4, buffer, 5) == 15);
    expect("one word too few is refused as 21", pigrozk_route(sheet, 72, table, WORDS - 1, 3, buffer, 5) == 21);
    expect("a paused table is refused as 23", pigrozk_route(sheet, 72, paused, WORDS, 3, buffer, 5) == 23);
    expect("node 3 at 9 is refused as 24", pigrozk_route(sheet, 72, wrong, WORDS, 3, buffer, 5) == 24);
    wrong[PIGROZK_HEADER_WORDS - 1] = 0x9000000d;
    expect("a count of kind 9 is refused as 22", pigrozk_route(sheet, 72, wrong, WORDS, 3, buffer, 5) == 22);
    expect("the source has the empty route", pigrozk_route(sheet, 72, table, WORDS, 0, buffer, 0) == PIGROZK_ROUTE);
    expect("none of these changes a word", filled(buffer, 5));
    uint32_t code = pigrozk_route(sheet, 72, table, WORDS, 3, buffer, 5);
    expect("the route to node 3 has three arcs", PIGROZK_IS_ROUTE(code) && PIGROZK_ROUTE_ARCS(code) == 3);
    expect("they are 1, 2 and 3", buffer[0] == 1 && buffer[1] == 2 && buffer[2] == 3);
    expect("the rest of the buffer stays", buffer[3] == 0x5eed0003u && buffer[4] == 0x5eed0004u);
}

static int bytes_filled(const uint8_t *from, size_t n) {
    for (size_t i = 0; i < n; i++)
        if (from[i] != 0x5e) return 0;
    return 1;
}

static void copying(const uint8_t *sheet) {
    uint8_t out[80], form[72], other[72];
    memset(out, 0x5e, sizeof out);
    memcpy(form, sheet, sizeof form);
    to_bytes(form + 48, canonical, 6);
    memcpy(other, sheet, sizeof other);
    to_bytes(other + 48, renumbered, 6);
    expect("one byte too few is refused as 31", pigrozk_canonical(sheet, 72, out, 71) == 31);
    expect("so is no room", pigrozk_canonical(sheet, 72, out, 0) == 31);
    expect("a cut sheet is refused as 1, and before the buffer", pigrozk_canonical(sheet, 71, out, 0) == 1);
    expect("31 is from the input", PIGROZK_IS_REFUSED(31u) && PIGROZK_IS_FROM_INPUT(31u) && !PIGROZK_IS_FROM_STATE(31u));
    expect("25 is from the state", PIGROZK_IS_FROM_STATE(25u) && !PIGROZK_IS_FROM_INPUT(25u));
    expect("a refusal changes no byte", bytes_filled(out, sizeof out));
    uint32_t code = pigrozk_canonical(sheet, 72, out, sizeof out);
    expect("hall A's form has 72 bytes", PIGROZK_IS_WRITTEN(code) && PIGROZK_WRITTEN_BYTES(code) == 72 && !PIGROZK_IS_ROUTE(code));
    expect("they are those of the canonical form", memcmp(out, form, sizeof form) == 0);
    expect("the rest of the buffer stays", bytes_filled(out + 72, sizeof out - 72));
    memset(out, 0x5e, sizeof out);
    expect("hall A renumbered into as many bytes", pigrozk_canonical(other, 72, out, 72) == PIGROZK_WRITTEN + 72);
    expect("it has the same form", memcmp(out, form, sizeof form) == 0 && bytes_filled(out + 72, sizeof out - 72));
    expect("the form is accepted", pigrozk_judge(form, 72) == PIGROZK_ACCEPTED);
    expect("and its own form", pigrozk_canonical(form, 72, out, 72) == PIGROZK_WRITTEN + 72 && memcmp(out, form, sizeof form) == 0);
}

/* Hall A with so many of these holds. */
static void with_holds(uint8_t *held, const uint8_t *sheet, const uint32_t *from, size_t n) {
    memcpy(held, sheet, 16);
    to_bytes(held + 16, from, n);
    memcpy(held + 16 + 4 * n, sheet + 16, 56);
}

static void judging_holds(const uint8_t *sheet) {
    uint8_t held[92];
    uint32_t other[5] = {0xdfffffff, 0xd003fffa, 0xd003fffd, 0xdfffffff, 0xd0000000};
    with_holds(held, sheet, other, 4);
    expect("lengths with holds at the limit, any at the source and at node 3", pigrozk_judge(held, 88) == PIGROZK_ACCEPTED);
    other[1]++;
    with_holds(held, sheet, other, 4);
    expect("one more at node 1 is refused as 34", pigrozk_judge(held, 88) == 34);
    expect("34 is from the input", PIGROZK_IS_REFUSED(34u) && PIGROZK_IS_FROM_INPUT(34u) && !PIGROZK_IS_FROM_STATE(34u));
    with_holds(held, sheet, other, 3);
    expect("three holds are refused as 2", pigrozk_judge(held, 84) == 2);
    with_holds(held, sheet, other, 5);
    expect("so are five", pigrozk_judge(held, 92) == 2);
}

static void running_with_holds(const uint8_t *held, uint32_t *table) {
    uint32_t buffer[3];
    fill(buffer, 3);
    expect("one round with holds", pigrozk_run_limited(held, 88, 1, table, LONGER_WORDS) == PIGROZK_PAUSED);
    expect("its words", is_longer(table, held_paused, keys_after_one));
    expect("one round more of it", pigrozk_resume(held, 88, 1, table, LONGER_WORDS) == PIGROZK_ENDED);
    expect("its words", is_longer(table, held_ended, keys_at_end));
    expect("a run with holds", pigrozk_run(held, 88, table, WORDS) == PIGROZK_ENDED && memcmp(table, held_ended, sizeof held_ended) == 0);
    expect("the route to node 3 has two arcs", pigrozk_route(held, 88, table, WORDS, 3, buffer, 3) == PIGROZK_ROUTE + 2);
    expect("they are 0 and 3", buffer[0] == 0 && buffer[1] == 3 && buffer[2] == 0x5eed0002u);
    expect("hall A's table is refused as 24", pigrozk_route(held, 88, ended, WORDS, 3, buffer, 3) == 24);
}

static void refusing_with_holds(const uint8_t *sheet, const uint8_t *held, uint32_t *table) {
    uint32_t before[LONGER_WORDS];
    pigrozk_run_limited(sheet, 72, 1, table, LONGER_WORDS);
    memcpy(before, table, sizeof before);
    expect("hall A's state after one round is refused as 33", pigrozk_resume(held, 88, 1, table, LONGER_WORDS) == 33);
    expect("and stays", memcmp(table, before, sizeof before) == 0);
}

static void copying_with_holds(const uint8_t *held) {
    uint8_t out[88], form[88];
    memcpy(form, held, sizeof form);
    to_bytes(form + 64, canonical, 6);
    expect("the form with holds has 88 bytes", pigrozk_canonical(held, 88, out, 88) == PIGROZK_WRITTEN + 88);
    expect("and the holds where they stood", memcmp(out, form, sizeof form) == 0);
}

static void refusing_self_arcs(const uint8_t *old_sheet, uint32_t *table) {
    uint8_t out[108];
    memset(out, 0x5e, sizeof out);
    fill(table, LONGER_WORDS + 1);
    expect("a self-arc is refused as 35", pigrozk_judge(old_sheet, 108) == 35);
    expect("before a missing leaf", pigrozk_judge(old_sheet, 104) == 35);
    expect("by a run", pigrozk_run(old_sheet, 108, table, WORDS) == 35);
    expect("by a limited run", pigrozk_run_limited(old_sheet, 108, 1, table, WORDS) == 35);
    expect("by a resume", pigrozk_resume(old_sheet, 108, 1, table, LONGER_WORDS) == 35);
    expect("by a route", pigrozk_route(old_sheet, 108, ended, WORDS, 3, table, WORDS) == 35);
    expect("by a canonical form", pigrozk_canonical(old_sheet, 108, out, sizeof out) == 35);
    expect("35 is from the input", PIGROZK_IS_REFUSED(35u) && PIGROZK_IS_FROM_INPUT(35u) && !PIGROZK_IS_FROM_STATE(35u));
    expect("none changes what was lent", filled(table, LONGER_WORDS + 1) && bytes_filled(out, sizeof out));
}

static void converting(const uint8_t *sheet, const uint8_t *old_sheet) {
    uint8_t out[80];
    memset(out, 0x5e, sizeof out);
    expect("one byte too few is refused as 31", pigrozk_convert(old_sheet, 108, out, 71) == 31);
    expect("so is no room", pigrozk_convert(old_sheet, 108, out, 0) == 31);
    expect("a missing leaf is refused as 12, and before the buffer", pigrozk_convert(old_sheet, 104, out, 0) == 12);
    expect("a refusal changes no byte", bytes_filled(out, sizeof out));
    uint32_t code = pigrozk_convert(old_sheet, 108, out, sizeof out);
    expect("the converted sheet has 72 bytes", PIGROZK_IS_WRITTEN(code) && PIGROZK_WRITTEN_BYTES(code) == 72);
    expect("they are hall A's", memcmp(out, sheet, 72) == 0);
    expect("the rest of the buffer stays", bytes_filled(out + 72, sizeof out - 72));
    memset(out, 0x5e, sizeof out);
    expect("hall A is its own conversion, into as many bytes", pigrozk_convert(sheet, 72, out, 72) == PIGROZK_WRITTEN + 72);
    expect("byte by byte", memcmp(out, sheet, 72) == 0 && bytes_filled(out + 72, sizeof out - 72));
}

int main(void) {
    uint8_t sheet[72], held[88], old_sheet[108];
    uint32_t table[LONGER_WORDS + 1];
    to_bytes(sheet, words, 18);
    judging(sheet);
    counting();
    refusing(sheet, table);
    running(sheet, table);
    named_places(table);
    reading(sheet, table);
    copying(sheet);
    running_longer(sheet, table);
    reading_longer(sheet, table);
    resuming(sheet, table);
    refusing_to_resume(sheet, table);
    with_holds(held, sheet, holds, 4);
    judging_holds(sheet);
    running_with_holds(held, table);
    refusing_with_holds(sheet, held, table);
    copying_with_holds(held);
    to_bytes(old_sheet, self_arcs, 27);
    refusing_self_arcs(old_sheet, table);
    converting(sheet, old_sheet);
    puts(failures ? "C: failed" : "C: passed");
    return failures != 0;
}
