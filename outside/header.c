/*
 * The calls as a C program makes them, by include/tides.h: of each function accepted calls with worked values, most of them cases of
 * documents 01 and 02, and refused ones, which change nothing. outside/header builds and runs it.
 *
 * What a call fills is lent uninitialised, so that valgrind tells where it is read before it is written. Each length in the header is
 * tried as it stands, and with one place fewer.
 */
#include <stdio.h>
#include <stdlib.h>
#include <string.h>
#include "tides.h"

/* ---- lists for the calls ---- */

/* An array as a call takes it: pointer and length in elements. And with one place fewer. */
#define LIST(array) (array), sizeof(array) / sizeof *(array)
#define SHORT(array) (array), sizeof(array) / sizeof *(array) - 1

/* A dataset: its record and its memory. */
struct dataset {
    uint16_t record[TIDES_RECORD_LENGTH];
    uint32_t distances[TIDES_DISTANCES_LENGTH];
    uint8_t settings[TIDES_SETTINGS_LENGTH];
};
#define DATASET(d) LIST((d)->record), LIST((d)->distances), LIST((d)->settings)
#define READ_ONLY(d) DATASET((const struct dataset *)(d)) /* for the calls that change nothing in it */

/* What tides_centres fills, for the six tides of case 1. */
struct centres {
    uint8_t list[6], nearest[6];
    uint32_t away[6];
    uint16_t count[TIDES_COUNT_LENGTH];
};
#define CENTRES(c) LIST((c)->list), LIST((c)->nearest), LIST((c)->away), LIST((c)->count)

/* What tides_block and tides_tariff fill: four lists with a place for each tide. */
struct blocks {
    uint8_t list[TIDES_MAX_TIDES], centres[TIDES_MAX_TIDES], sizes[TIDES_MAX_TIDES];
    uint32_t diameters[TIDES_MAX_TIDES];
};
#define BLOCKS(b, n) (b)->list, n, (b)->centres, n, (b)->sizes, n, (b)->diameters, n

/* Uninitialised memory. */
static void *lend(size_t size) {
    void *memory = malloc(size);
    if (!memory) exit(2);
    return memory;
}

/* Memory painted over, for a call that is to leave it alone, and whether it did. */
static void *painted(size_t size) {
    return memset(lend(size), 0xEE, size);
}

static int untouched(const void *memory, size_t size) {
    const unsigned char *bytes = memory;
    while (size > 0 && bytes[size - 1] == 0xEE) size--;
    return size == 0;
}

static int same(const struct dataset *a, const struct dataset *b) {
    return !memcmp(a->record, b->record, sizeof a->record) && !memcmp(a->distances, b->distances, sizeof a->distances) &&
           !memcmp(a->settings, b->settings, sizeof a->settings);
}

/* ---- what is expected ---- */

static unsigned long values, differences;

static void expect(const char *name, unsigned long got, unsigned long wanted) {
    values++;
    if (got == wanted) return;
    differences++;
    printf("FAILED: %s: %lu, not %lu\n", name, got, wanted);
}

/* Each place of an array of wanted values. */
#define EXPECT(name, got, wanted) \
    for (size_t place = 0; place < sizeof(wanted) / sizeof *(wanted); place++) expect(name, (got)[place], (wanted)[place])

/* ---- datasets ---- */

static const int AT_1[] = {2, 5, 0, 1, 3, 7}, AT_2[] = {0, 1, 10, 11};
static const uint8_t MINIMA_1[TIDES_MINIMA_LENGTH] = {3}, MINIMA_2[TIDES_MINIMA_LENGTH] = {2, 1, 1};
#define CASE_1 1, LIST(AT_1), MINIMA_1 /* document 01: k = 1, b0 = 3 */
#define CASE_2 2, LIST(AT_2), MINIMA_2 /* k = 2, settings 1, 2, 1, 2; b0 = 2, b = 1, 1 */
#define EMPTY 1, AT_1, 0, MINIMA_1

/* One more tide at a place on a line. The first one's row is empty, and a pointer nevertheless. */
static uint32_t enter_on_line(struct dataset *d, const int *at, size_t n, uint32_t setting) {
    uint32_t row[TIDES_MAX_TIDES];
    for (size_t i = 0; i < n; i++) row[i] = (uint32_t)abs(at[n] - at[i]);
    return tides_enter(DATASET(d), setting, row, n);
}

/* Tides on a line, under settings 1 .. k in turn. */
static struct dataset *on_line(uint32_t k, const int *at, size_t n, const uint8_t *minima) {
    struct dataset *d = lend(sizeof *d);
    expect("tides_open", tides_open(DATASET(d), k), 0);
    expect("tides_minima", tides_minima(DATASET(d), minima, TIDES_MINIMA_LENGTH), 0);
    for (size_t i = 0; i < n; i++) expect("tides_enter", enter_on_line(d, at, i, (uint32_t)i % k + 1), 0);
    return d;
}

/* ---- the calls, each with a function of its own ---- */

static void try_open(void) {
    static const struct dataset fresh = {{2, 0, 1}, {0}, {0}};
    struct dataset *d = lend(sizeof *d), *old = painted(sizeof *old);
    expect("Open", tides_open(DATASET(d), 2), 0);
    expect("Open: k = 2, b0 = 1, all else 0", same(d, &fresh), 1);
    expect("Open, greatest k", tides_open(DATASET(d), TIDES_MAX_SETTINGS), 0);
    expect("Open, k too large", tides_open(DATASET(old), TIDES_MAX_SETTINGS + 1), 2);
    expect("Open, k of 17 bits", tides_open(DATASET(old), 65537), 2);
    expect("Open, record", tides_open(SHORT(old->record), LIST(old->distances), LIST(old->settings), 9), 1);
    expect("Open, distances", tides_open(LIST(old->record), SHORT(old->distances), LIST(old->settings), 9), 1);
    expect("Open, settings", tides_open(LIST(old->record), LIST(old->distances), SHORT(old->settings), 9), 1);
    expect("Open refused", untouched(old, sizeof *old), 1);
    free(d), free(old);
}

static void try_minima(void) {
    static const uint8_t below[TIDES_MINIMA_LENGTH] = {1, 1, 1}, none[TIDES_MINIMA_LENGTH] = {0, 1, 1};
    static const uint16_t record[] = {2, 4, 2, 1, 1, 0, 0, 0, 0, 0, 0, 0, 0, 0, 0};
    struct dataset *d = on_line(CASE_2), *bad = painted(sizeof *bad), before = *d;
    EXPECT("Minima, record", d->record, record);
    expect("Minima, b0 = 0", tides_minima(DATASET(d), LIST(none)), 3);
    expect("Minima, 8 bytes", tides_minima(DATASET(d), SHORT(none)), 1);
    expect("Minima refused", same(d, &before), 1);
    expect("Minima, no dataset", tides_minima(DATASET(bad), LIST(none)), 21);
    expect("Minima, no dataset, 8 bytes", tides_minima(DATASET(bad), SHORT(none)), 1);
    expect("Minima refused", untouched(bad, sizeof *bad), 1);
    expect("Minima, b0 below the sum", tides_minima(DATASET(d), LIST(below)), 0); /* document 02, 2.2 */
    EXPECT("Minima, b0 below the sum, record", d->record, record);
    free(d), free(bad);
}

/* Case 7, and the same tide again (document 02, 2.8). */
static void try_enter(void) {
    static const int two[] = {0, 3};
    static const uint32_t between[] = {1, 2}, beside[] = {1, 4}, near[] = {1, 1}, wide[] = {1, 5}, again[] = {0, 3};
    static const uint32_t most[] = {TIDES_MAX_DISTANCE, TIDES_MAX_DISTANCE}, beyond[] = {1, TIDES_MAX_DISTANCE + 1};
    struct dataset *d = on_line(1, LIST(two), MINIMA_1), before = *d;
    uint32_t answer = tides_enter(DATASET(d), 1, LIST(near));
    expect("Enter at (1, 1)", TIDES_REASON(answer), 7);
    expect("Enter at (1, 1), i", TIDES_FIRST(answer), 1);
    expect("Enter at (1, 1), j", TIDES_SECOND(answer), 2);
    expect("Enter at (1, 5)", tides_enter(DATASET(d), 1, LIST(wide)), 7 + 256 * 1 + 65536 * 2);
    expect("Enter, row", tides_enter(DATASET(d), 1, SHORT(between)), 4);
    expect("Enter, setting", tides_enter(DATASET(d), 2, LIST(between)), 5);
    expect("Enter, setting of 17 bits", tides_enter(DATASET(d), 65537, LIST(between)), 5);
    expect("Enter, distance", tides_enter(DATASET(d), 1, LIST(beyond)), 6);
    expect("Enter, duplicate", tides_enter(DATASET(d), 1, LIST(again)), 15);
    expect("Enter refused", same(d, &before), 1);
    expect("Enter at (1, 2)", tides_enter(DATASET(d), 1, LIST(between)), 0);
    expect("Enter, n", d->record[1], 3);
    expect("Enter, setting", d->settings[2], 1);
    EXPECT("Enter, row", d->distances + 2 * TIDES_MAX_TIDES, between);
    expect("Enter, column", d->distances[1 * TIDES_MAX_TIDES + 2], 2);
    *d = before;
    expect("Enter at (1, 4)", tides_enter(DATASET(d), 1, LIST(beside)), 0);
    *d = before;
    expect("Enter, greatest distance", tides_enter(DATASET(d), 1, LIST(most)), 0);
    free(d);
}

/* Case 1 without its tide 2. */
static void try_withdraw(void) {
    static const uint16_t record[] = {1, 5, 3, 0, 0, 0, 0, 0, 0, 0, 0, 0, 0, 1, 0};
    static const uint32_t row_5[] = {5, 7, 6, 4, 0, 0}; /* the tide at 7, from those at 2, 0, 1 and 3 */
    struct dataset *d = on_line(CASE_1), before = *d;
    expect("Withdraw, user", tides_withdraw(DATASET(d), TIDES_MAX_USERS + 1, 7), 14);
    expect("Withdraw, user of 17 bits", tides_withdraw(DATASET(d), 65537, 2), 14);
    expect("Withdraw, tide", tides_withdraw(DATASET(d), TIDES_MAX_USERS, 7), 23);
    expect("Withdraw, tide of 17 bits", tides_withdraw(DATASET(d), 1, 65538), 23);
    expect("Withdraw refused", same(d, &before), 1);
    expect("Withdraw", tides_withdraw(DATASET(d), 3, 2), 0);
    EXPECT("Withdraw, record", d->record, record);
    EXPECT("Withdraw, row 5", d->distances + 4 * TIDES_MAX_TIDES, row_5);
    d->record[11] = TIDES_MAX_WITHDRAWALS; /* user 1's */
    before = *d;
    expect("Withdraw, no more", tides_withdraw(DATASET(d), 1, 1), 26);
    expect("Withdraw refused", same(d, &before), 1);
    expect("Withdraw, another user", tides_withdraw(DATASET(d), 2, 1), 0);
    free(d);
}

/* Case 1's centres at its radius; tide 5 lies at 1 from centre 1 and at 2 from centre 2. */
static void try_centres(void) {
    static const uint8_t list[] = {1, 2}, nearest[] = {1, 2, 1, 1, 1, 2};
    static const uint32_t away[] = {0, 0, 2, 1, 1, 2};
    struct centres *c = lend(sizeof *c), *old = painted(sizeof *old);
    struct dataset *d = on_line(CASE_1), *none = on_line(EMPTY);
    expect("Centres", tides_centres(READ_ONLY(d), 2, CENTRES(c)), 0);
    expect("Centres, count", c->count[0], 2);
    EXPECT("Centres, list", c->list, list);
    EXPECT("Centres, nearest", c->nearest, nearest);
    EXPECT("Centres, distances", c->away, away);
    expect("Centres at 2^32 - 1", tides_centres(READ_ONLY(d), 4294967295u, CENTRES(c)), 0);
    expect("Centres at 2^32 - 1, count", c->count[0], 1);
    expect("Centres, no tides", tides_centres(READ_ONLY(none), 2, CENTRES(old)), 24);
    expect("Centres, no tides, count",
           tides_centres(READ_ONLY(none), 2, LIST(old->list), LIST(old->nearest), LIST(old->away), SHORT(old->count)), 1);
    expect("Centres, first", tides_centres(READ_ONLY(d), 2, SHORT(old->list), LIST(old->nearest), LIST(old->away), LIST(old->count)), 1);
    expect("Centres, second", tides_centres(READ_ONLY(d), 2, LIST(old->list), SHORT(old->nearest), LIST(old->away), LIST(old->count)), 1);
    expect("Centres, third", tides_centres(READ_ONLY(d), 2, LIST(old->list), LIST(old->nearest), SHORT(old->away), LIST(old->count)), 1);
    expect("Centres refused", untouched(old, sizeof *old), 1);
    free(d), free(none), free(c), free(old);
}

/* Cases 1 and 2. */
static void try_block(void) {
    static const uint8_t list_1[] = {1, 2, 1, 1, 2, 2}, list_2[] = {1, 1, 2, 2}, centres[] = {1, 2}, sizes[] = {3, 3};
    static const uint8_t seven[TIDES_MINIMA_LENGTH] = {7};
    static const uint32_t diameters[] = {2, 4}, result_1[] = {2, 2, 4}, result_2[] = {2, 1, 1};
    struct blocks *b = lend(sizeof *b), *c = lend(sizeof *c), *old = painted(sizeof *old);
    struct dataset *d = on_line(CASE_1), *two = on_line(CASE_2), *none = on_line(EMPTY);
    uint32_t result[TIDES_BLOCK_RESULT_LENGTH], kept[TIDES_BLOCK_RESULT_LENGTH] = {9, 9, 9};
    expect("Block of case 1", tides_block(READ_ONLY(d), BLOCKS(b, 6), LIST(result)), 0);
    EXPECT("Block of case 1, list", b->list, list_1);
    EXPECT("Block of case 1, centres", b->centres, centres);
    EXPECT("Block of case 1, sizes", b->sizes, sizes);
    EXPECT("Block of case 1, diameters", b->diameters, diameters);
    EXPECT("Block of case 1, blocks, radius, greatest diameter", result, result_1);
    expect("Block of case 2", tides_block(READ_ONLY(two), BLOCKS(c, 4), LIST(result)), 0);
    EXPECT("Block of case 2, list", c->list, list_2);
    EXPECT("Block of case 2, blocks, radius, greatest diameter", result, result_2);
    expect("Block, lists", tides_block(READ_ONLY(d), BLOCKS(old, 5), LIST(kept)), 1);
    expect("Block, no tides", tides_block(READ_ONLY(none), BLOCKS(old, 6), LIST(kept)), 24);
    expect("Block, no tides, result", tides_block(READ_ONLY(none), BLOCKS(old, 6), SHORT(kept)), 1);
    expect("Minima, b0 = 7", tides_minima(DATASET(d), LIST(seven)), 0);
    expect("Block, too few tides", tides_block(READ_ONLY(d), BLOCKS(old, 6), LIST(kept)), 25);
    expect("Block refused", untouched(old, sizeof *old) && kept[0] == 9 && kept[1] == 9 && kept[2] == 9, 1);
    free(d), free(two), free(none), free(b), free(c), free(old);
}

/* Case 2, and 21 tides at 7 from one another in one block: 93 hundredths of 21 times 940 pence, shared by three settings. */
static void try_tariff(void) {
    static const uint32_t bill_2[] = {2, 1, 1, 3760, 1880, 1880, 0, 0, 0, 0, 0, 0};
    static const uint32_t bill_21[] = {1, 7, 7, 18358, 6120, 6119, 6119, 0, 0, 0, 0, 0};
    static const uint8_t list_2[] = {1, 1, 2, 2}, all[TIDES_MINIMA_LENGTH] = {21};
    struct dataset *two = on_line(CASE_2), *d = on_line(3, AT_2, 0, all);
    struct blocks *b = lend(sizeof *b), *c = lend(sizeof *c), *old = painted(sizeof *old);
    uint32_t bill[TIDES_TARIFF_RESULT_LENGTH], kept[TIDES_TARIFF_RESULT_LENGTH] = {9, 9, 9, 9, 9, 9, 9, 9, 9, 9, 9, 9}, row[21];
    expect("Tariff of case 2", tides_tariff(READ_ONLY(two), BLOCKS(b, 4), LIST(bill)), 0);
    EXPECT("Tariff of case 2, figures", bill, bill_2);
    EXPECT("Tariff of case 2, list", b->list, list_2);
    expect("Tariff, no tides", tides_tariff(READ_ONLY(d), BLOCKS(old, 21), LIST(kept)), 24);
    for (size_t n = 0; n < 21; row[n++] = 7) expect("Enter at 7", tides_enter(DATASET(d), n % 3 + 1, row, n), 0);
    expect("Tariff of 21 tides", tides_tariff(READ_ONLY(d), BLOCKS(c, 21), LIST(bill)), 0);
    EXPECT("Tariff of 21 tides, figures", bill, bill_21);
    expect("Tariff, lists", tides_tariff(READ_ONLY(d), BLOCKS(old, 20), LIST(kept)), 1);
    expect("Tariff, result", tides_tariff(READ_ONLY(d), BLOCKS(old, 21), SHORT(kept)), 1);
    expect("Tariff refused", untouched(old, sizeof *old) && kept[0] == 9 && kept[11] == 9, 1);
    free(two), free(d), free(b), free(c), free(old);
}

/* Lists for case 1: the one of tides_block, one with gaps in its numbers, one with a block of two. */
static void try_judge(void) {
    static const uint8_t ours[] = {1, 2, 1, 1, 2, 2}, gaps[] = {255, 7, 255, 7, 255, 7}, few[] = {1, 2, 1, 1, 1, 2};
    static const uint32_t yes_4[] = {1, 4}, yes_6[] = {1, 6}, no[] = {0, 0};
    struct dataset *d = on_line(CASE_1), *none = on_line(EMPTY);
    uint32_t result[TIDES_JUDGE_RESULT_LENGTH], kept[TIDES_JUDGE_RESULT_LENGTH] = {9, 9};
    expect("Judge", tides_judge(READ_ONLY(d), LIST(ours), LIST(result)), 0);
    EXPECT("Judge, ours", result, yes_4);
    expect("Judge, gaps", tides_judge(READ_ONLY(d), LIST(gaps), LIST(result)), 0);
    EXPECT("Judge, gaps", result, yes_6);
    expect("Judge, few", tides_judge(READ_ONLY(d), LIST(few), LIST(result)), 0);
    EXPECT("Judge, few", result, no);
    expect("Judge, length", tides_judge(READ_ONLY(d), SHORT(ours), LIST(kept)), 12);
    expect("Judge, no tides", tides_judge(READ_ONLY(none), LIST(ours), LIST(kept)), 24);
    expect("Judge, no tides, result", tides_judge(READ_ONLY(none), LIST(ours), SHORT(kept)), 1);
    expect("Judge refused", kept[0] == 9 && kept[1] == 9, 1);
    free(d), free(none);
}

/* The sheet's example, but with a count of 1 for user 3, and of mark 54 with a count of 3; case 8's refusals. */
static void try_read(void) {
    static const uint8_t one[] = {0x55, 0x02, 0x20, 0x40, 0, 0, 0, 0, 0, 0x40, 0, 0, 0}, old[] = {0x54, 0x02, 0x20, 0x40, 0, 0xC0, 0};
    static const uint8_t filling[] = {0x55, 0, 0x20, 0x40, 0, 0, 0, 0, 0, 0, 0, 0, 1}, mark[] = {0x56, 0, 0x20, 0x40, 0, 0, 0};
    static const struct dataset new_one = {{1, 1, 1, [13] = 1}, {0}, {1}}, old_one = {{1, 1, 1, [11] = 3}, {0}, {1}};
    struct dataset *d = lend(sizeof *d), *e = lend(sizeof *e), *kept = painted(sizeof *kept);
    expect("Read", tides_read(DATASET(d), LIST(one)), 0);
    expect("Read: one tide", same(d, &new_one), 1);
    expect("Read, mark 54", tides_read(DATASET(e), LIST(old)), 0);
    expect("Read, mark 54: one tide", same(e, &old_one), 1);
    expect("Read, filling", tides_read(DATASET(kept), LIST(filling)), 11);
    expect("Read, length", tides_read(DATASET(kept), SHORT(filling)), 8);
    expect("Read, mark", tides_read(DATASET(kept), LIST(mark)), 9);
    expect("Read, settings", tides_read(LIST(kept->record), LIST(kept->distances), SHORT(kept->settings), LIST(mark)), 1);
    expect("Read refused", untouched(kept, sizeof *kept), 1);
    free(d), free(e), free(kept);
}

/* Case 2's file, byte for byte; the longest one, of 120 tides under eight settings; with these, case 9. */
static void try_write(void) {
    static const uint8_t file_2[] = {0x55, 0x08, 0x40, 0x80, 0x00, 0x00, 0x00, 0x00, 0x00, 0x00, 0x00, 0x00, 0x81, 0x04, 0x00,
                                     0x00, 0x40, 0x00, 0x05, 0x00, 0x00, 0x49, 0x00, 0x00, 0xB0, 0x00, 0x0A, 0x00, 0x00, 0x10};
    int at[TIDES_MAX_TIDES + 1];
    for (int i = 0; i <= TIDES_MAX_TIDES; i++) at[i] = i;
    struct dataset *two = on_line(CASE_2), *most = on_line(TIDES_MAX_SETTINGS, at, TIDES_MAX_TIDES, MINIMA_1);
    uint8_t *file = lend(TIDES_LONGEST_FILE), *kept = painted(TIDES_LONGEST_FILE);
    uint32_t length[TIDES_WRITE_RESULT_LENGTH], none[TIDES_WRITE_RESULT_LENGTH] = {9};
    expect("Write", tides_write(READ_ONLY(two), file, TIDES_LONGEST_FILE, LIST(length)), 0);
    expect("Write, length", length[0], sizeof file_2);
    EXPECT("Write, file", file, file_2);
    expect("Write, longest", tides_write(READ_ONLY(most), file, TIDES_LONGEST_FILE, LIST(length)), 0);
    expect("Write, longest, length", length[0], TIDES_LONGEST_FILE);
    expect("Write, file", tides_write(READ_ONLY(most), kept, TIDES_LONGEST_FILE - 1, LIST(none)), 1);
    expect("Write, result", tides_write(READ_ONLY(two), kept, TIDES_LONGEST_FILE, SHORT(none)), 1);
    expect("Write refused", untouched(kept, TIDES_LONGEST_FILE) && none[0] == 9, 1);
    expect("Enter, tide 121", enter_on_line(most, at, TIDES_MAX_TIDES, 1), 22);
    expect("Withdraw tide 120", tides_withdraw(DATASET(most), 4, TIDES_MAX_TIDES), 0);
    expect("Enter, tide 120 again", enter_on_line(most, at, TIDES_MAX_TIDES - 1, 1), 0);
    free(two), free(most), free(file), free(kept);
}

static uint32_t merge(const struct dataset *a, const struct dataset *b, struct dataset *d, const uint8_t *firsts, size_t firsts_length,
                      const uint8_t *seconds, size_t seconds_length) {
    return tides_merge(DATASET(a), DATASET(b), DATASET(d), firsts, firsts_length, seconds, seconds_length);
}

/* Each of the nine lists of the three datasets with one place fewer; 21 and 17 hold too. */
static void try_merge_short(void) {
    static const uint8_t none[1];
    struct dataset *bad = painted(sizeof *bad), *old = painted(sizeof *old);
    for (size_t list = 0; list < 9; list++) {
        size_t length[9];
        for (size_t i = 0; i < 9; i += 3)
            length[i] = TIDES_RECORD_LENGTH, length[i + 1] = TIDES_DISTANCES_LENGTH, length[i + 2] = TIDES_SETTINGS_LENGTH;
        length[list]--;
        expect("Merge, lists",
               tides_merge(bad->record, length[0], bad->distances, length[1], bad->settings, length[2], bad->record, length[3],
                           bad->distances, length[4], bad->settings, length[5], old->record, length[6], old->distances, length[7],
                           old->settings, length[8], none, 0, none, 0),
               1);
    }
    expect("Merge refused", untouched(old, sizeof *old) && untouched(bad, sizeof *bad), 1);
    free(bad), free(old);
}

/* 120 tides merged with themselves and all but one of them; two distances that come to the greatest, and to one more. */
static void try_merge_limits(void) {
    static const int far[] = {0, TIDES_MAX_DISTANCE - 1}, one[] = {0, 1}, two[] = {0, 2};
    static const uint8_t tide_1[] = {1}, tide_2[] = {2};
    int at[TIDES_MAX_TIDES];
    uint8_t all[TIDES_MAX_TIDES];
    for (int i = 0; i < TIDES_MAX_TIDES; i++) at[i] = i, all[i] = (uint8_t)(i + 1);
    struct dataset *most = on_line(TIDES_MAX_SETTINGS, LIST(at), MINIMA_1), *a = on_line(1, LIST(far), MINIMA_1);
    struct dataset *b = on_line(1, LIST(one), MINIMA_1), *c = on_line(1, LIST(two), MINIMA_1);
    struct dataset *d = lend(sizeof *d), *old = painted(sizeof *old);
    expect("Merge, 120 tides", merge(most, most, d, LIST(all), LIST(all)), 0);
    expect("Merge, 120 tides as they were", same(d, most), 1);
    expect("Merge, 121 tides", merge(most, most, old, SHORT(all), SHORT(all)), 22);
    expect("Merge, greatest distance", merge(a, b, d, LIST(tide_2), LIST(tide_1)), 0);
    expect("Merge, greatest distance", d->distances[2], TIDES_MAX_DISTANCE);
    expect("Merge, distance", merge(a, c, old, LIST(tide_2), LIST(tide_1)), 6);
    expect("Merge refused", untouched(old, sizeof *old), 1);
    free(most), free(a), free(b), free(c), free(d), free(old);
}

/*
 * Tides 3 and 4 of the first are tides 1 and 2 of the second. The second's tide 3, at 1 from both, is nearest to tide 1 through the one,
 * 10 + 1, and to tide 2 through the other, 8 + 1. User 4 comes to the greatest count.
 */
static void try_merge(void) {
    static const int at[] = {0, 20, 10, 12}, other[] = {5, 7, 6, 10};
    static const uint8_t firsts[] = {3, 4}, seconds[] = {1, 2}, settings[] = {1, 2, 1, 2, 1, 2, 0};
    static const uint8_t absent[] = {3, 5}, zero[] = {0, 2}, again[] = {3, 3}, turned[] = {2, 1}, apart[] = {1, 4};
    static const uint16_t record[] = {2, 6, 2, 1, 1, 0, 0, 0, 0, 0, 0, 3, 0, 7, TIDES_MAX_WITHDRAWALS};
    static const uint32_t row_2[] = {20, 0, 10, 8, 9, 11, 0}, row_5[] = {11, 9, 1, 1, 0, 4, 0}, row_6[] = {15, 11, 5, 3, 4, 0, 0};
    struct dataset *a = on_line(2, LIST(at), MINIMA_2), *b = on_line(2, LIST(other), MINIMA_1), *one = on_line(CASE_1);
    struct dataset *d = lend(sizeof *d), *old = painted(sizeof *old), *bad = painted(sizeof *bad), first, second;
    a->record[11] = 1, a->record[14] = TIDES_MAX_WITHDRAWALS - 5;
    b->record[11] = 2, b->record[13] = 7, b->record[14] = 5;
    first = *a, second = *b;
    expect("Merge", merge(a, b, d, LIST(firsts), LIST(seconds)), 0);
    EXPECT("Merge, record", d->record, record);
    EXPECT("Merge, settings", d->settings, settings);
    EXPECT("Merge, row 2", d->distances + 1 * TIDES_MAX_TIDES, row_2);
    EXPECT("Merge, row 5", d->distances + 4 * TIDES_MAX_TIDES, row_5);
    EXPECT("Merge, row 6", d->distances + 5 * TIDES_MAX_TIDES, row_6);
    expect("Merge, last places", d->distances[TIDES_DISTANCES_LENGTH - 1] + d->settings[TIDES_SETTINGS_LENGTH - 1], 0);
    expect("Merge, first no dataset", merge(bad, b, old, firsts, 0, seconds, 0), 21);
    expect("Merge, second no dataset", merge(a, bad, old, firsts, 0, seconds, 0), 21);
    expect("Merge, no pair", merge(a, one, old, firsts, 0, seconds, 0), 17);
    expect("Merge, k", merge(a, one, old, LIST(firsts), LIST(seconds)), 16);
    expect("Merge, first list", merge(a, b, old, SHORT(firsts), LIST(seconds)), 16);
    expect("Merge, second list", merge(a, b, old, LIST(firsts), SHORT(seconds)), 16);
    expect("Merge, absent", merge(a, b, old, LIST(absent), LIST(seconds)), 16);
    expect("Merge, tide 0", merge(a, b, old, LIST(firsts), LIST(zero)), 16);
    expect("Merge, named before", merge(a, b, old, LIST(again), LIST(seconds)), 16);
    expect("Merge, settings", merge(a, b, old, LIST(firsts), LIST(turned)), 16);
    expect("Merge, distances", merge(a, b, old, LIST(firsts), LIST(apart)), 16);
    expect("Merge, sources", same(a, &first) && same(b, &second), 1);
    b->record[14]++;
    expect("Merge, withdrawals", merge(a, b, old, LIST(firsts), LIST(seconds)), 26);
    expect("Merge refused", untouched(old, sizeof *old) && untouched(bad, sizeof *bad), 1);
    free(a), free(b), free(one), free(d), free(old), free(bad);
    try_merge_short();
    try_merge_limits();
}

/* The pair 1, 3 is lowered from 5 to 1 + 2. */
static void try_mend(void) {
    static const uint32_t mended[] = {0, 1, 3, 1, 0, 2, 3, 2, 0, 99};
    uint32_t table[] = {0, 1, 5, 1, 0, 2, 5, 2, 0, 99}, far[] = {0, TIDES_MAX_DISTANCE + 1, 0, 0}, uneven[] = {0, 1, 2, 0};
    uint32_t lowered[TIDES_MEND_RESULT_LENGTH], kept[TIDES_MEND_RESULT_LENGTH] = {9};
    const size_t n_wide = (size_t)-1 / 2 + 4; /* 3 in its lower half */
    expect("Mend", tides_mend(LIST(table), 3, LIST(lowered)), 0);
    expect("Mend, lowered", lowered[0], 1);
    EXPECT("Mend, table", table, mended);
    expect("Mend, again", tides_mend(LIST(table), 3, LIST(lowered)), 0);
    expect("Mend again, lowered", lowered[0], 0);
    expect("Mend, n", tides_mend(LIST(table), TIDES_MAX_TIDES + 1, LIST(kept)), 10);
    expect("Mend, wide n", tides_mend(LIST(table), n_wide, LIST(kept)), 10);
    expect("Mend, table", tides_mend(LIST(table), 4, LIST(kept)), 1);
    expect("Mend, result", tides_mend(LIST(table), TIDES_MAX_TIDES + 1, SHORT(kept)), 1);
    expect("Mend, distance", tides_mend(LIST(far), 2, LIST(kept)), 6);
    expect("Mend, both ways", tides_mend(LIST(uneven), 2, LIST(kept)), 13);
    EXPECT("Mend refused, table", table, mended);
    expect("Mend refused", uneven[1] == 1 && uneven[2] == 2 && kept[0] == 9, 1);
}

int main(void) {
    static void (*const calls[])(void) = {try_open,   try_minima, try_enter, try_withdraw, try_centres, try_block,
                                          try_tariff, try_judge,  try_read,  try_write,    try_merge,   try_mend};
    const size_t functions = sizeof calls / sizeof *calls;
    for (size_t i = 0; i < functions; i++) calls[i]();
    if (differences) return 1;
    printf("header: %lu values as expected, %lu functions\n", values, (unsigned long)functions);
    return 0;
}
