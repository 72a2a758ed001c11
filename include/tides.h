/* Blocks of like tides: the calls of the library c_api for C. */
#ifndef TIDES_H
#define TIDES_H

#include <stddef.h>
#include <stdint.h>

#ifdef __cplusplus
extern "C" {
#endif

/*
 * A dataset is a record of 15 numbers (k, n, b0, b1 .. b8, and the withdrawals of users 1 to 4) and lent memory: 14,400 distances in
 * rows of 120, and 120 settings. Longer lists keep what stands past these places. Tides are numbered from 1. tides_open, tides_read or
 * tides_merge makes a dataset of any record and memory; whatever stands beyond its tides is 0 then, and has to stay so (21).
 *
 * The words of documents 01 and 02 beside those used here: book = dataset, keeper = user, reach = radius, widest = greatest diameter,
 * twin = duplicate, filling = assignment (tides_block writes one as its list), division = partition (any list of block numbers),
 * three-tide rule = triangle inequality, mended table = metric closure, joining = merging.
 *
 * Each list is a pointer that isn't null and a length in elements; an empty list too, as the row of the first tide entered, is a pointer
 * that isn't null and the length 0. Lists of one call don't overlap; the two sources of tides_merge alone may be the same lists. Places of
 * a list past those that a call fills stay as they are; a list that is only filled needn't be set before. Each single number has 32 bits, a
 * table's n those of a size_t, and counts as it is given: 257 is no k, no setting, no tide and no user.
 *
 * The calls keep nothing from one to the next, allocate nothing, and touch the lists that they are lent and the stack alone. So different
 * datasets may be used in different threads at once. A call needs at most about 64 KB of stack (measured on x86-64: tides_read and
 * tides_mend 59 KB, tides_block and tides_tariff 32 KB, each other call less than 3 KB).
 *
 * Each call answers 0, or the number of the first reason that holds, in the order given. For 7 it answers 7 + 256 i + 65,536 j,
 * where i < j is the first pair of earlier tides with which the tide that is entered, or read, breaks the three-tide rule. A refused call
 * changes nothing. Lists of fixed size (record, minima, count, result) are tested first, together with the memory: where one of them is too
 * short, the answer is 1, whatever else holds. A list with a place for each tide, a table and a file have their place in the order.
 *
 *  1  record, memory, list, table or file too short  11  filling bits not zero
 *  2  k not 1 to 8                                   12  judged list's length differs from n
 *  3  b0 not 1 to 120, a b of a setting above k not  13  table not the same both ways, or a tide not at 0 from itself
 *     0, or the b's together above b0 (tides_minima: 14  user not 1 to 4
 *     above 120)                                     15  new tide at distance 0 from a tide of its setting
 *  4  row length differs from the tides held         16  sources of different k, or pairs of tides that don't agree
 *  5  setting not 1 to k                             17  no pair of tides named
 *  6  distance above 1,048,575                       21  record and memory are no dataset
 *  7  three-tide rule broken                         22  120 tides held already; more than 120 in the merged dataset
 *  8  file under 6 bytes, of mark 55 under 12, or    23  no tide of that number
 *     not of its length                              24  no tides
 *  9  mark neither 54 nor 55 (hexadecimal)           25  fewer than b0 tides, or fewer of a setting than its b
 * 10  n of a file or table above 120                 26  this user's withdrawals already 65,535; merged, a user's above it
 */

/* What a dataset can hold. */
#define TIDES_MAX_TIDES 120         /* tides */
#define TIDES_MAX_SETTINGS 8        /* settings, the greatest k */
#define TIDES_MAX_USERS 4           /* users, each with a count of withdrawals */
#define TIDES_MAX_WITHDRAWALS 65535 /* a user's withdrawals */
#define TIDES_MAX_DISTANCE 1048575  /* a distance */

/* The least lengths of lists, in elements. */
#define TIDES_RECORD_LENGTH 15        /* record, uint16_t: k, n, b0, b1 .. b8, four counts */
#define TIDES_DISTANCES_LENGTH 14400  /* distances, uint32_t: of tides i and j in place 120 (i - 1) + j - 1, from 0 */
#define TIDES_SETTINGS_LENGTH 120     /* settings, uint8_t: of tide i in place i - 1 */
#define TIDES_MINIMA_LENGTH 9         /* minima, uint8_t: b0, b1 .. b8 */
#define TIDES_COUNT_LENGTH 1          /* count of tides_centres, uint16_t */
#define TIDES_BLOCK_RESULT_LENGTH 3   /* result of tides_block, as of each call uint32_t */
#define TIDES_TARIFF_RESULT_LENGTH 12 /* result of tides_tariff */
#define TIDES_JUDGE_RESULT_LENGTH 2   /* result of tides_judge */
#define TIDES_WRITE_RESULT_LENGTH 1   /* result of tides_write */
#define TIDES_MEND_RESULT_LENGTH 1    /* result of tides_mend */
#define TIDES_LONGEST_FILE 17914      /* bytes: no dataset has a longer study file */

/* An answer taken apart: its number, 0 or the reason, and of a 7 the pair i < j. */
#define TIDES_REASON(answer) ((answer) & 255u)
#define TIDES_FIRST(answer) ((answer) >> 8 & 255u)
#define TIDES_SECOND(answer) ((answer) >> 16)

/* The dataset becomes empty: the given k, b0 = 1, every b = 0, no withdrawals. Any record and memory will do. Reasons: 1, 2. */
uint32_t tides_open(uint16_t *record, size_t record_length, uint32_t *distances, size_t distances_length, uint8_t *settings,
                    size_t settings_length, uint32_t k);

/*
 * Replaces the minima by 9 bytes: b0, b1 .. b8. A b0 that is at least 1 and below the sum of the b's is taken as that sum, and the record
 * then holds the sum. Reasons: 1, 21, 3.
 */
uint32_t tides_minima(uint16_t *record, size_t record_length, const uint32_t *distances, size_t distances_length,
                      const uint8_t *settings, size_t settings_length, const uint8_t *minima, size_t minima_length);

/*
 * One more tide, at the row's distances from the tides held. Reasons: 1, 21, 22, 4, 5, 6, 7, 15. Only this call refuses a duplicate (15): a
 * dataset and a file that hold one are taken by every other call.
 */
uint32_t tides_enter(uint16_t *record, size_t record_length, uint32_t *distances, size_t distances_length, uint8_t *settings,
                     size_t settings_length, uint32_t setting, const uint32_t *row, size_t row_length);

/* The named tide goes, later tides move down by one, and the user's withdrawals go up by one. Reasons: 1, 14, 21, 23, 26. */
uint32_t tides_withdraw(uint16_t *record, size_t record_length, uint32_t *distances, size_t distances_length, uint8_t *settings,
                        size_t settings_length, uint32_t user, uint32_t tide);

/*
 * The centres at radius g. The list gets their tide numbers in its front, and count[0] how many they are. For each tide, nearest gets the
 * block number of its nearest centre, the lower of equally near ones, and nearest_distances how far that centre lies from the tide. Each of
 * the three has at least n places. Reasons: 1 (with count), 21, 24, 1 (list, nearest, nearest_distances).
 */
uint32_t tides_centres(const uint16_t *record, size_t record_length, const uint32_t *distances, size_t distances_length,
                       const uint8_t *settings, size_t settings_length, uint32_t g, uint8_t *list, size_t list_length,
                       uint8_t *nearest, size_t nearest_length, uint32_t *nearest_distances, size_t nearest_distances_length,
                       uint16_t *count, size_t count_length);

/*
 * Divides the tides into blocks. The list gets each tide's block number: tide after tide the block whose centre is nearest, of equal
 * distances the lowest number, with which the tides after it can still meet the minima within the radius. For each block in order,
 * centres, sizes and diameters get its centre's tide number, its number of tides and its greatest distance. Each has at least n
 * places. result gets 3 numbers: how many blocks, the radius, the greatest diameter. Reasons: 1 (with result), 21, 24, 25, 1 (list,
 * centres, sizes, diameters).
 */
uint32_t tides_block(const uint16_t *record, size_t record_length, const uint32_t *distances, size_t distances_length,
                     const uint8_t *settings, size_t settings_length, uint8_t *list, size_t list_length, uint8_t *centres,
                     size_t centres_length, uint8_t *sizes, size_t sizes_length, uint32_t *diameters, size_t diameters_length,
                     uint32_t *result, size_t result_length);

/*
 * Divides the tides into blocks as tides_block does, and tells what they cost. list, centres, sizes and diameters are as there. result gets
 * 12 numbers: how many blocks, the radius, the greatest diameter, the total in pence, and each setting's share of it, 0 for a setting
 * above k. The shares add up to the total. Reasons: 1 (with result), 21, 24, 25, 1 (list, centres, sizes, diameters).
 */
uint32_t tides_tariff(const uint16_t *record, size_t record_length, const uint32_t *distances, size_t distances_length,
                      const uint8_t *settings, size_t settings_length, uint8_t *list, size_t list_length, uint8_t *centres,
                      size_t centres_length, uint8_t *sizes, size_t sizes_length, uint32_t *diameters, size_t diameters_length,
                      uint32_t *result, size_t result_length);

/*
 * Judges a list of block numbers. result gets 2 numbers: 1 and the greatest diameter where each number is 1 to 255 and the tides
 * under each number used meet the minima, else 0 and 0. Reasons: 1 (with result), 21, 24, 12.
 */
uint32_t tides_judge(const uint16_t *record, size_t record_length, const uint32_t *distances, size_t distances_length,
                     const uint8_t *settings, size_t settings_length, const uint8_t *list, size_t list_length, uint32_t *result,
                     size_t result_length);

/*
 * The dataset that a study file holds. A file of mark 54 has one count of withdrawals, which becomes user 1's; the others are 0 then. Any
 * record and memory will do. Reasons: 1, 8 (under 6 bytes), 9, 8 (mark 55 under 12 bytes), 10, 2, 8, 3, 11; then for each tide 5, 7.
 */
uint32_t tides_read(uint16_t *record, size_t record_length, uint32_t *distances, size_t distances_length, uint8_t *settings,
                    size_t settings_length, const uint8_t *file, size_t file_length);

/*
 * The study file of the dataset, of mark 55, in the front of the bytes; its length, at most 17,914, goes into result[0]. Reasons: 1 (with
 * result), 21, 1 (file).
 */
uint32_t tides_write(const uint16_t *record, size_t record_length, const uint32_t *distances, size_t distances_length,
                     const uint8_t *settings, size_t settings_length, uint8_t *file, size_t file_length, uint32_t *result,
                     size_t result_length);

/*
 * The dataset becomes the merged one of two sources, which are only read: the first's tides, then the second's that are in no pair, in
 * their order; the first's k and minima; each user's withdrawals added. Pair q is one tide that both hold, as firsts[q] in the first and
 * as seconds[q] in the second; where one list ends before the other, the missing number is 0, which is no tide. A tide of the first and an
 * added one of the second are at the least sum of their distances to a shared tide; all other distances are as they were. The minima
 * aren't tested again, and duplicates that arise are kept. Any record and memory will do for the dataset. Reasons: 1 (any of the three),
 * 21 (a source), 17, 16 (k differs, or a named tide is absent, named before or of another setting than its partner, or two shared tides
 * have different distances in the two), 22, 6, 26.
 */
uint32_t tides_merge(const uint16_t *first_record, size_t first_record_length, const uint32_t *first_distances,
                     size_t first_distances_length, const uint8_t *first_settings, size_t first_settings_length,
                     const uint16_t *second_record, size_t second_record_length, const uint32_t *second_distances,
                     size_t second_distances_length, const uint8_t *second_settings, size_t second_settings_length, uint16_t *record,
                     size_t record_length, uint32_t *distances, size_t distances_length, uint8_t *settings, size_t settings_length,
                     const uint8_t *firsts, size_t firsts_length, const uint8_t *seconds, size_t seconds_length);

/*
 * Mends a table of n rows of n distances: each is lowered to the least sum over any chain of tides. result[0] gets how many pairs
 * were lowered. Places past n times n stay, and there is no dataset in it. Reasons: 1 (with result), 10, 1 (table), 6, 13.
 */
uint32_t tides_mend(uint32_t *table, size_t table_length, size_t n, uint32_t *result, size_t result_length);

#ifdef __cplusplus
}
#endif

#endif
