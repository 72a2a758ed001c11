/* Times the calls through the C interface: Block alone on each study file (tides_block less the validity test, which every call makes: a
 * Judge with a list of the wrong length is refused right after it), and at the end the other calls on the last file, of the tariff what
 * it takes longer than Block. Milliseconds of processor time, the best of 25. Words: study files. */
#include <stdio.h>
#include <string.h>
#include <time.h>
#include "../include/tides.h"

enum { REPETITIONS = 25 };

#define DATASET record, 15, distances, 14400, settings, 120

static uint16_t record[15];
static uint32_t distances[14400];
static uint8_t settings[120];
static uint8_t file[17915];
static size_t length;

static double now(void) {
    struct timespec t;
    clock_gettime(CLOCK_PROCESS_CPUTIME_ID, &t);
    return t.tv_sec * 1e3 + t.tv_nsec * 1e-6;
}

static uint32_t block(uint32_t *result) {
    uint8_t list[120], centres[120], sizes[120];
    uint32_t diameters[120];
    return tides_block(DATASET, list, 120, centres, 120, sizes, 120, diameters, 120, result, 3);
}

static uint32_t tariff(uint32_t *result) {
    uint8_t list[120], centres[120], sizes[120];
    uint32_t diameters[120];
    return tides_tariff(DATASET, list, 120, centres, 120, sizes, 120, diameters, 120, result, 12);
}

static uint32_t validity(uint32_t *result) {
    uint8_t list[121] = {0};
    return tides_judge(DATASET, list, 121, result, 2) == 12 ? 0 : 1;
}

static uint32_t reading(uint32_t *result) {
    (void)result;
    return tides_read(DATASET, file, length);
}

static uint32_t writing(uint32_t *result) {
    static uint8_t out[17914];
    return tides_write(DATASET, out, sizeof out, result, 1);
}

/* The last tide goes and comes back. */
static uint32_t withdraw_enter(uint32_t *result) {
    (void)result;
    uint32_t row[120];
    uint16_t last = record[1];
    uint8_t setting = settings[last - 1];
    record[11] = 0;
    memcpy(row, distances + (last - 1) * 120, sizeof row);
    return tides_withdraw(DATASET, 1, last) || tides_enter(DATASET, setting, row, last - 1u);
}

static uint32_t judging(uint32_t *result) {
    uint8_t list[120];
    memset(list, 1, sizeof list);
    return tides_judge(DATASET, list, record[1], result, 2);
}

/* Every tide that is at 0 from no other is a centre: the most that there is to compare. */
static uint32_t centring(uint32_t *result) {
    (void)result;
    uint8_t list[120], nearest[120];
    uint32_t away[120];
    uint16_t count;
    return tides_centres(DATASET, 0, list, 120, nearest, 120, away, 120, &count, 1);
}

static double best(uint32_t (*call)(uint32_t *), uint32_t *result) {
    double least = 1e9;
    for (int r = 0; r < REPETITIONS; r++) {
        double start = now();
        if (call(result)) return -1;
        double taken = now() - start;
        if (taken < least) least = taken;
    }
    return least;
}

int main(int count, char **names) {
    uint32_t result[3] = {0, 0, 0}, other[12];
    double sum = 0, most = 0;
    printf("%-24s %4s %8s %8s %10s %10s\n", "file", "n", "blocks", "radius", "Block ms", "validity ms");
    for (int i = 1; i < count; i++) {
        FILE *in = fopen(names[i], "rb");
        length = in ? fread(file, 1, sizeof file, in) : 0;
        if (in) fclose(in);
        if (reading(other)) return 1;
        double valid = best(validity, other), alone = best(block, result) - valid;
        const char *name = strrchr(names[i], '/');
        printf("%-24s %4u %8u %8u %10.3f %10.3f\n", name ? name + 1 : names[i], record[1], result[0], result[1], alone, valid);
        sum += alone;
        if (alone > most) most = alone;
    }
    printf("mean %.3f, most %.3f\n", sum / (count - 1), most);
    printf("on the last file: Read %.3f, Write %.3f, Withdraw and Enter %.3f, Judge %.3f, Centres at 0 %.3f, tariff less Block %.3f\n",
           best(reading, other), best(writing, other), best(withdraw_enter, other), best(judging, other), best(centring, other),
           best(tariff, other) - best(block, other));
    return 0;
}
