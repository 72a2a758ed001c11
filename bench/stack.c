/* The stack that each call needs: it runs on a painted stack of its own, and the bytes that it touched are counted, the most over the study
 * files. Words: study files. gcc -O2 -Wl,-z,now bench/stack.c target/staticlib/libc_api.a, so that no call includes the linker's work. */
#define _XOPEN_SOURCE 700
#include <stdio.h>
#include <string.h>
#include <ucontext.h>
#include "../include/tides.h"

#define DATASET record, TIDES_RECORD_LENGTH, distances, TIDES_DISTANCES_LENGTH, settings, TIDES_SETTINGS_LENGTH

static uint16_t record[TIDES_RECORD_LENGTH], merged[TIDES_RECORD_LENGTH], count;
static uint32_t distances[TIDES_DISTANCES_LENGTH], table[TIDES_DISTANCES_LENGTH], diameters[120], row[120], result[12], answer;
static uint8_t settings[TIDES_SETTINGS_LENGTH], file[TIDES_LONGEST_FILE + 1], list[120], centres[120], sizes[120], minima[9] = {1};
static uint8_t numbers[120]; /* of all tides */
static unsigned char stack[1 << 20];
static size_t length, most[12];

static void reading(void) { answer = tides_read(DATASET, file, length); }
static void writing(void) { answer = tides_write(DATASET, file, sizeof file, result, 1); }
static void centring(void) { answer = tides_centres(DATASET, 0, list, 120, sizes, 120, diameters, 120, &count, 1); }
static void blocking(void) { answer = tides_block(DATASET, list, 120, centres, 120, sizes, 120, diameters, 120, result, 3); }
static void pricing(void) { answer = tides_tariff(DATASET, list, 120, centres, 120, sizes, 120, diameters, 120, result, 12); }
static void judging(void) { answer = tides_judge(DATASET, list, record[1], result, 2); }
static void mending(void) { memcpy(table, distances, sizeof table), answer = tides_mend(table, TIDES_DISTANCES_LENGTH, 120, result, 1); }
/* With itself, as few tides shared as can be. */
static void merging(void) {
    size_t shared = record[1] > 60 ? 2 * record[1] - 120u : 1;
    record[11] = 0;
    answer = tides_merge(DATASET, DATASET, merged, TIDES_RECORD_LENGTH, table, TIDES_DISTANCES_LENGTH, sizes, 120, numbers, shared, numbers,
                         shared);
}
static void withdrawing(void) { answer = tides_withdraw(DATASET, 2, record[1]); }
static void entering(void) { answer = tides_enter(DATASET, 1, row, record[1]); }
static void setting(void) { answer = tides_minima(DATASET, minima, 9); }
static void opening(void) { answer = tides_open(DATASET, 8); }

static size_t touched(void (*call)(void)) {
    ucontext_t here, there;
    size_t left = 0;
    memset(stack, 0xA5, sizeof stack);
    getcontext(&there);
    there.uc_stack.ss_sp = stack, there.uc_stack.ss_size = sizeof stack, there.uc_link = &here;
    makecontext(&there, call, 0);
    swapcontext(&here, &there);
    while (stack[left] == 0xA5) left++;
    return sizeof stack - left;
}

int main(int words, char **names) {
    static void (*const calls[])(void) = {reading, writing, centring,    blocking, pricing, judging,
                                          mending, merging, withdrawing, entering, setting, opening};
    static const char *const called[] = {"Read",    "Write",   "Centres",  "Block", "tariff", "Judge",
                                         "mending", "merging", "Withdraw", "Enter", "Minima", "Open"};
    for (int i = 0; i < 120; i++) row[i] = TIDES_MAX_DISTANCE, numbers[i] = (uint8_t)(i + 1);
    for (int i = 1; i < words; i++) {
        FILE *in = fopen(names[i], "rb");
        length = in ? fread(file, 1, sizeof file, in) : 0;
        if (in) fclose(in);
        for (int c = 0; c < 12; c++) {
            size_t bytes = touched(calls[c]);
            if (answer) printf("%s of %s: refused %u\n", called[c], names[i], answer);
            if (bytes > most[c]) most[c] = bytes;
        }
    }
    for (int c = 0; c < 12; c++) printf("%-8s %6zu\n", called[c], most[c]);
    return 0;
}
