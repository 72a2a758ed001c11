/* Times tides_mend beside a plain triple loop (Floyd and Warshall) on the same table of 120 tides, by turns. The call also makes its tests
 * and counts the pairs lowered; the loop does neither. The table is put back before each repetition, which is not timed, and what both
 * leave is compared. Milliseconds of processor time, the best of 101. */
#include <algorithm>
#include <cstdint>
#include <cstdio>
#include <ctime>
#include <vector>
#include "../include/tides.h"

using Table = std::vector<uint32_t>;

static const size_t N = 120;
static const int REPETITIONS = 101;

static double now() {
    timespec t;
    clock_gettime(CLOCK_PROCESS_CPUTIME_ID, &t);
    return t.tv_sec * 1e3 + t.tv_nsec * 1e-6;
}

static void plain_closure(Table &d, size_t n) {
    for (size_t m = 0; m < n; m++)
        for (size_t i = 0; i < n; i++)
            for (size_t j = 0; j < n; j++) d[i * n + j] = std::min(d[i * n + j], d[i * n + m] + d[m * n + j]);
}

static uint32_t drawn(uint32_t end) {
    static uint64_t state = 20240229;
    state = state * 48271 % 2147483647;
    return state / 1024 % end;
}

/* Points in a plane, by streets; each distance was measured up to a half too long. */
static Table drifted() {
    std::vector<uint32_t> x(N), y(N);
    for (size_t i = 0; i < N; i++) x[i] = drawn(100000), y[i] = drawn(100000);
    Table d(N * N);
    for (size_t i = 0; i < N; i++)
        for (size_t j = 0; j < i; j++) {
            uint32_t far = std::max(x[i], x[j]) - std::min(x[i], x[j]) + std::max(y[i], y[j]) - std::min(y[i], y[j]);
            d[i * N + j] = d[j * N + i] = far + drawn(far / 2 + 1);
        }
    return d;
}

static uint32_t nearer_pairs(const Table &now, const Table &before) {
    uint32_t pairs = 0;
    for (size_t i = 0; i < N; i++)
        for (size_t j = 0; j < i; j++) pairs += now[i * N + j] < before[i * N + j];
    return pairs;
}

int main() {
    const Table sent = drifted();
    double call = 1e9, loop = 1e9;
    uint32_t pairs = 0;
    for (int r = 0; r < REPETITIONS; r++) {
        Table ours = sent, plain = sent;
        double start = now();
        uint32_t answer = tides_mend(ours.data(), ours.size(), N, &pairs, 1);
        double between = now();
        plain_closure(plain, N);
        double end = now();
        call = std::min(call, between - start);
        loop = std::min(loop, end - between);
        if (answer != 0 || ours != plain || pairs != nearer_pairs(plain, sent)) {
            std::printf("closure: they differ\n");
            return 1;
        }
    }
    std::printf("closure of %zu tides, %u pairs lowered: tides_mend %.3f ms, plain C++ %.3f ms, %.2f times as fast\n", N, pairs, call, loop,
                loop / call);
}
