/* Times tides_merge beside a plain C++ program that does the same: it tests that both sources are datasets, each triple of tides once, then
 * the pairs, the number of tides, the range of the distances and the counts, and writes record and memory of the third. 60 and 60 tides, of
 * which 1 and 30 are shared. Both are first compared byte for byte, on refused merges too, and then timed by turns; the plain program once
 * more without the test of the sources. Milliseconds of processor time, the best and the median of 501. */
#include <algorithm>
#include <cstdint>
#include <cstdio>
#include <cstring>
#include <ctime>
#include <vector>
#include "../include/tides.h"

static const size_t N = TIDES_MAX_TIDES;
static const int REPETITIONS = 501;

using Numbers = std::vector<uint8_t>;

struct Dataset {
    uint16_t record[TIDES_RECORD_LENGTH];
    uint32_t distances[TIDES_DISTANCES_LENGTH];
    uint8_t settings[TIDES_SETTINGS_LENGTH];

    size_t k() const { return record[0]; }
    size_t n() const { return record[1]; }
    uint32_t at(size_t i, size_t j) const { return distances[N * i + j]; }
    void put(size_t i, size_t j, uint32_t d) { distances[N * i + j] = distances[N * j + i] = d; }
};

/* ---- the plain program ---- */

static bool minima_fit(const Dataset &s) {
    uint32_t b0 = s.record[2], sum = 0;
    for (size_t j = 1; j <= 8; j++) {
        if (j > s.k() && s.record[2 + j] != 0) return false;
        sum += s.record[2 + j];
    }
    return b0 >= 1 && b0 <= 120 && sum <= b0;
}

static bool is_dataset(const Dataset &s) {
    const size_t k = s.k(), n = s.n();
    if (k < 1 || k > 8 || n > N || !minima_fit(s)) return false;
    for (size_t t = 0; t < N; t++)
        if (t < n ? s.settings[t] < 1 || s.settings[t] > k : s.settings[t] != 0) return false;
    for (size_t i = 0; i < N; i++)
        for (size_t j = 0; j < N; j++) {
            uint32_t d = s.at(i, j);
            if (i < n && j < n ? d > TIDES_MAX_DISTANCE || d != s.at(j, i) || (i == j && d != 0) : d != 0) return false;
        }
    for (size_t i = 0; i < n; i++)
        for (size_t j = 0; j < i; j++)
            for (size_t m = 0; m < j; m++) {
                uint32_t x = s.at(i, j), y = s.at(i, m), z = s.at(j, m);
                if (x > y + z || y > x + z || z > x + y) return false;
            }
    return true;
}

static bool agree(const Dataset &a, const Dataset &b, const Numbers &firsts, const Numbers &seconds) {
    if (a.k() != b.k() || firsts.size() != seconds.size()) return false;
    for (size_t q = 0; q < firsts.size(); q++) {
        size_t x = firsts[q], y = seconds[q];
        if (x < 1 || x > a.n() || y < 1 || y > b.n() || a.settings[x - 1] != b.settings[y - 1]) return false;
        for (size_t p = 0; p < q; p++) {
            if (firsts[p] == x || seconds[p] == y) return false;
            if (a.at(firsts[p] - 1, x - 1) != b.at(seconds[p] - 1, y - 1)) return false;
        }
    }
    return true;
}

/* All but the test of the sources. */
static uint32_t merge_valid(const Dataset &a, const Dataset &b, Dataset &c, const Numbers &firsts, const Numbers &seconds) {
    if (firsts.empty() && seconds.empty()) return 17;
    if (!agree(a, b, firsts, seconds)) return 16;
    size_t rest[N], count = 0;
    for (size_t j = 0; j < b.n(); j++)
        if (std::find(seconds.begin(), seconds.end(), j + 1) == seconds.end()) rest[count++] = j;
    const size_t n = a.n(), all = n + count;
    if (all > N) return 22;
    uint32_t across[N][N], sums[TIDES_MAX_USERS];
    for (size_t i = 0; i < n; i++)
        for (size_t r = 0; r < count; r++) {
            uint32_t least = UINT32_MAX;
            for (size_t q = 0; q < firsts.size(); q++) least = std::min(least, a.at(i, firsts[q] - 1) + b.at(seconds[q] - 1, rest[r]));
            if (least > TIDES_MAX_DISTANCE) return 6;
            across[i][r] = least;
        }
    for (size_t u = 0; u < TIDES_MAX_USERS; u++) {
        sums[u] = uint32_t(a.record[11 + u]) + b.record[11 + u];
        if (sums[u] > TIDES_MAX_WITHDRAWALS) return 26;
    }
    std::memcpy(c.record, a.record, sizeof c.record);
    c.record[1] = all;
    for (size_t u = 0; u < TIDES_MAX_USERS; u++) c.record[11 + u] = sums[u];
    for (size_t t = 0; t < N; t++) c.settings[t] = t < n ? a.settings[t] : t < all ? b.settings[rest[t - n]] : 0;
    for (size_t i = 0; i < N; i++)
        for (size_t j = 0; j <= i; j++) {
            if (i < n) c.put(i, j, a.at(i, j));
            else if (i >= all) c.put(i, j, 0);
            else c.put(i, j, j < n ? across[j][i - n] : b.at(rest[i - n], rest[j - n]));
        }
    return 0;
}

static uint32_t merge(const Dataset &a, const Dataset &b, Dataset &c, const Numbers &firsts, const Numbers &seconds) {
    if (!is_dataset(a) || !is_dataset(b)) return 21;
    return merge_valid(a, b, c, firsts, seconds);
}

/* ---- the library's call ---- */

#define LISTS(d) (d).record, TIDES_RECORD_LENGTH, (d).distances, TIDES_DISTANCES_LENGTH, (d).settings, TIDES_SETTINGS_LENGTH

static uint32_t call(const Dataset &a, const Dataset &b, Dataset &c, const Numbers &firsts, const Numbers &seconds) {
    return tides_merge(LISTS(a), LISTS(b), LISTS(c), firsts.data(), firsts.size(), seconds.data(), seconds.size());
}

/* ---- what is merged ---- */

static uint32_t drawn(uint32_t end) {
    static uint64_t state = 20240229;
    state = state * 48271 % 2147483647;
    return state / 1024 % end;
}

static std::vector<uint32_t> x, y;

/* The tides at some points in a plane, by streets, under three settings. */
static Dataset dataset(const std::vector<size_t> &points) {
    Dataset s{};
    s.record[0] = 3, s.record[1] = points.size(), s.record[2] = 6, s.record[3] = 2, s.record[4] = 1;
    for (size_t u = 0; u < TIDES_MAX_USERS; u++) s.record[11 + u] = drawn(100);
    for (size_t i = 0; i < points.size(); i++) {
        size_t p = points[i];
        s.settings[i] = p % 3 + 1;
        for (size_t j = 0; j < i; j++) {
            size_t q = points[j];
            s.put(i, j, std::max(x[p], x[q]) - std::min(x[p], x[q]) + std::max(y[p], y[q]) - std::min(y[p], y[q]));
        }
    }
    return s;
}

struct Sources {
    Dataset first, second;
    Numbers firsts, seconds;
};

/* Two datasets of so many tides in any order, and the tides that both hold. */
static Sources sources(size_t tides, size_t shared) {
    x.clear(), y.clear();
    for (size_t p = 0; p < 2 * tides; p++) x.push_back(drawn(100000)), y.push_back(drawn(100000));
    std::vector<size_t> a, b;
    for (size_t p = 0; p < tides; p++) a.push_back(p), b.push_back(tides - shared + p);
    for (size_t i = tides - 1; i > 0; i--) std::swap(a[i], a[drawn(i + 1)]), std::swap(b[i], b[drawn(i + 1)]);
    Sources s{dataset(a), dataset(b), {}, {}};
    for (size_t i = 0; i < tides; i++)
        for (size_t j = 0; j < tides; j++)
            if (a[i] == b[j]) s.firsts.push_back(i + 1), s.seconds.push_back(j + 1);
    return s;
}

/* ---- the comparison ---- */

/* Both on the same old contents: the same answer, and then the same bytes. */
static bool alike(const Sources &s, uint32_t expected) {
    static Dataset ours, plain;
    std::memset(&ours, 0xEE, sizeof ours), std::memset(&plain, 0xEE, sizeof plain);
    uint32_t answer = call(s.first, s.second, ours, s.firsts, s.seconds);
    return answer == expected && merge(s.first, s.second, plain, s.firsts, s.seconds) == expected &&
           !std::memcmp(&ours, &plain, sizeof ours);
}

static bool all_alike(const Sources &s) {
    Sources triple = s, none = s, again = s, far = s, counts = s;
    triple.second.put(0, 1, TIDES_MAX_DISTANCE);
    none.firsts.clear(), none.seconds.clear();
    again.firsts.push_back(s.firsts[0]), again.seconds.push_back(s.seconds[0]);
    /* a tide in no pair as far as can be from all others */
    size_t t = 0;
    while (std::find(s.seconds.begin(), s.seconds.end(), t + 1) != s.seconds.end()) t++;
    for (size_t i = 0; i < s.second.n(); i++)
        if (i != t) far.second.put(t, i, TIDES_MAX_DISTANCE);
    counts.first.record[14] = 1, counts.second.record[14] = TIDES_MAX_WITHDRAWALS;
    return alike(s, 0) && alike(triple, 21) && alike(none, 17) && alike(again, 16) && alike(far, 6) && alike(counts, 26);
}

/* ---- the times ---- */

static double now() {
    timespec t;
    clock_gettime(CLOCK_PROCESS_CPUTIME_ID, &t);
    return t.tv_sec * 1e3 + t.tv_nsec * 1e-6;
}

struct Times {
    std::vector<double> all;
    void add(uint32_t (*run)(const Dataset &, const Dataset &, Dataset &, const Numbers &, const Numbers &), const Sources &s) {
        static Dataset merged;
        double start = now();
        uint32_t answer = run(s.first, s.second, merged, s.firsts, s.seconds);
        all.push_back(now() - start);
        if (answer) std::printf("merge: refused %u\n", answer);
    }
    double best() { return *std::min_element(all.begin(), all.end()); }
    double median() { return std::sort(all.begin(), all.end()), all[all.size() / 2]; }
};

int main() {
    std::printf("merge of 60 and 60 tides, best and median ms\n");
    for (size_t shared : {1, 30}) {
        const Sources s = sources(60, shared);
        if (!all_alike(s)) {
            std::printf("merge: they differ\n");
            return 1;
        }
        Times ours, plain, untested;
        for (int r = 0; r < REPETITIONS; r++) ours.add(call, s), plain.add(merge, s), untested.add(merge_valid, s);
        std::printf("%2zu shared: tides_merge %.3f %.3f, plain C++ %.3f %.3f, it without the test of the sources %.3f %.3f; "
                    "tides_merge takes %.2f and %.2f times as long as plain C++\n",
                    shared, ours.best(), ours.median(), plain.best(), plain.median(), untested.best(), untested.median(),
                    ours.best() / plain.best(), ours.median() / plain.median());
    }
}
