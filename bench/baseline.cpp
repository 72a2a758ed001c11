// The sheet program of document 01 in straightforward C++, with LEMON's
// preflow-push for the flow of the source paper's section 3. It is what the
// proved program is timed against: same input, same output.
//
//   g++ -O2 -std=c++17 -o baseline bench/baseline.cpp        (Debian: liblemon-dev)

#include <lemon/preflow.h>
#include <lemon/static_graph.h>

#include <algorithm>
#include <cstdint>
#include <cstdio>
#include <optional>
#include <utility>
#include <vector>

constexpr int MOST_TIDES = 120;
constexpr size_t LONGEST_FILE = 17914;
constexpr int USERS = 4;

struct Study {
    int k = 0, b0 = 0, withdrawals[USERS] = {0};
    std::vector<int> b;                       // k minima
    std::vector<int> setting;                 // from 0
    std::vector<std::vector<int>> distance;   // symmetric
    int n() const { return (int)setting.size(); }
};

// ---- the study file ----

struct Bits {
    const std::vector<uint8_t> &bytes;
    size_t at = 0;
    int take(int width) {
        int value = 0;
        for (int i = 0; i < width; i++, at++)
            value = 2 * value + (bytes[at / 8] >> (7 - at % 8) & 1);
        return value;
    }
};

// 0, or the refusal's number.
int read_study(const std::vector<uint8_t> &file, Study &s) {
    if (file.size() < 6) return 8;
    Bits bits{file};
    int mark = bits.take(8);
    if (mark != 0x54 && mark != 0x55) return 9;
    if (mark == 0x55 && file.size() < 12) return 8;
    int counts = mark == 0x55 ? USERS : 1;
    int n = bits.take(7);
    if (n > MOST_TIDES) return 10;
    s.k = bits.take(4);
    if (s.k < 1 || s.k > 8) return 2;
    size_t length = 26 + 16 * counts + 7 * s.k + 3 * n + 10 * n * (n > 0 ? n - 1 : 0);
    if (file.size() != (length + 7) / 8) return 8;
    s.b0 = bits.take(7);
    for (int u = 0; u < counts; u++) s.withdrawals[u] = bits.take(16);
    int sum = 0;
    for (int j = 0; j < s.k; j++) {
        s.b.push_back(bits.take(7));
        sum += s.b[j];
    }
    if (s.b0 < 1 || s.b0 > 120 || sum > s.b0) return 3;
    Bits filling{file, length};
    if (filling.take(8 * file.size() - length) != 0) return 11;
    s.distance.assign(n, std::vector<int>(n, 0));
    for (int t = 0; t < n; t++) {
        int setting = bits.take(3);
        if (setting >= s.k) return 5;
        s.setting.push_back(setting);
        for (int e = 0; e < t; e++)
            s.distance[t][e] = s.distance[e][t] = bits.take(20);
        for (int i = 0; i < t; i++)
            for (int j = i + 1; j < t; j++) {
                int x = s.distance[t][i], y = s.distance[t][j], z = s.distance[i][j];
                if (x > y + z || y > x + z || z > x + y) return 7;
            }
    }
    return 0;
}

// ---- the flow ----

std::vector<int> centres_at(const Study &s, int g) {
    std::vector<int> centres;
    for (int t = 0; t < s.n(); t++) {
        bool far = true;
        for (int c : centres) far = far && s.distance[c][t] > g;
        if (far) centres.push_back(t);
    }
    return centres;
}

// The paper's network: source, a vertex for each block and minimum (each b and
// b0's rest, where not 0), the tides, sink. A filling exists exactly when the
// greatest flow takes up all that leaves the source.
class Network {
public:
    Network(const Study &s, const std::vector<int> &centres, int g)
        : tides(s.n()), blocks(centres.size()), need(blocks * s.b0) {
        struct Vertex { int block, setting; };
        std::vector<Vertex> middle; // setting k: any
        std::vector<int> room;
        std::vector<std::pair<int, int>> ends;
        int rest = s.b0;
        for (int b : s.b) rest -= b;
        for (int m = 0; m < blocks; m++)
            for (int j = 0; j <= s.k; j++) {
                int least = j < s.k ? s.b[j] : rest;
                if (least == 0) continue;
                middle.push_back({m, j});
                ends.push_back({0, (int)middle.size()});
                room.push_back(least);
            }
        int first = 1 + middle.size(), sink = first + tides;
        for (int i = 0; i < (int)middle.size(); i++) {
            auto [m, j] = middle[i];
            const auto &distance = s.distance[centres[m]];
            for (int t = 0; t < tides; t++)
                if (distance[t] <= g && (j == s.k || j == s.setting[t])) {
                    into.push_back({t, m, (int)ends.size()});
                    ends.push_back({1 + i, first + t});
                    room.push_back(1);
                }
        }
        for (int t = 0; t < tides; t++) {
            ends.push_back({first + t, sink});
            room.push_back(1);
        }
        graph.build(sink + 1, ends.begin(), ends.end());
        capacity.emplace(graph);
        for (size_t i = 0; i < room.size(); i++) (*capacity)[graph.arc(i)] = room[i];
    }

    bool filling_exists() {
        lemon::Preflow<Graph, Graph::ArcMap<int>> flow(
            graph, *capacity, graph.node(0), graph.node(graph.nodeNum() - 1));
        flow.runMinCut();
        return flow.flowValue() == need;
    }

    // The first filling: each tide in turn keeps the first of its near blocks, in
    // the order given, with which a filling still exists.
    std::vector<int> first_list(const std::vector<std::vector<int>> &near) {
        std::vector<std::vector<Into>> of(tides);
        for (auto &x : into) of[x.tide].push_back(x);
        std::vector<int> list;
        for (int t = 0; t < tides; t++) {
            auto only = [&](int block) {
                for (auto &x : of[t]) (*capacity)[graph.arc(x.arc)] = x.block == block;
            };
            size_t i = 0;
            for (; i + 1 < near[t].size(); i++) { // the last one needs no trial
                only(near[t][i]);
                if (filling_exists()) break;
            }
            only(near[t][i]);
            list.push_back(near[t][i]);
        }
        return list;
    }

private:
    using Graph = lemon::StaticDigraph;
    struct Into { int tide, block, arc; };
    int tides, blocks, need;
    std::vector<Into> into; // arcs from the blocks' vertices
    Graph graph;
    std::optional<Graph::ArcMap<int>> capacity; // made once the graph is whole
};

// ---- the sheet ----

int refused(int number) {
    printf("refused %d\n", number);
    return 0;
}

int main() {
    std::vector<uint8_t> file(LONGEST_FILE + 1); // one byte more decides
    file.resize(fread(file.data(), 1, file.size(), stdin));
    Study s;
    if (int number = read_study(file, s)) return refused(number);
    if (s.n() == 0) return refused(24);
    if (s.n() < s.b0) return refused(25);
    for (int j = 0; j < s.k; j++)
        if (std::count(s.setting.begin(), s.setting.end(), j) < s.b[j]) return refused(25);

    std::vector<int> candidates = {0};
    for (int i = 0; i < s.n(); i++)
        for (int j = 0; j < i; j++) candidates.push_back(s.distance[i][j]);
    std::sort(candidates.begin(), candidates.end());
    candidates.erase(std::unique(candidates.begin(), candidates.end()), candidates.end());

    for (int g : candidates) {
        auto centres = centres_at(s, g);
        int blocks = centres.size();
        if (blocks * s.b0 > s.n()) continue;
        Network network(s, centres, g);
        if (!network.filling_exists()) continue;
        std::vector<std::vector<int>> near(s.n()); // nearest first, then by number
        for (int t = 0; t < s.n(); t++) {
            for (int m = 0; m < blocks; m++)
                if (s.distance[centres[m]][t] <= g) near[t].push_back(m);
            std::stable_sort(near[t].begin(), near[t].end(), [&](int x, int y) {
                return s.distance[centres[x]][t] < s.distance[centres[y]][t];
            });
        }
        auto list = network.first_list(near);
        std::vector<int> size(blocks, 0), diameter(blocks, 0);
        for (int i = 0; i < s.n(); i++) {
            size[list[i]]++;
            for (int j = 0; j < i; j++)
                if (list[i] == list[j])
                    diameter[list[i]] = std::max(diameter[list[i]], s.distance[i][j]);
        }
        printf("block centre tides widest\n");
        for (int m = 0; m < blocks; m++)
            printf("%d %d %d %d\n", m + 1, centres[m] + 1, size[m], diameter[m]);
        printf("reach %d widest %d withdrawn", g, *std::max_element(diameter.begin(), diameter.end()));
        for (int count : s.withdrawals) printf(" %d", count);
        printf("\n");
        return 0;
    }
    return 1; // not reached: at the greatest distance one block takes all tides
}
