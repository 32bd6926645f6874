/*
 * Places on a map are read from a CSV file, and the one that is nearest to a point is asked for by four threads, while a
 * writer moves places. A reader takes a snapshot under the lock, and searches it without.
 *
 *     c++ -std=c++17 places.cpp -IFOLDER FOLDER/libgist.a -pthread -o places && ./places
 *
 * It ends with status 0 only if each answer is that of a look at all places of the snapshot.
 */
#include "gist.hpp"

#include <algorithm>
#include <atomic>
#include <cmath>
#include <cstdlib>
#include <filesystem>
#include <fstream>
#include <iostream>
#include <mutex>
#include <numeric>
#include <random>
#include <sstream>
#include <thread>

namespace {

constexpr int places = 20'000, readers = 4, searches = 40, moves = 4'000;

/* The unit of a key: a millionth of a degree, which is at most 11 centimetres. */
constexpr double unit = 1e-6;
constexpr int most_x = 180'000'000, most_y = 90'000'000;

using Place = gist::Row<gist::Box>;
struct Point { int32_t x, y; };

gist::Box at(Point point) { return gist::Box::point(point.x, point.y); }

Point some_point(std::mt19937 &random) {
    const auto below = [&](int most) { return int32_t(random() % (2u * unsigned(most) + 1)) - most; };
    const int32_t x = below(most_x);
    return {x, below(most_y)};
}

/* The square of a distance on the map, as if it were flat. */
int64_t apart(Point from, const Place &place) {
    const int64_t dx = int64_t{place.key.x1} - from.x, dy = int64_t{place.key.y1} - from.y;
    return dx * dx + dy * dy;
}

void write_csv(const std::filesystem::path &path) {
    std::mt19937 random(1);
    std::ofstream file(path);
    file << "number,longitude,latitude\n";
    file.precision(10);
    for (int number = 1; number <= places; number++) {
        const Point point = some_point(random);
        file << number << ',' << point.x * unit << ',' << point.y * unit << '\n';
    }
    if (!file.flush())
        throw std::runtime_error("the file wasn't written");
}

std::vector<gist::Entry<gist::Box>> read_csv(const std::filesystem::path &path) {
    std::vector<gist::Entry<gist::Box>> entries;
    std::ifstream file(path);
    std::string line;
    std::getline(file, line);
    while (std::getline(file, line)) {
        std::istringstream fields(line);
        uint64_t number;
        double longitude, latitude;
        char comma;
        if (!(fields >> number >> comma >> longitude >> comma >> latitude))
            throw std::runtime_error("a line isn't number,longitude,latitude: " + line);
        entries.push_back({at({int32_t(std::lround(longitude / unit)), int32_t(std::lround(latitude / unit))}), number});
    }
    return entries;
}

/* The nearest of some places, or null if there is none. */
const Place *nearest_of(Point from, const std::vector<Place> &found) {
    const auto nearer = [&](const Place &a, const Place &b) { return apart(from, a) < apart(from, b); };
    const auto it = std::min_element(found.begin(), found.end(), nearer);
    return it == found.end() ? nullptr : &*it;
}

/*
 * The nearest place, by windows, each twice as wide as the one before. A place that is farther off than a
 * window reaches doesn't count yet: one outside may be nearer.
 */
Place nearest(const gist::Snapshot<gist::Box> &map, Point from) {
    for (int64_t reach = most_x / 256;; reach *= 2) {
        const auto side = [&](int64_t middle, int64_t most) { return int32_t(std::clamp(middle, -most, most)); };
        const gist::Box window{side(from.x - reach, most_x), side(from.y - reach, most_y),
                               side(from.x + reach, most_x), side(from.y + reach, most_y)};
        const auto found = map.find(gist::within(window));
        const Place *const best = nearest_of(from, found);
        if (best && (apart(from, *best) <= reach * reach || reach > 2 * most_x))
            return *best;
    }
}

/* A store, and the lock that a call of it is made under. */
struct Map {
    gist::Store<gist::Box> store;
    std::mutex lock;

    gist::Snapshot<gist::Box> snapshot() {
        const std::lock_guard<std::mutex> held(lock);
        return store.snapshot();
    }
};

/* Moves places, one after the other, while others read. */
void move_places(Map &map) {
    std::mt19937 random(2);
    std::vector<uint64_t> rows(places);
    std::iota(rows.begin(), rows.end(), uint64_t{1});
    for (int i = 0; i < moves; i++) {
        uint64_t &row = rows[random() % places];
        const std::lock_guard<std::mutex> held(map.lock);
        row = map.store.move(row, at(some_point(random)));
    }
}

/* Searches in snapshots, and compares each answer with a look at all places. Counts those that differ. */
void search(Map &map, unsigned seed, std::atomic<int> &wrong) {
    std::mt19937 random(seed);
    const auto everywhere = gist::within(gist::Box{-most_x, -most_y, most_x, most_y});
    for (int i = 0; i < searches; i++) {
        const auto now = map.snapshot();
        const Point from = some_point(random);
        const auto all = now.find(everywhere);
        const Place *const wanted = nearest_of(from, all);
        if (all.size() != places || apart(from, nearest(now, from)) != apart(from, *wanted))
            wrong++;
    }
}

} // namespace

int main() try {
    const auto path = std::filesystem::temp_directory_path() / ("places-" + std::to_string(std::random_device{}()) + ".csv");
    write_csv(path);
    Map map;
    map.store.insert(read_csv(path));
    std::filesystem::remove(path);
    std::cout << map.store.stats().commits << " places were read\n";

    std::atomic<int> wrong{0};
    std::vector<std::thread> threads;
    threads.emplace_back(move_places, std::ref(map));
    for (unsigned reader = 0; reader < readers; reader++)
        threads.emplace_back(search, std::ref(map), 10 + reader, std::ref(wrong));
    for (auto &thread : threads)
        thread.join();

    std::cout << map.store.stats().commits - places << " were moved, and " << map.store.sweep() << " rows swept\n"
              << readers * searches << " searches, " << wrong << " wrong\n";
    return wrong == 0 ? EXIT_SUCCESS : EXIT_FAILURE;
} catch (const std::exception &why) {
    std::cerr << why.what() << '\n';
    return EXIT_FAILURE;
}
