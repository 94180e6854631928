// A planner with a map that grows while it is asked: one thread puts obstacles in and publishes the polygon of the map after every
// hundred of them; four others ask, each the polygon that is the newest when they begin, with no lock between them and the map.
#include "hull.hpp"

#include <atomic>
#include <cstdint>
#include <iostream>
#include <memory>
#include <thread>
#include <vector>

namespace {

constexpr int obstacles = 20000, between_polygons = 100, planners = 4, questions = 200;

// numbers that look random, always the same ones: xorshift (Marsaglia, 2003)
class Random {
    std::uint64_t state_;

public:
    explicit Random(std::uint64_t seed) : state_(seed) {}
    std::int64_t within(std::int64_t size) {
        state_ ^= state_ << 13, state_ ^= state_ >> 7, state_ ^= state_ << 17;
        return static_cast<std::int64_t>(state_ % static_cast<std::uint64_t>(2 * size + 1)) - size;
    }
};

// The newest polygon. A thread that takes it has it as long as it asks.
class Published {
    std::shared_ptr<const hull::Polygon> newest_ = std::make_shared<const hull::Polygon>();

public:
    void set(hull::Polygon polygon) { std::atomic_store(&newest_, std::make_shared<const hull::Polygon>(std::move(polygon))); }
    std::shared_ptr<const hull::Polygon> get() const { return std::atomic_load(&newest_); }
};

// Puts the obstacles in, the later ones farther out, and publishes polygons.
void explore(Published &map, hull::Hull &hull) {
    Random random(88172645463325252u);
    for (int i = 1; i <= obstacles; i++) {
        hull.add({random.within(1000 + i), random.within(1000 + i)});
        if (i % between_polygons == 0) {
            map.set(hull.polygon());
        }
    }
}

// Asks until the map is complete. Returns whether each place that was covered once was so later, as in a map that only grows.
bool plan(const Published &map, const std::atomic<bool> &whole, std::uint64_t seed, std::uint64_t &asked) {
    Random random(seed);
    std::vector<hull::Point> covered;
    bool grew = true;
    for (bool last = false; !last;) {
        last = whole;
        const auto polygon = map.get();
        for (const hull::Point &p : covered) {
            grew = grew && polygon->place(p) != hull::Place::outside;
        }
        asked += covered.size();
        for (int i = 0; i < questions; i++, asked++) {
            const hull::Point p{random.within(30000), random.within(30000)};
            if (polygon->place(p) != hull::Place::outside && covered.size() < 1000) {
                covered.push_back(p);
            }
        }
    }
    return grew;
}

} // namespace

int main() {
    hull::Hull hull(obstacles);
    Published map;
    std::atomic<bool> whole{false};
    bool grew[planners];
    std::uint64_t asked[planners] = {};
    std::vector<std::thread> all;
    for (int i = 0; i < planners; i++) {
        all.emplace_back([&, i] { grew[i] = plan(map, whole, 1000u + static_cast<unsigned>(i), asked[i]); });
    }
    explore(map, hull);
    whole = true;
    for (std::thread &planner : all) {
        planner.join();
    }
    bool right = map.get()->vertices() == hull.vertices();
    for (int i = 0; i < planners; i++) {
        right = right && grew[i] && asked[i] >= questions;
    }
    std::cout << "obstacles: " << hull.size() << "\n"
              << "corners: " << map.get()->vertices().size() << "\n"
              << "what was covered once stayed so, for all planners: " << (right ? "yes" : "no") << "\n";
    return right ? 0 : 1;
}
