// Planners of another library, OMPL's RRT-Connect (Kuffner and LaValle, 2000), in four threads, among obstacles that another thread moves.
// Each obstacle is a shared hull; each planner has a reader of each, which it asks with no lock. Compile with
//
//     c++ moving.cpp $(pkg-config --cflags ompl eigen3) $(pkg-config --cflags --libs hull) -lhull_shared -lompl -lpthread -std=c++20 -o moving
//
// moving [WAY [PLANS]] plans so often in each thread (25), by `readers`, by a `mutex` round hulls of one thread, or by `copies` of their
// vertices that a mutex guards; the time goes to standard error.
#include "hull.hpp"

#include <ompl/base/MotionValidator.h>
#include <ompl/base/spaces/RealVectorStateSpace.h>
#include <ompl/geometric/SimpleSetup.h>
#include <ompl/geometric/planners/rrt/RRTConnect.h>
#include <ompl/util/Console.h>
#include <ompl/util/RandomNumbers.h>

#include <array>
#include <atomic>
#include <chrono>
#include <functional>
#include <iostream>
#include <memory>
#include <mutex>
#include <string>
#include <thread>
#include <utility>
#include <vector>

namespace {

namespace base = ompl::base;

constexpr unsigned planners = 4;
constexpr std::size_t obstacles = 3;
constexpr hull::Lattice lattice{20}; // steps of 2^-20

hull::Point at(const base::State *state) {
    const auto *s = state->as<base::RealVectorStateSpace::StateType>();
    return lattice.point(s->values[0], s->values[1]);
}

// The vertices of an obstacle at a moment: each goes up and down by at most 1, and leaves a way round on both sides.
std::vector<hull::Point> shape(std::size_t k, unsigned moment) {
    static const std::array<std::vector<std::array<std::int64_t, 2>>, obstacles> shapes = {{
        {{-8, -5}, {5, -6}, {6, -4}, {0, -3}},
        {{-5, 4}, {-1, 2}, {7, 3}, {8, 5}, {0, 6}},
        {{-7, 0}, {-3, -1}, {1, 0}, {-2, 1}},
    }};
    const auto shift = static_cast<std::int64_t>(moment % 64 < 32 ? moment % 32 : 32 - moment % 32) << 15;
    std::vector<hull::Point> points;
    for (const auto &[x, y] : shapes[k]) {
        points.emplace_back(x << 20, (y << 20) + shift);
    }
    return points;
}

// A planner's question: whether a motion intersects no obstacle.
using Judge = std::function<bool(hull::Point, hull::Point)>;

// The obstacles: how they move, and how a planner queries them.
class World {
public:
    virtual ~World() = default;
    virtual void move(std::size_t k, const std::vector<hull::Point> &from, const std::vector<hull::Point> &to) = 0;
    virtual Judge judge() = 0;
};

// Shared hulls, which are moved by a seat and asked by readers.
class Readers : public World {
public:
    Readers() {
        for (std::size_t k = 0; k < obstacles; k++) {
            hulls_.push_back(hull::SharedHull::open_without_journal({1000, 0, 1, 1, planners}));
            seats_.push_back(hulls_[k].acquire_seat(0));
        }
    }
    void move(std::size_t k, const std::vector<hull::Point> &from, const std::vector<hull::Point> &to) override {
        for (hull::Point p : to) {
            seats_[k].add(p);
        }
        for (hull::Point p : from) {
            seats_[k].remove(p);
        }
    }
    Judge judge() override {
        auto readers = std::make_shared<std::vector<hull::Reader>>();
        for (hull::SharedHull &hull : hulls_) {
            readers->push_back(hull.acquire_reader());
        }
        return [readers](hull::Point a, hull::Point b) {
            for (hull::Reader &reader : *readers) {
                if (reader.newest().intersects_segment(a, b)) {
                    return false;
                }
            }
            return true;
        };
    }

private:
    std::vector<hull::SharedHull> hulls_;
    std::vector<hull::Seat> seats_;
};

// Hulls of one thread behind a mutex, from which each question takes its polygon.
class Locked : public World {
public:
    Locked() {
        for (std::size_t k = 0; k < obstacles; k++) {
            hulls_.emplace_back(1000);
        }
    }
    void move(std::size_t k, const std::vector<hull::Point> &from, const std::vector<hull::Point> &to) override {
        const std::lock_guard<std::mutex> lock(lock_);
        for (hull::Point p : to) {
            hulls_[k].add(p);
        }
        for (hull::Point p : from) {
            hulls_[k].remove(p);
        }
    }
    Judge judge() override {
        return [this](hull::Point a, hull::Point b) {
            const std::lock_guard<std::mutex> lock(lock_);
            for (hull::Hull &hull : hulls_) {
                if (hull.polygon().intersects_segment(a, b)) {
                    return false;
                }
            }
            return true;
        };
    }

private:
    std::vector<hull::Hull> hulls_;
    std::mutex lock_;
};

// Polygons behind a mutex, which the moving thread replaces and each question copies.
class Copies : public World {
public:
    void move(std::size_t k, const std::vector<hull::Point> &, const std::vector<hull::Point> &to) override {
        auto polygon = std::make_shared<const hull::Polygon>(hull::Polygon::of(to));
        const std::lock_guard<std::mutex> lock(lock_);
        polygons_[k] = std::move(polygon);
    }
    Judge judge() override {
        return [this](hull::Point a, hull::Point b) {
            std::array<std::shared_ptr<const hull::Polygon>, obstacles> all;
            {
                const std::lock_guard<std::mutex> lock(lock_);
                all = polygons_;
            }
            for (const auto &polygon : all) {
                if (polygon->intersects_segment(a, b)) {
                    return false;
                }
            }
            return true;
        };
    }

private:
    std::array<std::shared_ptr<const hull::Polygon>, obstacles> polygons_;
    std::mutex lock_;
};

class Motions : public base::MotionValidator {
public:
    Motions(const base::SpaceInformationPtr &information, Judge judge)
        : base::MotionValidator(information), judge_(std::move(judge)) {}

    bool checkMotion(const base::State *from, const base::State *to) const override { return judge_(at(from), at(to)); }

    bool checkMotion(const base::State *from, const base::State *to, std::pair<base::State *, double> &last) const override {
        const bool free = checkMotion(from, to);
        if (!free) {
            last.second = 0;
            if (last.first != nullptr) {
                si_->copyState(last.first, from);
            }
        }
        return free;
    }

private:
    Judge judge_;
};

// How many of so many plans find a path.
unsigned plan(const Judge &judge, unsigned plans) {
    unsigned found = 0;
    for (unsigned i = 0; i < plans; i++) {
        auto space = std::make_shared<base::RealVectorStateSpace>(2);
        space->setBounds(-10, 10);
        ompl::geometric::SimpleSetup setup(space);
        const auto &information = setup.getSpaceInformation();
        information->setMotionValidator(std::make_shared<Motions>(information, judge));
        setup.setStateValidityChecker([&judge](const base::State *state) { return judge(at(state), at(state)); });
        base::ScopedState<base::RealVectorStateSpace> start(space), goal(space);
        start[0] = -9, start[1] = -9, goal[0] = 9, goal[1] = 9;
        setup.setStartAndGoalStates(start, goal);
        setup.setPlanner(std::make_shared<ompl::geometric::RRTConnect>(information));
        found += setup.solve(10.0) == base::PlannerStatus::EXACT_SOLUTION;
    }
    return found;
}

std::unique_ptr<World> world_of(const std::string &way) {
    if (way == "mutex") {
        return std::make_unique<Locked>();
    }
    return way == "copies" ? std::unique_ptr<World>(std::make_unique<Copies>()) : std::make_unique<Readers>();
}

// Moves the obstacles, some thousand times a second, until all have planned.
void move_on(World &world, const std::atomic<bool> &stops) {
    for (unsigned moment = 0; !stops; moment++) {
        for (std::size_t k = 0; k < obstacles; k++) {
            world.move(k, shape(k, moment), shape(k, moment + 1));
        }
        std::this_thread::sleep_for(std::chrono::microseconds(200));
    }
}

} // namespace

int main(int words, char **word) {
    ompl::msg::setLogLevel(ompl::msg::LOG_NONE);
    const std::string way = words > 1 ? word[1] : "readers";
    const unsigned plans = words > 2 ? static_cast<unsigned>(std::stoul(word[2])) : 25;
    const std::unique_ptr<World> world = world_of(way);
    for (std::size_t k = 0; k < obstacles; k++) {
        world->move(k, {}, shape(k, 0));
    }
    std::atomic<bool> stops{false};
    std::atomic<unsigned> found{0};
    const auto begin = std::chrono::steady_clock::now();
    std::thread mover([&] { move_on(*world, stops); });
    {
        std::vector<std::jthread> threads;
        for (unsigned k = 0; k < planners; k++) {
            threads.emplace_back([&, judge = world->judge()] { found += plan(judge, plans); });
        }
    }
    const std::chrono::duration<double> took = std::chrono::steady_clock::now() - begin;
    stops = true;
    mover.join();
    std::cout << planners << " planners looked for " << plans << " paths each among obstacles that moved, and found "
              << (found == planners * plans ? "all" : "not all") << "\n";
    std::cerr << "by " << way << ": " << found / took.count() << " paths a second\n";
    return found == planners * plans ? 0 : 1;
}
