// A sampling planner of another library, OMPL's RRT-Connect (Kuffner and LaValle, 2000), whose motions are validated by polygons: each
// is a segment, which is free if it intersects no obstacle. OMPL's own validator tests points along a motion and may step over a vertex.
// Nothing writes to a polygon, so a planner with many threads may query the same ones. Compile with
//
//     c++ sampling.cpp $(pkg-config --cflags ompl eigen3) $(pkg-config --cflags --libs hull) -lhull_shared -lompl -std=c++17 -o sampling
#include "hull.hpp"

#include <ompl/base/MotionValidator.h>
#include <ompl/base/spaces/RealVectorStateSpace.h>
#include <ompl/geometric/SimpleSetup.h>
#include <ompl/geometric/planners/rrt/RRTConnect.h>
#include <ompl/util/Console.h>
#include <ompl/util/RandomNumbers.h>

#include <iostream>
#include <utility>
#include <vector>

namespace {

namespace base = ompl::base;

// steps of 2^-20: the polygons are queried about the point of this lattice that is nearest to OMPL's state
constexpr hull::Lattice lattice{20};

hull::Point at(const base::State *state) {
    const auto *s = state->as<base::RealVectorStateSpace::StateType>();
    return lattice.point(s->values[0], s->values[1]);
}

hull::Point whole(std::int64_t x, std::int64_t y) { return {x << 20, y << 20}; }

const std::vector<hull::Polygon> &obstacles() {
    static const std::vector<hull::Polygon> all = {
        hull::Polygon({whole(-9, -4), whole(6, -5), whole(6, -3)}),
        hull::Polygon({whole(-6, 3), whole(-1, 1), whole(9, 2), whole(9, 4)}),
        hull::Polygon({whole(-8, 0), whole(-3, -1), whole(-5, 2)}),
    };
    return all;
}

bool is_free(hull::Point a, hull::Point b) {
    for (const hull::Polygon &obstacle : obstacles()) {
        if (obstacle.intersects_segment(a, b)) {
            return false;
        }
    }
    return true;
}

class Motions : public base::MotionValidator {
public:
    using base::MotionValidator::MotionValidator;

    bool checkMotion(const base::State *from, const base::State *to) const override { return is_free(at(from), at(to)); }

    bool checkMotion(const base::State *from, const base::State *to, std::pair<base::State *, double> &last) const override {
        const bool free = checkMotion(from, to);
        if (!free) {
            last.second = 0;
            if (last.first != nullptr) {
                si_->copyState(last.first, from);
            }
        }
        return free;
    }
};

} // namespace

int main() {
    ompl::msg::setLogLevel(ompl::msg::LOG_NONE);
    ompl::RNG::setSeed(7);
    auto space = std::make_shared<base::RealVectorStateSpace>(2);
    space->setBounds(-10, 10);
    ompl::geometric::SimpleSetup setup(space);
    const auto &information = setup.getSpaceInformation();
    information->setMotionValidator(std::make_shared<Motions>(information));
    setup.setStateValidityChecker([](const base::State *state) { return is_free(at(state), at(state)); });
    base::ScopedState<base::RealVectorStateSpace> start(space), goal(space);
    start[0] = -9, start[1] = -9, goal[0] = 9, goal[1] = 9;
    setup.setStartAndGoalStates(start, goal);
    setup.setPlanner(std::make_shared<ompl::geometric::RRTConnect>(information));
    const bool solved = setup.solve(10.0) == base::PlannerStatus::EXACT_SOLUTION;
    bool free = solved;
    if (solved) {
        const auto &states = setup.getSolutionPath().getStates();
        for (std::size_t i = 0; i + 1 < states.size(); i++) {
            free = free && is_free(at(states[i]), at(states[i + 1]));
        }
    }
    std::cout << "the straight way is " << (is_free(whole(-9, -9), whole(9, 9)) ? "free" : "blocked") << "\n"
              << "a path was " << (solved ? "found" : "missed") << ", and its motions are " << (free ? "free" : "not all free") << "\n";
    return free ? 0 : 1;
}
