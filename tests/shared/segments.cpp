// Segments of a journal in C++, and a hull that continues one: the status is 0 only if each is the text that it should be. The
// segments are written to the files FILE.1, FILE.2 and so on, of FILE the word: `hullbook check` judges them in this order.
#include "hull.hpp"

#include <cerrno>
#include <cstdio>
#include <fstream>
#include <sstream>
#include <string>

static hull::Refusal refused(const std::string &text) {
    try {
        hull::SharedHull::reopen(text, 4, 2);
    } catch (const hull::Fault &fault) {
        return fault.code();
    }
    return hull::Refusal::full;
}

// A hull that continues from the first segment of another one.
static bool continues(const std::string &first, const std::string &file) {
    hull::SharedHull shared = hull::SharedHull::reopen(first, 4, 2);
    hull::Seat seat = shared.acquire_seat(1);
    bool good = seat.add({1, 2}) == 2 && seat.turn() == 9;
    seat.release();
    std::ofstream(file) << shared.close();
    return good && refused("") == hull::Refusal::no_journal &&
           refused("hullbook journal 2 first 5 limit 3 capacity 9\nend 0\n") == hull::Refusal::old_rules &&
           refused("hullbook journal 3 first 5 limit 3 capacity 9\n6 0 area = area 0\nend 1\n") == hull::Refusal::illegal &&
           refused("hullbook journal 3 first 5 limit 3 capacity 9\n5 9 area = area 0\nend 1\n") == hull::Refusal::too_few_seats;
}

// A line that is longer than a piece: that of many vertices.
static bool writes_long_lines() {
    hull::SharedHull shared({HULL_LIMIT_MAX, 0, 10000, 1});
    hull::Seat seat = shared.acquire_seat(0);
    for (std::int64_t x = 0; x < 6000; x++) {
        seat.add({x, x * x});
    }
    const std::size_t vertices = seat.vertices().size();
    const hull::JournalSegment segment = seat.drain();
    std::ostringstream pieces, last;
    segment.write_to(pieces);
    seat.vertices();
    seat.release();
    shared.close_to(last);
    if (last.str() != shared.close() || last.str().size() < 1 << 16) {
        return false;
    }
    std::istringstream lines(pieces.str());
    std::size_t longest = 0;
    for (std::string line; std::getline(lines, line);) {
        longest = line.size() > longest ? line.size() : longest;
    }
    return vertices == 6000 && longest > 1 << 16 && pieces.str() == segment.text();
}

// A hull that drains by itself and waits, and one that answers questions when it is full.
static bool drains_by_itself() {
    std::size_t segments = 0;
    bool good = false;
    {
        hull::SharedHull shared({1000, 0, 4, 1});
        shared.wait_for_space(true);
        shared.on_half_full([](void *context, const hull_shared_segment *) { ++*static_cast<std::size_t *>(context); }, &segments);
        hull::Seat seat = shared.acquire_seat(0);
        for (std::int64_t x = 0; x < 100; x++) {
            seat.add({x, x});
        }
        good = seat.count() == 100 && segments >= 25;
    }
    hull::SharedHull shared = hull::SharedHull::open_answering({1000, 0, 1, 1});
    hull::Seat seat = shared.acquire_seat(0);
    seat.add({1, 2});
    return good && seat.count() == 1 && seat.turn() == 0u;
}

// A call that waits no longer than its seat may, and the statistics of the hull meanwhile.
static bool times_out() {
    hull::SharedHull shared({1000, 0, 1, 2});
    shared.wait_for_space(true);
    hull::Seat seat = shared.acquire_seat(0);
    seat.wait_at_most(std::chrono::nanoseconds(0));
    seat.add({1, 2});
    for (std::chrono::nanoseconds time : {std::chrono::nanoseconds(0), std::chrono::nanoseconds(5000000)}) {
        seat.wait_at_most(time);
        try {
            seat.add({1, 2});
            return false;
        } catch (const hull::Fault &fault) {
            if (fault.code() != hull::Refusal::full) {
                return false;
            }
        }
    }
    const hull_shared_state state = shared.stats();
    return state.held == 1 && state.turn == 3 && state.inside == 0 && state.seat == HULL_SHARED_SEATS_MAX;
}

// A hull with a journal file, and one that continues from it.
static bool writes_journal_file(const std::string &path) {
    std::remove(path.c_str());
    for (std::uint32_t round = 0; round < 3; round++) {
        hull::SharedHull shared = hull::SharedHull::open_journal(path, {100, 0, 50, 1}, std::chrono::milliseconds(round));
        hull::Seat seat = shared.acquire_seat(0);
        for (std::int64_t x = 0; x < 60; x++) {
            if (seat.add({x, x}) != round + 1) {
                return false;
            }
        }
        seat.wait_durable();
        if (shared.durable() <= *seat.turn() || shared.sync() < shared.durable() || seat.count() != 60) {
            return false;
        }
        try {
            shared.close();
            return false;
        } catch (const hull::Fault &fault) {
            if (fault.code() != hull::Refusal::seats_out) {
                return false;
            }
        }
        seat.release();
        if (round < 2) {
            shared.close(); // or at its end
            if (hull::SharedHull::compact(path) < 60 * (round + 1)) {
                return false;
            }
        }
    }
    try {
        hull::SharedHull::open_journal("/nowhere/at/all", {100, 0, 50, 1});
        return false;
    } catch (const hull::Fault &fault) {
        return fault.code() == hull::Refusal::no_file && fault.number() == ENOENT;
    }
}

int main(int, char **words) {
    hull::SharedHull shared({6, 7, 3, 1});
    hull::Seat seat = shared.acquire_seat(0);
    seat.add({1, 2});
    const hull::JournalSegment segment = seat.drain();
    bool good = segment.text() ==
                "hullbook journal 3 first 7 limit 6 capacity 4\n7 0 add 1 2 = added\n8 0 count = count 1\nend 2\n";
    std::ostringstream pieces;
    segment.write_to(pieces);
    good = good && pieces.str() == segment.text();
    std::ofstream(words[1] + std::string(".1")) << segment.text();
    good = good && continues(segment.text(), words[1] + std::string(".2"));
    for (int x = 0; x < 3; x++) {
        seat.add({x, 5});
    }
    try {
        seat.add({4, 5});
        good = false;
    } catch (const hull::Fault &) {
    }
    good = good && seat.drain().text() == "hullbook journal 3 first 9 limit 6 capacity 4\n9 0 add 0 5 = added\n"
                                          "10 0 add 1 5 = added\n11 0 add 2 5 = added\n12 0 count = count 4\nend 4\n";
    good = good && seat.add({4, 5}) == 1 && seat.turn() == 13;
    seat.release();
    good = good && shared.close() == "hullbook journal 3 first 13 limit 6 capacity 3\n13 0 add 4 5 = added\nend 1\n";
    good = good && writes_journal_file(words[1] + std::string(".journal"));
    return good && drains_by_itself() && times_out() && writes_long_lines() ? 0 : 1;
}
