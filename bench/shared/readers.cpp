// Threads that ask while one thread changes: readers of a shared hull, beside a std::shared_mutex round a set of one thread, copies
// of the vertices under a std::atomic<std::shared_ptr> (C++20), and seats.
//
//     readers [POINTS [CHANGES [MILLISECONDS [ROUNDS]]]]
//
// A square of side 2^21 has so many random points at first (1000). One thread adds and removes random points in turn, so many per
// second (10000), and one, two or four others ask for the location of random points, for so long (300). The ways take turns, in so
// many rounds (5); of each the best. Then the cost of only a change that leaves the vertices, with readers and with none, if the
// shared hull keeps its journal and if it keeps none; and of a snapshot, taken and dropped.
#include "hull.h"
#include "hull_shared.h"

#include <algorithm>
#include <atomic>
#include <chrono>
#include <cstdio>
#include <cstdlib>
#include <memory>
#include <mutex>
#include <shared_mutex>
#include <thread>
#include <vector>

namespace {

constexpr std::int64_t side = 1 << 20;
constexpr unsigned most_threads = 4;
using Clock = std::chrono::steady_clock;

// Random coordinates (xorshift; Marsaglia, 2003).
struct Points {
    std::uint64_t state;
    std::int64_t next() {
        state ^= state << 13, state ^= state >> 7, state ^= state << 17;
        return static_cast<std::int64_t>(state % (2 * side)) - side;
    }
};

// The state that the threads share, and how it is changed and asked.
class Way {
public:
    virtual ~Way() = default;
    virtual void change(bool adds, std::int64_t x, std::int64_t y) = 0;
    // Asks in one thread until `stops`; returns how many questions it asked.
    virtual unsigned long ask(unsigned me, const std::atomic<bool> &stops, Points points) = 0;
};

// Asks until `stops`, which is tested every 64 questions; `place` returns a code.
template <class Place> unsigned long asked(const std::atomic<bool> &stops, Points points, Place place) {
    unsigned long count = 0, inside = 0;
    while (!stops.load(std::memory_order_relaxed)) {
        for (int i = 0; i < 64; i++, count++) {
            const std::int64_t x = points.next(), y = points.next();
            inside += place(x, y) == HULL_INSIDE;
        }
    }
    return inside == 0 ? 0 : count; // so that no answer is left out
}

// The seats of a shared hull, which keeps so many lines of its journal or no journal: one for the thread that changes, and one for
// each thread that asks; and the readers.
class Shared : public Way {
public:
    explicit Shared(unsigned readers, std::uint32_t lines = 0) {
        shared_ = hull_shared_new();
        bool good = shared_ != nullptr && (readers == 0 || hull_shared_set_max_readers(shared_, readers) == HULL_READERS_SET);
        good = good && (lines > 0 ? hull_shared_open(shared_, HULL_LIMIT_MAX, 0, lines, most_threads + 1)
                                  : hull_shared_open_without_journal(shared_, HULL_LIMIT_MAX, 0, most_threads + 1)) == HULL_OPEN;
        for (unsigned k = 0; good && k < readers; k++) {
            readers_.push_back(hull_shared_reader_new());
            good = readers_[k] != nullptr && hull_shared_acquire_reader(shared_, readers_[k]) == HULL_ACQUIRED;
        }
        for (unsigned k = 0; good && k <= most_threads; k++) {
            seats_.push_back(hull_shared_seat_new());
            good = seats_[k] != nullptr && hull_shared_acquire_seat(shared_, &gate_, seats_[k], k) == HULL_ACQUIRED;
        }
        if (!good) {
            std::abort();
        }
    }
    ~Shared() override {
        for (hull_shared_seat *seat : seats_) {
            hull_shared_release_seat(shared_, seat), hull_shared_seat_free(seat);
        }
        for (hull_shared_reader *reader : readers_) {
            hull_shared_release_reader(shared_, reader), hull_shared_reader_free(reader);
        }
        hull_shared_close(shared_), hull_shared_end(shared_), hull_shared_free(shared_);
    }
    void change(bool adds, std::int64_t x, std::int64_t y) override {
        hull_shared_call(&gate_, seats_[most_threads], adds ? HULL_KIND_ADD : HULL_KIND_REMOVE, x, y);
    }

protected:
    hull_shared_gate gate_ = {};
    hull_shared *shared_;
    std::vector<hull_shared_seat *> seats_;
    std::vector<hull_shared_reader *> readers_;
};

class Seats : public Shared {
public:
    Seats() : Shared(0) {}
    unsigned long ask(unsigned me, const std::atomic<bool> &stops, Points points) override {
        return asked(stops, points, [&](std::int64_t x, std::int64_t y) {
            return hull_shared_call(&gate_, seats_[me], HULL_KIND_PLACE, x, y).answer.code;
        });
    }
};

// Each question takes the newest snapshot, and copies its vertices.
class Snapshots : public Shared {
public:
    Snapshots() : Shared(most_threads) {}
    unsigned long ask(unsigned me, const std::atomic<bool> &stops, Points points) override {
        std::vector<hull_point> vertices(1 << 12);
        return asked(stops, points, [&](std::int64_t x, std::int64_t y) {
            const hull_shared_snapshot snapshot = hull_shared_read(readers_[me]);
            hull_shared_snapshot_vertices(readers_[me], vertices.data(), vertices.size());
            return hull_polygon_place(vertices.data(), snapshot.count, x, y).code;
        });
    }
};

// Each question tests first whether the snapshot is the newest.
class Looks : public Shared {
public:
    Looks() : Shared(most_threads) {}
    unsigned long ask(unsigned me, const std::atomic<bool> &stops, Points points) override {
        std::vector<hull_point> vertices(1 << 12);
        hull_shared_reader *const reader = readers_[me];
        hull_shared_snapshot snapshot = hull_shared_read(reader);
        hull_shared_snapshot_vertices(reader, vertices.data(), vertices.size());
        return asked(stops, points, [&](std::int64_t x, std::int64_t y) {
            if (hull_shared_is_newest(reader) == 0) {
                snapshot = hull_shared_read(reader);
                hull_shared_snapshot_vertices(reader, vertices.data(), vertices.size());
            }
            return hull_polygon_place(vertices.data(), snapshot.count, x, y).code;
        });
    }
};

// A set of one thread, under a lock that threads take shared to ask.
class Locked : public Way {
public:
    ~Locked() override { hull_free(set_); }
    void change(bool adds, std::int64_t x, std::int64_t y) override {
        const std::unique_lock<std::shared_mutex> lock(lock_);
        adds ? hull_add(set_, x, y) : hull_remove(set_, x, y);
    }
    unsigned long ask(unsigned, const std::atomic<bool> &stops, Points points) override {
        return asked(stops, points, [&](std::int64_t x, std::int64_t y) {
            const std::shared_lock<std::shared_mutex> lock(lock_);
            return hull_place(set_, x, y).code;
        });
    }

private:
    hull_set *set_ = hull_new(HULL_LIMIT_MAX);
    std::shared_mutex lock_;
};

// Copies of the vertices, made at each change that moves one, which the asking threads take by a counted pointer.
class Copied : public Way {
public:
    using VertexArray = std::vector<hull_point>;
    ~Copied() override { hull_free(set_); }
    void change(bool adds, std::int64_t x, std::int64_t y) override {
        adds ? hull_add(set_, x, y) : hull_remove(set_, x, y);
        VertexArray vertices(hull_vertices(set_, nullptr, 0).number);
        hull_vertices(set_, vertices.data(), vertices.size());
        newest_.store(std::make_shared<const VertexArray>(std::move(vertices)));
    }
    unsigned long ask(unsigned, const std::atomic<bool> &stops, Points points) override {
        return asked(stops, points, [&](std::int64_t x, std::int64_t y) {
            const std::shared_ptr<const VertexArray> vertices = newest_.load();
            return hull_polygon_place(vertices->data(), vertices->size(), x, y).code;
        });
    }

private:
    hull_set *set_ = hull_new(HULL_LIMIT_MAX);
    std::atomic<std::shared_ptr<const VertexArray>> newest_{std::make_shared<const VertexArray>()};
};

// Vertices that no thread changes: the fastest possible.
class Bare : public Way {
public:
    ~Bare() override { hull_free(set_); }
    void change(bool adds, std::int64_t x, std::int64_t y) override {
        adds ? hull_add(set_, x, y) : hull_remove(set_, x, y);
    }
    unsigned long ask(unsigned, const std::atomic<bool> &stops, Points points) override {
        return asked(stops, points, [&](std::int64_t x, std::int64_t y) {
            return hull_polygon_place(vertices_.data(), vertices_.size(), x, y).code;
        });
    }
    void take() {
        vertices_.resize(hull_vertices(set_, nullptr, 0).number);
        hull_vertices(set_, vertices_.data(), vertices_.size());
    }

private:
    hull_set *set_ = hull_new(HULL_LIMIT_MAX);
    std::vector<hull_point> vertices_;
};

void fill(Way &way, long count) {
    Points points{7};
    for (long i = 0; i < count; i++) {
        const std::int64_t x = points.next(), y = points.next();
        way.change(true, x, y);
    }
}

// Makes changes at this rate until `stops`: a point is added, and removed again.
void changes(Way &way, const std::atomic<bool> &stops, long a_second) {
    Points points{88172645463325252u};
    std::int64_t x = 0, y = 0;
    auto next = Clock::now();
    for (unsigned long i = 0; !stops.load(std::memory_order_relaxed); i++) {
        std::this_thread::sleep_until(next += std::chrono::nanoseconds(1000000000 / a_second));
        if (i % 2 == 0) {
            x = points.next(), y = points.next();
        }
        way.change(i % 2 == 0, x, y);
    }
}

// Returns how many questions per second so many threads have answered, beside so many changes per second.
double rate(Way &way, unsigned threads, long a_second, std::chrono::milliseconds time) {
    std::atomic<bool> stops{false};
    std::vector<unsigned long> counts(threads);
    std::vector<std::thread> all;
    const auto begin = Clock::now();
    for (unsigned k = 0; k < threads; k++) {
        all.emplace_back([&, k] { counts[k] = way.ask(k, stops, Points{(k + 1) * UINT64_C(0x9E3779B97F4A7C15)}); });
    }
    if (a_second > 0) {
        all.emplace_back([&] { changes(way, stops, a_second); });
    }
    std::this_thread::sleep_for(time);
    stops.store(true);
    for (std::thread &one : all) {
        one.join();
    }
    unsigned long sum = 0;
    for (unsigned long count : counts) {
        sum += count;
    }
    return static_cast<double>(sum) / std::chrono::duration<double>(Clock::now() - begin).count();
}

double processor_seconds() {
    timespec t;
    clock_gettime(CLOCK_THREAD_CPUTIME_ID, &t);
    return static_cast<double>(t.tv_sec) + static_cast<double>(t.tv_nsec) * 1e-9;
}

// A shared hull that no thread asks.
struct Unasked : Shared {
    using Shared::Shared;
    unsigned long ask(unsigned, const std::atomic<bool> &, Points) override { return 0; }
};

// Returns the nanoseconds of a change that leaves the vertices, in one thread: a point well inside is added, and removed. With so
// many readers, and with space for so many lines.
double inner_change(unsigned readers, std::uint32_t lines, long points, long count) {
    Unasked way(readers, lines);
    Points random{99};
    for (const std::int64_t x : {-side, side}) {
        way.change(true, x, -side), way.change(true, x, side);
    }
    fill(way, points);
    const double begin = processor_seconds();
    for (long i = 0; i < count; i += 2) {
        const std::int64_t x = random.next() / 2, y = random.next() / 2;
        way.change(true, x, y), way.change(false, x, y);
    }
    return (processor_seconds() - begin) * 1e9 / static_cast<double>(count);
}

// Returns the nanoseconds of taking a new snapshot after a change, with the one before dropped: how much longer such a row takes
// than one without.
double snapshot_time(long count, bool reads) {
    struct Reading : Unasked {
        using Unasked::Unasked;
        void read(bool reads) {
            if (reads) {
                hull_shared_read(readers_[0]);
            }
        }
    } way(1);
    fill(way, 1000);
    double took = 0;
    for (long i = 0; i < count; i++) {
        way.change(i % 2 == 0, 1, 1);
        const double begin = processor_seconds();
        way.read(reads);
        took += processor_seconds() - begin;
    }
    return took * 1e9 / static_cast<double>(count);
}

} // namespace

int main(int words, char **word) {
    const long points = words > 1 ? std::atol(word[1]) : 1000, a_second = words > 2 ? std::atol(word[2]) : 10000;
    const std::chrono::milliseconds time(words > 3 ? std::atol(word[3]) : 300);
    const long rounds = words > 4 ? std::atol(word[4]) : 5;
    Bare bare;
    Looks looks;
    Snapshots snapshots;
    Locked locked;
    Copied copied;
    Seats seats;
    struct Row {
        const char *name;
        Way *way;
        double best[3];
    } rows[] = {{"bare polygon", &bare, {}}, {"reader, looks first", &looks, {}}, {"reader, each a snapshot", &snapshots, {}},
                {"shared_mutex", &locked, {}}, {"atomic shared_ptr", &copied, {}}, {"seats", &seats, {}}};
    for (Row &row : rows) {
        fill(*row.way, points);
    }
    bare.take();
    const unsigned counts[] = {1, 2, 4};
    for (long round = 0; round < rounds; round++) {
        for (Row &row : rows) {
            for (int i = 0; i < 3; i++) {
                row.best[i] = std::max(row.best[i], rate(*row.way, counts[i], row.way == &bare ? 0 : a_second, time));
            }
        }
    }
    std::printf("%ld points, %ld changes a second beside; millions of places a second, best of %ld rounds of %ld ms\n", points, a_second,
                rounds, static_cast<long>(time.count()));
    std::printf("%-22s %8s %8s %8s %10s %14s\n", "", "1 thread", "2", "4", "4 over 1", "of bare, 1 and 4");
    for (const Row &row : rows) {
        std::printf("%-22s %8.2f %8.2f %8.2f %10.2f %8.2f %5.2f\n", row.name, row.best[0] / 1e6, row.best[1] / 1e6, row.best[2] / 1e6,
                    row.best[2] / row.best[0], row.best[0] / rows[0].best[0], row.best[2] / rows[0].best[2]);
    }
    constexpr long count = 200000;
    for (const std::uint32_t lines : {0u, static_cast<std::uint32_t>(points + count + 4)}) {
        double with = 1e18, without = 1e18;
        for (long round = 0; round < rounds; round++) {
            without = std::min(without, inner_change(0, lines, points, count));
            with = std::min(with, inner_change(most_threads, lines, points, count));
        }
        std::printf("a change that leaves the vertices, %s: %.0f ns, with readers %.0f: %.2f times\n",
                    lines == 0 ? "no journal" : "journal held", without, with, with / without);
    }
    double taken = 1e18, none = 1e18;
    for (long round = 0; round < rounds; round++) {
        taken = std::min(taken, snapshot_time(100000, true));
        none = std::min(none, snapshot_time(100000, false));
    }
    std::printf("a view taken, and the one before let go: %.0f ns of processor\n", taken - none);
    return 0;
}
