// The same calls, of a program in C++, on this library (compiled with OURS, over zaluxhoni.hpp) and on
// Boost.Interprocess's managed_mapped_file (compiled without): names made, found, read and destroyed; one vector pushed
// into and read; one map put into, looked up and emptied; and a segment with names opened. `calls FILE` prints a line for
// each: what, how many, and processor nanoseconds a call, the least of five rounds. FILE is where Boost's segment is
// mapped; ours is in memory.
// Of Boost each call on a container is done twice: with the object looked up by its name, as each call of ours does,
// and through the pointer that was found once, as a program would.
#ifdef OURS
#include "zaluxhoni.hpp"
#else
#include <boost/interprocess/allocators/allocator.hpp>
#include <boost/interprocess/containers/map.hpp>
#include <boost/interprocess/containers/vector.hpp>
#include <boost/interprocess/managed_mapped_file.hpp>
#endif

#include <algorithm>
#include <cstdint>
#include <cstdio>
#include <cstdlib>
#include <ctime>
#include <map>
#include <numeric>
#include <random>
#include <string>
#include <vector>

namespace {

constexpr std::uint64_t SIZE = 128u << 20, OPENED_SIZE = 4u << 20;
constexpr int ROUNDS = 5, NAMES = 20000, ELEMENTS = 1000000, PAIRS = 200000, OPENINGS = 20;

#ifdef OURS
/// A segment of this library.
class Side {
  public:
    explicit Side(const char *) : segment_(zaluxhoni::segment::create(SIZE)), vector_(segment_.vector<std::int64_t>("v")),
                                  map_(segment_.map<std::int64_t, std::int64_t>("m")) {}

    void make(const std::string &name, std::int64_t value) { segment_.construct<std::int64_t>(name, value); }
    bool has(const std::string &name) { return segment_.find<std::int64_t>(name).has_value(); }
    std::int64_t read(const std::string &name) { return segment_.get<std::int64_t>(name); }
    bool destroy(const std::string &name) { return segment_.destroy(name); }
    void push(std::int64_t value) { vector_.push_back(value); }
    std::int64_t get(std::uint64_t index) { return vector_.get(index); }
    bool put(std::int64_t key, std::int64_t value) { return map_.put(key, value); }
    std::int64_t look_up(std::int64_t key) { return map_.get(key); }
    bool erase(std::int64_t key) { return map_.erase(key); }
    std::int64_t sum() {
        std::int64_t sum = 0;
        for (const auto &[key, value] : map_) sum += key + value;
        return sum;
    }

  private:
    zaluxhoni::segment segment_;
    zaluxhoni::vector<std::int64_t> vector_;
    zaluxhoni::map<std::int64_t, std::int64_t> map_;
};

/// An image in memory of a segment with names. To open it is to copy it and to check every byte that means something.
class Closed {
  public:
    Closed(const char *, const std::vector<std::string> &names) {
        zaluxhoni::segment segment = zaluxhoni::segment::create(OPENED_SIZE);
        for (const std::string &name : names) segment.construct<std::int64_t>(name, 5);
        image_ = segment.save();
    }
    bool open() const { return zaluxhoni::segment::open(image_, zaluxhoni::mode::read).num_named() == NAMES; }

  private:
    std::vector<std::uint8_t> image_;
};
#else
namespace ipc = boost::interprocess;

template <class T> using Shared = ipc::allocator<T, ipc::managed_mapped_file::segment_manager>;
using Vector = ipc::vector<std::int64_t, Shared<std::int64_t>>;
using Map = ipc::map<std::int64_t, std::int64_t, std::less<std::int64_t>, Shared<std::pair<const std::int64_t, std::int64_t>>>;

/// A segment of Boost's. BY_NAME says whether a container is looked up at each call.
template <bool BY_NAME> class BoostSide {
  public:
    explicit BoostSide(const char *file) : segment_(emptied(file), file, SIZE),
        vector_(segment_.construct<Vector>("v")(segment_.get_allocator<std::int64_t>())),
        map_(segment_.construct<Map>("m")(std::less<std::int64_t>(), segment_.get_allocator<std::pair<const std::int64_t, std::int64_t>>())) {}

    void make(const std::string &name, std::int64_t value) { segment_.construct<std::int64_t>(name.c_str())(value); }
    bool has(const std::string &name) { return segment_.find<std::int64_t>(name.c_str()).first != nullptr; }
    std::int64_t read(const std::string &name) { return *segment_.find<std::int64_t>(name.c_str()).first; }
    bool destroy(const std::string &name) { return segment_.destroy<std::int64_t>(name.c_str()); }
    void push(std::int64_t value) { vector().push_back(value); }
    std::int64_t get(std::uint64_t index) { return vector().at(index); }
    bool put(std::int64_t key, std::int64_t value) { return map().insert_or_assign(key, value).second; }
    std::int64_t look_up(std::int64_t key) { return map().at(key); }
    bool erase(std::int64_t key) { return map().erase(key) != 0; }
    std::int64_t sum() {
        std::int64_t sum = 0;
        for (const auto &[key, value] : map()) sum += key + value;
        return sum;
    }

    static ipc::create_only_t emptied(const char *file) {
        std::remove(file);
        return ipc::create_only;
    }

  private:
    Vector &vector() { return BY_NAME ? *segment_.find<Vector>("v").first : *vector_; }
    Map &map() { return BY_NAME ? *segment_.find<Map>("m").first : *map_; }

    ipc::managed_mapped_file segment_;
    Vector *vector_;
    Map *map_;
};

/// A file of a segment with names. To open it is to map it; nothing is checked.
class Closed {
  public:
    Closed(const char *file, const std::vector<std::string> &names) : file_(file) {
        ipc::managed_mapped_file segment(BoostSide<true>::emptied(file), file, OPENED_SIZE);
        for (const std::string &name : names) segment.construct<std::int64_t>(name.c_str())(5);
    }
    bool open() const { return ipc::managed_mapped_file(ipc::open_only, file_).get_num_named_objects() == NAMES; }

  private:
    const char *file_;
};
#endif

double now() {
    timespec time{};
    clock_gettime(CLOCK_PROCESS_CPUTIME_ID, &time);
    return static_cast<double>(time.tv_sec) * 1e9 + static_cast<double>(time.tv_nsec);
}

/// The least time of each kind of call, in the order in which they were first done.
class Times {
  public:
    /// Does `call` for each number below `count`, all of which must hold.
    template <class Call> void of(const std::string &what, int count, Call call) {
        note(what, count, [&] {
            bool holds = true;
            for (int i = 0; i < count; i++) holds &= call(i);
            return holds;
        });
    }
    /// Does `call`, which is `count` steps and must hold.
    template <class Call> void note(const std::string &what, int count, Call call) {
        const double before = now();
        const bool holds = call();
        const double took = (now() - before) / count;
        if (!holds) {
            std::fprintf(stderr, "calls: wrong answers to %s\n", what.c_str());
            std::exit(1);
        }
        for (auto &[named, least, calls] : all_)
            if (named == what) {
                least = std::min(least, took);
                return;
            }
        all_.push_back({what, took, count});
    }
    void print(const char *side) const {
        for (const auto &[what, least, count] : all_) std::printf("%s|%s|%d|%.1f\n", side, what.c_str(), count, least);
    }

  private:
    struct Time {
        std::string what;
        double least;
        int count;
    };
    std::vector<Time> all_;
};

/// A number below `of` that jumps about: each comes once, since 7919 is a prime that divides none of the counts.
std::int64_t jumping(int i, int of) { return static_cast<std::int64_t>(i) * 7919 % of; }

/// The calls of one round. `mixed` has the numbers below PAIRS in a random order.
template <class S>
void round(S &side, Times &times, const std::vector<std::string> &names, const std::vector<int> &mixed) {
    times.of("names made", NAMES, [&](int i) { return side.make(names[jumping(i, NAMES)], i), true; });
    times.of("names found", NAMES, [&](int i) { return side.has(names[i]); });
    times.of("numbers read by name", NAMES, [&](int i) { return side.read(names[jumping(i, NAMES)]) == i; });
    times.of("names destroyed", NAMES, [&](int i) { return side.destroy(names[jumping(i, NAMES)]); });
    times.of("pushes into a vector", ELEMENTS, [&](int i) { return side.push(3 * i), true; });
    times.of("reads of a vector", ELEMENTS, [&](int i) { return side.get(jumping(i, ELEMENTS)) == 3 * jumping(i, ELEMENTS); });
    times.of("puts into a map", PAIRS, [&](int i) { return side.put(jumping(i, PAIRS), i); });
    times.of("look-ups in a map, by keys that jump", PAIRS, [&](int i) { return side.look_up(jumping(i, PAIRS)) == i; });
    times.of("look-ups in a map, by random keys", PAIRS, [&](int i) { return side.look_up(jumping(mixed[i], PAIRS)) == mixed[i]; });
    times.of("look-ups in a map, by rising keys", PAIRS, [&](int i) { return jumping(side.look_up(i), PAIRS) == i; });
    const std::int64_t all = std::int64_t{PAIRS} * (PAIRS - 1);
    times.note("steps of a walk over a map", PAIRS, [&] { return side.sum() == all; });
    times.of("keys taken out of a map", PAIRS, [&](int i) { return side.erase(jumping(i, PAIRS)); });
}

template <class S> void run(const char *name, const char *file) {
    std::vector<std::string> names;
    for (int i = 0; i < NAMES; i++) {
        char text[16];
        std::snprintf(text, sizeof text, "name%06d", i);
        names.push_back(text);
    }
    std::vector<int> mixed(PAIRS);
    std::iota(mixed.begin(), mixed.end(), 0);
    std::shuffle(mixed.begin(), mixed.end(), std::mt19937(1));
    Times times;
    for (int i = 0; i < ROUNDS; i++) {
        S side(file);
        round(side, times, names, mixed);
    }
    const Closed closed(file, names);
    for (int i = 0; i < ROUNDS; i++) times.of("segments with 20,000 names opened", OPENINGS, [&](int) { return closed.open(); });
    times.print(name);
}

} // namespace

int main(int count, char **words) {
    if (count != 2) return 2;
#ifdef OURS
    run<Side>("ours", words[1]);
#else
    run<BoostSide<true>>("by name", words[1]);
    run<BoostSide<false>>("by pointer", words[1]);
    std::remove(words[1]);
#endif
}
