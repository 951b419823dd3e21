// What single calls of a program in C++ and in C cost in instructions, on this library (compiled with OURS) and on
// Boost.Interprocess's managed_mapped_file (compiled without). Run it under valgrind's callgrind: after each kind of call
// it has a dump written, whose trigger is WHAT|HOW|CALLS. `instructions FILE`; FILE is where Boost's segment is mapped.
// HOW says which object a call is for: a handle that the program keeps, or Boost's pointer, or a name at each call.
#ifdef OURS
#include "zaluxhoni.hpp"
#else
#include <boost/interprocess/allocators/allocator.hpp>
#include <boost/interprocess/containers/map.hpp>
#include <boost/interprocess/containers/vector.hpp>
#include <boost/interprocess/managed_mapped_file.hpp>
#endif

#include <valgrind/callgrind.h>

#include <cstdint>
#include <cstdio>
#include <cstdlib>
#include <functional>
#include <random>
#include <string>
#include <utility>
#include <vector>

namespace {

using Number = std::int64_t;
constexpr std::uint64_t SIZE = 64u << 20;
constexpr int NAMES = 100, ELEMENTS = 1000, FEW_PAIRS = 100, MANY_PAIRS = 200000, CALLS = 2000;

void fail(const std::string &what) {
    std::fprintf(stderr, "instructions: a wrong answer to %s\n", what.c_str());
    std::exit(1);
}

/// Counts the instructions of `call` for each number below CALLS. Each must hold.
template <class Call> void count(const std::string &what, const std::string &how, Call call) {
    const std::string label = what + "|" + how + "|" + std::to_string(CALLS);
    bool holds = true;
    CALLGRIND_ZERO_STATS;
    for (int i = 0; i < CALLS; i++) holds &= call(i);
    CALLGRIND_DUMP_STATS_AT(label.c_str());
    if (!holds) fail(what + " " + how);
}

/// The keys of CALLS calls on a map of the keys below `pairs`, in three orders.
std::vector<std::pair<std::string, std::vector<Number>>> orders(int pairs) {
    std::mt19937 random(1);
    std::vector<Number> any, rising, jumping;
    for (int i = 0; i < CALLS; i++) {
        any.push_back(static_cast<Number>(random() % static_cast<unsigned>(pairs)));
        rising.push_back(i % pairs);
        jumping.push_back(static_cast<Number>(i) * 7919 % pairs);
    }
    return {{"random keys", any}, {"rising keys", rising}, {"keys that jump by 7,919", jumping}};
}

std::string map_name(int pairs) { return "m" + std::to_string(pairs); }

#ifdef OURS
void must(zx_code code) {
    if (code != ZX_DONE) std::exit(1);
}

/// The calls of C on a vector and a map, which a key names.
class InC {
  public:
    explicit InC(zx_segment *segment, zx_key vector, zx_key map) : segment_(segment), vector_(vector), map_(map) {
        must(zx_look_up(segment_, &vector_, &object_));
    }

    bool get(int i) {
        zx_value value;
        return zx_get(segment_, &vector_, static_cast<std::uint64_t>(i % ELEMENTS), &value) == ZX_DONE && value.number == i % ELEMENTS;
    }
    bool set(int i) {
        const zx_value value = zx_i64(i % ELEMENTS);
        return zx_set(segment_, &vector_, static_cast<std::uint64_t>(i % ELEMENTS), &value) == ZX_DONE;
    }
    bool push(int i) {
        const zx_value value = zx_i64(i);
        return zx_push(segment_, &vector_, &value) == ZX_DONE;
    }
    /// A read of an element by an object that was looked up, after a call that changed the segment.
    bool push_and_get(int i) {
        Number number;
        return push(i) && zx_i64_at(segment_, &object_, static_cast<std::uint64_t>(i % ELEMENTS), &number) == ZX_DONE &&
               number == i % ELEMENTS;
    }
    bool look_up(Number key) {
        const zx_value at = zx_i64(key);
        zx_value value;
        return zx_map_get(segment_, &map_, &at, &value) == ZX_DONE && value.number == key;
    }
    bool put(Number key) {
        const zx_value at = zx_i64(key);
        bool is_new;
        return zx_map_put(segment_, &map_, &at, &at, &is_new) == ZX_DONE && !is_new;
    }
    bool step(Number key) {
        const zx_value after = zx_i64(key - 1);
        zx_value at, value;
        return zx_map_next(segment_, &map_, &after, &at, &value) == ZX_DONE && at.number == key && value.number == key;
    }

  private:
    zx_segment *segment_;
    zx_key vector_, map_;
    zx_object object_{};
};

/// Fills a segment as the other side does, and returns the handles of the vector and of the maps.
void fill(zaluxhoni::segment &segment) {
    for (int i = 0; i < NAMES; i++) segment.construct<Number>("name" + std::to_string(1000 + i), i);
    auto vector = segment.vector<Number>("v");
    for (int i = 0; i < ELEMENTS; i++) vector.push_back(i);
    for (const int pairs : {FEW_PAIRS, MANY_PAIRS}) {
        auto map = segment.map<Number, Number>(map_name(pairs));
        for (Number key = 0; key < pairs; key++) map.put(key, key);
    }
}

[[gnu::noinline]] void count_vectors(zaluxhoni::segment &segment, InC kept, InC named) {
    auto vector = segment.vector<Number>("v");
    const auto at = [](int i) { return static_cast<std::uint64_t>(i % ELEMENTS); };
    count("v.get(i)", "C++ by handle", [&](int i) { return vector.get(at(i)) == i % ELEMENTS; });
    count("v.get(i)", "C++ by name", [&](int i) { return segment.get<Number>("v", at(i)) == i % ELEMENTS; });
    count("v.get(i)", "C by handle", [&](int i) { return kept.get(i); });
    count("v.get(i)", "C by name", [&](int i) { return named.get(i); });
    count("v.set(i, x)", "C++ by handle", [&](int i) { return vector.set(at(i), i % ELEMENTS), true; });
    count("v.set(i, x)", "C++ by name", [&](int i) { return segment.set<Number>("v", at(i), i % ELEMENTS), true; });
    count("v.set(i, x)", "C by handle", [&](int i) { return kept.set(i); });
    count("v.set(i, x)", "C by name", [&](int i) { return named.set(i); });
    auto it = vector.begin();
    count("a step of an iterator over a vector", "C++ by handle", [&](int i) {
        const bool holds = *it == i % ELEMENTS;
        if (++it == vector.end()) it = vector.begin();
        return holds;
    });
    count("v.push_back(x)", "C++ by handle", [&](int i) { return vector.push_back(i), true; });
    count("v.push_back(x)", "C++ by name", [&](int i) { return segment.vector<Number>("v").push_back(i), true; });
    count("v.push_back(x)", "C by handle", [&](int i) { return kept.push(i); });
    count("v.push_back(x)", "C by name", [&](int i) { return named.push(i); });
    count("v.push_back(x) and v.get(i)", "C++ by handle", [&](int i) { return vector.push_back(i), vector.get(at(i)) == i % ELEMENTS; });
    count("v.push_back(x) and v.get(i)", "C by handle", [&](int i) { return kept.push_and_get(i); });
}

void count_maps(zaluxhoni::segment &segment, InC kept, InC named, int pairs) {
    const std::string name = map_name(pairs), in = " of " + std::to_string(pairs) + " pairs";
    auto map = segment.map<Number, Number>(name);
    for (const auto &[order, keys] : orders(pairs)) {
        const std::string get = "m.get(k)" + in + ", " + order, put = "m.put(k, x)" + in + ", " + order;
        count(get, "C++ by handle", [&](int i) { return map.get(keys[i]) == keys[i]; });
        count(get, "C++ by name", [&](int i) { return segment.map<Number, Number>(name).get(keys[i]) == keys[i]; });
        count(get, "C by handle", [&](int i) { return kept.look_up(keys[i]); });
        count(get, "C by name", [&](int i) { return named.look_up(keys[i]); });
        count(put, "C++ by handle", [&](int i) { return !map.put(keys[i], keys[i]); });
        count(put, "C++ by name", [&](int i) { return !segment.map<Number, Number>(name).put(keys[i], keys[i]); });
        count(put, "C by handle", [&](int i) { return kept.put(keys[i]); });
        count(put, "C by name", [&](int i) { return named.put(keys[i]); });
    }
    auto it = map.begin();
    count("a step of an iterator" + in, "C++ by handle", [&](int i) {
        const bool holds = (*it).first == i % pairs;
        if (++it == map.end()) it = map.begin();
        return holds;
    });
    count("a step of an iterator" + in, "C by handle", [&](int i) { return kept.step(i % pairs); });
    count("a step of an iterator" + in, "C by name", [&](int i) { return named.step(i % pairs); });
}

void run(const char *) {
    zaluxhoni::segment segment = zaluxhoni::segment::create(SIZE);
    fill(segment);
    // the same segment for C: an image that was saved, and opened by a call of C
    const std::vector<std::uint8_t> image = segment.save();
    zx_segment opened = ZX_CLOSED_HANDLE;
    must(zx_open(&opened, image.data(), image.size(), SIZE, ZX_WRITE));
    const auto in_c = [&](int pairs, bool by_name, const std::string &name) {
        const zx_key vector = by_name ? zx_name("v") : zx_handle(segment.vector<Number>("v").handle());
        const zx_key map = by_name ? zx_name_of(name.data(), name.size()) : zx_handle(segment.map<Number, Number>(map_name(pairs)).handle());
        return InC(&opened, vector, map);
    };
    const std::string few = map_name(FEW_PAIRS), many = map_name(MANY_PAIRS);
    count_maps(segment, in_c(FEW_PAIRS, false, few), in_c(FEW_PAIRS, true, few), FEW_PAIRS);
    count_maps(segment, in_c(MANY_PAIRS, false, many), in_c(MANY_PAIRS, true, many), MANY_PAIRS);
    count_vectors(segment, in_c(FEW_PAIRS, false, few), in_c(FEW_PAIRS, true, few));
    zx_close(&opened);
}
#else
namespace ipc = boost::interprocess;

template <class T> using Shared = ipc::allocator<T, ipc::managed_mapped_file::segment_manager>;
using Vector = ipc::vector<Number, Shared<Number>>;
using Map = ipc::map<Number, Number, std::less<Number>, Shared<std::pair<const Number, Number>>>;

[[gnu::noinline]] void count_vectors(ipc::managed_mapped_file &segment) {
    Vector *vector = segment.find<Vector>("v").first;
    const auto at = [](int i) { return static_cast<std::size_t>(i % ELEMENTS); };
    const auto named = [&]() -> Vector & { return *segment.find<Vector>("v").first; };
    count("v.get(i)", "Boost by pointer", [&](int i) { return vector->at(at(i)) == i % ELEMENTS; });
    count("v.get(i)", "Boost by name", [&](int i) { return named().at(at(i)) == i % ELEMENTS; });
    count("v.set(i, x)", "Boost by pointer", [&](int i) { return (vector->at(at(i)) = i % ELEMENTS) == i % ELEMENTS; });
    count("v.set(i, x)", "Boost by name", [&](int i) { return (named().at(at(i)) = i % ELEMENTS) == i % ELEMENTS; });
    auto it = vector->begin();
    count("a step of an iterator over a vector", "Boost by pointer", [&](int i) {
        const bool holds = *it == i % ELEMENTS;
        if (++it == vector->end()) it = vector->begin();
        return holds;
    });
    count("v.push_back(x)", "Boost by pointer", [&](int i) { return vector->push_back(i), true; });
    count("v.push_back(x)", "Boost by name", [&](int i) { return named().push_back(i), true; });
    count("v.push_back(x) and v.get(i)", "Boost by pointer", [&](int i) { return vector->push_back(i), vector->at(at(i)) == i % ELEMENTS; });
}

void count_maps(ipc::managed_mapped_file &segment, int pairs) {
    const std::string name = map_name(pairs), in = " of " + std::to_string(pairs) + " pairs";
    Map *map = segment.find<Map>(name.c_str()).first;
    const auto named = [&]() -> Map & { return *segment.find<Map>(name.c_str()).first; };
    for (const auto &[order, keys] : orders(pairs)) {
        const std::string get = "m.get(k)" + in + ", " + order, put = "m.put(k, x)" + in + ", " + order;
        count(get, "Boost by pointer", [&](int i) { return map->at(keys[i]) == keys[i]; });
        count(get, "Boost by name", [&](int i) { return named().at(keys[i]) == keys[i]; });
        count(put, "Boost by pointer", [&](int i) { return !map->insert_or_assign(keys[i], keys[i]).second; });
        count(put, "Boost by name", [&](int i) { return !named().insert_or_assign(keys[i], keys[i]).second; });
    }
    auto it = map->begin();
    count("a step of an iterator" + in, "Boost by pointer", [&](int i) {
        const bool holds = it->first == i % pairs;
        if (++it == map->end()) it = map->begin();
        return holds;
    });
}

void run(const char *file) {
    std::remove(file);
    ipc::managed_mapped_file segment(ipc::create_only, file, SIZE);
    for (int i = 0; i < NAMES; i++) segment.construct<Number>(("name" + std::to_string(1000 + i)).c_str())(i);
    auto *vector = segment.construct<Vector>("v")(segment.get_allocator<Number>());
    for (int i = 0; i < ELEMENTS; i++) vector->push_back(i);
    for (const int pairs : {FEW_PAIRS, MANY_PAIRS}) {
        auto *map = segment.construct<Map>(map_name(pairs).c_str())(std::less<Number>(), segment.get_allocator<std::pair<const Number, Number>>());
        for (Number key = 0; key < pairs; key++) map->emplace(key, key);
    }
    count_maps(segment, FEW_PAIRS);
    count_maps(segment, MANY_PAIRS);
    count_vectors(segment);
    std::remove(file);
}
#endif

} // namespace

int main(int words, char **word) {
    if (words != 2) return 2;
    run(word[1]);
}
