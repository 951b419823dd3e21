/* beside_std [COUNT [SEED]]: makes COUNT (default 100000) random calls on each container of zaluxhoni.hpp and on one of
   std: results and contents must be equal, and calls with a bad index, an absent key or an overflow must throw. */
#include "zaluxhoni.hpp"

#include <algorithm>
#include <iostream>
#include <limits>
#include <random>

using zaluxhoni::segment;
using i32 = std::int32_t;
using i64 = std::int64_t;
using u8 = std::uint8_t;
using u64 = std::uint64_t;

namespace {

std::mt19937_64 chance;
const char *trying;
u64 step;

u64 below(u64 end) { return end == 0 ? 0 : chance() % end; }

[[noreturn]] void differs(const char *what) {
    std::cout << "beside_std.cpp: WRONG " << trying << ", call " << step << ": " << what << '\n';
    std::exit(1);
}
void same(bool truth, const char *what) {
    if (!truth) differs(what);
}

/// Makes the call `ours`, which must throw exactly if `allowed` is false. Returns true if the call did not throw.
template <class Call> bool done(bool allowed, Call ours) {
    try {
        ours();
    } catch (const zaluxhoni::out_of_range &) {
        same(!allowed, "it is refused");
        return false;
    } catch (const zaluxhoni::absent &) {
        same(!allowed, "it is absent");
        return false;
    }
    same(allowed, "it is not refused");
    return true;
}

struct point {
    double x;
    i32 y, z;
    friend bool operator==(const point &a, const point &b) { return a.x == b.x && a.y == b.y && a.z == b.z; }
    friend bool operator<(const point &a, const point &b) { return a.y < b.y; }
};

template <class T> T any() {
    if constexpr (std::is_same_v<T, point>) {
        return {static_cast<double>(below(1000)) / 8, static_cast<i32>(below(100)), -7};
    } else if constexpr (std::is_same_v<T, std::string>) {
        return std::string(below(8) == 0 ? below(400) : below(20), static_cast<char>(below(256)));
    } else if constexpr (std::is_same_v<T, bool>) {
        return below(2) == 1;
    } else if constexpr (std::is_floating_point_v<T>) {
        return static_cast<T>(below(100000)) / 16;
    } else {
        if (below(16) == 0) return below(2) == 0 ? std::numeric_limits<T>::min() : std::numeric_limits<T>::max();
        return static_cast<T>(chance());
    }
}

template <class T> std::vector<T> some(u64 most) {
    std::vector<T> all;
    for (u64 i = below(most + 1); i > 0; i--) all.push_back(any<T>());
    return all;
}

/// Checks and saves the segment, and opens it again from its image.
void reopened(segment &of) {
    same(of.sanity(), "sanity");
    segment again = segment::open(of.save());
    again.set_growing(true);
    of = std::move(again);
}

/// Makes a random call that vectors of scalars, of structs and of strings have.
template <class T, class View> void call_vector(const View &ours, std::vector<T> &theirs) {
    const u64 size = theirs.size(), index = below(size + 2), last = index + below(4);
    const bool inside = index < size;
    const std::ptrdiff_t at = static_cast<std::ptrdiff_t>(index);
    const auto begin = theirs.begin();
    const T value = any<T>();
    switch (below(size > 300 ? 20 : 17)) {
    case 0: case 1: case 2:
        ours.push_back(value), theirs.push_back(value);
        break;
    case 3: {
        T popped{};
        if (done(size > 0, [&] { popped = ours.pop_back(); }))
            same(popped == theirs.back(), "pop_back"), theirs.pop_back();
        break;
    }
    case 4:
        if (done(index <= size, [&] { ours.insert(index, value); })) theirs.insert(begin + at, value);
        break;
    case 5:
        if (done(inside, [&] { ours.erase(index); })) theirs.erase(begin + at);
        break;
    case 6:
        if (done(inside, [&] { ours.set(index, value); })) theirs[index] = value;
        break;
    case 7:
        if (done(inside, [&] { ours[index] = value; })) theirs[index] = value;
        break;
    case 8: {
        T got{};
        if (done(inside, [&] { got = ours.get(index); })) same(got == T(theirs[index]), "get");
        break;
    }
    case 9: {
        const std::vector<T> more = some<T>(6);
        if (done(index <= size, [&] { ours.insert_range(index, more); }))
            theirs.insert(begin + at, more.begin(), more.end());
        break;
    }
    case 10: {
        const std::vector<T> more = some<T>(6);
        ours.append_range(more), theirs.insert(theirs.end(), more.begin(), more.end());
        break;
    }
    case 11:
        if (done(last <= size, [&] { ours.erase(index, last); }))
            theirs.erase(begin + at, begin + static_cast<std::ptrdiff_t>(last));
        break;
    case 12:
        if (below(20) == 0) theirs = some<T>(60), ours.assign(theirs);
        else ours.reserve(size + below(50));
        same(ours.capacity() >= ours.size(), "capacity");
        break;
    case 13:
        if (size > 1) {
            const u64 other = below(size);
            if (inside)
                swap(ours[index], ours[other]), std::iter_swap(begin + at, begin + static_cast<std::ptrdiff_t>(other));
            else std::reverse(ours.begin(), ours.end()), std::reverse(theirs.begin(), theirs.end());
        }
        break;
    case 14:
        if (below(10) == 0) ours.shrink_to_fit();
        if constexpr (!std::is_same_v<T, bool>) {
            if (below(50) == 0) {
                std::stable_sort(theirs.begin(), theirs.end());
                if constexpr (std::is_same_v<T, point>) ours.assign(theirs);
                else std::sort(ours.begin(), ours.end());
            }
        }
        break;
    case 15:
        if (size > 0) same(T(ours.front()) == T(theirs.front()) && T(ours.back()) == T(theirs.back()), "front, back");
        break;
    case 16:
        if (below(200) == 0) ours.clear(), theirs.clear();
        break;
    default:
        ours.erase(index / 2, std::max(index / 2, size)), theirs.erase(begin + at / 2, theirs.end());
    }
    same(ours.size() == theirs.size() && ours.empty() == theirs.empty(), "size");
    if (below(50) == 0)
        same(ours == theirs && std::equal(ours.begin(), ours.end(), theirs.begin(), theirs.end()), "all");
}

/// Reads an element, and sometimes sets it, through an iterator that may be some calls old.
template <class T, class I> void call_iterator(const I &ours, std::vector<T> &theirs) {
    const u64 index = below(theirs.size() + 2);
    const std::ptrdiff_t at = static_cast<std::ptrdiff_t>(index);
    const T value = any<T>();
    T got{};
    if (done(index < theirs.size(), [&] { got = ours[at]; })) same(got == T(theirs[index]), "an iterator");
    if (below(2) == 0 && done(index < theirs.size(), [&] { ours[at] = value; })) theirs[index] = value;
}

template <class T> void beside_vector(const char *name, u64 count) {
    trying = name;
    segment s = segment::create(1024);
    s.set_growing(true);
    std::vector<T> theirs;
    const auto asked = [&] {
        if constexpr (std::is_same_v<T, std::string>) return s.strings("v");
        else return s.vector<T>("v");
    };
    auto ours = asked();
    auto before = ours.begin();
    for (step = 0; step < count; step++) {
        if (below(8) != 0) call_vector<T>(ours, theirs);
        if (below(4) == 0) before = ours.begin();
        call_iterator<T>(before, theirs);
        if constexpr (std::is_arithmetic_v<T> && !std::is_same_v<T, bool>) {
            if (!theirs.empty() && below(8) == 0) {
                const u64 index = below(theirs.size());
                T got{}, wanted = theirs[index];
                if constexpr (std::is_floating_point_v<T>) {
                    ours[index] *= 2, wanted *= 2;
                } else if (done(wanted != std::numeric_limits<T>::max(), [&] { got = ours[index]++; })) {
                    same(got == wanted, "++"), ++wanted;
                }
                theirs[index] = wanted;
                same(ours[index] == wanted, "element");
            }
            if (below(16) == 0) {
                const u64 first = below(theirs.size() + 1), many = below(5);
                std::vector<T> row(many, any<T>());
                if (done(first + many <= theirs.size(), [&] { ours.write(first, row); }))
                    std::copy(row.begin(), row.end(), theirs.begin() + static_cast<std::ptrdiff_t>(first));
            }
        }
        if (below(5000) == 0) reopened(s), ours = asked(), before = ours.begin();
    }
    same(ours == theirs, "all");
}

template <class T> void beside_array(const char *name, u64 count) {
    trying = name;
    segment s = segment::create(65536);
    std::vector<T> theirs(1 + below(100), any<T>());
    s.construct_array<T>("a", theirs);
    const auto ours = s.array<T>("a");
    for (step = 0; step < count; step++) {
        const u64 index = below(theirs.size() + 1), many = below(4);
        const T value = any<T>();
        std::vector<T> row(many, value);
        if (done(index < theirs.size(), [&] { ours[index] = value; })) theirs[index] = value;
        if (done(index + many <= theirs.size(), [&] { ours.write(index, row); }))
            std::copy(row.begin(), row.end(), theirs.begin() + static_cast<std::ptrdiff_t>(index));
        if (done(index + many <= theirs.size(), [&] { ours.read(index, row.data(), many); }))
            same(std::equal(row.begin(), row.end(), theirs.begin() + static_cast<std::ptrdiff_t>(index)), "read");
        if (below(50) == 0) same(ours == theirs && ours.size() == theirs.size(), "all");
        if (below(500) == 0) {
            std::sort(ours.begin(), ours.end());
            std::sort(theirs.begin(), theirs.end());
        }
    }
}

void beside_string(u64 count) {
    trying = "string";
    segment s = segment::create(1024);
    s.set_growing(true);
    std::string theirs;
    auto ours = s.string("s");
    for (step = 0; step < count; step++) {
        const std::string text = any<std::string>();
        const u64 index = below(theirs.size() + 1);
        switch (below(theirs.size() > 2000 ? 7 : 6)) {
        case 0: ours.append(text), theirs.append(text); break;
        case 1: ours += text, theirs += text; break;
        case 2:
            if (done(index < theirs.size(), [&] { ours[index] = u8{65}; })) theirs[index] = 'A';
            break;
        case 3: {
            u8 got = 0;
            if (done(index < theirs.size(), [&] { got = ours[index]; }))
                same(got == static_cast<u8>(theirs[index]), "get");
            break;
        }
        case 4: ours.reserve(below(1000)); break;
        case 5:
            if (below(4) == 0) ours.shrink_to_fit();
            break;
        default: ours.assign(text), theirs.assign(text);
        }
        same(ours.size() == theirs.size(), "size");
        if (below(20) == 0)
            same(ours == theirs && !(ours < theirs) && std::string(ours.begin(), ours.end()) == theirs, "all");
        if (below(5000) == 0) reopened(s), ours = s.string("s");
    }
}

template <class Pair>
void same_pair(const std::optional<Pair> &ours, bool is_there, const Pair &theirs, const char *what) {
    same(ours.has_value() == is_there && (!is_there || *ours == theirs), what);
}

template <class K, class V> void beside_map(const char *name, u64 keys, u64 count) {
    trying = name;
    using pair = std::pair<K, V>;
    segment s = segment::create(1024);
    s.set_growing(true);
    std::map<K, V> theirs;
    auto ours = s.map<K, V>("m");
    for (step = 0; step < count; step++) {
        const K key = below(20) == 0 ? any<K>() : static_cast<K>(below(keys) - keys / 2);
        const V value = any<V>();
        const auto at = theirs.find(key);
        const auto above = theirs.upper_bound(key), from = theirs.lower_bound(key);
        switch (below(12)) {
        case 0: case 1:
            same(ours.put(key, value) == theirs.insert_or_assign(key, value).second, "put");
            break;
        case 2: ours[key] = value, theirs[key] = value; break;
        case 3: case 4: same(ours.erase(key) == (theirs.erase(key) == 1), "erase"); break;
        case 5: {
            V got{};
            if (done(at != theirs.end(), [&] { got = ours.at(key); })) same(got == at->second, "at");
            same(ours.contains(key) == (at != theirs.end()), "contains");
            break;
        }
        case 6:
            same_pair(ours.next(key), above != theirs.end(), above != theirs.end() ? pair(*above) : pair(), "next");
            break;
        case 7: {
            const bool is_there = from != theirs.begin();
            same_pair(ours.previous(key), is_there, is_there ? pair(*std::prev(from)) : pair(), "previous");
            break;
        }
        case 8: {
            same_pair(ours.first(), !theirs.empty(), theirs.empty() ? pair() : pair(*theirs.begin()), "first");
            same_pair(ours.last(), !theirs.empty(), theirs.empty() ? pair() : pair(*theirs.rbegin()), "last");
            break;
        }
        case 9: {
            const auto found = ours.lower_bound(key), beyond = ours.upper_bound(key);
            same((found == ours.end()) == (from == theirs.end()) && (found == ours.end() || *found == pair(*from)),
                 "lower_bound");
            same((beyond == ours.end()) == (above == theirs.end()) && (beyond == ours.end() || *beyond == pair(*above)),
                 "upper_bound");
            break;
        }
        case 10:
            if constexpr (std::is_integral_v<V> && !std::is_same_v<V, bool>) {
                const V before = at == theirs.end() ? V{0} : at->second;
                if (done(before != std::numeric_limits<V>::max(), [&] { ours[key]++; })) theirs[key]++;
            }
            break;
        default:
            if (below(2000) == 0) ours.clear(), theirs.clear();
        }
        same(ours.size() == theirs.size(), "size");
        if (below(100) == 0) same(ours == theirs && ours.to_map() == theirs, "all");
        if (below(5000) == 0) reopened(s), ours = s.map<K, V>("m");
    }
    same(ours.to_map() == theirs, "all");
}

/// Goes over maps of many lengths, beside a key of a `std::map` that goes with it, while either nothing or anything
/// changes, the next pair above all.
template <class K, class V> void beside_walk(const char *name, u64 pairs, u64 chance_of_change) {
    trying = name;
    segment s = segment::create(1024);
    s.set_growing(true);
    std::map<K, V> theirs;
    auto ours = s.map<K, V>("m");
    auto more = s.vector<i64>("v");
    for (step = 0; theirs.size() < pairs; step++) {
        const K key = below(3) == 0 ? any<K>() : static_cast<K>(below(2 * pairs) - pairs);
        const V value = any<V>();
        ours.put(key, value), theirs[key] = value;
    }
    same(ours.to_vector() == std::vector<std::pair<K, V>>(theirs.begin(), theirs.end()), "to_vector");
    auto it = ours.begin();
    auto at = theirs.begin();
    for (step = 0; at != theirs.end(); step++) {
        same(it != ours.end() && *it == std::pair<K, V>(*at), "the pair");
        const K key = at->first;
        auto next = std::next(at);
        auto copy = it;
        if (below(50) == 0) it = copy;
        if (below(50) == 0) it = std::move(copy);
        if (below(50) == 0 && at != theirs.begin()) {
            same((--it)->first == std::prev(at)->first, "a step back");
            same((++it)->first == key, "a step back, and one on");
        }
        if (chance_of_change != 0 && below(chance_of_change) == 0) {
            const V value = any<V>();
            switch (below(7)) {
            case 0: ours.erase(key), theirs.erase(key); break;
            case 1: if (next != theirs.end()) ours.erase(next->first), theirs.erase(next); break;
            case 2: if (next != theirs.end()) ours.put(next->first, value), next->second = value; break;
            case 3: if (next == theirs.end() || key + 1 != next->first) {
                if (key == std::numeric_limits<K>::max()) break;
                const K between = static_cast<K>(key + 1);
                ours.put(between, value), theirs[between] = value;
                break;
            } break;
            case 4: more.push_back(1); break;
            case 5: if (below(100) == 0) ours.clear(), theirs.clear(); break;
            default: {
                const K other = any<K>();
                ours.put(other, value), theirs[other] = value;
            }
            }
            at = theirs.upper_bound(key);
        } else at = next;
        if (below(2) == 0) ++it;
        else it++;
    }
    same(it == ours.end(), "the end");
    if (!theirs.empty()) same(*--it == std::pair<K, V>(*theirs.rbegin()), "a step back from the end");
    same(ours == theirs, "all");
}

template <class K, class V> void beside_walks(const char *name) {
    for (const u64 pairs : std::initializer_list<u64>{0, 1, 2, 3, 4, 5, 31, 32, 33, 59, 60, 61, 64, 65, 91, 92, 93, 200}) {
        const u64 most = std::is_same_v<K, bool> ? 2 : std::is_same_v<K, u8> ? 256 : pairs;
        for (const u64 changing : std::initializer_list<u64>{0, 40, 5, 1}) beside_walk<K, V>(name, std::min(pairs, most), changing);
    }
}

template <class K> void beside_walks_from(const char *name) {
    beside_walks<K, bool>(name);
    beside_walks<K, u8>(name);
    beside_walks<K, i32>(name);
    beside_walks<K, i64>(name);
    beside_walks<K, u64>(name);
}

} // namespace

int main(int arguments, char **argument) {
    const u64 count = arguments > 1 ? std::strtoull(argument[1], nullptr, 10) : 100000;
    chance.seed(arguments > 2 ? std::strtoull(argument[2], nullptr, 10) : 1);
    try {
        beside_vector<i64>("vector of i64", count);
        beside_vector<u8>("vector of u8", count);
        beside_vector<bool>("vector of bool", count);
        beside_vector<double>("vector of double", count);
        beside_vector<point>("vector of structs", count);
        beside_vector<std::string>("strings", count);
        beside_array<i32>("array of i32", count);
        beside_array<point>("array of structs", count);
        beside_string(count);
        beside_map<i64, i64>("map of i64 and i64", 200, count);
        beside_map<u8, bool>("map of u8 and bool", 256, count);
        beside_map<bool, u64>("map of bool and u64", 2, count);
        beside_map<i32, u8>("map of i32 and u8", 100, count);
        beside_map<u64, i32>("map of u64 and i32", 100, count);
        beside_walks_from<bool>("steps over a map of bool");
        beside_walks_from<u8>("steps over a map of u8");
        beside_walks_from<i32>("steps over a map of i32");
        beside_walks_from<i64>("steps over a map of i64");
        beside_walks_from<u64>("steps over a map of u64");
        if (count >= 100000) beside_walk<i64, i64>("steps over many pairs", 200000, 1000);
    } catch (const std::exception &error) {
        differs(error.what());
    }
    std::cout << "beside_std.cpp: " << count << " calls of each container, no difference\n";
    return 0;
}
