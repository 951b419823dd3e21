/* What programmers of C++ expect of zaluxhoni.hpp: numbers that fit, their own types, views as containers of std are,
   algorithms, hashes, groups and segments that grow. every_call.cpp has the calls. */
#include "zaluxhoni.hpp"

#include <algorithm>
#include <atomic>
#include <chrono>
#include <csignal>
#include <cstdio>
#include <cstdlib>
#include <deque>
#include <fstream>
#include <iostream>
#include <limits>
#include <list>
#include <new>
#include <numeric>
#include <set>
#include <sstream>
#include <thread>
#include <unordered_set>

#include <sys/resource.h>

#if __cplusplus >= 202002L
#include <ranges>
#endif

using namespace std::string_literals;
using zaluxhoni::key;
using zaluxhoni::segment;
using i8 = std::int8_t;
using i32 = std::int32_t;
using i64 = std::int64_t;
using u8 = std::uint8_t;
using u16 = std::uint16_t;
using u32 = std::uint32_t;
using u64 = std::uint64_t;

/* The most bytes that a thread asked for at once. */
static thread_local std::size_t most_asked;

void *operator new(std::size_t size) {
    most_asked = std::max(most_asked, size);
    if (void *at = std::malloc(size ? size : 1)) return at;
    throw std::bad_alloc();
}
void *operator new(std::size_t size, const std::nothrow_t &) noexcept {
    most_asked = std::max(most_asked, size);
    return std::malloc(size ? size : 1);
}
void operator delete(void *at) noexcept { std::free(at); }
void operator delete(void *at, std::size_t) noexcept { std::free(at); }

namespace {

std::atomic<int> checks, wrong;

void is(int line, const char *what, bool truth) {
    checks++;
    if (truth) return;
    wrong++;
    std::cout << "as_expected.cpp:" << line << ": WRONG " << what << '\n';
}

template <class Error, class Call> void throws(int line, const char *what, Call call) {
    checks++;
    try {
        call();
    } catch (const Error &) {
        return;
    } catch (const std::exception &other) {
        std::cout << "as_expected.cpp:" << line << ": WRONG " << what << ": '" << other.what() << "'\n";
        wrong++;
        return;
    } catch (...) {
    }
    wrong++;
    std::cout << "as_expected.cpp:" << line << ": WRONG " << what << ": no error\n";
}

#define IS(...) is(__LINE__, #__VA_ARGS__, __VA_ARGS__)
#define THROWS(error, ...) throws<zaluxhoni::error>(__LINE__, #__VA_ARGS__, [&] { return (__VA_ARGS__); })

/// A record of a program's own: 24 bytes, and none between its fields.
struct item {
    double price;
    i64 article;
    i32 stock;
    i32 shelf;

    friend bool operator==(const item &a, const item &b) {
        return a.price == b.price && a.article == b.article && a.stock == b.stock && a.shelf == b.shelf;
    }
};
static_assert(sizeof(item) == 24);

enum colour { red, green };
enum class unit : u16 { piece = 7, metre = 300 };

// -- what can be stored, and what a number can be made of

static_assert(zaluxhoni::is_scalar<i64> && zaluxhoni::is_scalar<long long> && zaluxhoni::is_scalar<unsigned long long>);
static_assert(!zaluxhoni::is_scalar<double> && zaluxhoni::is_storable<double> && zaluxhoni::is_storable<item>);
static_assert(zaluxhoni::is_storable<i8> && zaluxhoni::is_storable<u16> && zaluxhoni::is_storable<char>);
static_assert(!zaluxhoni::is_storable<const char *> && !zaluxhoni::is_storable<std::string>);
static_assert(!zaluxhoni::is_storable<std::string_view> && !zaluxhoni::is_storable<std::vector<int>>);
static_assert(!zaluxhoni::is_storable<int item::*> && !zaluxhoni::is_storable<std::nullptr_t>);

template <class T, class U> constexpr bool takes = std::is_convertible_v<U, zaluxhoni::number<T>>;
static_assert(takes<i32, long> && takes<u64, int> && takes<double, float> && takes<float, int> && takes<i64, colour>);
static_assert(!takes<i64, double> && !takes<bool, int> && !takes<bool, double> && !takes<i64, bool> &&
              !takes<double, bool>);
static_assert(!takes<bool, const bool *> && !takes<bool, const char *> && !takes<i64, unit> && !takes<u8, void *>);
static_assert(takes<bool, std::vector<bool>::reference> && takes<bool, std::true_type>);

void an_array_that_is_made_anew() {
    segment s = segment::create(4096);
    s.construct<i64>("a", 7, 3);
    const zaluxhoni::array<i64> a = s.array<i64>("a");
    IS(!a.empty());
    IS(a.measure() == (zaluxhoni::measures{3, 3}));
    s.destroy("a");
    THROWS(not_found, a.size());
    THROWS(not_found, a.to_vector());
    THROWS(not_found, a.get(0));
    s.construct<i64>("a", 7, 5);
    IS(a.size() == 5);
    IS(a.to_vector().size() == 5);
    IS(std::distance(a.begin(), a.end()) == 5);
    // it holds the object: another one under its name is another one
    s.construct<i64>("b", 1);
    const zaluxhoni::array<i64> b = s.array<i64>("b");
    s.construct<u8>(key::anonymous(), 1, 200);
    s.destroy("b");
    s.construct_array<i64>("b", {1, 2, 3, 4, 5, 6, 7, 8, 9, 10, 11, 12});
    THROWS(not_found, b.size());
}

void numbers_that_do_not_fit() {
    segment s = segment::create(8192);
    const auto v = s.vector<i32>("i32");
    THROWS(out_of_range, v.push_back(3000000000L));
    THROWS(out_of_range, v.push_back(-2147483649LL));
    v.push_back(2147483647L);
    v.push_back(-2147483648LL);
    IS(v.to_vector() == (std::vector<i32>{INT32_MAX, INT32_MIN}));
    THROWS(out_of_range, v[0] = 3000000000u);
    THROWS(out_of_range, v.insert(0, u64{1} << 32));
    THROWS(out_of_range, v.set(0, i64{1} << 31));
    THROWS(out_of_range, v.assign({1, 3000000000L}));
    THROWS(out_of_range, v.assign(std::vector<i64>{1, -3000000000}));
    THROWS(out_of_range, v.write(0, {1L << 40}));
    IS(v.size() == 2 && v[0] == INT32_MAX);
    const auto natural = s.vector<u64>("u64");
    THROWS(out_of_range, natural.push_back(-1));
    int minus = -1;
    THROWS(out_of_range, natural.assign({minus}));
    natural.push_back(UINT64_MAX);
    IS(natural.back() == UINT64_MAX);
    THROWS(out_of_range, s.construct<u8>("n", 256));
    THROWS(out_of_range, s.construct<u8>("n", -1));
    THROWS(out_of_range, s.construct_vector<u8>("n", {1, 256}));
    THROWS(out_of_range, s.find_or_construct<i32>("n", 1L << 31));
    THROWS(out_of_range, (s.set<i32>("i32", 0, 1L << 31)));
    THROWS(bad_count, s.construct<u8>("n", 1, (u64{1} << 32) + 1));
    IS(!s.contains("n"));
    const auto m = s.map<u8, i32>("m");
    THROWS(out_of_range, m.put(256, 0));
    THROWS(out_of_range, m.put(-1, 0));
    THROWS(out_of_range, m.put(1, 1L << 31));
    THROWS(out_of_range, m[300] = 1);
    THROWS(out_of_range, m.find(-1));
    IS(m.empty());
    // of one element into another of another kind
    s.vector<i64>("i64").assign({5, 1L << 40});
    const auto wide = s.vector<i64>("i64");
    v[0] = wide[0];
    IS(v[0] == 5);
    THROWS(out_of_range, v[0] = wide[1]);
    IS(v[0] == 5);
    v.push_back(green);
    IS(v.back() == 1);
    // floating numbers
    const auto f = s.vector<float>("f32");
    f.push_back(16777216);
    THROWS(out_of_range, f.push_back(16777217));
    THROWS(out_of_range, f.push_back(1e300));
    f.push_back(std::numeric_limits<double>::infinity());
    const auto d = s.vector<double>("f64");
    d.push_back(i64{1} << 62);
    THROWS(out_of_range, d.push_back((i64{1} << 62) + 1));
    d.push_back(0.1f);
    d.push_back(INT64_MIN);
    IS(d[2] == -9223372036854775808.0);
}

void truths() {
    segment s = segment::create(4096);
    const bool both[] = {true, false, true};
    std::size_t count = 2;
    s.construct_vector<bool>("pointer", {both, count});
    IS(s.vector<bool>("pointer").to_vector() == (std::vector<bool>{true, false}));
    s.construct_vector<bool>("list", {true, false, true});
    IS(s.vector<bool>("list").size() == 3);
    const std::vector<bool> kept{false, true};
    s.construct_vector<bool>("vector", kept);
    IS(s.vector<bool>("vector") == kept);
    s.vector<bool>("list").assign(s.vector<bool>("vector").to_vector());
    IS(s.vector<bool>("list") == kept);
    s.construct_array<bool>("array", both);
    IS(s.array<bool>("array")[0] && !s.array<bool>("array")[1]);
    s.vector<bool>("list").push_back(kept[1]);
    IS(s.vector<bool>("list").back() == true);
}

void texts_that_are_stored() {
    segment s = segment::create(8192);
    const std::vector<std::string> kept{"a", "", "gr\xc3\xbc\xc3\x9f" "e"};
    s.construct_strings("x", kept);
    const auto x = s.strings("x");
    IS(x.to_vector() == kept);
    IS(x == kept);
    s.strings("y").assign(x.to_vector());
    IS(s.strings("y") == x);
    s.strings("y").assign(std::vector<std::string_view>{"b", "c"});
    s.strings("y").append_range({"d"s, std::string_view("e"), "f"});
    IS(s.strings("y") == (std::list<std::string>{"b", "c", "d", "e", "f"}));
    const char *const literals[] = {"one", "two"};
    s.strings("y").assign(literals);
    IS(s.strings("y").back() == "two");
    s.construct_strings("none", {nullptr, 0});
    IS(s.strings("none").empty());
    s.construct_strings("none too", {});
    const char *null = nullptr;
    THROWS(null_slice, s.construct_strings("null", {"a", null}));
    IS(!s.contains("null"));
    s.strings("none").assign(std::set<std::string>{"q", "p"});
    IS(s.strings("none").front() == "p");
}

/// Elements are read, set and changed as variables are.
void elements() {
    segment s = segment::create(8192);
    const auto v = s.vector<i64>("v");
    v.assign({1, 2, 3});
    v[0] += 1;
    v[1] -= 5;
    v[2] *= 7;
    IS(v == (std::vector<i64>{2, -3, 21}));
    v[2] /= 2;
    IS(v[2]++ == 10);
    IS(++v[2] == 12);
    IS(v[2]-- == 12);
    IS(--v[2] == 10);
    IS(v[2] == 10 && v[2] != 11 && v[2] < 11 && v[0] < v[2] && 9 < v[2]);
    v[0] = v[2];
    IS(v.front() == 10 && v.back() == 10);
    v.back() = 4;
    v.front() += 1;
    IS(v == (std::vector<i64>{11, -3, 4}));
    swap(v[0], v[2]);
    IS(v == (std::vector<i64>{4, -3, 11}));
    const zaluxhoni::const_vector<i64> read = v;
    IS(read[0] + read.back() == 15);
    IS(read.at(1) == -3);
    THROWS(out_of_range, read.at(3));
    THROWS(out_of_range, s.vector<u8>("empty").back().value());
    v[0] = INT64_MAX;
    THROWS(out_of_range, v[0] += 1);
    THROWS(out_of_range, v[0]++);
    THROWS(out_of_range, v[0] /= 0);
    IS(v[0] == INT64_MAX);
    s.vector<u8>("u8").assign({255, 0});
    THROWS(out_of_range, s.vector<u8>("u8")[0] += 1);
    THROWS(out_of_range, s.vector<u8>("u8")[1]--);
    const auto m = s.map<i64, i64>("m");
    m[1]++;
    m[1] += 4;
    IS(m[1] == 5);
    IS(m.at(1) == 5);
    THROWS(absent, m[2].value());
    IS(!m.contains(2));
    std::ostringstream out;
    out << v[1] << ' ' << m[1];
    IS(out.str() == "-3 5");
}

void texts() {
    segment s = segment::create(8192);
    const auto t = s.string("t");
    t.assign("abc");
    IS(t == "abc" && "abc" == t && t == "abc"s && t == std::string_view("abc") && t != "abd" && t < "abd");
    std::ostringstream out;
    out << t << '|';
    const auto l = s.strings("l");
    l.assign({"x", "yy"});
    out << l[0] << l.back();
    IS(out.str() == "abc|xyy");
    IS(l[0] == "x" && l[0] != l[1] && l[0] < l[1] && "z"s > l[1] && l[0]->size() == 1);
    l[0] += "tra";
    IS(l[0] == "xtra");
    l[0] = l[1];
    IS(l.front() == "yy");
    swap(l[0], l[1]);
    const std::string whole = t;
    IS(whole == "abc");
    IS(t.front() == 'a' && t.back() == 'c');
    IS(std::hash<zaluxhoni::string>()(t) == std::hash<std::string>()("abc"));
    IS(std::unordered_set<key>({"a", "b", "a"}).size() == 2);
    IS(key("a") == key("a"s) && key("a") != key::unique<u8>() && key::by_handle(7) == key::by_handle(7));
    IS(s.tell("t") == s.tell(key::by_handle(t.handle())));
    IS(s.find<std::string>("t") == s.find<std::string>(key::by_handle(t.handle())));
}

#ifdef __cpp_lib_format
void formats() {
    segment s = segment::create(65536);
    const auto v = s.vector<i64>("v");
    v.push_back(-42);
    const auto t = s.string("t");
    t.assign("abc");
    const auto l = s.strings("l");
    l.push_back("xy");
    const auto m = s.map<i32, i64>("m");
    m[1] = 7;
    const auto b = s.vector<bool>("b");
    b.push_back(true);
    IS(std::format("{}|{:6}|{:x}", v[0], v[0], v.front()) == "-42|   -42|-2a");
    IS(std::format("{}|{:>5}|{:.2}", t, t, t) == "abc|  abc|ab");
    IS(std::format("{}{:*^6}", l[0], l.back()) == "xy**xy**");
    IS(std::format("{}|{:d}|{:+}", b[0], b[0], m[1]) == "true|1|+7");
    const zaluxhoni::const_string read = std::as_const(s).string("t");
    IS(std::format("{:{}}|", read, 4) == "abc |");
}
#endif

void algorithms() {
    segment s = segment::create(65536);
    const auto v = s.vector<i64>("v");
    v.assign({5, 3, 9, -1, 7});
    std::sort(v.begin(), v.end());
    IS(v == (std::deque<i64>{-1, 3, 5, 7, 9}));
    IS(std::accumulate(v.begin(), v.end(), i64{0}) == 23);
    IS(std::lower_bound(v.begin(), v.end(), 5) - v.begin() == 2);
    std::reverse(v.begin(), v.end());
    IS(v[0] == 9 && *(v.end() - 1) == -1 && v.begin()[1] == 7 && v.begin() < v.end());
    v.erase(static_cast<u64>(std::remove(v.begin(), v.end(), 5) - v.begin()), v.size());
    IS(v == (std::vector<i64>{9, 7, 3, -1}));
    const auto l = s.strings("l");
    l.assign({"pear", "apple", "fig"});
    std::sort(l.begin(), l.end());
    IS(l == (std::vector<std::string>{"apple", "fig", "pear"}));
    IS(std::find(l.begin(), l.end(), "fig") - l.begin() == 1);
    const auto a = s.vector<item>("items");
    a.assign({{3.5, 1, 0, 0}, {1.25, 2, 0, 0}, {2, 3, 0, 0}});
    std::sort(a.begin(), a.end(), [](const item &x, const item &y) { return x.price < y.price; });
    IS(a[0]->article == 2 && a[1]->article == 3 && a[2]->article == 1 && a.begin()->price == 1.25);
    const auto m = s.map<i32, i64>("m");
    m.put_range({{1, 10}, {2, 20}});
    IS(std::count_if(m.begin(), m.end(), [](const auto &pair) { return pair.second > 10; }) == 1);
    using category = std::iterator_traits<zaluxhoni::vector<i64>::iterator>::iterator_category;
    static_assert(std::is_same_v<category, std::random_access_iterator_tag>);
#if __cplusplus >= 202002L
    std::ranges::sort(v);
    IS(v == (std::vector<i64>{-1, 3, 7, 9}));
    std::ranges::sort(l, std::ranges::greater());
    IS(l.front() == "pear");
    std::ranges::sort(a, {}, [](const item &each) { return each.article; });
    IS(a[0]->article == 1);
#if !defined(__clang__) || __clang_major__ >= 16 // before, clang refuses the views of libstdc++
    i64 sum = 0;
    for (const i64 each : v | std::views::reverse | std::views::take(2)) sum = 10 * sum + each;
    IS(sum == 97);
#endif
    IS(*std::ranges::find(s.vector<i64>("v"), 7) == 7);
#endif
}

#if __cplusplus >= 202002L
template <class R> constexpr bool is_random = std::ranges::random_access_range<R> && std::ranges::sized_range<R>;
static_assert(is_random<zaluxhoni::vector<i64>> && is_random<zaluxhoni::const_vector<i64>>);
static_assert(is_random<zaluxhoni::vector<bool>> && is_random<zaluxhoni::vector<item>>);
static_assert(is_random<zaluxhoni::array<u8>> && is_random<zaluxhoni::const_array<double>>);
static_assert(is_random<zaluxhoni::string> && is_random<zaluxhoni::const_strings> && is_random<zaluxhoni::strings>);
static_assert(std::sortable<zaluxhoni::vector<i64>::iterator> && std::sortable<zaluxhoni::strings::iterator>);
static_assert(std::sortable<zaluxhoni::array<double>::iterator>);
static_assert(std::ranges::input_range<zaluxhoni::map<i32, i64>> &&
              std::ranges::input_range<zaluxhoni::const_map<u8, bool>>);
static_assert(!std::ranges::output_range<zaluxhoni::const_vector<i64>, i64>);
static_assert(std::is_same_v<zaluxhoni::vector<i64>::iterator::iterator_concept, std::random_access_iterator_tag>);
static_assert(std::is_same_v<zaluxhoni::map<i32, i64>::iterator::iterator_concept, std::bidirectional_iterator_tag>);
#endif

void bulk() {
    segment s = segment::create(65536);
    const auto v = s.vector<i32>("v");
    v.append_range({1, 2, 3});
    v.insert_range(1, {7, 8});
    v.insert_range(5, std::set<int>{10, 9});
    IS(v == (std::vector<i32>{1, 7, 8, 2, 3, 9, 10}));
    v.erase(1, 3);
    v.erase(2, 2);
    IS(v == (std::vector<i32>{1, 2, 3, 9, 10}));
    THROWS(out_of_range, v.erase(4, 6));
    THROWS(out_of_range, v.erase(3, 2));
    THROWS(out_of_range, v.insert_range(6, {1}));
    v.append_range(v);
    IS(v.size() == 10 && v[9] == 10);
    v.resize(2);
    v.resize(4, -1);
    IS(v == (std::vector<i32>{1, 2, -1, -1}));
    THROWS(no_space, v.append_range(std::vector<i32>(100000)));
    IS(v.size() == 4);
    const auto l = s.strings("l");
    l.append_range({"a", "d"});
    l.insert_range(1, std::vector<std::string>{"b", "c"});
    l.erase(0, 2);
    IS(l == (std::vector<std::string>{"c", "d"}));
    const auto m = s.map<i32, i64>("m");
    IS(!m.last() && !m.previous(0) && m.lower_bound(0) == m.end());
    m.put_range(std::map<int, int>{{-2000000000, 1}, {5, 2}, {INT32_MAX, 3}});
    IS(m.last()->first == INT32_MAX && m.previous(INT32_MAX)->first == 5 && m.previous(5)->first == -2000000000);
    IS(!m.previous(-2000000000) && !m.previous(INT32_MIN));
    IS(m.lower_bound(5)->first == 5 && m.lower_bound(6)->first == INT32_MAX && m.upper_bound(5)->second == 3);
    IS(m.upper_bound(INT32_MAX) == m.end());
    IS(m == (std::map<i32, i64>{{-2000000000, 1}, {5, 2}, {INT32_MAX, 3}}));
    IS(m.to_vector().size() == 3);
    m.clear();
    IS(m.empty() && m.first() == std::nullopt);
    const auto b = s.map<bool, u64>("b");
    b[true] = 1;
    IS(b.last()->second == 1 && !b.previous(true));
    b[false] = 2;
    IS(b.previous(true)->second == 2 && b.last()->first);
    const auto u = s.map<u64, u8>("u");
    u.put_range({{0, 1}, {UINT64_MAX, 2}, {UINT64_MAX - 1, 3}});
    IS(u.last()->second == 2 && u.previous(UINT64_MAX)->second == 3 && u.previous(UINT64_MAX - 1)->first == 0);
    const auto i = s.map<i64, u8>("i");
    i.put_range({{INT64_MIN, 1}, {INT64_MAX, 2}, {0, 3}});
    IS(i.last()->second == 2 && i.previous(INT64_MAX)->second == 3 && i.previous(0)->first == INT64_MIN);
    IS(!i.previous(INT64_MIN));
}

/// A program's own types, and the numbers that the library has no kind for.
void own_types() {
    segment s = segment::create(65536);
    const item first{1.5, 7, 3, 4}, second{2.5, 8, 0, -1};
    s.construct<item>("one", first);
    IS(s.get<item>("one") == first);
    s.set<item>("one", 0, second);
    IS(s.get<item>("one") == second);
    IS(s.tell("one").kind == ZX_U8 && s.tell("one").count == 24);
    IS(s.find<item>("one")->count == 1);
    THROWS(out_of_range, s.get<item>("one", 1));
    THROWS(out_of_range, s.get<item>("one", UINT64_MAX / 8 + 1));
    THROWS(wrong_kind, s.get<i64>("one"));
    s.construct<item>("three", first, 3);
    s.construct_array<item>("two", {first, second});
    const auto two = s.array<item>("two");
    IS(two.size() == 2 && two[1] == second);
    two[0] = {9, 9, 9, 9};
    two.write(1, {first});
    IS(two == (std::vector<item>{{9, 9, 9, 9}, first}));
    IS(s.find_or_construct<item>("two", first) == (zaluxhoni::found{two.handle(), 2}));
    IS(s.find_or_construct<item>("four", first, 4).count == 4);
    const auto v = s.vector<item>("items");
    for (i32 n = 0; n < 100; n++) v.push_back({0.5 * n, n, n, n});
    IS(v.size() == 100 && v.capacity() >= 100 && v.back()->stock == 99);
    IS(v.pop_back().article == 99);
    // it removes the last value, and copies no other
    auto large = segment::create(1 << 20);
    const auto many = large.vector<item>("many");
    for (i32 n = 0; n < 4000; n++) many.push_back({0.5 * n, n, n, n});
    most_asked = 0;
    for (i32 n = 3999; n >= 3900; n--) IS(many.pop_back().article == n);
    IS(most_asked < 4000);
    IS(many.size() == 3900 && many.back()->article == 3899);
    v.erase(0);
    v.insert(1, first);
    IS(v[1] == first && v.size() == 99);
    v.erase(2, 99);
    IS(v == (std::vector<item>{{0.5, 1, 1, 1}, first}));
    v.resize(3);
    IS(v.back() == item{});
    for (const item &each : v) IS(each.shelf >= 0);
    THROWS(no_space, v.reserve(100000));
    THROWS(out_of_range, s.vector<item>("empty").pop_back());
    // bytes that are no whole records
    s.construct_vector<u8>("bytes", {1, 2, 3});
    THROWS(wrong_kind, s.vector<item>("bytes").size());
    s.construct_array<u8>("more bytes", {1, 2, 3});
    THROWS(wrong_kind, s.array<item>("more bytes"));
    THROWS(wrong_kind, s.find<item>("more bytes"));

    const double numbers[] = {0.1, -0.0, 1e300, std::numeric_limits<double>::infinity()};
    s.construct_array<double>("doubles", numbers);
    IS(s.get<double>("doubles", 2) == 1e300 && s.array<double>("doubles").size() == 4);
    s.array<double>("doubles")[0] *= 2;
    IS(s.array<double>("doubles")[0] == 0.2);
    s.vector<i8>("i8").assign({-128, 127});
    s.vector<i8>("i8").push_back(-1);
    IS(s.vector<i8>("i8") == (std::vector<i8>{-128, 127, -1}));
    THROWS(out_of_range, s.vector<i8>("i8").push_back(128));
    THROWS(out_of_range, s.vector<i8>("i8")[1]++);
    s.vector<u16>("u16").assign({65535});
    s.vector<u32>("u32").assign({4000000000u});
    IS(s.vector<u32>("u32").pop_back() == 4000000000u);
    s.construct<unit>("unit", unit::metre);
    IS(s.get<unit>("unit") == unit::metre);
    s.vector<char>("chars").assign({'a', 'b'});
    IS(s.vector<char>("chars")[1] == 'b');
    s.construct<long long>("wide", -5);
    IS(s.get<i64>("wide") == -5 && s.tell("wide").kind == ZX_I64);
    std::vector<long long> row(1);
    s.read<long long>("wide", 0, row.data(), 1);
    IS(row[0] == -5);
}

/// Elements where they stand, read and changed there.
void views_without_a_copy() {
    segment s = segment::create(65536);
    const auto v = s.vector<i64>("v");
    v.assign({3, 1, 2});
    const auto there = v.view();
    IS(there.size() == 3 && there[2] == 2 && !there.empty() && there.is_current());
    THROWS(out_of_range, there[3]);
    std::sort(there.begin(), there.end());
    there[0] = 7;
    IS(v == (std::vector<i64>{7, 2, 3}));
    IS(std::accumulate(there.begin(), there.end(), i64{0}) == 12);
    v.push_back(4);
    IS(!there.is_current());
    throws<zaluxhoni::outdated>(__LINE__, "outdated", [&] { return there[0]; });
    const segment &kept = s;
    const auto read = kept.vector<i64>("v").view();
    static_assert(std::is_same_v<decltype(read.data()), const i64 *>);
    IS(read.size() == 4 && read[3] == 4);
    s.construct_array<bool>("b", {true, false});
    s.array<bool>("b").view()[1] = true;
    IS(s.array<bool>("b") == (std::vector<bool>{true, true}));
    s.string("t").assign("text");
    IS(s.string("t").view() == "text");
    s.vector<item>("items").assign({{1.5, 1, 2, 3}, {2.5, 4, 5, 6}});
    for (item &each : s.vector<item>("items").view()) each.price *= 2;
    IS(s.vector<item>("items")[1]->price == 5);
    s.vector<double>("d").assign({0.5, 0.25});
    IS(s.vector<double>("d").view()[1] == 0.25);
    IS(s.vector<i64>("none").view().empty());
    s.construct_vector<u8>("odd", {1, 2, 3});
    THROWS(wrong_kind, s.vector<item>("odd").view());
    segment only = segment::open(s.save(), zaluxhoni::mode::read);
    THROWS(read_only, only.vector<i64>("v").view());
    IS(std::as_const(only).vector<i64>("v").view()[0] == 7);
    const auto last = std::as_const(only).vector<i64>("v").view();
    only.close();
    IS(!last.is_current());
    throws<zaluxhoni::outdated>(__LINE__, "outdated", [&] { return last.data(); });
#if __cplusplus >= 202002L
    static_assert(std::ranges::contiguous_range<zaluxhoni::view<i64>> &&
                  std::ranges::sized_range<zaluxhoni::view<i64>>);
    const std::span<const i64> span = kept.vector<i64>("v").view();
    IS(span.back() == 4);
    const std::span<i64> changed = v.view();
    changed[0] = 9;
    IS(v[0] == 9);
#endif
}

/// A call copies what a view of its own segment gave: it may move the object, or make the segment longer, before it
/// reads it.
void views_that_are_passed() {
    for (const bool grows : {false, true}) {
        segment s = segment::create(grows ? 4096 : 1 << 20);
        s.set_growing(grows);
        const auto text = s.string("text");
        text.assign("EURUSD-2026-DEC-CALL-01234567890");
        std::string same = text;
        for (int n = 0; n < 9; n++) {
            text.append(text.view());
            s.construct_string(key::anonymous(), "beside it");
            same += same;
        }
        IS(text == same);
        s.string("other").assign(text.view());
        IS(s.string("other") == same);
        text.assign(text.view().substr(7, 9000));
        IS(text == same.substr(7, 9000));
        text.assign(same);
        const auto list = s.strings("list");
        for (int n = 0; n < 20; n++) list.push_back(text.view().substr(0, 300));
        list.insert(0, text.view().substr(1, 2000));
        list[1] = text.view().substr(2, 3000);
        IS(list[0] == same.substr(1, 2000) && list[1] == same.substr(2, 3000) && list[20] == same.substr(0, 300));
        list.append_range({text.view().substr(3, 400), "a"});
        IS(list[21] == same.substr(3, 400) && list.size() == 23);
        list.assign({text.view().substr(0, 5000), text.view().substr(4, 5000)});
        IS(list == (std::vector<std::string>{same.substr(0, 5000), same.substr(4, 5000)}));
        s.construct_string("made", text.view());
        s.construct_strings("all made", {text.view(), "b", text.view()});
        IS(s.string("made") == same && s.strings("all made")[2] == same);
        IS(*s.find_or_construct_string("found", text.view()) == same);
        IS((*s.find_or_construct_strings("all found", {text.view()}))[0] == same);

        const auto v = s.vector<i64>("v");
        v.assign({1, 2, 3, 4});
        std::vector<i64> numbers = v.to_vector();
        for (int n = 0; n < 8; n++) {
            v.append_range(v.cview());
            s.construct<i64>(key::anonymous(), n);
            numbers.insert(numbers.end(), numbers.begin(), numbers.end());
        }
        v.append_range({v.data(), 2});
        numbers.insert(numbers.end(), {1, 2});
        IS(v == numbers);
        v.insert_range(1, v.view());
        IS(v.size() == 2052 && v[1] == 1 && v[1026] == 2 && v[1027] == 2);
        v.assign(numbers);
        s.vector<i64>("w").assign(v.view());
        s.construct_vector<i64>("x", v.view());
        s.construct_array<i64>("y", {v.data(), v.size()});
        IS(s.vector<i64>("w") == numbers && s.vector<i64>("x") == numbers && s.array<i64>("y") == numbers);
        IS(*s.find_or_construct_vector<i64>("z", v.view()) == numbers);
        v.write(1, {v.data(), 5});
        s.array<i64>("y").write(2, {s.array<i64>("y").data(), 5});
        s.write<i64>("z", 3, {s.vector<i64>("z").data(), 5});
        IS(v[1] == 1 && v[5] == 1 && s.array<i64>("y")[2] == 1 && s.vector<i64>("z")[7] == 1);

        const auto items = s.vector<item>("items");
        items.push_back({1.5, 2, 3, 4});
        for (int n = 0; n < 7; n++) {
            items.append_range(items.view());
            items.push_back(items.view()[0]);
            items.insert(0, items.view()[items.size() - 1]);
        }
        IS(items.size() == 382 && items == std::vector<item>(382, {1.5, 2, 3, 4}) && s.sanity());
    }
    // a call that fails ends no view
    segment s = segment::create(8192);
    const auto text = s.string("text");
    text.assign(std::string(500, 'a') + std::string(500, 'b'));
    const std::string_view there = text.view();
    THROWS(bad_growth, s.grow(7));
    THROWS(bad_size, s.relocate(7));
    text.append(there);
    IS(text.size() == 2000 && text.view().substr(1000, 500) == std::string(500, 'a') && text.ends_with("b"));
    // texts of the program may be where the segment was
    segment moves = segment::create(1 << 16);
    moves.string("text").assign(std::string(60000, 'c'));
    IS(moves.string("text").view().size() == 60000);
    IS(zx_grow(moves.raw(), 1 << 22) == ZX_DONE);
    std::vector<std::string> kept;
    for (int n = 0; n < 1000; n++) {
        kept.push_back(std::string(200, static_cast<char>('a' + n % 26)));
        moves.strings("list").push_back(kept.back());
    }
    IS(moves.strings("list") == kept);
    moves.strings("more").assign(kept);
    IS(moves.strings("more") == kept);
}

/// Iterators read and write elements where they are, until a call changes the segment; then they find the object anew.
void iterators_in_place() {
    segment s = segment::create(65536);
    const auto v = s.vector<i64>("v");
    v.assign({1, 2, 3});
    const auto there = v.view();
    for (auto each : v) each += 1;
    IS(v == (std::vector<i64>{2, 3, 4}) && there.is_current() && there[2] == 4);
    i64 sum = 0;
    for (const i64 each : v) {
        sum += each;
        // the elements move, and something else is where they were
        v.reserve(v.capacity() + 100);
        s.construct<i64>(key::anonymous(), -1, 3);
    }
    IS(sum == 9);
    for (auto each : v) {
        v.push_back(0);
        each = each * 2;
    }
    IS(v == (std::vector<i64>{4, 6, 8, 0, 0, 0}));
    const auto first = v.begin();
    const auto third = *(first + 2), beyond = first[6];
    IS(third == 8);
    THROWS(out_of_range, beyond.value());
    THROWS(out_of_range, beyond = 1);
    v.assign({7, 8});
    THROWS(out_of_range, third.value());
    THROWS(out_of_range, third = 1);
    IS(first[1] == 8 && *std::as_const(s).vector<i64>("v").begin() == 7);
    const auto last = v.end();
    IS(last[-1] == 8 && *(last - 2) == 7 && last - first == 2);
    throws<std::out_of_range>(__LINE__, "transaction", [&] {
        s.transaction([&] {
            *first = 9;
            throw std::out_of_range("of the program's own");
        });
    });
    IS(*first == 7 && v[0] == 7);
    first[0] = INT64_MAX;
    THROWS(out_of_range, first[0] += 1);
    IS(first[0] == INT64_MAX);
    s.destroy("v");
    THROWS(not_found, i64{*first});
    THROWS(not_found, *first = 1);
    const auto narrow = s.vector<i32>("v");
    narrow.assign({5, 6, 7});
    if (narrow.handle() == v.handle()) {
        THROWS(wrong_kind, i64{*first});
        THROWS(wrong_kind, i64{*v.begin()});
    }
    const auto odd = s.vector<u8>("odd");
    odd.assign(std::vector<u8>(sizeof(item) + 1, 0));
    const auto items = s.vector<item>(key::by_handle(odd.handle()));
    IS(items.begin()->article == 0);
    THROWS(wrong_kind, items.end());
    odd.pop_back();
    IS(items.end() - items.begin() == 1 && items.begin()->shelf == 0);
    const auto of_string = s.string("t");
    of_string.assign("abc");
    for (auto each : of_string) each = static_cast<u8>(each + 1);
    IS(of_string == "bcd" && std::string(of_string.begin(), of_string.end()) == "bcd");
    const auto d = s.vector<double>("d");
    d.assign({0.5, 0.25});
    for (auto each : d) each *= 2;
    IS(d == (std::vector<double>{1, 0.5}));
    s.construct_array<bool>("b", {true, false});
    for (auto each : s.array<bool>("b")) each = !each;
    IS(s.array<bool>("b") == (std::vector<bool>{false, true}));
    IS(s.vector<i64>("none").begin() == s.vector<i64>("none").end());
    const auto alone = narrow.begin();
    s.close();
    THROWS(closed, i32{*alone});
    THROWS(closed, *alone = 1);
    THROWS(closed, narrow.end());
}

/// Who may not write does not write by an iterator, and what an iterator wrote is saved.
void iterators_and_modes() {
    segment s = segment::create(4096);
    s.vector<i32>("v").assign({1, 2});
    segment only = segment::open(s.save(), zaluxhoni::mode::read);
    const auto read = only.vector<i32>("v");
    IS(*read.begin() == 1);
    THROWS(read_only, *read.begin() = 5);
    IS(only.save() == s.save());
    segment own = segment::open(s.save(), zaluxhoni::mode::copy_on_write);
    for (auto each : own.vector<i32>("v")) each = 5;
    IS(own.vector<i32>("v") == (std::vector<i32>{5, 5}));
    const std::string path = "in_place" + std::to_string(std::hash<std::thread::id>()(std::this_thread::get_id()));
    s.save_file(path);
    for (int round = 0; round < 2; round++) {
        segment file = round == 0 ? segment::open_file(path) : segment::map_file(path);
        for (auto each : file.vector<i32>("v")) each += 1;
        if (round == 0) file.save_file();
        for (auto each : file.vector<i32>("v")) each += 1;
        file.close_file();
    }
    IS(segment::open_file(path).vector<i32>("v") == (std::vector<i32>{5, 6}));
    std::remove(path.c_str());
}

void several_calls_as_one() {
    segment s = segment::create(8192);
    const auto v = s.vector<i64>("v");
    v.assign({1, 2});
    const std::vector<u8> before = s.save();
    const auto fails = [&] {
        s.transaction([&] {
            v.push_back(3);
            s.construct<i64>("new", 1);
            s.destroy("v");
            throw std::out_of_range("of the program's own");
        });
    };
    throws<std::out_of_range>(__LINE__, "transaction", fails);
    IS(s.save() == before);
    IS(v == (std::vector<i64>{1, 2}));
    IS(s.transaction([&] { return v.push_back(5), v.size(); }) == 3);
    s.transaction([&] {
        v.push_back(6);
        THROWS(no_space, s.transaction([&] {
            v.push_back(7);
            v.reserve(100000);
        }));
        v.push_back(8);
    });
    IS(v == (std::vector<i64>{1, 2, 5, 6, 8}));
    s.set_growing(true);
    const std::vector<u8> small = s.save();
    throws<int>(__LINE__, "transaction", [&] {
        s.transaction([&] {
            v.resize(10000);
            throw 7;
        });
    });
    IS(s.save() == small);
    segment read = segment::open(s.save(), zaluxhoni::mode::read);
    THROWS(read_only, read.transaction([] {}));
}

/// A path of a file of this thread.
std::string own_path(const char *name) {
    return name + std::to_string(std::hash<std::thread::id>()(std::this_thread::get_id())) + ".seg";
}

/// Within a transaction nothing is saved and nothing is closed, and a segment that ends there is not kept by mistake.
void transactions_and_files() {
    const std::string path = own_path("step"), other = own_path("other");
    segment (*const makes[])(const std::string &) = {
        [](const std::string &) { return segment::create(65536); },
        [](const std::string &at) { return segment::open_or_create_file(at, 65536); },
        [](const std::string &at) { return segment::map_or_create_file(at, 65536); },
        [](const std::string &at) { return segment::open_or_create_durable_file(at, 65536); }};
    for (const auto make : makes) {
        for (const std::string &each : {path, other, path + "-log"}) std::remove(each.c_str());
        segment s = make(path);
        const bool has_file = make != makes[0];
        const auto v = s.vector<i64>("v");
        v.push_back(1);
        if (has_file) s.save_file();
        const auto refuses = [&](const auto &call) {
            THROWS(file_in_step, s.transaction([&] {
                v.push_back(2);
                call();
            }));
            IS(s.is_open() && v.size() == 1);
        };
        refuses([&] { s.close(); });
        refuses([&] { s.close_file(); });
        refuses([&] { s.save_file(); });
        refuses([&] { s.save_file(other); });
        refuses([&] { s.commit(); });
        refuses([&] { s.flush_file(); });
        refuses([&] { s.transaction([&] { s.close(); }); });
        THROWS(file_missing, segment::open_file(other));
        s.transaction([&] {
            v.push_back(3);
            THROWS(file_in_step, s.save_file());
            THROWS(file_in_step, s.close());
        });
        IS(v.size() == 2);
        try {
            s.transaction([&] { s.close(); });
        } catch (const zaluxhoni::file_in_step &error) {
            const std::string said = error.what(), words = zaluxhoni::words(ZX_FILE_IN_STEP);
            IS(said.find(has_file ? path + ": " + words : words) == 0 && error.code().value() == EBUSY);
        }
        // a segment that ends within its transaction, by a move, an assignment or its destructor
        THROWS(closed, s.transaction([&] {
            v.push_back(4);
            s = segment::create(4096);
        }));
        IS(s.is_open() && s.size() == 4096);
        THROWS(closed, v.size());
        s = segment();
        if (has_file) {
            const segment kept = segment::open_file(path, zaluxhoni::mode::read);
            IS(kept.vector<i64>("v").to_vector().size() <= 2 && kept.sanity());
        }
        auto *const deleted = new segment(make(path));
        THROWS(closed, deleted->transaction([&] { delete deleted; }));
        s = make(path);
        segment later;
        s.transaction([&] {
            s.vector<i64>("w").push_back(1);
            later = std::move(s);
        });
        IS(!s.is_open() && later.vector<i64>("w").size() == 1);
        throws<int>(__LINE__, "transaction", [&] {
            later.transaction([&] {
                later.vector<i64>("w").push_back(2);
                s = std::move(later);
                throw 5;
            });
        });
        IS(s.vector<i64>("w").size() == 1);
        throws<int>(__LINE__, "transaction", [&] {
            s.transaction([&] {
                s = segment::create(1024);
                throw 5;
            });
        });
        IS(s.size() == 1024);
        // `growing` makes longer the segment that it was called for
        int times = 0;
        THROWS(closed, s.growing([&] {
            s = segment::create(2048);
            if (times++ < 2) throw zaluxhoni::no_space();
        }));
        IS(times == 1 && s.size() == 2048);
        auto *const grown = new segment(segment::create(1024));
        THROWS(closed, grown->growing([&] {
            delete grown;
            throw zaluxhoni::no_space();
        }));
        s.close();
        IS(!s.is_open());
        for (const std::string &each : {path, path + "-log"}) std::remove(each.c_str());
    }
}

void const_segments() {
    segment s = segment::create(8192);
    s.vector<i64>("v").assign({1, 2});
    s.map<u8, u8>("m").put(1, 2);
    s.string("t").assign("text");
    s.strings("l").assign({"a"});
    s.construct<double>("d", 0.5);
    const segment &kept = s;
    IS(kept.vector<i64>("v")[1] == 2 && kept.map<u8, u8>("m")[1] == 2 && kept.string("t") == "text");
    IS(kept.strings("l")[0] == "a" && kept.array<double>("d")[0] == 0.5);
    static_assert(std::is_same_v<decltype(kept.vector<i64>("v")), zaluxhoni::const_vector<i64>>);
    static_assert(!std::is_assignable_v<decltype(kept.vector<i64>("v")[1]) &&, std::string>);
    THROWS(not_found, kept.vector<i64>("none"));
    THROWS(not_found, (kept.map<u8, u8>("none")));
    THROWS(not_found, kept.string("none"));
    THROWS(not_found, s.vector<i64>(key::by_handle(16)));
    IS(!s.contains("none"));
}

void groups() {
    segment s = segment::create(8192);
    for (const char *name : {"a", "prices/fig", "prices/apple", "prices", "prices0", "q"}) s.construct<i64>(name, 1);
    const zaluxhoni::group prices = s.group("prices/");
    IS(prices.size() == 2 && !prices.empty());
    IS(prices.named()[0].name == "apple" && prices.named()[1].name == "fig");
    s.set<i64>(prices["fig"], 0, 7);
    IS(s.get<i64>("prices/fig") == 7);
    s.destroy(prices["apple"]);
    IS(prices.named().size() == 1);
    IS(s.group("").size() == 5 && s.group("r").empty() && s.group("prices").size() == 3);
    const segment moved = std::move(s);
    IS(prices.size() == 1);
}

void segments_that_grow() {
    segment s = segment::create(208);
    THROWS(no_space, s.construct<i64>("n", 0, 100));
    s.set_growing(true);
    IS(s.is_growing());
    s.construct<i64>("n", 0, 100);
    const auto v = s.vector<i64>("v");
    for (i64 n = 0; n < 10000; n++) v.push_back(n);
    s.strings("l").append_range(std::vector<std::string>(1000, std::string(50, 'x')));
    const auto m = s.map<i64, i64>("m");
    for (i64 n = 0; n < 1000; n++) m[n] = n;
    for (int n = 0; n < 10; n++) s.construct_string("t" + std::to_string(n), std::string(3000, 't'));
    s.string("t0").append(std::string(10000, 'u'));
    s.strings("l")[5] = std::string(20000, 'v');
    s.vector<item>("items").resize(1000);
    s.reserve_named(1000);
    IS(v.size() == 10000 && v[9999] == 9999 && s.sanity());
    const u64 before = s.size();
    THROWS(out_of_range, v.insert(20000, 1));
    IS(s.size() == before);
    s.set_growing(false);
    THROWS(no_space, v.reserve(u64{1} << 20));
}

/// One base catches all errors, and each is an exception of std as well.
void errors() {
    static_assert(std::is_base_of_v<std::runtime_error, zaluxhoni::no_space>);
    static_assert(std::is_base_of_v<std::system_error, zaluxhoni::file_missing>);
    static_assert(std::is_base_of_v<std::logic_error, zaluxhoni::outdated>);
    static_assert(std::is_base_of_v<zaluxhoni::error, zaluxhoni::file_missing>);
    static_assert(std::is_base_of_v<zaluxhoni::error, zaluxhoni::bad_image>);
    static_assert(std::is_convertible_v<const zaluxhoni::error &, const std::exception &>);
    segment s = segment::create(4096);
    s.construct<i64>("a", 1);
    const auto view = s.array<i64>("a").view();
    s.construct<i64>("b", 1);
    THROWS(error, view[0]);
    THROWS(outdated, view[0]);
    THROWS(error, segment::open_file("no/such/file.seg"));
    THROWS(error, segment::open("no image"));
    try {
        static_cast<void>(segment::open_file("no/such/file.seg"));
    } catch (const zaluxhoni::error &error) {
        const std::exception &as_std = error;
        IS(error.code() == ZX_FILE_MISSING && std::string(error.what()).find("no/such/file.seg") == 0);
        IS(as_std.what() == std::string(error.what()));
    }
    try {
        static_cast<void>(segment::open_file("no/such/file.seg"));
    } catch (const std::system_error &error) {
        IS(error.code().value() == ENOENT);
    }
    try {
        static_cast<void>(view.data());
    } catch (const zaluxhoni::error &error) {
        IS(error.code() == ZX_DONE && *error.what() != 0);
    }
    try {
        static_cast<void>(s.get<i64>("c"));
    } catch (const std::runtime_error &error) {
        IS(error.what() == zaluxhoni::words(ZX_NOT_FOUND));
    }
}

/// Catches what a call throws as an exception of std, and tells whether it is an error of the library with this code.
template <class Standard, class Call> bool is_caught_as(zx_code code, Call call) {
    try {
        call();
    } catch (const Standard &error) {
        const auto *const of = dynamic_cast<const zaluxhoni::error *>(&error);
        return of != nullptr && of->code() == code && of->what() == std::string(error.what()) &&
               &static_cast<const std::exception &>(*of) == &error && zaluxhoni::words(code) == error.what();
    }
    return false;
}

/// Errors are what a program of std expects: std::out_of_range, std::bad_alloc, std::system_error with one category.
void errors_of_std() {
    segment s = segment::create(4096);
    const auto v = s.vector<i64>("v");
    v.push_back(1);
    const auto read = std::as_const(s).vector<i64>("v");
    const auto m = s.map<i64, i64>("m");
    const auto list = s.strings("list");
    IS(is_caught_as<std::out_of_range>(ZX_OUT_OF_RANGE, [&] { return read.at(1); }));
    IS(is_caught_as<std::out_of_range>(ZX_OUT_OF_RANGE, [&] { return v.get(1); }));
    IS(is_caught_as<std::out_of_range>(ZX_OUT_OF_RANGE, [&] { v[1] = 2; }));
    IS(is_caught_as<std::out_of_range>(ZX_OUT_OF_RANGE, [&] { v.erase(1); }));
    IS(is_caught_as<std::out_of_range>(ZX_OUT_OF_RANGE, [&] { return v.view()[1]; }));
    IS(is_caught_as<std::out_of_range>(ZX_OUT_OF_RANGE, [&] { return list.pop_back(); }));
    IS(is_caught_as<std::out_of_range>(ZX_OUT_OF_RANGE, [&] { s.vector<u8>("u8").push_back(256); }));
    IS(is_caught_as<std::logic_error>(ZX_ABSENT, [&] { return m.at(1); }));
    IS(is_caught_as<std::out_of_range>(ZX_ABSENT, [&] { return m[1].value(); }));
    IS(is_caught_as<std::system_error>(ZX_NOT_FOUND, [&] { return s.get<i64>("none"); }));
    IS(is_caught_as<std::runtime_error>(ZX_NO_SPACE, [&] { v.reserve(1000); }));
    IS(is_caught_as<std::system_error>(ZX_BAD_MAGIC, [&] { return segment::open(std::vector<u8>(144, 7)); }));
    IS(is_caught_as<std::bad_alloc>(ZX_NO_MEMORY, [] { zaluxhoni::throw_code(ZX_NO_MEMORY); }));
    for (zx_code code = 1; code <= 200; code++) {
        if (code == ZX_OUT_OF_RANGE || code == ZX_ABSENT || code == ZX_NO_MEMORY) continue;
        IS(is_caught_as<std::system_error>(code, [&] { zaluxhoni::throw_code(code); }));
        IS(is_caught_as<std::exception>(code, [&] { zaluxhoni::throw_code(code); }));
        throws<zaluxhoni::refused>(__LINE__, "refused", [&] { zaluxhoni::throw_code(code); });
    }
    try {
        v.reserve(1000);
    } catch (const std::system_error &error) {
        IS(error.code() == std::error_code(ZX_NO_SPACE, zaluxhoni::category()));
        IS(error.code() != std::errc::not_enough_memory);
        IS(error.code().category().name() == "zaluxhoni"s && error.code().message() == zaluxhoni::words(ZX_NO_SPACE));
    }
    IS(std::error_code(ZX_NO_MEMORY, zaluxhoni::category()) == std::errc::not_enough_memory);
    try {
        v.reserve(1000);
    } catch (const zaluxhoni::no_space &error) {
        IS(error.code() == ZX_NO_SPACE);
    }
    // each can be caught as std::exception, which it is once
    static_assert(std::is_convertible_v<zaluxhoni::out_of_range *, std::exception *>);
    static_assert(std::is_convertible_v<zaluxhoni::no_memory *, std::exception *>);
    static_assert(std::is_convertible_v<zaluxhoni::bad_image *, std::exception *>);
    static_assert(std::is_convertible_v<zaluxhoni::file_in_use *, std::exception *>);
    static_assert(std::is_convertible_v<zaluxhoni::outdated *, std::exception *>);
}

/// A size that no segment has is refused as the library refuses one, and takes no memory.
void sizes_that_do_not_fit() {
    segment s = segment::create(4096);
    const auto v = s.vector<i64>("v");
    const auto items = s.vector<item>("items");
    v.resize(10, 7);
    for (const u64 size : {u64{513}, u64{200000000}, u64{1} << 40, std::numeric_limits<u64>::max()}) {
        THROWS(no_space, v.resize(size));
        THROWS(no_space, items.resize(size));
    }
    IS(v.size() == 10 && v[9] == 7 && items.empty());
    segment kept = segment::open(s.save(), zaluxhoni::mode::read);
    THROWS(read_only, kept.vector<i64>("v").resize(u64{1} << 40));
    s.set_growing(true);
    THROWS(too_large, v.resize(u64{1} << 40));
    IS(s.size() == 4096);
    v.resize(5000);
    IS(v.size() == 5000 && v[9] == 7 && v[4999] == 0);
}

/// Elements are swapped, whether they have names or not.
void swapped() {
    segment s = segment::create(8192);
    const auto v = s.vector<i64>("v");
    const auto items = s.vector<item>("items");
    const auto texts = s.strings("texts");
    v.assign({1, 2});
    items.assign({{0.5, 1, 0, 0}, {1.5, 2, 0, 0}});
    texts.push_back("a");
    texts.push_back(texts[0]);
    texts.insert(0, texts[1]);
    texts.push_back(texts.back());
    IS(texts.size() == 4 && texts[0] == "a" && texts[3] == "a");
    texts[1] = "b";
    swap(v[0], v[1]);
    IS(v[0] == 2 && v[1] == 1);
    auto first = v[0], second = v[1];
    swap(first, second);
    IS(v[0] == 1 && v[1] == 2);
    static_assert(std::is_swappable_v<decltype(first)> && !std::is_move_constructible_v<decltype(first)>);
    {
        using std::swap;
        swap(first, second);
        IS(v[0] == 2 && v[1] == 1);
        swap(v[0], v[1]);
        IS(v[0] == 1 && v[1] == 2);
    }
    std::iter_swap(v.begin(), v.begin() + 1);
    swap(items[0], items[1]);
    swap(texts[0], texts[1]);
    IS(v[0] == 2 && items[0]->article == 2 && (*items[1]).article == 1 && texts[0] == "b" && texts[1] == "a");
}

/// Algorithms take a member of a program's own type as a projection.
void projected() {
#if __cplusplus >= 202002L
    segment s = segment::create(65536);
    const auto items = s.vector<item>("items");
    for (i64 n = 0; n < 100; n++) items.push_back({static_cast<double>(n * 37 % 100), n, 0, 0});
    std::ranges::sort(items, {}, &item::price);
    IS(std::ranges::is_sorted(items, {}, &item::price) && items[0]->price == 0 && items[99]->price == 99);
    IS(items[37]->article == 1);
    std::ranges::sort(items, std::greater<>(), &item::article);
    IS(items[0]->article == 99 && items[99]->article == 0);
    IS(std::ranges::find(items, 50, &item::article) - items.begin() == 49);
    IS((*std::ranges::max_element(items, {}, &item::price))->price == 99);
    std::ranges::stable_sort(items, {}, [](const item &each) { return each.article % 10; });
    IS(items[0]->article == 90 && items[99]->article == 9);
#endif
}

/// A mapped file that the system does not make longer: the error is the system's, and the file is as long as before.
void a_file_that_cannot_grow() {
    std::remove("expected.seg");
    segment s = segment::create_mapped_file("expected.seg", 4096);
    s.set_growing(true);
    const auto v = s.vector<i64>("v");
    rlimit before{};
    getrlimit(RLIMIT_FSIZE, &before);
    const rlimit low{65536, before.rlim_max};
    const auto handler = std::signal(SIGXFSZ, SIG_IGN);
    setrlimit(RLIMIT_FSIZE, &low);
    try {
        v.resize(100000);
        IS(false);
    } catch (const zaluxhoni::file_error &error) {
        IS(error.file_code() == ZX_FILE_FAULT && error.code().value() == EFBIG);
    }
    setrlimit(RLIMIT_FSIZE, &before);
    std::signal(SIGXFSZ, handler);
    IS(s.size() == 4096 && v.empty());
    s.close_file();
    std::remove("expected.seg");
}

/// The members of std::vector, std::string and std::map that programs reach for.
void members_as_in_std() {
    segment s = segment::create(65536);
    const auto v = s.vector<i64>("v");
    v.append_range({1, 2, 3, 4, 5, 6});
    IS(*v.rbegin() == 6 && v.rbegin()[1] == 5 && v.crbegin()[5] == 1);
    IS(std::vector<i64>(v.rbegin(), v.rend()) == (std::vector<i64>{6, 5, 4, 3, 2, 1}));
    *v.rbegin() = 60;
    v.data()[0] = 10;
    IS(v == (std::vector<i64>{10, 2, 3, 4, 5, 60}));
    IS(*v.erase(v.begin()) == 2);
    IS(*v.erase(v.begin(), v.begin() + 2) == 4);
    const auto after_last = v.erase(v.end() - 1);
    IS(after_last == v.end());
    IS(*v.insert(v.begin(), 7) == 7 && v[0] == 7);
    IS(v.insert(v.cbegin() + 1, {8, 9}).index() == 1);
    IS(v == (std::vector<i64>{7, 8, 9, 4, 5}));
    IS(v.emplace_back(42) == 42);
    IS(erase_if(v, [](i64 each) { return each % 2 == 0; }) == 3 && erase(v, 9) == 1 && erase(v, 9) == 0);
    IS(v == (std::vector<i64>{7, 5}));
    // a call copies elements of its own segment, since it may move them
    for (int i = 0; i < 5; i++) v.append_range(v);
    v.insert_range(1, v);
    IS(v.size() == 128 && v[0] == 7 && v[1] == 7 && v[2] == 5 && v[127] == 5);
    s.construct_array<i64>("copy", v);
    IS(s.array<i64>("copy") == v && s.array<i64>("copy").data()[127] == 5);
    THROWS(out_of_range, v.erase(v.end()));
    THROWS(out_of_range, v.insert(v.end() + 1, 1));

    const auto items = s.vector<item>("items");
    IS(items.emplace_back(item{1.5, 2, 3, 4})->article == 2);
    IS(items.insert(items.begin(), {item{0, 8, 0, 0}, item{0, 9, 0, 0}})->article == 8);
    items.view()[1].stock = 77;
    IS(items.erase(items.begin())->stock == 77 && items.size() == 2);
    const segment &constant = s;
    IS(*constant.vector<i64>("v").rbegin() == 5 && constant.vector<item>("items").data()[0].stock == 77);

    const auto m = s.map<i32, i64>("m");
    IS(m.insert({3, 30}).second && m.insert({3, 31}).first->second == 30 && !m.insert({3, 31}).second);
    IS(m.try_emplace(4, 40).second && !m.emplace(4, 41).second && m.get(4) == 40);
    IS(!m.insert_or_assign(3, 33).second && m.insert_or_assign(5, 50).first->first == 5 && m.get(3) == 33);
    IS(m.count(3) == 1 && m.count(9) == 0);
    IS(m.erase(m.begin())->first == 4 && m.erase(m.upper_bound(4)) == m.end() && m.size() == 1);
    m.put_range({{1, 10}, {2, 20}});
    IS(erase_if(m, [](const auto &pair) { return pair.first % 2 == 0; }) == 2 && m.size() == 1 && m.contains(1));

    const auto text = s.string("text");
    text.assign("hello world");
    text.push_back('!');
    IS(text.find("o") == 4 && text.find("o", 5) == 7 && text.rfind("o") == 7 && text.find("z") == text.npos);
    IS(text.contains("wor") && text.starts_with("he") && text.ends_with("d!") && text.substr(6, 5) == "world");
    IS(!text.starts_with("hello world!!") && !text.ends_with("hello hello world!") && text.substr(12).empty());
    THROWS(out_of_range, text.substr(13));

    const auto list = s.strings("list");
    list.assign({"a", "b", "c"});
    IS(*list.erase(list.begin()) == "b" && *list.insert(list.begin(), "z") == "z" && list.emplace_back("q") == "q");
    IS(*list.rbegin() == "q" && list.erase(list.begin(), list.end() - 1)->size() == 1 && list.size() == 1);
    IS(erase_if(list, [](const std::string &each) { return each == "q"; }) == 1 && list.empty());
}

/// Maps have iterators that go both ways, and `find` gives one, as that of std::map.
void maps_both_ways() {
    segment s = segment::create(65536);
    const auto m = s.map<i32, i64>("m");
    IS(m.begin() == m.end() && m.rbegin() == m.rend() && --m.end() == m.end() && m.find(1) == m.end());
    m.put_range({{-5, 1}, {3, 2}, {INT32_MAX, 3}, {INT32_MIN, 4}});
    std::map<i32, i64> model{{-5, 1}, {3, 2}, {INT32_MAX, 3}, {INT32_MIN, 4}};
    IS(m.find(3)->second == 2 && m.find(3) != m.end() && m.find(4) == m.end() && (*m.find(-5)).first == -5);
    IS(std::equal(m.rbegin(), m.rend(), model.rbegin(), [](auto a, auto b) { return a.first == b.first && a.second == b.second; }));
    IS(std::prev(m.end())->first == INT32_MAX && std::next(m.begin())->first == -5 && std::prev(m.find(3))->first == -5);
    auto at = m.end();
    at--;
    IS(at->first == INT32_MAX && (--at)->first == 3 && (at++)->first == 3 && at->first == INT32_MAX);
    // the keys are compared, and a value may change meanwhile
    at = m.find(3);
    m[3] = 20;
    IS(at == m.find(3) && at->second == 2 && m.find(3)->second == 20);
    IS(m.erase(m.find(3))->first == INT32_MAX && m.find(3) == m.end() && std::distance(m.begin(), m.end()) == 3);
    IS(m.lookup(-5) == 1 && !m.lookup(3));
    const segment &constant = s;
    IS(constant.map<i32, i64>("m").find(-5)->second == 1 && constant.map<i32, i64>("m").rbegin()->second == 3);
    THROWS(out_of_range, m.find(i64{1} << 40));
#if __cplusplus >= 202002L
    static_assert(std::bidirectional_iterator<zaluxhoni::map<i32, i64>::iterator>);
    IS(std::ranges::find(m, -5, [](const auto &pair) { return pair.first; })->second == 1);
#ifndef __clang__ // some versions do not compile the views of the library of g++
    auto back = m | std::views::reverse;
    IS((*back.begin()).second == 3);
#endif
#endif
}

/// What lies under the name of a log is left alone, and refused by name where a log is needed.
void files_under_the_name_of_a_log() {
    const std::string path = own_path("log"), log = path + "-log";
    for (const std::string &each : {path, log}) std::remove(each.c_str());
    {
        segment s = segment::create_durable_file(path, 8192);
        s.construct<i64>("a", 5);
        std::ofstream(log) << "notes of somebody else";
        THROWS(file_log_in_the_way, s.commit());
        THROWS(file_log_in_the_way, s.transaction([&] { s.set<i64>("a", 0, 6); }));
        IS(s.get<i64>("a") == 5);
        std::string words;
        std::getline(std::ifstream(log), words);
        IS(words == "notes of somebody else");
        std::remove(log.c_str());
        s.commit();
    }
    IS(segment::open_file(path, zaluxhoni::mode::read).get<i64>("a") == 5);
    // a commit alone leaves a log with records, which no new file takes
    IS(std::ifstream(log).good());
    std::rename(path.c_str(), (path + "2").c_str());
    THROWS(file_log_left, segment::create_file(path, 8192));
    THROWS(file_log_left, segment::open_or_create_durable_file(path, 8192));
    try {
        static_cast<void>(segment::create_file(path, 8192));
    } catch (const zaluxhoni::file_error &error) {
        IS(error.file_code() == ZX_FILE_LOG_LEFT && error.code().value() == EEXIST);
    }
    std::rename((path + "2").c_str(), path.c_str());
    IS(segment::open_file(path, zaluxhoni::mode::read).get<i64>("a") == 5);
    for (const std::string &each : {path, log}) std::remove(each.c_str());
}

/// `->` reads a member of an element; `modify`, and a view, write members.
void members_that_are_written() {
    segment s = segment::create(65536);
    const auto items = s.vector<item>("items");
    items.assign({{0.5, 1, 2, 3}, {1.5, 4, 5, 6}});
    items.modify(0, [](item &of) { of.price = 2.5, of.shelf = 7; });
    items[1].modify([](item &of) { of.stock += 10, of.article++; });
    (*items.begin()).modify([](item &of) { of.article = of.stock = 9; });
    IS(items[0].value() == (item{2.5, 9, 9, 7}) && items[1].value() == (item{1.5, 5, 15, 6}));
    items.back().modify([&](item &of) { std::swap(of.stock, of.shelf), of.price = items[0]->price; });
    IS(items[1].value() == (item{2.5, 5, 6, 15}) && (items.end() - 1)->shelf == 15 && items.begin()->stock == 9);
    item &first = items.view()[0];
    first.stock++, first.shelf++;
    IS(items[0].value() == (item{2.5, 9, 10, 8}));
    const auto two = s.array<item>(zaluxhoni::key::by_handle(s.construct<item>("two", {9, 8, 7, 6}, 2)));
    two.modify(1, [](item &of) { of.article = 5; });
    IS(two[0]->article == 8 && two[1]->article == 5);
    THROWS(out_of_range, items.modify(2, [](item &of) { of.price = 1; }));
    IS(items.size() == 2);
    // what throws writes nothing
    throws<int>(__LINE__, "modify", [&] {
        items.modify(0, [](item &of) {
            of.price = 7;
            throw 5;
        });
    });
    IS(items[0]->price == 2.5);
    // a vector that moves meanwhile gets what is written
    items.modify(0, [&](item &of) {
        items.append_range(std::vector<item>(100, item{}));
        of.price = 8.5;
    });
    IS(items[0]->price == 8.5 && items.size() == 102);
    segment reader = segment::open(s.save(), zaluxhoni::mode::read);
    const auto read = reader.vector<item>("items");
    IS(read[0]->price == 8.5 && read.begin()->shelf == 8);
    THROWS(read_only, read.modify(0, [](item &of) { of.price = 1; }));
    const auto list = s.strings("list");
    list.assign({"a", "b"});
    list.modify(1, [](std::string &of) { of.append(3, 'c'); });
    IS(list == (std::vector<std::string>{"a", "bccc"}));
    const auto m = s.map<i32, i64>("m");
    m[3] = 4;
    m[3].modify([](i64 &of) { of = of * of; });
    IS(m.get(3) == 16);
    THROWS(absent, m[4].modify([](i64 &of) { of++; }));
    IS(!m.contains(4));
}

/// What was moved from is closed, whatever it is, and can be assigned to.
void moved_from() {
    segment s = segment::create(8192);
    auto v = s.vector<i64>("v");
    auto items = s.vector<item>("items");
    auto m = s.map<i64, i64>("m");
    auto text = s.string("t");
    auto list = s.strings("l");
    auto group = s.group("");
    s.construct<i64>("n", 7);
    auto n = s.array<i64>("n");
    auto found = s.find_or_construct<i64>("n", 0);
    v.assign({1, 2});
    items.push_back({1, 2, 3, 4});
    m.put(1, 10);
    text.assign("text");
    list.assign({"a", "b"});
    IS(v[0] == 1 && items[0]->article == 2 && text[0] == 't' && list[1] == "b" && list.size() == 2);
    IS(group.size() == 6);
    auto there = v.cview();
    const auto w = std::move(v);
    const auto others = std::move(items);
    const auto q = std::move(m);
    const auto words = std::move(text);
    const auto rest = std::move(list);
    const auto all = std::move(group);
    const auto number = std::move(n);
    const auto had = std::move(found);
    const auto seen = std::move(there);
    // NOLINTBEGIN(bugprone-use-after-move): that is what is tried
    THROWS(closed, v.size());
    THROWS(closed, v.push_back(3));
    THROWS(closed, v[0].value());
    THROWS(closed, v[0] = 5);
    THROWS(closed, v.end());
    THROWS(closed, v.to_vector());
    THROWS(closed, v.view());
    THROWS(closed, v.append_range(w.cview()));
    THROWS(closed, items.back());
    THROWS(closed, items[0]->price);
    THROWS(closed, items.push_back({}));
    THROWS(closed, m.contains(1));
    THROWS(closed, m.put(1, 1));
    THROWS(closed, m[1] += 1);
    THROWS(closed, m.begin());
    THROWS(closed, m.erase(1));
    THROWS(closed, text.str());
    THROWS(closed, text.append("x"));
    THROWS(closed, text.view());
    THROWS(closed, text[0].value());
    THROWS(closed, list[1].value());
    THROWS(closed, list.size());
    THROWS(closed, list.push_back("x"));
    THROWS(closed, list[0] = "x");
    THROWS(closed, list.to_vector());
    THROWS(closed, group.size());
    THROWS(closed, n[0].value());
    THROWS(closed, n.measure());
    THROWS(closed, (*found).value());
    IS(!there.is_current());
    throws<zaluxhoni::outdated>(__LINE__, "outdated", [&] { return there[0]; });
    segment t = std::move(s);
    THROWS(closed, s.size());
    THROWS(closed, s.vector<i64>("v"));
    THROWS(closed, s.transaction([] {}));
    s.close();
    IS(!s.is_open());
    // NOLINTEND(bugprone-use-after-move)
    IS(w.size() == 2 && others[0]->stock == 3 && q.get(1) == 10 && words == "text" && rest[1] == "b");
    IS(all.size() == 6 && number[0] == 7 && *had == 7 && seen[1] == 2);
    v = w;
    list = rest;
    text = t.string("t");
    m = t.map<i64, i64>("m");
    IS(v[1] == 2 && list[0] == "a" && list.size() == 2 && text == "text" && m.get(1) == 10);
    // a copy of what was moved from is closed too, and what was moved from outlives the segment
    auto gone = std::move(list);
    const auto copy = list;
    THROWS(closed, copy[0].value());
    gone = t.strings("l");
    t = segment();
    THROWS(closed, list[0].value());
    THROWS(closed, gone[0].value());
}

/// `find_or_construct` gives the object.
void objects_found_or_made() {
    segment s = segment::create(65536);
    *s.find_or_construct<i64>("visits", 5) += 1;
    *s.find_or_construct<i64>("visits", 5) += 1;
    IS(s.get<i64>("visits") == 7 && *s.find_or_construct<i64>("visits", 0) == 7);
    const auto row = s.find_or_construct<i32>("row", 3, 4);
    row[2] = 9;
    IS(row.count == 4 && row.object().size() == 4 && row.object()[2] == 9 && row.handle == row.object().handle());
    IS(s.find_or_construct<item>("item", item{1, 2, 3, 4})->stock == 3);
    (*s.find_or_construct<item>("item", item{})).modify([](item &of) { of.stock = 77; });
    IS(s.find_or_construct<item>("item", item{})->stock == 77 && s.find_or_construct<item>("item", item{}).count == 1);
    s.find_or_construct_vector<i64>("queue")->push_back(1);
    (*s.find_or_construct_vector<i64>("queue")).push_back(2);
    IS(s.find_or_construct_vector<i64>("queue").object() == (std::vector<i64>{1, 2}));
    s.find_or_construct_string("text", "a")->append("b");
    s.find_or_construct_strings("list")->push_back("c");
    (*s.find_or_construct_map<i32, i64>("map"))[1] = 5;
    IS(s.string("text") == "ab" && s.strings("list")[0] == "c" && s.map<i32, i64>("map").get(1) == 5);
    THROWS(wrong_kind, s.find_or_construct_vector<i64>("text"));
    const zaluxhoni::found plain = s.find_or_construct<i64>("visits", 0);
    IS(plain == s.find<i64>("visits"));
}

/// Storage for which there is no gap twice as long becomes longer all the same.
void storage_that_cannot_double() {
    for (const bool grows : {false, true}) {
        segment s = segment::create(65536);
        const auto v = s.vector<i64>("v");
        v.assign(std::vector<i64>(5000, 7));
        const u64 most = s.size();
        s.set_growing(grows);
        if (grows) {
            v.push_back(1);
            IS(s.size() > most && v.capacity() == 10000);
            continue;
        }
        while (v.size() < 8000) v.push_back(1);
        v.insert(0, 3);
        v.append_range({4, 5});
        IS(v.size() == 8003 && v[0] == 3 && v[8002] == 5 && v.capacity() < 10000 && s.sanity());
        THROWS(no_space, v.append_range(std::vector<i64>(5000)));
        THROWS(no_space, [&] { while (true) v.push_back(0); }());
        IS(s.free_bytes() < 48 && v.front() == 3);
    }
    segment s = segment::create(65536);
    const auto text = s.string("text");
    text.assign(std::string(40000, 'a'));
    text.append("bc");
    text.push_back('d');
    IS(text.size() == 40003 && text.ends_with("abcd") && s.sanity());
    segment other = segment::create(65536);
    const auto items = other.vector<item>("items");
    THROWS(no_space, [&] { while (true) items.push_back({1, 2, 3, 4}); }());
    IS(items.size() > 2600 && items.back()->stock == 3);
}

/// An open waits for the writer who holds the file, and no longer than it may.
void an_open_that_waits() {
    using namespace std::chrono;
    std::ostringstream name;
    name << "waits" << std::this_thread::get_id() << ".seg";
    const std::string path = name.str();
    segment first = segment::create_file(path, 4096);
    first.save_file();
    const auto before = steady_clock::now();
    THROWS(file_in_use, segment::open_file(path, zaluxhoni::mode::write, milliseconds(60)));
    IS(steady_clock::now() - before >= milliseconds(60));
    std::thread closer([&] {
        std::this_thread::sleep_for(milliseconds(50));
        first.close_file();
    });
    IS(segment::open_or_create_file(path, 4096, seconds(30)).is_open());
    closer.join();
    IS(segment::map_file(path, zaluxhoni::mode::write, seconds(1)).is_open());
    std::remove(path.c_str());
}

/// Where a segment cannot be long enough, it is as long as before. This takes 1 GiB of memory.
void the_longest_segment() {
    segment s = segment::create(1024);
    s.set_growing(true);
    THROWS(too_large, s.vector<i64>("v").reserve(u64{1} << 28));
    IS(s.size() == 1024 && s.vector<i64>("v").empty());
}

#ifdef __cpp_lib_format
#define FORMATS formats,
#else
#define FORMATS
#endif

void every_case() {
    void (*const cases[])() = {an_array_that_is_made_anew, numbers_that_do_not_fit, truths, texts_that_are_stored,
                               elements, texts, FORMATS algorithms, bulk, own_types, views_without_a_copy,
                               views_that_are_passed, iterators_in_place, iterators_and_modes, several_calls_as_one,
                               transactions_and_files, const_segments, groups, segments_that_grow, errors,
                               errors_of_std, sizes_that_do_not_fit, swapped, projected, members_as_in_std,
                               maps_both_ways, members_that_are_written, moved_from, objects_found_or_made,
                               storage_that_cannot_double, an_open_that_waits, files_under_the_name_of_a_log};
    for (void (*each)() : cases) {
        try {
            each();
        } catch (const std::exception &error) {
            wrong++;
            std::cout << "as_expected.cpp: WRONG, a case ends with '" << error.what() << "'\n";
        }
    }
}

} // namespace

/* Two threads at once, which have their own segments. With an argument the longest segment is tried too. */
int main(int arguments, char **) {
    std::thread other(every_case);
    every_case();
    other.join();
    a_file_that_cannot_grow();
    if (arguments > 1) the_longest_segment();
    std::cout << "as_expected.cpp: " << checks << " checks, " << wrong << " wrong\n";
    return wrong != 0;
}
