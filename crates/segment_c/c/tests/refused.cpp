/* What zaluxhoni.hpp does not let be compiled. With CASE 0 this is compiled, without a warning; with any other CASE it
   is not, for the one line that is then another. */
#include "zaluxhoni.hpp"

using i32 = std::int32_t;
using i64 = std::int64_t;
using u8 = std::uint8_t;

struct point {
    int x, y;
};
[[maybe_unused]] static void bump(int &of) { of++; }
struct leads {
    std::string to;
};

[[maybe_unused]] static void tried(zaluxhoni::segment &s, const zaluxhoni::segment &kept, const bool *pointer) {
    const zaluxhoni::vector<i64> v = s.vector<i64>("v");
    const zaluxhoni::vector<bool> truths = s.vector<bool>("truths");
#if CASE == 1
    static_cast<void>(s.map<std::string, i64>("m"));
#else
    static_cast<void>(s.map<i32, i64>("m"));
#endif
#if CASE == 2
    static_cast<void>(s.map<i64, double>("m"));
#else
    static_cast<void>(s.map<i64, bool>("m"));
#endif
#if CASE == 3
    s.construct_map<std::string, i64>("m");
#else
    s.construct_map<u8, i64>("m");
#endif
#if CASE == 4
    static_cast<void>(s.vector<std::string>("v"));
#else
    static_cast<void>(s.vector<double>("v"));
#endif
#if CASE == 5
    static_cast<void>(s.vector<const char *>("v"));
#else
    static_cast<void>(s.vector<char>("v"));
#endif
#if CASE == 6
    s.vector<leads>("v").push_back({"a"});
#else
    s.vector<point>("v").push_back({1, 2});
#endif
#if CASE == 7
    s.construct<std::string_view>("t", "text");
#else
    s.construct_string("t", "text");
#endif
#if CASE == 8
    v.push_back(2.9);
#else
    v.push_back(2);
#endif
#if CASE == 9
    v.push_back(true);
#else
    v.push_back(1L);
#endif
#if CASE == 10
    v[0] = 0.5;
#else
    v[0] = 5u;
#endif
#if CASE == 11
    v.assign({1, 2.5});
#else
    v.assign({1, 2L});
#endif
#if CASE == 12
    v.assign(std::vector<double>{1});
#else
    v.assign(std::vector<short>{1});
#endif
#if CASE == 13
    truths.push_back(pointer);
#else
    truths.push_back(*pointer);
#endif
#if CASE == 14
    truths.push_back(1);
#else
    truths.push_back(true);
#endif
#if CASE == 15
    truths.assign({1, 0});
#else
    truths.assign({pointer, 1});
#endif
#if CASE == 16
    s.construct<bool>("b", 2.9);
#else
    s.construct<bool>("b", false);
#endif
#if CASE == 17
    s.construct<i64>("n", "1");
#else
    s.construct<i64>("n", '1');
#endif
#if CASE == 18
    kept.vector<i64>("v").push_back(1);
#else
    static_cast<void>(kept.vector<i64>("v").back());
#endif
#if CASE == 19
    kept.map<u8, u8>("m")[1] = 2;
#else
    s.map<u8, u8>("m")[1] = 2;
#endif
#if CASE == 20
    s.construct_strings("l", {"a", nullptr});
#else
    s.construct_strings("l", {"a", "b"});
#endif
#if CASE == 21
    v.size();
#else
    static_cast<void>(v.size());
#endif
    const zaluxhoni::vector<point> points = s.vector<point>("points");
#if CASE == 22
    points[0]->x = 5;
#else
    points.modify(0, [](point &of) { of.x = 5; });
#endif
#if CASE == 23
    points[0]->x++, points[0]->y++;
#else
    points.view()[0].x++, points.view()[0].y++;
#endif
#if CASE == 24
    points.begin()->x = points[0]->y = 7;
#else
    points.set(0, {points.begin()->x, points[0]->y});
#endif
#if CASE == 25
    std::swap(points[0]->x, points[0]->y);
#else
    points[0].modify([](point &of) { std::swap(of.x, of.y); });
#endif
#if CASE == 26
    bump(s.find_or_construct<point>("p", point{1, 2})->x);
#else
    (*s.find_or_construct<point>("p", point{1, 2})).modify([](point &of) { bump(of.x); });
#endif
    auto first = v[0], second = v[1];
#if CASE == 27
    std::swap(first, second);
#else
    swap(first, second);
#endif
#if CASE == 28
    std::swap(v[0], v[1]);
#else
    std::iter_swap(v.begin(), v.begin() + 1);
#endif
    auto text = s.strings("l")[0], other = s.strings("l")[1];
#if CASE == 29
    std::swap(text, other);
#else
    swap(text, other);
#endif
    static_cast<void>(kept);
}

int main() { return 0; }
